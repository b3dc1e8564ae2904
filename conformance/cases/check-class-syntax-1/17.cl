class
A
(
)
;
