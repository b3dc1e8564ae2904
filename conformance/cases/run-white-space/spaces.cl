
 class	MaininheritsIO{main():Object{{out_string("tight");out_string
(	" wide\n");}
}
;
} ; 	

