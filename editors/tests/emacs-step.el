;; In Emacs, with dap-mode: steps $COOL_STATES times into $COOL_FILE and back, and writes each state to $COOL_SAID.  -*- lexical-binding: t -*-
;; A state is how many instructions were executed, the address, and the values of the names that $COOL_NAMES has for it.
(load (expand-file-name "emacs-dap.el" (file-name-directory load-file-name)))
(defvar names
  (with-temp-buffer
    (insert-file-contents (getenv "COOL_NAMES"))
    (mapcar #'split-string (split-string (buffer-string) "\n" t))))

(defun state ()
  (let ((address (value-of "$pc")))
    (mapconcat #'identity (append (list (value-of "$instructions") address) (mapcar #'value-of (cdr (assoc address names)))) "\t")))

(defun lines (states)
  (mapconcat #'identity (reverse states) "\n"))

(find-file (getenv "COOL_FILE"))
(go-by (lambda () (dap-debug (list :type "cool" :request "launch" :name "Cool" :stopOnEntry t))))
(let ((onwards (list (state))) back)
  (dotimes (_ (1- (string-to-number (getenv "COOL_STATES"))))
    (go-by (lambda () (call-interactively #'dap-step-in)))
    (push (state) onwards))
  (while (not (equal (car back) (car (last onwards))))
    (go-by #'cool-step-back)
    (push (state) back))
  (with-temp-file (getenv "COOL_SAID") (insert (lines onwards) "\n--\n" (lines back) "\n")))
(kill-emacs 0)
