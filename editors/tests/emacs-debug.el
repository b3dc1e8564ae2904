;; In Emacs, with dap-mode: debugs $COOL_FILE, and writes where it stops, and what stands there, to $COOL_SAID.  -*- lexical-binding: t -*-
(load (expand-file-name "emacs-dap.el" (file-name-directory load-file-name)))
(defvar said nil)

(defun stop-by (move)
  "Moves, and tells the frame at which the program stands then."
  (go-by move)
  (push (if ended "ended" (format "%s %s" (gethash "name" (frame)) (gethash "line" (frame)))) said))

(defun value (name)
  (push (format "%s = %s" name (value-of name)) said))

(defun break-at (line &optional condition)
  "Sets a break at LINE, by the commands of dap-mode."
  (goto-char (point-min))
  (forward-line (1- line))
  (dap-breakpoint-add)
  (when condition
    (cl-letf (((symbol-function 'read-string) (lambda (&rest _) condition)))
      (call-interactively #'dap-breakpoint-condition))))

(find-file (getenv "COOL_FILE"))
(break-at 14)
(break-at 9 "number = 8")
(goto-char (point-min))
(stop-by (lambda () (dap-debug (list :type "cool" :request "launch" :name "Cool" :stopOnEntry t))))
(stop-by (lambda () (call-interactively #'dap-next)))
(stop-by (lambda () (call-interactively #'dap-continue)))
(value "number")
(stop-by (lambda () (call-interactively #'dap-step-out)))
(stop-by #'cool-step-back)
(stop-by (lambda () (call-interactively #'dap-step-in)))
(stop-by (lambda () (call-interactively #'dap-continue)))
(value "count")
(stop-by #'cool-reverse-continue)
(push (format "breaks: %s" (let (all) (maphash (lambda (file its) (push (format "%s %d" (file-name-nondirectory file) (length its)) all)) (dap--get-breakpoints)) all)) said)
(stop-by (lambda () (call-interactively #'dap-continue)))
(stop-by (lambda () (call-interactively #'dap-continue)))
(stop-by (lambda () (call-interactively #'dap-continue)))
(with-temp-file (getenv "COOL_SAID") (insert (mapconcat #'identity (reverse said) "\n") "\n"))
(kill-emacs 0)
