;; In Emacs, with dap-mode: what its tests have in common: a move that is waited for, and what is answered to a request.  -*- lexical-binding: t -*-
(package-initialize)
(setq dap-auto-configure-features nil dap-auto-show-output nil dap-print-io nil)
(require 'dap-mode)
(require 'dap-ui)  ; has a variable that dap-mode asks for
(load (getenv "COOL_MODE"))
(defvar stops 0)
(defvar ended nil)
(add-hook 'dap-stack-frame-changed-hook (lambda (session) (when (dap--debug-session-active-frame session) (setq stops (1+ stops)))))
(add-hook 'dap-terminated-hook (lambda (_) (setq ended t)))

(defun until (holds)
  (let ((end (+ 60 (float-time))))
    (while (and (not (funcall holds)) (< (float-time) end))
      (accept-process-output nil 0.02))))

(defun answer (command arguments)
  (let (found (session (dap--cur-session-or-die)))
    (dap--send-message (dap--make-request command arguments) (lambda (it) (setq found it)) session)
    (until (lambda () found))
    (gethash "body" found)))

(defun frame ()
  (dap--debug-session-active-frame (dap--cur-session)))

(defun go-by (move)
  "Moves, and waits for the stop, or the end."
  (setq stops 0)
  (funcall move)
  (until (lambda () (or ended (> stops 0)))))

(defun value-of (name)
  (gethash "result" (answer "evaluate" (list :expression name :frameId (gethash "id" (frame)) :context "hover"))))
