;;; cool-mode.el --- Cool, the Classroom Object-Oriented Language  -*- lexical-binding: t -*-

;;; Commentary:

;; (load "/path/to/editors/emacs/cool-mode.el") gives files of Cool their colours, and M-x eglot (part of Emacs 29; elpa-eglot before) then
;; shows their faults while they are typed.  To have it begin by itself: (add-hook 'cool-mode-hook #'eglot-ensure).  M-x compile with
;; `cool check FILES' is followed to the faults, too.  The lexemes are those of docs/language.md.
;;
;; With elpa-dap-mode, M-x dap-debug and "Cool" debugs the program of the file; M-x cool-step-back and M-x cool-reverse-continue go back.  With dape,
;; M-x dape and cool does.

;;; Code:

(require 'compile)

(defvar eglot-server-programs)

(defconst cool-folder (file-name-directory (directory-file-name (file-name-directory (file-truename (or load-file-name buffer-file-name)))))
  "The folder of cool-lsp.")

(defun cool-any-case (words)
  "A regular expression of WORDS, their first letter as it is, and the others of any case."
  (concat "\\_<\\(?:"
          (mapconcat (lambda (word)
                       (mapconcat (lambda (c) (if (stringp c) c (format "[%c%c]" c (upcase c))))
                                  (cons (substring word 0 1) (append (substring word 1) nil)) ""))
                     words "\\|")
          "\\)\\_>"))

(defconst cool-keywords
  (let ((words '("class" "else" "fi" "if" "in" "inherits" "isvoid" "let" "loop" "pool" "then" "while" "case" "esac" "new" "of" "not")))
    `((,(cool-any-case (append words (mapcar (lambda (w) (concat (upcase (substring w 0 1)) (substring w 1))) words)))
       . font-lock-keyword-face)
      (,(cool-any-case '("true" "false")) . font-lock-constant-face)
      ("\\_<self\\_>" . font-lock-builtin-face)
      ("\\_<[A-Z][A-Za-z0-9_]*" . font-lock-type-face)
      ("\\_<\\([a-z][A-Za-z0-9_]*\\)[ \t]*(" 1 font-lock-function-name-face))))

(defvar cool-mode-syntax-table
  (let ((table (make-syntax-table)))
    (modify-syntax-entry ?_ "_" table)
    (modify-syntax-entry ?\( "()1n" table)
    (modify-syntax-entry ?* ". 23n" table)
    (modify-syntax-entry ?\) ")(4n" table)
    (modify-syntax-entry ?\n "> b" table)
    (dolist (sign '(?+ ?- ?/ ?< ?= ?> ?~ ?@ ?. ?, ?: ?\;) table)
      (modify-syntax-entry sign "." table))))

;;;###autoload
(define-derived-mode cool-mode prog-mode "Cool"
  "The mode of Cool source files."
  (setq-local comment-start "-- " comment-end "" comment-start-skip "\\(?:--+\\|(\\*+\\)[ \t]*")
  (setq-local syntax-propertize-function (syntax-propertize-rules ("\\(-\\)-" (1 "< b"))))
  (setq-local font-lock-defaults '(cool-keywords)))

;;;###autoload
(add-to-list 'auto-mode-alist '("\\.cl\\'" . cool-mode))

(with-eval-after-load 'eglot
  (add-to-list 'eglot-server-programs (list 'cool-mode (expand-file-name "cool-lsp" cool-folder))))

;; Debugging.

(defun cool-debug-configuration (settings)
  "The launch of dap-mode with what SETTINGS does not say."
  (append settings
          (list :dap-server-path (list (expand-file-name "cool-dap" cool-folder)))
          (unless (plist-get settings :program) (list :program (buffer-file-name)))
          (unless (plist-get settings :cwd) (list :cwd default-directory))))

(declare-function dap-register-debug-provider "dap-mode")
(declare-function dap-register-debug-template "dap-mode")
(declare-function dap--step "dap-mode")
(declare-function dap--cur-session-or-die "dap-mode")

(with-eval-after-load 'dap-mode
  (dap-register-debug-provider "cool" #'cool-debug-configuration)
  (dap-register-debug-template "Cool" (list :type "cool" :request "launch" :name "Cool" :stopOnEntry t)))

(defun cool-step-back ()
  "Go back to the line before, in dap-mode."
  (interactive)
  (dap--step "stepBack" (dap--cur-session-or-die)))

(defun cool-reverse-continue ()
  "Go back to the break before, in dap-mode."
  (interactive)
  (dap--step "reverseContinue" (dap--cur-session-or-die)))

(defvar dape-configs)
(with-eval-after-load 'dape
  (add-to-list 'dape-configs
               `(cool modes (cool-mode) command ,(expand-file-name "cool-dap" cool-folder)
                      :type "cool" :request "launch" :program dape-buffer-default :stopOnEntry t)))

(add-to-list 'compilation-error-regexp-alist-alist '(cool "^\\(.+\\):\\([0-9]+\\): [LSCFE][0-9]+: " 1 2))
(add-to-list 'compilation-error-regexp-alist 'cool)

(provide 'cool-mode)
;;; cool-mode.el ends here
