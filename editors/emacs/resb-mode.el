;;; resb-mode.el --- ICU resource bundle texts by resb-lsp  -*- lexical-binding: t; -*-

;;; Commentary:
;; (add-to-list 'load-path "/usr/share/resb/editors/emacs") (require 'resb-mode)
;; A text beside root.txt, or below resb.toml, gets the mode. Needs eglot, which Emacs has since version 29.

;;; Code:

(require 'eglot)

(defvar resb-mode-syntax-table
  (let ((table (make-syntax-table)))
    (modify-syntax-entry ?/ ". 124b" table)
    (modify-syntax-entry ?* ". 23" table)
    (modify-syntax-entry ?\n "> b" table)
    (modify-syntax-entry ?\" "\"" table)
    (modify-syntax-entry ?\' "." table)
    (modify-syntax-entry ?% "_" table)
    (modify-syntax-entry ?_ "_" table)
    table))

(defvar resb-font-lock
  '((":[ \t]*\\(string\\|alias\\|bin\\|binary\\|int\\|integer\\|intvector\\|array\\|table\\(?:(nofallback)\\)?\\)[ \t]*{"
     1 font-lock-type-face)
    ("\\([^\"{},:\\/ \t\n]+\\)[ \t]*[{:]" 1 font-lock-variable-name-face)))

;;;###autoload
(define-derived-mode resb-mode prog-mode "resb"
  "A mode for ICU resource bundle texts."
  (setq-local font-lock-defaults '(resb-font-lock))
  (setq-local comment-start "// ")
  (setq-local comment-end "")
  (setq-local indent-tabs-mode nil))

(defun resb-text-p ()
  "Return whether the buffer's file is a text beside root.txt or below resb.toml."
  (and buffer-file-name
       (string-suffix-p ".txt" buffer-file-name)
       (or (file-exists-p (expand-file-name "root.txt" (file-name-directory buffer-file-name)))
           (locate-dominating-file buffer-file-name "resb.toml"))))

;;;###autoload
(add-to-list 'magic-mode-alist '(resb-text-p . resb-mode))
(add-to-list 'eglot-server-programs '(resb-mode . ("resb-lsp")))
(add-hook 'resb-mode-hook #'eglot-ensure)

(provide 'resb-mode)
;;; resb-mode.el ends here
