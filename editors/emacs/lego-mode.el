;;; lego-mode.el --- Scripts of the proof checker lego  -*- lexical-binding: t -*-

;; Package-Requires: ((emacs "25.1"))

;;; Commentary:

;; Highlighting, nested comments, and `lego-run', which runs lego on the buffer and lets `next-error' go to the refusals.

;;; Code:

(require 'compile)

(defgroup lego nil
  "Scripts of the proof checker lego."
  :group 'languages)

(defcustom lego-program "lego"
  "The program lego, or the script of that name at the top of its repository."
  :type 'string)

(defvar lego-mode-syntax-table
  (let ((table (make-syntax-table)))
    (modify-syntax-entry ?\( "()1n" table)
    (modify-syntax-entry ?\) ")(4n" table)
    (modify-syntax-entry ?* ". 23n" table)
    (modify-syntax-entry ?_ "w" table)
    (modify-syntax-entry ?' "w" table)
    (dolist (symbol '(?< ?> ?= ?| ?# ?. ?? ?: ?, ?\; ?-))
      (modify-syntax-entry symbol "." table))
    table))

(defconst lego-font-lock-keywords
  `((,(regexp-opt '("Undo" "Forget" "Ctxt" "Hnf" "Normal" "Explicit" "Implicit" "Discharge" "Module" "Import" "Goal"
                    "Intros" "Refine" "Claim" "Next" "Assumption" "Equiv" "Save" "KillRef" "Prf")
                  'words)
     . font-lock-keyword-face)
    (,(regexp-opt '("Prop" "Type") 'words) . font-lock-type-face)
    ("[[{<]\\([A-Za-z_][A-Za-z0-9_', \n]*\\)[:=|]" 1 font-lock-variable-name-face)))

(defvar lego-script nil
  "The file of the script that the answers of this buffer are about.")

(define-compilation-mode lego-answers-mode "lego answers"
  "Answers of lego, of which each refusal leads to its place in the script."
  (setq-local compilation-error-regexp-alist
              '(("^refused \\([0-9]+\\):\\([0-9]+\\) " lego-answers-script 1 2)))
  (setq-local compilation-first-column 1))

(defun lego-answers-script ()
  "The file of the script that was run."
  lego-script)

(defun lego-run ()
  "Save the script, run lego on it, and show the answers."
  (interactive)
  (save-buffer)
  (let* ((script buffer-file-name)
         (command (concat (shell-quote-argument lego-program) " < " (shell-quote-argument script))))
    (with-current-buffer (compilation-start command #'lego-answers-mode)
      (setq-local lego-script script))))

(defvar lego-mode-map
  (let ((map (make-sparse-keymap)))
    (define-key map (kbd "C-c C-c") #'lego-run)
    map))

;;;###autoload
(define-derived-mode lego-mode prog-mode "lego"
  "Scripts of the proof checker lego."
  (setq-local comment-start "(* ")
  (setq-local comment-end " *)")
  (setq-local comment-start-skip "(\\*+[ \t]*")
  (setq-local font-lock-defaults '(lego-font-lock-keywords)))

;;;###autoload
(add-to-list 'auto-mode-alist '("\\.lego\\'" . lego-mode))

(provide 'lego-mode)
;;; lego-mode.el ends here
