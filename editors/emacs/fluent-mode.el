;;; fluent-mode.el --- Major mode for Fluent files  -*- lexical-binding: t; -*-

;; Version: 0.1.0
;; Package-Requires: ((emacs "27.1"))
;; Keywords: languages, i18n

;;; Commentary:

;; Highlights Fluent files, and names the language server to eglot:
;;
;;     (require 'fluent-mode)
;;     (setq fluent-server-options '(:reference "l10n/en-US"))
;;     (add-hook 'fluent-mode-hook #'eglot-ensure)

;;; Code:

(defgroup fluent nil
  "Fluent files."
  :group 'languages)

(defcustom fluent-server-command '("kozhvadi-server")
  "The command of the language server, with its arguments."
  :type '(repeat string))

(defcustom fluent-server-options nil
  "The settings of the language server, as (:reference \"l10n/en-US\")."
  :type 'plist)

(defface fluent-message '((t :inherit font-lock-function-name-face)) "Ids of messages.")
(defface fluent-term '((t :inherit font-lock-type-face)) "Ids of terms.")
(defface fluent-attribute '((t :inherit font-lock-keyword-face)) "Names of attributes.")
(defface fluent-variable '((t :inherit font-lock-variable-name-face)) "Variables.")
(defface fluent-function '((t :inherit font-lock-builtin-face)) "Names of functions.")
(defface fluent-argument '((t :inherit font-lock-preprocessor-face)) "Names of arguments.")
(defface fluent-key '((t :inherit font-lock-constant-face)) "Keys of variants.")
(defface fluent-number '((t :inherit font-lock-constant-face)) "Numbers.")
(defface fluent-string '((t :inherit font-lock-string-face)) "Literal texts between quotes.")
(defface fluent-sign '((t :inherit default)) "Braces, brackets and operators.")

(defconst fluent--name "[A-Za-z][A-Za-z0-9_-]*")
(defconst fluent--number "-?[0-9]+\\(?:\\.[0-9]+\\)?")
(defconst fluent--comment "#\\{1,3\\}\\(?: .*\\)?$")
(defconst fluent--head (format "\\(?:\\(-%s\\)\\|\\(%s\\)\\) *\\(=\\)" fluent--name fluent--name))
(defconst fluent--attribute (format " *\\(\\.%s\\) *\\(=\\)" fluent--name))
(defconst fluent--variant
  (format "[ \n\r]*\\(\\*\\)?\\(\\[\\)[ \n\r]*\\(?:\\(%s\\)\\|\\(%s\\)\\)[ \n\r]*\\(\\]\\)" fluent--name fluent--number))
(defconst fluent--function (format "\\(%s\\)[ \n\r]*(" fluent--name))
(defconst fluent--argument (format "\\(%s\\)[ \n\r]*:" fluent--name))

;; What begins with these signs, or else a name, in a placeable: a pattern, its face, and what it opens or closes.
(defconst fluent--tokens
  (list (list "\"\\(?:[^\"\\\\\n]\\|\\\\.\\)*\"?" 'fluent-string)
        (list (concat "\\$" fluent--name) 'fluent-variable)
        (list (concat "-" fluent--name) 'fluent-term)
        (list fluent--number 'fluent-number)
        (list (concat "\\." fluent--name) 'fluent-attribute)
        (list "->" 'fluent-sign)
        (list "[{}(),:]" 'fluent-sign)))

(defun fluent--mark (group face)
  "Give what GROUP of the last match matched the face FACE."
  (when (match-beginning group)
    (put-text-property (match-beginning group) (match-end group) 'face face)))

(defun fluent--line-start (open)
  "Take what begins at the front of a line, where OPEN is open.
Return what is open after it, or nil if nothing begins here.  What is open is a
list of `placeable', `call' and `select', which ends with `entry' in an entry."
  (cond
   ((looking-at fluent--comment)
    (fluent--mark 0 'font-lock-comment-face)
    (goto-char (match-end 0))
    'none)
   ((looking-at fluent--head)
    (fluent--mark 1 'fluent-term)
    (fluent--mark 2 'fluent-message)
    (fluent--mark 3 'fluent-sign)
    (goto-char (match-end 0))
    '(entry))
   ((null open) (end-of-line) 'none)
   ((looking-at fluent--attribute)
    (fluent--mark 1 'fluent-attribute)
    (fluent--mark 2 'fluent-sign)
    (goto-char (match-end 0))
    '(entry))
   ((and (eq (car open) 'entry) (looking-at "[^ \r\n{]"))
    (end-of-line)
    'none)))

(defun fluent--text (open)
  "Pass over text up to a sign, where OPEN is open.  Return what is open then."
  (if (and (eq (car open) 'select) (looking-at fluent--variant) (fluent--at-front-p))
      (progn
        (fluent--mark 1 'fluent-sign)
        (fluent--mark 2 'fluent-sign)
        (fluent--mark 3 'fluent-key)
        (fluent--mark 4 'fluent-number)
        (fluent--mark 5 'fluent-sign)
        (goto-char (match-end 0))
        open)
    (when (memq (char-after) '(?\{ ?\}))
      (put-text-property (point) (1+ (point)) 'face 'fluent-sign))
    (pcase (char-after)
      (?\{ (setq open (cons 'placeable open)))
      (?\} (when (eq (car open) 'select) (setq open (cddr open)))))
    (if (memq (char-after) '(?\{ ?\}))
        (forward-char 1)
      (forward-char 1)
      (unless (bolp) (skip-chars-forward "^{}\n")))
    open))

(defun fluent--at-front-p ()
  "Whether only blanks are before point in its line."
  (save-excursion (skip-chars-backward " ") (bolp)))

(defun fluent--expression (open)
  "Take a token of a placeable or a call, where OPEN is open.
Return what is open after it."
  (skip-chars-forward " \r")
  (let ((found (seq-find (lambda (each) (looking-at (car each))) fluent--tokens)))
    (cond
     ((eolp) (unless (eobp) (forward-char 1)) open)
     ((looking-at fluent--function) (fluent--mark 1 'fluent-function) (goto-char (match-end 1)) open)
     ((and (eq (car open) 'call) (looking-at fluent--argument))
      (fluent--mark 1 'fluent-argument)
      (goto-char (match-end 1))
      open)
     ((looking-at fluent--name) (fluent--mark 0 'fluent-message) (goto-char (match-end 0)) open)
     (found
      (looking-at (car found))
      (fluent--mark 0 (cadr found))
      (goto-char (match-end 0))
      (pcase (match-string-no-properties 0)
        ("{" (cons 'placeable open))
        ("(" (cons 'call open))
        (")" (if (eq (car open) 'call) (cdr open) open))
        ("->" (cons 'select open))
        ("}" (while (eq (car open) 'call) (setq open (cdr open))) (cdr open))
        (_ open)))
     (t (forward-char 1) open))))

(defun fluent--fontify (start end)
  "Highlight the entries from START, where one begins, up to END."
  (goto-char start)
  (let ((open nil))
    (while (< (point) end)
      (let ((begun (and (bolp) (fluent--line-start open))))
        (cond
         (begun (setq open (if (eq begun 'none) nil begun)))
         ((memq (car open) '(placeable call)) (setq open (fluent--expression open)))
         (open (setq open (fluent--text open)))
         (t (forward-line 1)))
        ;; A line end after what began at the front of a line.
        (when (and (null open) (eolp) (not (eobp))) (forward-char 1))))))

(defun fluent--front (place)
  "Where the entry or comment at or before PLACE begins."
  (save-excursion
    (goto-char place)
    (beginning-of-line)
    (while (not (or (bobp) (looking-at-p fluent--head) (looking-at-p "#")))
      (forward-line -1))
    (point)))

(defun fluent--end (place)
  "Where the entry or comment at PLACE ends."
  (save-excursion
    (goto-char place)
    (forward-line 1)
    (while (not (or (eobp) (looking-at-p fluent--head) (looking-at-p "#")))
      (forward-line 1))
    (point)))

(defun fluent--fontify-region (start end &optional _loudly)
  "Highlight all entries between START and END."
  (let ((first (fluent--front start)) (last (fluent--end end)))
    (with-silent-modifications
      (save-excursion
        (save-match-data
          (remove-text-properties first last '(face nil))
          (fluent--fontify first last))))
    `(jit-lock-bounds ,first . ,last)))

(defvar fluent-imenu-expression
  `(("Terms" ,(format "^\\(-%s\\) *=" fluent--name) 1)
    ("Messages" ,(format "^\\(%s\\) *=" fluent--name) 1))
  "Messages and terms, for imenu.")

;;;###autoload
(define-derived-mode fluent-mode prog-mode "Fluent"
  "Major mode for Fluent files."
  (setq-local comment-start "# ")
  (setq-local comment-end "")
  (setq-local comment-start-skip "#+ *")
  (setq-local comment-use-syntax nil)
  (setq-local indent-tabs-mode nil)
  (setq-local tab-width 4)
  (setq-local imenu-generic-expression fluent-imenu-expression)
  (setq-local compile-command "ftl lint --format line .")
  (setq-local font-lock-defaults '(nil t))
  (setq-local font-lock-fontify-region-function #'fluent--fontify-region))

;;;###autoload
(add-to-list 'auto-mode-alist '("\\.ftl\\'" . fluent-mode))

(defvar eglot-server-programs)
(with-eval-after-load 'eglot
  (add-to-list 'eglot-server-programs
               (cons 'fluent-mode
                     (lambda (&rest _)
                       (append fluent-server-command
                               (when fluent-server-options
                                 (list :initializationOptions fluent-server-options)))))))

(provide 'fluent-mode)
;;; fluent-mode.el ends here
