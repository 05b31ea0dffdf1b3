;; Drives the language server by eglot, and writes what happens as JSON.
;; FOLDER, OUT and GUIDE are variables of the environment; GUIDE is a file with the lines of the guide.
(require 'json)
(require 'eglot)
(setq eglot-sync-connect 180 eglot-connect-timeout 180 eglot-autoshutdown nil eglot-confirm-server-initiated-edits nil)
(load (getenv "GUIDE") nil t)

;; Nobody is there to be asked.
(fset 'y-or-n-p (lambda (&rest _) t))

(defvar told nil)
(defun tell (name value) (push (cons name value) told))

(defun await (condition)
  "Wait until CONDITION returns something, for at most 180 seconds."
  (let ((end (+ (float-time) 180)) got)
    (while (and (not (setq got (funcall condition))) (< (float-time) end))
      (accept-process-output nil 0.05))
    got))

(defun found ()
  (vconcat (mapcar (lambda (each) (vector (1- (line-number-at-pos (flymake-diagnostic-beg each)))
                                          (substring-no-properties (flymake-diagnostic-text each))))
                   (sort (flymake-diagnostics)
                         (lambda (one other) (< (flymake-diagnostic-beg one) (flymake-diagnostic-beg other)))))))

(remove-hook 'fluent-mode-hook 'eglot-ensure)
(find-file (expand-file-name "l10n/pl/main.ftl" (getenv "FOLDER")))
(tell "mode" (symbol-name major-mode))
(apply #'eglot--connect (eglot--guess-contact))
(await (lambda () (and (eglot-managed-p) (> (length (flymake-diagnostics)) 1))))
(tell "findings" (found))

(goto-char (point-min))
(search-forward "{ welcome")
(eglot-rename "greeting")
(await (lambda () (save-excursion (goto-char (point-min)) (search-forward "greeting" nil t))))
(tell "renamed" (vconcat (mapcar (lambda (name)
                                   (with-current-buffer (find-file-noselect (expand-file-name name (getenv "FOLDER")))
                                     (buffer-substring-no-properties (point-min) (point-max))))
                                 '("l10n/pl/main.ftl" "l10n/pl/mark.ftl" "l10n/en-US/main.ftl"))))

(jsonrpc-notify (eglot-current-server) :workspace/didChangeConfiguration
                '(:settings (:kozhvadi (:reference "l10n/none"))))
(await (lambda () (seq-find (lambda (each) (string-match-p "isn't in" (flymake-diagnostic-text each)))
                            (flymake-diagnostics))))
(tell "without the reference" (found))
(tell "stopped" (progn (eglot-shutdown (eglot-current-server) nil 10) t))
(let ((coding-system-for-write 'utf-8-unix))
  (with-temp-file (getenv "OUT") (insert (json-encode told))))
