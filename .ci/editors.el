;;; Tries the snippets of docs/editors.md, which are loaded before, on `some types.lisp'. -*- lexical-binding: t -*-

(defun tried-compile ()
  "Each place of a compilation with its kind: 0 a note, 1 a warning, 2 an error."
  (setq compilation-always-kill t)
  (let ((buffer (compile "selvdrik 'some types.lisp'")))
    (while (process-live-p (get-buffer-process buffer))
      (accept-process-output nil 0.1))
    (accept-process-output nil 0.1)
    (with-current-buffer buffer
      (compilation--ensure-parse (point-max))
      (goto-char (point-min))
      (let ((next (point-min)))
        (while (setq next (next-single-property-change next 'compilation-message))
          (let ((message (get-text-property next 'compilation-message)))
            (when message
              (let ((place (compilation--message->loc message)))
                (princ (format "compile %s:%s %s\n" (compilation--loc->line place)
                               (or (compilation--loc->col place) "-")
                               (compilation--message->type message)))))))))))

(defun tried-flymake ()
  "Each diagnostic of flymake: its line, what it marks and what it says."
  (with-current-buffer (find-file-noselect "some types.lisp")
    (lisp-mode)
    (flymake-mode 1)
    (flymake-start)
    (let ((count 0))
      (while (and (< count 1200) (null (flymake-diagnostics)))
        (setq count (1+ count))
        (accept-process-output nil 0.1)))
    (dolist (one (sort (flymake-diagnostics) (lambda (a b) (< (flymake-diagnostic-beg a) (flymake-diagnostic-beg b)))))
      (princ (format "flymake %s %s: %s\n" (line-number-at-pos (flymake-diagnostic-beg one))
                     (buffer-substring-no-properties (flymake-diagnostic-beg one) (flymake-diagnostic-end one))
                     (flymake-diagnostic-text one))))))

(tried-compile)
(tried-flymake)
