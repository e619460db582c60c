;;; kivd.el --- Sends parts of a project to kivd  -*- lexical-binding: t; -*-
;; M-x kivd-send sends the unit, theorem or proof at point, M-x kivd-check checks the whole file.
;; Both take the text as it stands in the buffer; nothing is written.

(require 'compile)

(defvar kivd-tools
  (expand-file-name "../.." (file-name-directory (file-truename (or load-file-name buffer-file-name))))
  "The folder that has kivd-send and kivcheck.")

(defun kivd--lines (tool &rest words)
  "The lines that TOOL with these WORDS answers to the buffer's text."
  (let ((text (buffer-substring-no-properties (point-min) (point-max))) (coding-system-for-write 'utf-8) (coding-system-for-read 'utf-8))
    (with-temp-buffer
      (insert text)
      (apply #'call-process-region (point-min) (point-max) (expand-file-name tool kivd-tools) t '(t nil) nil words)
      (split-string (buffer-string) "\n" t))))

(defun kivd--name ()
  "The name that the answers show for this buffer."
  (or (buffer-file-name) (buffer-name)))

;;;###autoload
(defun kivd-send ()
  "Send the unit, theorem or proof at point, and show its state.
Goes to the step that is refused, or to the name of what isn't proved."
  (interactive)
  (let* ((place (format "%d:%d" (line-number-at-pos nil t) (1+ (- (point) (line-beginning-position)))))
         (line (or (car (kivd--lines "kivd-send" "--stdin" (kivd--name) place)) "kivd: no answer")))
    (if (not (string-match "\\`.*?:\\([0-9]+\\):\\([0-9]+\\): \\(.*\\)\\'" line))
        (message "%s" line)
      (let ((row (string-to-number (match-string 1 line))) (column (string-to-number (match-string 2 line))) (told (match-string 3 line)))
        (unless (string-match-p ": \\(proved\\|ok\\)\\'" told)
          (push-mark nil t)
          (goto-char (point-min))
          (forward-line (1- row))
          (forward-char (1- column)))
        (message "%s" told)))))

;;;###autoload
(defun kivd-check ()
  "Check the buffer's project, and list the places of what isn't proved."
  (interactive)
  (let ((lines (kivd--lines "kivcheck" "--quiet" "--stdin" (kivd--name))) (folder default-directory))
    (with-current-buffer (get-buffer-create "*kivcheck*")
      (let ((inhibit-read-only t))
        (erase-buffer)
        (insert (mapconcat #'identity lines "\n") "\n"))
      (setq default-directory folder)
      (compilation-mode)
      (display-buffer (current-buffer)))))

(provide 'kivd)
;;; kivd.el ends here
