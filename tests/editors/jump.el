;; Reads the messages in errors.txt as those of a compilation, by Emacs' default formats, goes to the first place, and writes down the file,
;; the line and the column there, and how many places were found. The column counts characters from 1.
(require 'compile)
(setq folder default-directory)
(switch-to-buffer (find-file-noselect "errors.txt"))
(compilation-mode)
(compilation--ensure-parse (point-max))
(setq places nil)
(goto-char (point-min))
(while (not (eobp))
  (let ((found (text-property-not-all (point) (line-end-position) 'compilation-message nil)))
    (when found
      (push found places)))
  (forward-line))
(goto-char (car (last places)))
(compile-goto-error)
(let ((name (file-relative-name buffer-file-name folder))
      (column (1+ (- (point) (line-beginning-position)))))
  (write-region (format "%s\n%d\n%d\n%d\n" name (line-number-at-pos) column (length places)) nil (expand-file-name "place.txt" folder)))
