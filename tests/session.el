;;; session.el --- a session of dap-mode in batch -*- lexical-binding: t -*-

;; tests/editors.py runs it over x.sim, the model of the bank. It does what a user does, by the keys of
;; editors/emacs.el, and writes a line for each thing that is seen to the file `said`.

(defvar dap-ui--locals-buffer)

(defvar stops 0 "How many times a frame was shown.")

(defun say (&rest parts)
  "Append PARTS to the file `said`, a line."
  (write-region (concat (mapconcat (lambda (it) (format "%s" it)) parts " ") "\n") nil "said" t 'silent))

(defun await (before what)
  "Wait until another frame is shown than BEFORE, and say WHAT, and where the run is."
  (let ((end (+ (float-time) 20)))
    (while (and (= stops before) (< (float-time) end))
      (accept-process-output nil 0.02)))
  (let ((frame (dap--debug-session-active-frame (dap--cur-session))))
    (say what (and frame (gethash "name" frame)) (and frame (gethash "line" frame))
         (with-current-buffer "x.sim" (line-number-at-pos)))))

(defun press (keys)
  "Do what KEYS do in the buffer of the model, and wait until the run stops."
  (let ((before stops) (command (with-current-buffer "x.sim" (key-binding (kbd keys)))))
    (with-current-buffer "x.sim" (call-interactively command))
    (await before command)))

(defun part (body list name)
  "Return the item of LIST in BODY that has NAME."
  (seq-find (lambda (it) (equal (gethash "name" it) name)) (gethash list body)))

(defun say-local (name)
  "Say the value of the local variable NAME of the frame."
  (let* ((session (dap--cur-session))
         (frame (gethash "id" (dap--debug-session-active-frame session)))
         (scope (part (dap-request session "scopes" :frameId frame) "scopes" "Locals"))
         (rows (dap-request session "variables" :variablesReference (gethash "variablesReference" scope))))
    (say name (gethash "value" (part rows "variables" name)))))

(defun say-shown (row)
  "Say the first row that matches ROW of the window that shows the variables, and which buffer has the focus then."
  (call-interactively (key-binding (kbd "C-c C-v")))
  ;; A timer does this when Emacs is idle, which it never is in batch.
  (dap-ui-locals--refresh)
  (say "shown" (with-current-buffer dap-ui--locals-buffer
                 (goto-char (point-min))
                 (and (re-search-forward row nil t) (match-string 0)))
       (buffer-name)))

(defun say-console (line)
  "Type LINE in the console, and say which buffer has the focus then."
  (let ((before stops))
    (with-current-buffer dap-ui--repl-buffer
      (goto-char (point-max))
      (insert line)
      (comint-send-input))
    (await before line))
  (say "focus" (buffer-name (window-buffer (selected-window)))))

(find-file "x.sim")
(say major-mode)
(add-hook 'dap-stack-frame-changed-hook (lambda (_) (setq stops (1+ stops))))
(goto-char (point-min))
(forward-line 53)
(call-interactively (key-binding (kbd "C-c C-k")))
(press "C-c C-d")
(press "C-c C-c")
(say-local "T")
(say-shown "\\_<T: .*")
(press "C-c C-n")
(press "C-c C-b")
(ssdap-watch "SET LINE.UP 2")
(press "C-c C-c")
(press "C-c C-r")
(say-local "T")
(ssdap-watch nil)
(say "no question is" (condition-case nil (ssdap-watch "= 5") (user-error "refused")))
(press "C-c C-r")
(call-interactively (key-binding (kbd "C-c C-e")))
(select-window (get-buffer-window dap-ui--repl-buffer))
(say-console "GO 600")
(say-console "back change var t")

;;; session.el ends here
