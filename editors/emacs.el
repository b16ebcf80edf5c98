;;; emacs.el --- SIMSCRIPT II models, and their debugger ssdap -*- lexical-binding: t -*-

;;; Commentary:
;; Put this into your init file: (load "/path/to/editors/emacs.el")
;; With dap-mode, in a buffer with a model: C-c C-d starts the debugger, over x.data if it is beside x.sim; C-c C-k sets
;; or clears a break point; C-c C-n, C-s, C-o and C-c go on (next, step in, step out, continue), C-c C-b and C-r go
;; back (step back, reverse continue); C-c C-w stops at each change of what a question asks, as SET LINE.UP 2, in both
;; directions, and with a prefix argument at no change more; C-c C-v shows the variables, C-c C-e is the console, and
;; C-c C-q ends the session.

;;; Code:

(defvar simscript2-mode-map (make-sparse-keymap)
  "Keys in a buffer with a model.")

(define-derived-mode simscript2-mode prog-mode "SIMSCRIPT II"
  "Mode of models in SIMSCRIPT II."
  (setq-local comment-start "''")
  (when (require 'dap-mode nil t)
    (require 'dap-ui)
    (dap-ui-mode 1)))
(add-to-list 'auto-mode-alist '("\\.sim\\'" . simscript2-mode))

(defun ssdap-with-data (config)
  "Return CONFIG with the data beside its model, if there are some and it names none."
  (let ((data (concat (file-name-sans-extension (plist-get config :model)) ".data")))
    (if (or (plist-get config :data) (not (file-readable-p data)))
        config
      (plist-put config :data data))))

;; dape
(defvar dape-configs)
(with-eval-after-load 'dape
  (add-to-list 'dape-configs
               '(ssdap modes (simscript2-mode) command "ssdap" fn ssdap-with-data :type "ssdap" :request "launch"
                       :model dape-buffer-default :stopOnEntry t)))

;; dap-mode
;; lsp-treemacs 0.4, which shows the variables, reads this; treemacs has it from version 3 on.
(defvar treemacs-text-scale nil)
(declare-function dap-debug "dap-mode")
(declare-function dap-register-debug-provider "dap-mode")
(declare-function dap-register-debug-template "dap-mode")
(declare-function dap-request "dap-mode")
(declare-function dap-ui-locals "dap-ui")
(declare-function dap--cur-session-or-die "dap-mode")
(declare-function dap--debug-session-launch-args "dap-mode")
(declare-function dap--debug-session-metadata "dap-mode")
(declare-function dap--get-path-for-frame "dap-mode")
(declare-function dap--step "dap-mode")

(defun ssdap-debug ()
  "Start the debugger over the model of this buffer."
  (interactive)
  (dap-debug (list :type "ssdap" :request "launch" :name (buffer-name) :model (buffer-file-name) :stopOnEntry t)))

(defun ssdap-step-back ()
  "Step back to the state before, over calls."
  (interactive)
  (dap--step "stepBack" (dap--cur-session-or-die)))

(defun ssdap-reverse-continue ()
  "Go back to a break point, or to the start."
  (interactive)
  (dap--step "reverseContinue" (dap--cur-session-or-die)))

(defun ssdap-watch (question)
  "Stop at each change of what QUESTION asks, as SET LINE.UP 2; at no change any more if it is nil."
  (interactive (list (unless current-prefix-arg (read-string "Stop when this changes: "))))
  (let* ((session (dap--cur-session-or-die))
         (kept (dap--debug-session-metadata session))
         (answer (and question (dap-request session "dataBreakpointInfo" :name question)))
         (id (and answer (gethash "dataId" answer))))
    (if (and question (not id))
        (user-error "%s: %s" question (gethash "description" answer))
      (puthash 'ssdap (and id (cons id (remove id (gethash 'ssdap kept)))) kept)
      (dap-request session "setDataBreakpoints"
                   :breakpoints (apply #'vector (mapcar (lambda (it) (list :dataId it)) (gethash 'ssdap kept))))
      (message "Stops at changes of: %s" (or (gethash 'ssdap kept) "nothing")))))

(defun ssdap-variables ()
  "Show the variables in a window of their own, and leave the focus where it is."
  (interactive)
  (save-selected-window (dap-ui-locals)))

(defun ssdap-show-frame (show session frame)
  "Call SHOW to show FRAME of SESSION, and leave the focus where it is, in the console too."
  (let ((path (and frame (dap--get-path-for-frame frame))))
    (if (not (and path (equal (plist-get (dap--debug-session-launch-args session) :type) "ssdap")))
        (funcall show session frame)
      (save-selected-window
        (select-window (display-buffer (find-file-noselect path)))
        (funcall show session frame)))))

(with-eval-after-load 'dap-mode
  (dap-register-debug-provider
   "ssdap" (lambda (config) (ssdap-with-data (plist-put config :dap-server-path '("ssdap")))))
  (dap-register-debug-template
   "SIMSCRIPT II" '(:type "ssdap" :request "launch" :name "this model" :model "${file}" :stopOnEntry t))
  (advice-add 'dap--go-to-stack-frame :around #'ssdap-show-frame)
  (pcase-dolist (`(,key . ,command) '(("C-d" . ssdap-debug) ("C-k" . dap-breakpoint-toggle) ("C-n" . dap-next)
                                      ("C-s" . dap-step-in) ("C-o" . dap-step-out) ("C-c" . dap-continue)
                                      ("C-b" . ssdap-step-back) ("C-r" . ssdap-reverse-continue)
                                      ("C-w" . ssdap-watch) ("C-v" . ssdap-variables) ("C-e" . dap-ui-repl)
                                      ("C-q" . dap-disconnect)))
    (define-key simscript2-mode-map (kbd (concat "C-c " key)) command)))

;;; emacs.el ends here
