;;; netrev-dap.el --- netrev's recordings in dap-mode  -*- lexical-binding: t -*-

;; Load it after dap-mode, open a recording, and type M-x netrev-debug. dap-mode has commands for going forwards;
;; this file has those for going back and for stopping where a cell changed.

(require 'dap-mode)

(defvar dap-exception-breakpoints nil
  "As dap-ui has it: dap-mode reads it where a file has breakpoints, also where dap-ui isn't loaded.")

(defvar netrev-nrdb "nrdb" "The command by which nrdb is called.")

(dap-register-debug-provider
 "netrev"
 (lambda (configuration)
   (plist-put configuration :dap-server-path (list netrev-nrdb "--dap"))))

(defun netrev-debug (&optional source)
  "Debug the recording of this buffer. With a prefix argument SOURCE the program's own lines are shown first."
  (interactive "P")
  (dap-debug (list :type "netrev" :request "launch" :name "netrev" :program (buffer-file-name)
                   :source (if source "go" "recording"))))

(defun netrev--ask (request arguments)
  "Send REQUEST with ARGUMENTS to the adapter."
  (let ((session (dap--cur-session-or-die)))
    (dap--send-message (dap--make-request request arguments) (dap--resp-handler) session)))

(defun netrev--move (request)
  "Make the move REQUEST. dap-mode follows to another goroutine only if it forgets the one that was shown."
  (let ((session (dap--cur-session-or-die)))
    (netrev--ask request (list :threadId (or (dap--debug-session-thread-id session) 1)))
    (setf (dap--debug-session-thread-id session) nil)))

(defun netrev-step-back () "Go back a step." (interactive) (netrev--move "stepBack"))

(defun netrev-reverse-continue ()
  "Go back to where a breakpoint or a watched cell stops." (interactive) (netrev--move "reverseContinue"))

(defun netrev-watch (cell)
  "Stop where CELL changes, in both directions."
  (interactive "sCell (rg 0, gor 3, ..): ")
  (netrev--ask "setDataBreakpoints" (list :breakpoints (vector (list :dataId cell)))))

(provide 'netrev-dap)
;;; netrev-dap.el ends here
