;;;; The running program: its streams, its end, and a limit on how long it may take.

(in-package "PAZTURROK-CLIENT")

(defparameter *end-limit* 10
  "How many seconds the program may take to end, before it is killed. A kill loses nothing that was answered.")

(defstruct (program (:copier nil))
  "A program that runs, or that has ended. ERRORS is a file without a name, which takes its standard error."
  process to from errors (overdue-p nil)
  (begins '() :type list)                       ; in which line each text of the last exchange begins
  (line 1 :type unsigned-byte)                  ; in which line the next one does
  (heard 0 :type unsigned-byte))                ; so many characters of standard error

#+ecl (ffi:clines "#include <fcntl.h>")

(defun keep-from-children (stream)
  "On ECL a program inherits what the image has open, and a pipe to it would stay open in one started later."
  #-ecl (declare (ignore stream))
  #+ecl (ffi:c-inline ((si:file-stream-fd stream)) (:int) :int "fcntl(#0, F_SETFD, FD_CLOEXEC)" :one-liner t))

(defun program-there-p (word)
  "Whether there is a file of this path, or, of a name without a slash, in a folder of PATH."
  (flet ((file-p (path) (uiop:file-exists-p (uiop:parse-native-namestring path))))
    (if (find #\/ word)
        (file-p word)
        (some (lambda (folder) (file-p (format nil "~A/~A" folder word)))
              (uiop:split-string (uiop:getenv "PATH") :separator ":")))))

(defun started-process (words errors)
  "The process of a program that is started, and appends its standard error to the file ERRORS."
  (flet ((refuse (reason) (error 'no-program :path (first words) :reason reason)))
    (unless (program-there-p (first words)) (refuse "there is no such file"))
    (handler-case (uiop:launch-program words :input :stream :output :stream
                                             :error-output errors :if-error-output-exists :append
                                             :external-format :latin-1)
      (error (condition) (refuse (princ-to-string condition))))))

(defun launch (words)
  "Starts the program. Characters are bytes here: what is over 127 is judged later."
  (handler-case (launch-with-file words)
    (file-error (condition)
      (error 'no-program :path (first words) :reason (format nil "no file takes what it tells: ~A" condition)))))

(defun launch-with-file (words)
  (uiop:with-temporary-file (:pathname path)
    (let* ((process (started-process words path))
           (errors (open path :external-format :latin-1))
           (to (uiop:process-info-input process))
           (from (uiop:process-info-output process))
           (program (make-program
                     :process process :errors errors
                     :to (if (typep to 'two-way-stream) (two-way-stream-output-stream to) to)
                     :from (if (typep from 'two-way-stream) (two-way-stream-input-stream from) from))))
      (mapc #'keep-from-children (list errors (program-to program) (program-from program)))
      program)))

(defun kill (program)
  (ignore-errors (uiop:terminate-process (program-process program) :urgent t)))

(defun wait-for-end (program seconds)
  "Waits until the program has ended, at most so long."
  (loop with end = (+ (get-internal-real-time) (* seconds internal-time-units-per-second))
        for pause = 1/1000 then (min 1/20 (* 2 pause))
        while (and (uiop:process-alive-p (program-process program)) (< (get-internal-real-time) end))
        do (sleep pause)))

(defun beside-fault-p (text)
  "Whether a line of standard error says nothing of why the program has ended: of forms that were refused, or that the program is not proved."
  (or (of-refusals-p text)
      (let ((end (mismatch "pazturrok: compiled, not proved" text))) (or (null end) (= end 31)))))

(defun all-errors (program)
  "What the program wrote to standard error, at most 65,536 characters of it, but for lines that say nothing of its end; or NIL."
  (let* ((text (make-string 65536))
         (end (ignore-errors (file-position (program-errors program) 0) (read-sequence text (program-errors program))))
         (told (and end (string-right-trim '(#\Newline) (subseq text 0 end))))
         (lines (and told (string/= told "") (remove-if #'beside-fault-p (uiop:split-string told :separator '(#\Newline))))))
    (and lines (format nil "~{~A~^~%~}" lines))))

;;; What standard error says of a form that was refused: where the form begins, and what stands behind the number.

(defun number-after (word text place)
  "The number after a word that stands in TEXT at PLACE, and the place after it; or NIL."
  (let ((start (+ place (length word))))
    (when (and (< start (length text)) (string= word text :start2 place :end2 start) (digit-char-p (char text start)))
      (parse-integer text :start start :junk-allowed t))))

(defun line-of-reason (text)
  "The line in which a refused form begins, and what stands behind its number; or NIL of a text that says no such thing. Of a form whose line the
program does not know it is 0."
  (let ((line nil) (place (if (eql (mismatch "pazturrok: " text) 11) 11 0)))
    (loop for word in (if (eql (mismatch "after " text :start2 place) 6) '("after " " bytes: ") '("line " ", column " ": "))
          do (multiple-value-bind (number end) (number-after word text place)
               (unless number (return-from line-of-reason nil))
               (setf line (or line (if (string= word "after ") 0 number))
                     place end)))
    (when (eql (mismatch ": " text :start2 place) 2)
      (let ((help (search " (help " text :from-end t :start2 place)))
        (values line (subseq text (+ 2 place) (and help (char= (char text (1- (length text))) #\)) help)))))))

(defun of-refusals-p (text)
  "Whether a line of standard error is of forms that were refused."
  (or (line-of-reason text) (search " refusals were told; of the next ones there is no line here" text)))

(defun heard-reasons (program)
  "What standard error has gained since it was heard last of forms that were refused: lines, each with what stands behind the number."
  (let ((errors (program-errors program)))
    (when (open-stream-p errors)
      (file-position errors (program-heard program))
      (loop for text = (read-line errors nil)
            while text
            do (incf (program-heard program) (1+ (length text)))
            when (multiple-value-bind (line reason) (line-of-reason text)
                   (and line (cons line reason)))
              collect it))))

(defgeneric reasons (link answers)
  (:documentation "What is told beside the number of each of these answers to the last exchange; or NIL.")
  (:method ((program program) answers)
    (let ((heard (and (some #'refusal-of answers) (heard-reasons program))))
      (loop for answer in answers
            for line in (program-begins program)
            collect (and (refusal-of answer) (cdr (assoc line heard)))))))

(defgeneric end (link)
  (:documentation "Ends a program, or closes a store of the library. Gives the status, and what was written to standard error."))

(defun close-pipes (program)
  (ignore-errors (close (program-to program) :abort t))
  (ignore-errors (close (program-from program) :abort t)))

(defun close-in-child (program)
  "Closes what a child of a fork has of the pipes. The program is no child of this process, and goes on."
  (close-pipes program)
  (close (program-errors program)))

(defmethod end ((program program))
  "Both pipes are closed first: so it does not wait for anybody to read what it may still have to say."
  (close-pipes program)
  (wait-for-end program *end-limit*)
  ;; On ECL a program that is stopped is not alive to UIOP; and one that has ended cannot be killed there.
  (when (or #+ecl t (uiop:process-alive-p (program-process program))) (kill program))
  (let ((status (uiop:wait-process (program-process program))))
    (multiple-value-prog1 (values status (all-errors program))
      (close (program-errors program)))))

;;; Time limits. Where there are threads the program is killed when the time is over, so that whatever
;;; waits for it ends. Elsewhere reading looks at the clock, and only a form that is longer than the pipe
;;; may wait longer.

(defvar *deadline* nil "When reading has to have ended, in the units of GET-INTERNAL-REAL-TIME; or NIL.")

(defun call-with-limit (program seconds function)
  "Calls FUNCTION, which waits for the program. After so many seconds the program is killed, and is overdue."
  (declare (ignorable program))
  #+sb-thread
  (let ((timer (sb-ext:make-timer (lambda () (setf (program-overdue-p program) t) (kill program)) :thread t)))
    (sb-ext:schedule-timer timer seconds)
    (unwind-protect (funcall function) (sb-ext:unschedule-timer timer)))
  #-sb-thread
  (let ((*deadline* (+ (get-internal-real-time) (ceiling (* seconds internal-time-units-per-second)))))
    (funcall function)))

(defun next-before-deadline (program)
  (loop for pause = 1/10000 then (min 1/100 (* 2 pause))
        for char = (read-char-no-hang (program-from program) nil :end)
        do (cond ((eq char :end) (return nil))
                 (char (return char))
                 ((>= (get-internal-real-time) *deadline*)
                  (setf (program-overdue-p program) t)
                  (kill program)
                  (return nil)))
           (sleep pause)))

(defun next-character (program)
  "The next character of the program's output, or NIL at its end."
  (if *deadline* (next-before-deadline program) (read-char (program-from program) nil)))
