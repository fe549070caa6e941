;;;; What the checks are written with.

(defpackage "PAZTURROK-CHECK"
  (:use "COMMON-LISP" "PAZTURROK-CLIENT")
  (:import-from "PAZTURROK-CLIENT" "ANSWER-TEXT" "PARSE-ANSWER" "REFUSAL-OF" "ONE-FORM-P" "FORM-TEXT"
                "WITH-REFERENCES" "WITHOUT-REFERENCES" "MAKE-NAMING" "NAMING-CURRENT" "NAMING-BARE" "SYMBOL-OF" "HOME-NAMED" "*OPERATORS*" "*END-LIMIT*")
  (:export "RUN" "RUN-AND-EXIT" "TEST"))

(in-package "PAZTURROK-CHECK")

(defvar *program* nil "The path of the program.")
(defvar *folder* nil "A folder for the stores.")
(defvar *long* 600 "As many seconds as nothing takes, on a slow machine either.")
(defvar *passed* 0)
(defvar *failed* 0)
(defvar *checks* '() "The names of the checks, the last one first.")

(defmacro define-check (name () &body body)
  `(progn (defun ,name () ,@body)
          (pushnew ',name *checks*)))

(defun same (a b)
  "EQUAL, through vectors too, and uninterned symbols by their names."
  (cond ((and (stringp a) (stringp b)) (string= a b))
        ((or (stringp a) (stringp b)) nil)
        ((and (vectorp a) (vectorp b)) (and (= (length a) (length b)) (every #'same a b)))
        ((and (consp a) (consp b)) (and (same (car a) (car b)) (same (cdr a) (cdr b))))
        ((and a b (symbolp a) (symbolp b) (null (symbol-package a)) (null (symbol-package b))) (string= a b))
        (t (eql a b))))

(defun expect (what wanted got)
  (cond ((same wanted got) (incf *passed*))
        (t (incf *failed*)
           (let ((*print-length* 20))
             (format t "~A: wanted ~S, got ~S~%" what wanted got))
           (finish-output))))

(defmacro signalled (&body body)
  "The name of the condition that BODY signals, and the condition; or :NOTHING and the value."
  `(handler-case (values :nothing (progn ,@body))
     (store-error (condition) (values (type-of condition) condition))))

(defmacro number-of-refusal (&body body)
  `(handler-case (progn ,@body :accepted) (refused (condition) (refused-number condition))))

(defun subfolder (name)
  (uiop:native-namestring (uiop:subpathname *folder* name)))

(defun ends-p (function)
  "Whether FUNCTION ends before what waits for the program would give it up."
  (let ((start (get-internal-real-time)))
    (funcall function)
    (< (- (get-internal-real-time) start) (* 1/2 *long* internal-time-units-per-second))))

(defun run (program folder)
  "Runs all checks over the program, with stores in the folder. Tells how many passed, and gives whether all did."
  (let ((*package* (find-package "PAZTURROK-CHECK"))
        (*program* program)
        (*folder* (uiop:ensure-directory-pathname folder))
        (*end-limit* *long*)
        (*passed* 0)
        (*failed* 0))
    (dolist (check (reverse *checks*))
      (handler-case (funcall check)
        (error (condition)
          (incf *failed*)
          (format t "~(~A~): ~A~%" check condition))))
    (format t "~D passed, ~D failed~%" *passed* *failed*)
    (finish-output)
    (zerop *failed*)))

(defun run-and-exit (program folder)
  (uiop:quit (if (run program folder) 0 1)))

(defun test ()
  "Runs all checks over the program that PAZTURROK_PROGRAM names, in a folder that is thrown away."
  (uiop:with-temporary-file (:pathname path)
    (let ((folder (uiop:ensure-directory-pathname (uiop:strcat (uiop:native-namestring path) "-stores"))))
      (unwind-protect (unless (run (uiop:getenv "PAZTURROK_PROGRAM") folder) (error "a check has failed"))
        (uiop:delete-directory-tree folder :validate t :if-does-not-exist :ignore)))))
