;;;; What can go wrong, and what stands after it.

(in-package "PAZTURROK-CLIENT")

(define-condition store-error (error)
  ((form :initform nil :accessor store-error-form)
   (index :initform nil :accessor store-error-index))
  (:documentation
   "Something that a store or this client of it refuses, or that went wrong. Of one that is about a form, FORM is the
text that was sent, whole, and INDEX the place of the form in the list that was given, from 0; NIL of a form alone."))

(defun concern (condition text index)
  "The condition, which is told which form it is of."
  (setf (store-error-form condition) text
        (store-error-index condition) index)
  condition)

(defun cut (text)
  "The beginning of a text."
  (if (> (length text) 100) (concatenate 'string (string-right-trim " " (subseq text 0 100)) " ..") text))

(defparameter *whitespace* (map 'string #'code-char '(9 10 12 13 32 127)))

(defun one-line (text)
  "A text with one space for each run of whitespace."
  (with-output-to-string (line)
    (loop with space-p = nil
          for char across text
          do (cond ((find char *whitespace*) (setf space-p t))
                   (t (when (shiftf space-p nil) (write-char #\Space line))
                      (write-char char line))))))

(defun told-form (condition &optional (before ": "))
  "What a report says of the form, after BEFORE."
  (let ((form (store-error-form condition)))
    (when form
      (format nil "~A~@[(NTH ~D forms) is ~]~A" before (store-error-index condition)
              (cut (one-line (subseq form 0 (min (length form) 400))))))))

(define-condition refused (store-error)
  ((number :initarg :number :reader refused-number)
   (name :initarg :name :reader refused-name)
   (reason :initarg :reason :initform nil :reader refused-reason)
   (place :initarg :place :initform nil :reader refused-place)
   (hint :initform nil :accessor refused-hint))
  (:report (lambda (condition stream)
             (format stream "refused: ~D ~A~@[ (~A)~]~@[~A~]~@[~%~A~]"
                     (refused-number condition) (refused-name condition) (refused-reason condition) (told-form condition)
                     (or (refused-hint condition) (and (not (refused-reason condition)) (refused-place condition))))))
  (:documentation
   "The store refused the form, which changed nothing. REASON is what stands behind the number, as the operator that is
not known, where the program tells it, or NIL. The store goes on: after 1 to 25 the session has ended, PLACE is what
standard error says of it, and the next form opens the store again. HINT is what the client knows to do about it, or NIL."))

(defun shown (object)
  "The beginning of how an object is printed."
  (let ((*print-length* 10) (*print-level* 4) (*print-circle* t) (*print-pretty* nil))
    (cut (prin1-to-string object))))

(define-condition unsendable (store-error)
  ((object :initarg :object :reader unsendable-object)
   (reason :initarg :reason :reader unsendable-reason))
  (:report (lambda (condition stream)
             (format stream "~@[(NTH ~D forms): ~]~A cannot be sent: ~A" (store-error-index condition)
                     (shown (unsendable-object condition)) (unsendable-reason condition))))
  (:documentation "No session can read this object or text. Nothing was sent, and the store goes on."))

(define-condition malformed-answer (store-error)
  ((text :initarg :text :reader malformed-answer-text)
   (reason :initarg :reason :reader malformed-answer-reason))
  (:report (lambda (condition stream)
             (format stream "the answer ~A is not of the protocol: ~A~@[~A~]"
                     (shown (malformed-answer-text condition)) (malformed-answer-reason condition) (told-form condition))))
  (:documentation
   "The program answered what is no printed text of an object. Where its end is known all the same the
store goes on, and else it is broken."))

(defun told-unanswered (condition)
  "What a report says of the first form that has no answer."
  (told-form condition "; not answered: "))

(define-condition stopped (store-error)
  ((status :initarg :status :reader stopped-status)
   (fault :initarg :fault :reader stopped-fault)
   (folder :initform nil :accessor stopped-folder))
  (:report (lambda (condition stream)
             (format stream "the program has ended with status ~D~@[ as it opened ~A~]~@[~A~]~@[~%~A~]"
                     (stopped-status condition) (stopped-folder condition) (told-unanswered condition) (stopped-fault condition))))
  (:documentation
   "The program has ended; FAULT is all that it wrote to standard error. Whether a form that it did not
answer is in the store is not known, and the store is broken. FOLDER is that of a store that could not be opened, or NIL."))

(define-condition timed-out (store-error)
  ((seconds :initarg :seconds :reader timed-out-seconds))
  (:report (lambda (condition stream)
             (format stream "no answer within ~A seconds; the program was ended~@[~A~]"
                     (timed-out-seconds condition) (told-unanswered condition))))
  (:documentation
   "No whole answer came in time, and the program was ended. Whether the form is in the store is not
known, and the store is broken."))

(define-condition broken (store-error) ()
  (:report (lambda (condition stream)
             (declare (ignore condition))
             (format stream "a form was left before its answer was read whole: the store has to be ~
                             opened again, with REOPEN-STORE")))
  (:documentation
   "An earlier form was left within its answer, by an error, a time limit or any other unwinding. What
the program still has to say would be taken for the answer of another form, so nothing is sent."))

(define-condition nested-call (broken) ()
  (:report "this thread is within another call on the store, which goes on")
  (:documentation
   "An interrupt or a finalizer called within another call of its thread on the store, which goes on. Nothing was
sent, and there is nothing to open again."))

(deftype own-error ()
  "What a call signals of the store itself; a nested call is an interrupt's, which came between."
  '(and store-error (not nested-call)))

(define-condition fault (store-error)
  ((number :initarg :number :reader fault-number)
   (name :initarg :name :reader fault-name)
   (cause :initarg :cause :reader fault-cause)
   (folder :initarg :folder :initform nil :reader fault-folder))
  (:report (lambda (condition stream)
             (format stream "~D ~A~@[: ~A~]~@[ (~A)~]~@[~A~]" (fault-number condition) (fault-name condition)
                     (and (string/= (fault-cause condition) "") (fault-cause condition))
                     (fault-folder condition) (told-unanswered condition))))
  (:documentation
   "A store in this process cannot be opened, or its device failed: CAUSE says why. Whether the form is in
the store is not known, and the store is broken. FOLDER is that of a store that could not be opened, or NIL."))

(define-condition no-library (store-error)
  ((reason :initarg :reason :reader no-library-reason))
  (:report (lambda (condition stream)
             (format stream "there is no store in this process: ~A" (no-library-reason condition))))
  (:documentation "The library cannot be loaded, or this Lisp has no way to call it."))

(define-condition no-program (store-error)
  ((path :initarg :path :reader no-program-path)
   (reason :initarg :reason :reader no-program-reason))
  (:report (lambda (condition stream)
             (format stream "the program ~S cannot be started: ~A"
                     (no-program-path condition) (no-program-reason condition))))
  (:documentation "The program of this path cannot be started: it is not there, or is no program."))

(define-condition no-node (store-error)
  ((seconds :initarg :seconds :reader no-node-seconds)
   (reason :initarg :reason :reader no-node-reason))
  (:report (lambda (condition stream)
             (format stream "no node answered within ~A seconds: ~A~@[~A~]"
                     (no-node-seconds condition) (no-node-reason condition) (told-unanswered condition))))
  (:documentation
   "No node answered in time. What was sent may be carried out later, or not; sent again under the same name
it is carried out once."))

(define-condition closed (store-error) ()
  (:report "the store is closed")
  (:documentation "The store was closed by CLOSE-STORE."))

(deftype unanswered ()
  "What leaves the forms that were sent without an answer."
  '(or stopped timed-out fault no-node))

(defun tell-forms (outcomes texts first)
  "The outcomes, of which each condition is told which of TEXTS it is of. FIRST is the index of the first one, or NIL of a form alone."
  (loop for outcome in outcomes
        for text in texts
        for place from 0
        do (when (typep outcome 'store-error) (concern outcome text (and first (+ first place)))))
  outcomes)

(defun texts-of (forms text-of)
  "The text of each form. One that cannot be sent is told by its index."
  (loop for form in forms
        for index from 0
        collect (handler-bind ((unsendable (lambda (condition) (setf (store-error-index condition) index))))
                  (funcall text-of form))))

(defun value-of (outcome)
  "The value of a form; or its condition is signalled."
  (if (typep outcome 'store-error) (error outcome) outcome))

(defun cannot-send (object reason &rest arguments)
  (error 'unsendable :object object :reason (apply #'format nil reason arguments)))
