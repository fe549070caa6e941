;;;; Messages with numbers: each is carried out once, whatever becomes of the program that does it.

(in-package "PAZTURROK-CLIENT")

(defstruct (feed (:constructor make-feed (folder words naming)) (:copier nil))
  "A program over a folder that carries out messages and answers questions. It belongs to one thread at a time."
  folder
  words
  naming
  (program nil)                                 ; NIL while none runs
  (owner (process-number) :type integer)        ; the process that it is open in
  (closed-p nil)
  (last 0 :type unsigned-byte))                 ; the number of the last message

(defstruct (embedded-feed (:include feed) (:constructor make-embedded-feed (folder path existing ratio naming)) (:copier nil))
  "The same in this process, by the library of this path, or by the one that is found."
  path
  existing
  ratio)

(defstruct (named-feed (:include feed) (:constructor make-named-feed (folder words naming client-name)) (:copier nil))
  "The same of a client that has a name: the store keeps the answer to its last message."
  client-name)

(setf (documentation 'feed-last 'function)
      "The number of the last message that was sent, or that the store told when it was opened: of a client with a name that of its own
messages.")

(defmethod print-object ((feed feed) stream)
  (print-unreadable-object (feed stream :type t :identity t)
    (format stream "~A ~D" (feed-folder feed) (feed-last feed))))

(define-condition lost-answer (store-error)
  ((number :initarg :number :reader lost-answer-number))
  (:report (lambda (condition stream)
             (format stream "message ~D was carried out, and its answer was lost~@[~A~]"
                     (lost-answer-number condition) (told-form condition))))
  (:documentation "The message was carried out, once; its answer was lost, and it is not sent again."))

(defmethod leave-to-parent ((feed feed))
  (unless (= (feed-owner feed) (process-number))
    (setf (feed-owner feed) (process-number))
    (leave-in-child feed)))

(defgeneric leave-in-child (feed)
  (:documentation "Lets go of what is the parent's alone, without a word to it. The library sees a fork by itself.")
  (:method ((feed feed))
    (when (program-p (feed-program feed))
      (close-in-child (feed-program feed))
      (setf (feed-program feed) nil))))

;;; Frames and answers

(defun message-frame (number text)
  (format nil "do ~D ~D~%~A~%" number (length text) text))

(defun question-frame (text)
  (format nil "ask ~D~%~A~%" (length text) text))

(defun next-of (feed)
  "The next character of the program's output; at its end STOPPED is signalled."
  (or (read-char (program-from (feed-program feed)) nil)
      (multiple-value-bind (status fault) (leave feed)
        (error 'stopped :status status :fault fault))))

(defun next-line (feed)
  (with-output-to-string (line)
    (loop for char = (next-of feed)
          until (char= char #\Newline)
          do (write-char char line))))

(defun numeral (text line)
  (if (and (plusp (length text)) (every (lambda (char) (char<= #\0 char #\9)) text))
      (parse-integer text)
      (malformed line "no number")))

(defun read-position (feed)
  (let ((line (next-line feed)))
    (unless (and (> (length line) 3) (string= line "at " :end1 3)) (malformed line "no position"))
    (numeral (subseq line 3) line)))

(defun read-sized-answer (feed wanted)
  "The text of the next answer, which has to be that of WANTED: a number, or `by` and a number; or NIL of a question."
  (let* ((line (next-line feed))
         (space (or (position #\Space line :from-end t) (malformed line "no head of an answer")))
         (head (subseq line 0 space))
         (text (make-string (numeral (subseq line (1+ space)) line))))
    (unless (string= head (if wanted (princ-to-string wanted) "ask"))
      (malformed line "it is not that of ~A" (or wanted "a question")))
    (map-into text (lambda () (next-of feed)))
    (unless (char= (next-of feed) #\Newline) (malformed text "it is longer than its length"))
    text))

(defun exchange-frames (feed frames numbers receive)
  "Sends frames, and calls RECEIVE with the text of each answer. Whatever leaves it in another way ends the program."
  (let ((whole-p nil))
    (unwind-protect
         (handler-case
             (let ((to (program-to (feed-program feed))))
               (dolist (frame frames) (write-string frame to))
               (finish-output to)
               (dolist (number numbers) (funcall receive (read-sized-answer feed number)))
               (setf whole-p t))
           (stream-error ()
             (multiple-value-bind (status fault) (leave feed)
               (error 'stopped :status status :fault fault))))
      (unless whole-p (leave feed)))))

;;; Opening and closing

(defparameter *restarts* 5
  "How often the program is started again, one time after the other, before any answer has come.")

(defgeneric leave (feed)
  (:documentation
   "Ends the program, if one runs, and gives its status and what it wrote to standard error; or leaves the nodes.")
  (:method ((feed feed))
    (let ((program (feed-program feed)))
      (setf (feed-program feed) nil)
      (if program (end program) (values nil nil)))))

(defun call-feed-library (feed function &rest arguments)
  "What a call of the library gives. After a fault the next one opens the store again."
  (handler-bind (((and own-error (or fault broken)) (lambda (condition)
                                                      (declare (ignore condition))
                                                      (leave feed))))
    (apply function (feed-program feed) arguments)))

(defun killed-p (condition)
  "Whether the program was killed. One that ends by itself has a status of 0 to 3."
  (let ((status (stopped-status condition)))
    (not (and status (<= 0 status 3)))))

(defun open-feed-once (feed)
  "Starts the program, or calls the library, asks how it prints symbols, and gives the position that it told."
  (let ((whole-p nil))
    (unwind-protect
         (handler-bind ((stopped (lambda (condition) (setf (stopped-folder condition) (feed-folder feed)))))
           (let ((position (start-feed feed)))
             (ask-feed-naming feed)
             (setf position (ask-position feed position))
             (setf (feed-last feed) (max position (feed-last feed))
                   whole-p t)
             position))
      (unless whole-p (leave feed)))))

(defgeneric start-feed (feed)
  (:documentation "Starts the program, or calls the library, and gives the position that it tells.")
  (:method ((feed feed))
    (setf (feed-program feed) (launch (feed-words feed)))
    (read-position feed))
  (:method ((feed embedded-feed))
    (setf (feed-program feed)
          (open-library (embedded-feed-path feed) (feed-folder feed) (embedded-feed-existing feed) (embedded-feed-ratio feed)))
    (call-feed-library feed #'library-position)))

(defgeneric ask-position (feed told)
  (:documentation "The number of the last message that the store has: what it told, or what it is asked for.")
  (:method ((feed feed) told) told))

(defun open-feed-again (feed)
  "The same, where the program may be killed meanwhile."
  (loop for stops from 1
        do (handler-case (return (open-feed-once feed))
             (stopped (condition)
               (when (or (not (killed-p condition)) (> stops *restarts*)) (error condition))))))

(defun open-feed (program folder &key (package *package*) intern options existing one-sync snapshot-ratio (unicode t) client-name)
  "Starts PROGRAM over FOLDER to feed it messages, and gives the feed when it is open. PROGRAM, PACKAGE, INTERN, OPTIONS,
EXISTING, ONE-SYNC, SNAPSHOT-RATIO and UNICODE are those of OPEN-STORE. One feed at a time may be open on a store.
With CLIENT-NAME the store keeps the number and the answer of the last message under this name. Then each message waits for the
answer to the one before it, and is sent again where the program was killed: no answer is lost."
  (let* ((folder (folder-word folder))
         (naming (make-naming :package (find-package package) :interns-p intern :unicode-p unicode))
         (feed (if (library-word-p program)
                   (make-embedded-feed folder (library-path program) existing snapshot-ratio naming)
                   (make-program-feed folder
                                      (append (list (native-word program) "run" folder "--messages") options
                                              (flag-words existing one-sync))
                                      naming client-name))))
    (when (and (or options one-sync) (embedded-feed-p feed)) (error "a store in this process has no options and two syncs"))
    (when (and client-name (embedded-feed-p feed)) (error "a store in this process knows no names of clients"))
    (check-snapshot-ratio snapshot-ratio (embedded-feed-p feed))
    (open-feed-again feed)
    feed))

(defun make-program-feed (folder words naming client-name)
  (if client-name
      (make-named-feed folder words naming (check-name client-name))
      (make-feed folder words naming)))

(defun close-feed (feed)
  "Ends the program, and gives its status; or leaves the nodes. What was answered is in the store."
  (alone (feed)
    (setf (feed-closed-p feed) t)
    (values (leave feed))))

(defmacro with-feed ((feed program folder &rest options) &body body)
  "Evaluates BODY with FEED bound to what OPEN-FEED gives, and closes it."
  `(let ((,feed (open-feed ,program ,folder ,@options :package ,(package-name *package*))))
     (unwind-protect (progn ,@body) (close-feed ,feed))))

(defun make-feed-ready (feed)
  (when (feed-closed-p feed) (error 'closed))
  (unless (feed-program feed) (open-feed-again feed)))

;;; Values

(defparameter *qualified-question*
  (format nil "(COMMON-LISP:LIST COMMON-LISP:*PACKAGE*~{ 'COMMON-LISP:~A~})" *operators*)
  "What the current package is, and which symbols of COMMON-LISP are printed in it without a prefix.")

(defgeneric ask-feed-naming (feed)
  (:documentation "Asks how symbols are printed.")
  (:method ((feed feed)) (take-naming feed (exchange-question feed *qualified-question*))))

(defgeneric exchange-question (feed text)
  (:documentation "The answer to a question, of a feed that is open.")
  (:method ((feed feed) text) (exchange-frame feed (question-frame text) nil))
  (:method ((feed embedded-feed) text) (call-feed-library feed #'library-ask text)))

(defun exchange-frame (feed frame wanted)
  "The answer to a frame, of a feed that is open; WANTED is that of READ-SIZED-ANSWER."
  (let ((answer nil))
    (exchange-frames feed (list frame) (list wanted) (lambda (text) (setf answer text)))
    answer))

(defun take-naming (feed answer)
  "Takes the answer to the question for the names."
  (let* ((named (unless (refusal-of answer)
                  (parse-answer answer (lambda (prefix name) (if prefix nil name)))))
         (naming (feed-naming feed)))
    (setf (naming-current naming) (or (first named) "")
          (naming-bare naming) (remove nil (rest named)))))

(defun feed-outcome (feed answer)
  "The value that an answer tells; or the condition that the form was refused, or answered with nonsense."
  (handler-case
      (multiple-value-bind (number name) (refusal-of answer)
        (if number
            (make-condition 'refused :number number :name name)
            (let ((naming (feed-naming feed)))
              (parse-answer answer (lambda (prefix name)
                                     (symbol-of (home-named prefix name naming) name naming))
                            (naming-unicode-p naming)))))
    (malformed-answer (condition) condition)))

(defun feed-text (feed form)
  "The text of a form, which is an object, or a text already. That of an object means the same whatever package is current, as another
client may have changed it."
  (let ((text (if (stringp form) form (values (form-text form (feed-naming feed) t)))))
    (check-characters text text)
    (when (> (length text) +form-limit+) (cannot-send text "it is longer than ~D characters" +form-limit+))
    text))

;;; Sending

(defgeneric send-messages (feed texts receive)
  (:documentation "Sends texts at once, of which each is carried out once, and calls RECEIVE with the outcome of each."))

(defun next-numbers (feed texts)
  "The numbers of messages with these texts."
  (prog1 (loop for number from (1+ (feed-last feed)) repeat (length texts) collect number)
    (incf (feed-last feed) (length texts))))

(defmethod send-messages ((feed embedded-feed) texts receive)
  (make-feed-ready feed)
  (dolist (answer (call-feed-library feed #'library-do (next-numbers feed texts) texts))
    (funcall receive (feed-outcome feed answer))))

(defmethod send-messages ((feed feed) texts receive)
  "Each is sent to the program under a number."
  (make-feed-ready feed)
  (let ((numbers (next-numbers feed texts)) (stops 0))
    (flet ((take-outcome (outcome)
             (pop numbers)
             (pop texts)
             (funcall receive outcome)))
      (loop while texts
            do (let ((before (length texts)))
                 (handler-case
                     (progn
                       (unless (feed-program feed) (open-feed-again feed))
                       (exchange-frames feed (mapcar #'message-frame numbers texts) numbers
                                        (lambda (answer) (take-outcome (feed-outcome feed answer)))))
                   (stopped (condition)
                     (setf stops (if (< (length texts) before) 1 (1+ stops)))
                     (when (or (not (killed-p condition)) (> stops *restarts*)) (error condition))
                     (let ((position (open-feed-again feed)))
                       (loop while (and numbers (<= (first numbers) position))
                             do (take-outcome (make-condition 'lost-answer :number (first numbers))))))))))))

(defmethod room-of ((feed feed)) +pipe-room+)
(defmethod room-of ((feed embedded-feed)) +library-room+)

(defun call-telling (texts first function)
  "The outcomes of texts, with which FUNCTION calls its argument one by one. Each condition is told which form it is of, and so is
one that leaves the others without an answer. FIRST is the index of the first text, or NIL of a form alone."
  (let ((outcomes '()) (unanswered texts))
    (handler-bind ((unanswered (lambda (condition)
                                 (when unanswered
                                   (concern condition (first unanswered) (and first (+ first (length outcomes))))))))
      (funcall function (lambda (outcome)
                          (push outcome outcomes)
                          (pop unanswered))))
    (tell-forms (nreverse outcomes) texts first)))

(defun feed-texts (feed texts first)
  "The outcomes of texts, each carried out once."
  (call-telling texts first
                (lambda (receive)
                  (loop while texts
                        do (let ((some (subseq texts 0 (first-texts texts (room-of feed)))))
                             (alone (feed)
                               (send-messages feed some receive)
                               (when (changes-naming-p (first (last some))) (ask-feed-naming feed)))
                             (setf texts (nthcdr (length some) texts)))))))

(defun feed-all (feed forms)
  "Has many forms carried out, objects or texts, each once. Gives the value of each, or the condition in its place."
  (feed-texts feed (texts-of forms (lambda (form) (feed-text feed form))) 0))

(defgeneric send-numbered (feed text number receive)
  (:documentation "Sends a text under a number that the caller chose, and calls RECEIVE with its outcome.")
  (:method (feed text number receive)
    (declare (ignore text number receive))
    (error "~S is of no client with a name, and takes no numbers" feed)))

(defun feed-form (feed form &key number)
  "Has one form carried out, once, and gives its value. A client with a name may give it a NUMBER of its own, greater than that of its last
message: the same form is sent again under that number, by this image or another process, and its answer comes again."
  (let ((texts (list (feed-text feed form))))
    (value-of (first (if number
                         (call-telling texts nil (lambda (receive)
                                                   (alone (feed)
                                                     (send-numbered feed (first texts) number receive)
                                                     (when (changes-naming-p (first texts)) (ask-feed-naming feed)))))
                         (feed-texts feed texts nil))))))

(defun asked-value (feed form ask)
  "The value of a question, to whose text ASK gives the text of the answer."
  (let ((text (feed-text feed form)))
    (value-of (first (call-telling (list text) nil
                                   (lambda (receive)
                                     (alone (feed) (funcall receive (feed-outcome feed (funcall ask text))))))))))

(defgeneric answer-to-question (feed text)
  (:documentation "The text of the answer to a question.")
  (:method ((feed feed) text) (call-with-program feed (lambda () (exchange-question feed text)))))

(defun call-with-program (feed function)
  "What FUNCTION gives, which speaks to the program of a feed; where that was killed it is called again."
  (loop for stops from 1
        do (handler-case (progn (make-feed-ready feed)
                                (return (funcall function)))
             (stopped (condition)
               (when (or (not (killed-p condition)) (> stops *restarts*)) (error condition))))))

(defgeneric feed-snapshot (feed)
  (:documentation "Takes a snapshot of a store in this process, as SNAPSHOT.")
  (:method ((feed feed)) (error "the store is a program, and no library in this process")))

(defmethod feed-snapshot ((feed embedded-feed))
  (let ((line (alone (feed)
                (make-feed-ready feed)
                (call-feed-library feed #'library-snapshot))))
    (when line
      (multiple-value-bind (number name) (refusal-of line)
        (error 'refused :number number :name name)))))

(defun ask (feed form)
  "Asks for the value of a form, which may change nothing; of nodes one is asked, as far as its store has come."
  (asked-value feed form (lambda (text) (answer-to-question feed text))))
