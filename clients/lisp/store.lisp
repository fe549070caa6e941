;;;; A store: forms are sent to it, one after the other or many at once, and their values come back.

(in-package "PAZTURROK-CLIENT")

(defstruct (store (:constructor make-store (folder words naming time-limit opening-limit)) (:copier nil))
  "A program over a folder. It belongs to one thread at a time."
  folder
  words
  naming
  time-limit
  opening-limit
  (program nil)
  (owner (process-number) :type integer)        ; the process that the program is a child of
  (state :closed :type (member :good :broken :ended :closed))
  (homes '() :type list)                        ; packages that the store is known to have
  (round-trips 0 :type unsigned-byte))

(defstruct (embedded-store (:include store) (:constructor make-embedded-store (folder path existing ratio naming)) (:copier nil))
  "A store in this process, by the library of this path, or by the one that is found."
  path
  existing
  ratio)

(setf (documentation 'store-state 'function)
      ":GOOD if each form that was sent has its whole answer; :BROKEN if one was left within its answer;
:ENDED if a text that could not be read ended the session, and the next form opens the store again; :CLOSED."
      (documentation 'store-round-trips 'function)
      "How often something was sent, and answers were waited for.")

(defmethod print-object ((store store) stream)
  (print-unreadable-object (store stream :type t :identity t)
    (format stream "~A ~A" (store-folder store) (store-state store))))

(defun store-process (store)
  "The process of the program, as UIOP has it, or NIL."
  (and (program-p (store-program store)) (program-process (store-program store))))

(defmethod leave-to-parent ((store store))
  "A program answers its parent alone, so a child has no store until it opens it again."
  (unless (= (store-owner store) (process-number))
    (setf (store-owner store) (process-number))
    (when (program-p (store-program store))
      (close-in-child (store-program store))
      (setf (store-program store) nil)
      (unless (eq (store-state store) :closed) (setf (store-state store) :broken)))))

;;; Texts to and fro

(defun end-session (store state)
  "Ends the program, and gives its status and what it wrote to standard error."
  (setf (store-state store) state)
  (end (store-program store)))

(defun stop (store seconds)
  "Signals why the program says no more."
  (let ((overdue-p (program-overdue-p (store-program store))))
    (multiple-value-bind (status fault) (end-session store :broken)
      (if overdue-p
          (error 'timed-out :seconds seconds)
          (error 'stopped :status status :fault fault)))))

(defgeneric ends-session-p (store answer)
  (:documentation "Whether the session ends after this answer.")
  (:method ((store store) answer)
    (let ((number (refusal-of answer)))
      (and number (or (<= number 25) (member "--strict" (store-words store) :test #'equal)))))
  (:method ((store embedded-store) answer)
    (declare (ignore answer))
    nil))

(defgeneric exchange (store texts receive seconds)
  (:documentation
   "Sends the texts of whole forms, and calls RECEIVE with the text of each answer, up to one that ends the session."))

(defmacro breaking-on-fault ((store) &body body)
  "What BODY gives, which calls the library. After a fault the store is broken."
  `(handler-bind (((and own-error (or fault broken)) (lambda (condition)
                                                       (declare (ignore condition))
                                                       (setf (store-state ,store) :broken))))
     ,@body))

(defmethod exchange ((store embedded-store) texts receive seconds)
  "No answer is left unread here, so only a fault breaks the store."
  (when seconds (error "a store in this process has no time limits"))
  (breaking-on-fault (store) (mapc receive (library-answers (store-program store) texts)))
  (incf (store-round-trips store))
  (setf (store-state store) :good))

(defmethod exchange ((store store) texts receive seconds)
  "The store is broken before anything is sent, and good when all is read: whatever leaves this function in
another way leaves it broken."
  (check-type seconds (or null (real (0))))
  (let ((program (store-program store)))
    (setf (store-state store) :broken
          (program-overdue-p program) nil)
    ;; To ECL an end that was not read yet can be listened to, as a character can.
    (case (read-char-no-hang (program-from program) nil :end)
      ((nil))
      (:end (stop store seconds))
      (t (malformed "" "more was answered than was asked")))
    (setf (program-begins program)
          (loop for text in texts
                collect (program-line program)
                do (incf (program-line program) (1+ (count #\Newline text)))))
    (flet ((say ()
             (dolist (text texts) (write-line text (program-to program)))
             (finish-output (program-to program))
             (loop repeat (length texts)
                   for answer = (answer-text (lambda () (or (next-character program) (stop store seconds))))
                   for last-p = (ends-session-p store answer)
                   do (funcall receive answer)
                   until last-p)))
      (handler-case (if seconds (call-with-limit program seconds #'say) (say))
        (stream-error () (stop store seconds))))
    (when (program-overdue-p program) (stop store seconds))
    (incf (store-round-trips store))
    (setf (store-state store) :good)))

(defun answer-to (store text seconds)
  "The text of the answer to the text of one form."
  (let ((answer nil))
    (exchange store (list text) (lambda (text) (setf answer text)) seconds)
    answer))

;;; Opening and closing

(defparameter *naming-question*
  (format nil "(LIST *PACKAGE* 'IN-READTABLE~{ '~A~})" *operators*)
  "What the current package is, and which symbols of COMMON-LISP are printed in it without a prefix.")

(defun ask-naming (store seconds)
  "Asks how symbols are printed. The store is good when that is known."
  (let* ((answer (answer-to store *naming-question* seconds))
         (named (progn (setf (store-state store) :broken)
                       (parse-answer answer (lambda (prefix name) (if prefix nil name))))))
    (unless (and (consp named) (every #'stringp (remove nil named)))
      (malformed answer "no package and names"))
    (setf (naming-current (store-naming store)) (first named)
          (naming-bare (store-naming store)) (remove nil (rest named))
          (store-state store) :good)))

(defgeneric start (store)
  (:documentation "A program that is started, or a store of the library that is opened.")
  (:method ((store store)) (launch (store-words store)))
  (:method ((store embedded-store))
    (open-library (embedded-store-path store) (store-folder store) (embedded-store-existing store) (embedded-store-ratio store))))

(defun open-program (store)
  "Starts the program, or calls the library, and waits until the store is open."
  (setf (store-state store) :broken
        (store-homes store) '()
        (store-program store) nil
        (store-program store) (start store))
  (unwind-protect (handler-bind ((stopped (lambda (condition) (setf (stopped-folder condition) (store-folder store)))))
                    (ask-naming store (store-opening-limit store)))
    (unless (eq (store-state store) :good) (end-session store :broken))))

(defun make-ready (store)
  "Sees to it that the store can be sent to, or signals that it cannot."
  (ecase (store-state store)
    (:good)
    (:ended (open-program store))
    (:broken (error 'broken))
    (:closed (error 'closed))))

(defun open-store (program folder
                   &key (package *package*) intern time-limit opening-time-limit options existing one-sync snapshot-ratio
                     (unicode t))
  "Starts PROGRAM over FOLDER, and gives the store when it is open. Where PROGRAM is :LIBRARY, or a list of it and the
path of libpazturrok.so, the store is in this process, and has no time limits and no options; EXISTING refuses a
folder that holds none. A store in this process takes a snapshot by itself once its file has 1 MiB and is SNAPSHOT-RATIO
times as long as when it was begun: 10 without it, 0 for never.

PACKAGE stands for the store's COMMON-LISP-USER: symbols without a prefix are those that it finds. A name in
an answer that the image has no symbol for becomes a symbol of a package of the client's own, as
PAZTURROK/COMMON-LISP-USER; with INTERN true it becomes one of PACKAGE, as READ would make it.
TIME-LIMIT is how many seconds an answer may take, OPENING-TIME-LIMIT how many the opening, NIL for any time.
With ONE-SYNC halves that are begun are kept with one sync, on a disk whose writes mix; a store that is kept so wants it each
time. OPTIONS are further words of the command line, as (\"--snapshot-every\" \"1000\").
Without UNICODE texts are ASCII alone."
  (let* ((folder (folder-word folder))
         (naming (make-naming :package (find-package package) :interns-p intern :unicode-p unicode))
         (own '("--rescue" "--group"))
         (further (remove-if (lambda (option) (member option own :test #'equal)) options))
         (store (if (library-word-p program)
                    (make-embedded-store folder (library-path program) existing snapshot-ratio naming)
                    (make-store folder
                                (append (list (native-word program) "run" folder) own further (flag-words existing one-sync))
                                naming time-limit opening-time-limit))))
    (when (and (embedded-store-p store) (or time-limit opening-time-limit options one-sync))
      (error "a store in this process has no time limits and no options, and two syncs"))
    (check-snapshot-ratio snapshot-ratio (embedded-store-p store))
    (open-program store)
    store))

(defun flag-words (existing one-sync)
  "The words of the command line for what is asked for."
  (append (and existing '("--existing")) (and one-sync '("--one-sync"))))

(defun check-snapshot-ratio (ratio embedded-p)
  (check-type ratio (or null (unsigned-byte 64)))
  (when (and ratio (not embedded-p)) (error "SNAPSHOT-RATIO is of a store in this process; a program takes it as an option")))

(defun snapshot (store)
  "Takes a snapshot of a store in this process: the next opening reads the world, and not each form that made it."
  (let ((line (call-library store #'library-snapshot)))
    (when line
      (multiple-value-bind (number name) (refusal-of line)
        (error 'refused :number number :name name)))))

(defun figures (store)
  "The generation, the number of records and the version of the file in use of a store in this process."
  (call-library store #'library-figures))

(defgeneric call-library (store function)
  (:documentation "What a call of the library gives.")
  (:method ((store store) function)
    (declare (ignore function))
    (error "the store is a program, and no library in this process"))
  (:method ((store embedded-store) function)
    (alone (store)
      (make-ready store)
      (breaking-on-fault (store) (funcall function (store-program store))))))

(defun close-store (store)
  "Ends the session, and gives the status of the program. What was answered is in the store. It waits ten
seconds at most for the program, and then kills it."
  (alone (store) (close-program store)))

(defun close-program (store)
  (if (store-program store)
      (values (end-session store :closed))
      (progn (setf (store-state store) :closed) nil)))

(defun reopen-store (store)
  "Ends the program if it still runs, and opens the store again."
  (alone (store)
    (close-program store)
    (open-program store))
  store)

(defmacro with-store ((store program folder &rest options) &body body)
  "Evaluates BODY with STORE bound to what OPEN-STORE gives, and closes it. PACKAGE is the package in which
BODY was read, if the options have none."
  `(let ((,store (open-store ,program ,folder ,@options :package ,(package-name *package*))))
     (unwind-protect (progn ,@body) (close-store ,store))))

;;; Forms

(defun check-homes (store homes form seconds)
  "Signals that FORM cannot be sent if it names a package that the store has not."
  (dolist (home (set-difference homes (store-homes store) :test #'string=))
    (alone (store)
      (make-ready store)
      (when (refusal-of (answer-to store (format nil "(IMPORT NIL ~A)" (string-text home)) seconds))
        (cannot-send form "the store has no package ~S" home))
      (push home (store-homes store)))))

(defun sendable-text (store form seconds)
  "The text of a form that is an object."
  (multiple-value-bind (text homes) (form-text form (store-naming store))
    (check-homes store homes form seconds)
    text))

(defun check-text (text)
  (check-characters text text)
  (unless (one-form-p text) (cannot-send text "it is not one whole form"))
  (when (> (length text) +form-limit+) (cannot-send text "it is longer than ~D characters" +form-limit+))
  text)

(defun changes-naming-p (text)
  "Whether the form may change how symbols are printed after it."
  (let ((letters (remove-if (lambda (char) (find char "\\|")) text)))
    (some (lambda (operator) (search operator letters :test #'char-equal))
          '("IN-PACKAGE" "USE-PACKAGE" "IMPORT" "EXPORT"))))

(defun without-name (reason name)
  "What is told of a refusal, without the name before it: the program tells a part of the form behind the name."
  (let ((start (length (concatenate 'string name ": "))))
    (if (eql (mismatch (concatenate 'string name ": ") reason) start) (subseq reason start) reason)))

(defun outcome (store answer &optional reason place)
  "The value that an answer tells; or the condition that the form was refused, or answered with nonsense."
  (handler-case
      (multiple-value-bind (number name) (refusal-of answer)
        (if number
            (make-condition 'refused :number number :name name :reason (and reason (without-name reason name)) :place place)
            (let ((naming (store-naming store)))
              (parse-answer answer (lambda (prefix name)
                                     (symbol-of (home-named prefix name naming) name naming))
                            (naming-unicode-p naming)))))
    (malformed-answer (condition) condition)))

(defun last-line (text)
  (and text (subseq text (1+ (or (position #\Newline text :from-end t) -1)))))

(defun outcomes (store texts answers seconds)
  "The outcomes of the forms that were answered. Only the last of TEXTS may change how symbols are printed."
  (let* ((last (first (last answers)))
         (reasons (reasons (store-program store) answers))
         (before (mapcar (lambda (answer reason) (outcome store answer reason)) (butlast answers) reasons))
         (place (when (ends-session-p store last) (last-line (nth-value 1 (end-session store :ended))))))
    (when (and (= (length answers) (length texts))
               (eq (store-state store) :good)
               (changes-naming-p (first (last texts))))
      (ask-naming store seconds))
    (append before (list (outcome store last (first (last reasons)) place)))))

(defun carry-out (store texts seconds)
  "Sends the texts of forms at once. Gives the outcomes of those that were answered, which are the first
ones, and the condition that kept it from going on, or NIL."
  (alone (store)
    (let ((answers '()) (hindrance nil))
      (handler-case
          (progn (make-ready store)
                 (exchange store texts (lambda (answer) (push answer answers)) seconds))
        (own-error (condition) (setf hindrance condition)))
      (values (and answers (outcomes store texts (nreverse answers) seconds)) hindrance))))

(defconstant +pipe-room+ 4000
  "How many characters are sent before their answers are read: as many as any pipe takes. So no pipe is ever
full while both programs write.")

(defconstant +library-room+ 1000000
  "How many characters are handed to the library at once, which are logged together.")

(defgeneric room-of (store)
  (:documentation "How many characters are sent to a store, or a feed, at once.")
  (:method ((store store)) +pipe-room+)
  (:method ((store embedded-store)) +library-room+))

(defun first-texts (texts total)
  "How many of the first texts can be sent at once: at least one, and then as many as TOTAL has room for; up to
the first one that changes how symbols are printed."
  (loop for text in texts
        for count from 1
        for room = (- total 1 (length text)) then (- room 1 (length text))
        when (and (minusp room) (> count 1)) return (1- count)
        when (changes-naming-p text) return count
        finally (return (length texts))))

(defun send-texts (store texts seconds first)
  "The outcomes of all texts. A condition that keeps the store from going on is signalled. FIRST is the index of the first
text, or NIL of a form alone."
  (let ((outcomes '()))
    (loop while texts
          do (let ((group (subseq texts 0 (first-texts texts (room-of store)))))
               (multiple-value-bind (done hindrance) (carry-out store group seconds)
                 (setf outcomes (revappend (tell-forms done texts first) outcomes)
                       texts (nthcdr (length done) texts)
                       first (and first (+ first (length done))))
                 (when hindrance
                   (when (and texts (typep hindrance 'unanswered)) (concern hindrance (first texts) first))
                   (restart-case (error hindrance)
                     (retry-form ()
                       :report "Open the store again, and send what was not answered once more."
                       (let-open store))
                     (skip-form ()
                       :report "Open the store again; what was not answered is left, and its value is NIL."
                       (let-open store)
                       (loop repeat (- (length group) (length done))
                             do (push nil outcomes)
                                (pop texts)
                                (when first (incf first)))))))))
    (nreverse outcomes)))

(defun let-open (store)
  "The next form opens the store again."
  (close-store store)
  (setf (store-state store) :ended))

(defun settle (store text outcome seconds &optional index)
  "The value of the form; or what its outcome is instead is signalled."
  (loop while (typep outcome 'store-error)
        do (restart-case (error outcome)
             (retry-form ()
               :report "Send the form once more."
               (setf outcome (first (send-texts store (list text) seconds index))))
             (skip-form ()
               :report "Leave the form; its value is NIL."
               (setf outcome nil))))
  outcome)

(defun send-text (store text &key (time-limit (store-time-limit store)))
  "Sends the text of one whole form, and gives its value. It is read under the standard readtable, in
COMMON-LISP-USER, in base 10."
  (let ((text (check-text text)))
    (settle store text (first (send-texts store (list text) time-limit nil)) time-limit)))

(defun send (store form &key (time-limit (store-time-limit store)))
  "Sends a form as an object, and gives its value."
  (let ((text (sendable-text store form time-limit)))
    (settle store text (first (send-texts store (list text) time-limit nil)) time-limit)))

(defun send-all (store forms &key (time-limit (store-time-limit store)) (on-refusal :signal))
  "Sends many forms, without waiting for each answer, and gives the list of their values. All of them are
done, whether one is refused or not. A refusal is signalled when all are answered; or, where ON-REFUSAL is
:RETURN, its condition stands in the place of a value. TIME-LIMIT is for the answers of what is sent at once."
  (let* ((texts (texts-of forms (lambda (form) (sendable-text store form time-limit))))
         (outcomes (send-texts store texts time-limit 0)))
    (ecase on-refusal
      (:return outcomes)
      (:signal (loop for text in texts
                     for outcome in outcomes
                     for index from 0
                     collect (settle store text outcome time-limit index))))))
