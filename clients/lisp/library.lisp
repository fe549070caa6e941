;;;; The store in this process: libpazturrok, called by sb-alien. It executes texts, as the program does over its pipes.
;;;;
;;;; No unwinding leaves a call, or the copy of its answer, in the middle: interrupts wait until it has ended.

(in-package "PAZTURROK-CLIENT")

(defstruct (library (:constructor make-library (calls id)) (:copier nil))
  "An open store of the library. CALLS are the addresses of its calls, ID the number of the store there."
  calls id)

(defconstant +device+ 60)
(defconstant +reopen+ 61)

(defun library-word-p (program)
  "Whether a store is to be in this process: PROGRAM is :LIBRARY, or a list of it and the library's path."
  (or (eq program :library) (and (consp program) (eq (first program) :library))))

(defun native-word (file)
  "A path as the system has it."
  (if (pathnamep file) (uiop:native-namestring file) file))

(defun folder-word (folder)
  "The path of a folder as the system has it, without slashes at its end: the name of a file comes after one."
  (let* ((word (native-word folder)) (trimmed (string-right-trim "/" word)))
    (if (string= trimmed "") word trimmed)))

(defun library-path (program)
  "The path of the library that PROGRAM, for which LIBRARY-WORD-P holds, names; or NIL."
  (and (consp program) (native-word (second program))))

#-sbcl
(defun open-library (path folder existing ratio)
  (declare (ignore path folder existing ratio))
  (error 'no-library :reason (format nil "a store in this process asks for SBCL, and this is ~A"
                                     (lisp-implementation-type))))
#-sbcl
(progn
  (defun close-library (library) library)
  (defun library-answers (library texts) (declare (ignore texts)) library)
  (defun library-position (library) library)
  (defun library-do (library numbers texts) (declare (ignore numbers texts)) library)
  (defun library-ask (library text) (declare (ignore text)) library)
  (defun library-snapshot (library) library)
  (defun library-figures (library) library))

#+sbcl
(progn

(defstruct (calls (:copier nil))
  "The addresses of the library's calls in this run of the image."
  path
  (open 0 :type (unsigned-byte 64)) (execute 0 :type (unsigned-byte 64))
  (execute-all 0 :type (unsigned-byte 64)) (snapshot 0 :type (unsigned-byte 64)) (snapshot-ratio 0 :type (unsigned-byte 64))
  (position 0 :type (unsigned-byte 64)) (do 0 :type (unsigned-byte 64)) (ask 0 :type (unsigned-byte 64))
  (figures-of 0 :type (unsigned-byte 64)) (fault-of 0 :type (unsigned-byte 64))
  (close 0 :type (unsigned-byte 64)) (name 0 :type (unsigned-byte 64)))

(defvar *calls* nil "Those of the library that is loaded, or NIL.")

(defun forget-calls ()
  (setf *calls* nil))

;; An image that is saved and started again has no library, and no store.
(pushnew 'forget-calls sb-ext:*save-hooks*)

(defun address-of (name)
  (or (sb-sys:find-foreign-symbol-address name)
      (error 'no-library :reason (format nil "no library that is loaded has ~A" name))))

(defun load-calls (path)
  "The calls of the library, which is loaded once. Without PATH it is PAZTURROK_LIBRARY, or what the system finds."
  (let ((path (or path (uiop:getenvp "PAZTURROK_LIBRARY") "libpazturrok.so")))
    (unless (and *calls* (equal (calls-path *calls*) path))
      (handler-case (sb-alien:load-shared-object path :dont-save t)
        (error (condition) (error 'no-library :reason (princ-to-string condition))))
      (setf *calls* (make-calls :path path
                                :open (address-of "pazturrok_open")
                                :execute (address-of "pazturrok_execute")
                                :execute-all (address-of "pazturrok_execute_all")
                                :snapshot (address-of "pazturrok_snapshot")
                                :snapshot-ratio (address-of "pazturrok_snapshot_ratio")
                                :position (address-of "pazturrok_position")
                                :do (address-of "pazturrok_do")
                                :ask (address-of "pazturrok_ask")
                                :figures-of (address-of "pazturrok_figures_of")
                                :fault-of (address-of "pazturrok_fault_of")
                                :close (address-of "pazturrok_close")
                                :name (address-of "pazturrok_name"))))
    *calls*))

(defmacro foreign (address result &rest arguments)
  "Calls what is at ADDRESS. Each of ARGUMENTS is a value and its type in C."
  `(sb-alien:alien-funcall
    (sb-alien:sap-alien (sb-sys:int-sap ,address)
                        (sb-alien:function ,result ,@(mapcar #'second arguments)))
    ,@(mapcar #'first arguments)))

(sb-alien:define-alien-type id (sb-alien:unsigned 64))

(defmacro with-call ((&rest vectors) &body body)
  "Evaluates BODY with these vectors pinned, and no interrupt within."
  `(sb-sys:without-interrupts (sb-sys:with-pinned-objects (,@vectors) ,@body)))

(defun place-of (vector)
  (sb-sys:vector-sap vector))

(defun octets (text)
  (sb-ext:string-to-octets text :external-format :latin-1))

(defun copied-text (address length)
  "The characters of so many bytes."
  (declare (type (unsigned-byte 64) address) (type fixnum length))
  (let ((text (make-string length)) (sap (sb-sys:int-sap address)))
    (dotimes (place length text)
      (setf (schar text place) (code-char (sb-sys:sap-ref-8 sap place))))))

(defun zero-ended-text (octets start)
  (sb-ext:octets-to-string octets :start start :end (or (position 0 octets :start start) (length octets))
                                  :external-format :latin-1))

(defun refusal-name (calls number)
  (let ((sap (foreign (calls-name calls) sb-sys:system-area-pointer (number sb-alien:int))))
    (copied-text (sb-sys:sap-int sap) (loop for length from 0 until (zerop (sb-sys:sap-ref-8 sap length))
                                            finally (return length)))))

(defun signal-fault (calls fault &optional folder)
  "Signals what a fault of the library tells: its number, the system's error, and the cause; and the FOLDER of an opening."
  (let ((number (sb-sys:with-pinned-objects (fault) (sb-sys:signed-sap-ref-32 (place-of fault) 0))))
    (error 'fault :number number :name (refusal-name calls number) :cause (zero-ended-text fault 8) :folder folder)))

(defun fault-vector ()
  (make-array 128 :element-type '(unsigned-byte 8) :initial-element 0))

(defun id-vector (count)
  (make-array count :element-type '(unsigned-byte 64) :initial-element 0))

(defun open-library (path folder existing ratio)
  "Opens a store, which takes a snapshot by itself once its file has grown RATIO times; NIL is as often as the library has it."
  (let ((calls (load-calls path))
        (name (sb-ext:string-to-octets folder :null-terminate t))
        (id (id-vector 1))
        (fault (fault-vector)))
    (if (zerop (with-call (name id fault)
                 (foreign (calls-open calls) sb-alien:int
                          ((place-of name) sb-sys:system-area-pointer)
                          ((if existing 1 0) sb-alien:int)
                          ((place-of id) sb-sys:system-area-pointer)
                          ((place-of fault) sb-sys:system-area-pointer))))
        (let ((library (make-library calls (aref id 0))) (number (aref id 0)))
          (sb-ext:finalize library (lambda () (close-id calls number)) :dont-save t)
          (when ratio
            (sb-sys:without-interrupts (foreign (calls-snapshot-ratio calls) sb-alien:int (number id) (ratio (sb-alien:unsigned 64)))))
          library)
        (signal-fault calls fault folder))))

(defun close-id (calls id)
  ;; in an image that was saved there is neither
  (when (eq calls *calls*)
    (sb-sys:without-interrupts (foreign (calls-close calls) sb-alien:int (id id)))))

(defun close-library (library)
  (close-id (library-calls library) (library-id library)))

(defun ready-calls (library)
  (let ((calls (library-calls library)))
    (unless (eq calls *calls*) (error 'broken))
    calls))

(defun refusal-line (library number)
  "The line of a refusal after which the store goes on, as the program writes it; else its condition is signalled."
  (let ((calls (library-calls library)))
    (cond ((= number +reopen+) (error 'broken))
          ((or (= number +device+) (minusp number))
           (let ((fault (fault-vector)))
             (with-call (fault)
               (foreign (calls-fault-of calls) sb-alien:void ((library-id library) id)
                        ((place-of fault) sb-sys:system-area-pointer)))
             (signal-fault calls fault)))
          (t (format nil "! ~D ~A" number (refusal-name calls number))))))

(defun library-answer (library text)
  "The answer to the text of one form."
  (let ((calls (ready-calls library)) (octets (octets text)) (out (id-vector 2)) (answer nil) (number 0))
    (declare (type (simple-array (unsigned-byte 8) (*)) octets) (type fixnum number))
    (with-call (octets out)
      (setf number (foreign (calls-execute calls) sb-alien:int ((library-id library) id) (1 sb-alien:int)
                            ((place-of octets) sb-sys:system-area-pointer) ((length octets) sb-alien:size-t)
                            ((place-of out) sb-sys:system-area-pointer)
                            ((sb-sys:sap+ (place-of out) 8) sb-sys:system-area-pointer)))
      (when (zerop number)
        (setf answer (copied-text (aref out 0) (aref out 1)))))
    (or answer (refusal-line library number))))

(defun joined-octets (texts)
  "The bytes of all texts, and where each begins and how long it is."
  (let* ((parts (mapcar #'octets texts))
         (joined (make-array (max 1 (reduce #'+ parts :key #'length)) :element-type '(unsigned-byte 8)))
         (starts (id-vector (length parts)))
         (lengths (id-vector (length parts)))
         (at 0))
    (loop for part in parts
          for place from 0
          do (replace joined part :start1 at)
             (setf (aref starts place) at
                   (aref lengths place) (length part))
             (incf at (length part)))
    (values joined starts lengths)))

(defun taken-outcomes (outcomes)
  "The text of each answer, or the number of its refusal; within the call that filled them."
  (loop for at from 0 below (length outcomes) by 3
        for own = (sb-sys:signed-sap-ref-32 (place-of outcomes) (* 8 at))
        collect (if (zerop own) (copied-text (aref outcomes (+ at 1)) (aref outcomes (+ at 2))) own)))

(defun outcome-lines (library number answers count)
  "The lines of so many answers; where there are none, that of the refusal of all."
  (if (zerop number)
      (mapcar (lambda (answer) (if (stringp answer) answer (refusal-line library answer))) answers)
      (make-list count :initial-element (refusal-line library number))))

(defun library-all (library texts)
  "The answers to the texts of many forms. Those that write are logged together."
  (let ((calls (ready-calls library)) (count (length texts)) (answers '()) (number 0))
    (multiple-value-bind (joined starts lengths) (joined-octets texts)
      (let ((outcomes (id-vector (* 3 count))))
        (with-call (joined starts lengths outcomes)
          (let ((base (sb-sys:sap-int (place-of joined))))
            (dotimes (place count) (incf (aref starts place) base)))
          (setf number (foreign (calls-execute-all calls) sb-alien:int ((library-id library) id) (1 sb-alien:int)
                                ((place-of starts) sb-sys:system-area-pointer)
                                ((place-of lengths) sb-sys:system-area-pointer)
                                (count sb-alien:size-t)
                                ((place-of outcomes) sb-sys:system-area-pointer)))
          (when (zerop number) (setf answers (taken-outcomes outcomes))))))
    (outcome-lines library number answers count)))

(defun library-answers (library texts)
  (if (rest texts)
      (library-all library texts)
      (mapcar (lambda (text) (library-answer library text)) texts)))

(defun library-do (library numbers texts)
  "The answers to messages of these numbers. What they write is logged together."
  (let ((calls (ready-calls library)) (count (length texts)) (answers '()) (number 0))
    (multiple-value-bind (joined starts lengths) (joined-octets texts)
      (let ((outcomes (id-vector (* 3 count))) (messages (id-vector (* 3 count))))
        (with-call (joined messages outcomes)
          (loop with base = (sb-sys:sap-int (place-of joined))
                for own in numbers
                for place from 0
                do (setf (aref messages (* 3 place)) own
                         (aref messages (+ 1 (* 3 place))) (+ base (aref starts place))
                         (aref messages (+ 2 (* 3 place))) (aref lengths place)))
          (setf number (foreign (calls-do calls) sb-alien:int ((library-id library) id)
                                ((place-of messages) sb-sys:system-area-pointer)
                                (count sb-alien:size-t)
                                ((place-of outcomes) sb-sys:system-area-pointer)))
          (when (zerop number) (setf answers (taken-outcomes outcomes))))))
    (outcome-lines library number answers count)))

(defun library-ask (library text)
  "The answer to a question."
  (let ((calls (ready-calls library)) (octets (octets text)) (out (id-vector 2)) (answer nil) (number 0))
    (declare (type (simple-array (unsigned-byte 8) (*)) octets) (type fixnum number))
    (with-call (octets out)
      (setf number (foreign (calls-ask calls) sb-alien:int ((library-id library) id)
                            ((place-of octets) sb-sys:system-area-pointer) ((length octets) sb-alien:size-t)
                            ((place-of out) sb-sys:system-area-pointer)
                            ((sb-sys:sap+ (place-of out) 8) sb-sys:system-area-pointer)))
      (when (zerop number)
        (setf answer (copied-text (aref out 0) (aref out 1)))))
    (or answer (refusal-line library number))))

(defun library-position (library)
  "The number of the last message that the store holds."
  (let* ((calls (ready-calls library)) (position (id-vector 1))
         (number (with-call (position)
                   (foreign (calls-position calls) sb-alien:int ((library-id library) id)
                            ((place-of position) sb-sys:system-area-pointer)))))
    (unless (zerop number)
      (multiple-value-bind (refusal name) (refusal-of (refusal-line library number))
        (error 'refused :number refusal :name name)))
    (aref position 0)))

(defun library-snapshot (library)
  "Takes a snapshot. Gives the line of a refusal, or NIL."
  (let ((number (sb-sys:without-interrupts
                  (foreign (calls-snapshot (ready-calls library)) sb-alien:int ((library-id library) id)))))
    (unless (zerop number) (refusal-line library number))))

(defun library-figures (library)
  "The generation, the records and the version of the file in use."
  (let* ((calls (ready-calls library)) (figures (id-vector 3))
         (number (with-call (figures)
                   (foreign (calls-figures-of calls) sb-alien:int ((library-id library) id)
                            ((place-of figures) sb-sys:system-area-pointer)))))
    (unless (zerop number) (refusal-line library number))
    (values (aref figures 0) (aref figures 1) (logand (aref figures 2) #xFFFFFFFF))))
) ; sbcl

(defmethod reasons ((library library) answers)
  "The library tells the number alone."
  (mapcar (constantly nil) answers))

(defmethod end ((library library))
  (close-library library)
  (values 0 nil))
