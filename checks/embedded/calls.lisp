;;;; The client for Common Lisp with the store in its own process. PAZTURROK_LIBRARY names the library, PAZTURROK_FOLDER a folder for the
;;;; stores. The last line is `N passed, M failed'. On another Lisp than SBCL it is refused with a sentence.

(require :asdf)
(let ((*standard-output* (make-broadcast-stream)) (*error-output* (make-broadcast-stream)))
  (asdf:load-asd (merge-pathnames "../../clients/lisp/pazturrok-client.asd" *load-truename*))
  (asdf:load-system "pazturrok-client")
  (dolist (name '("harness" "interrupts"))
    (load (merge-pathnames (format nil "../lisp/~A.lisp" name) *load-truename*))))

(defpackage "EMBEDDED-CHECK"
  (:use "COMMON-LISP" "PAZTURROK-CLIENT")
  (:import-from "PAZTURROK-CHECK" "EXPECT" "SIGNALLED" "*PASSED*" "*FAILED*"))
(in-package "EMBEDDED-CHECK")

(defun folder (name)
  (concatenate 'string (string-right-trim "/" (uiop:getenv "PAZTURROK_FOLDER")) "/" name "/"))

(defun elsewhere ()
  (multiple-value-bind (name condition) (signalled (open-store :library (folder "store")))
    (expect "a store in this process is refused" 'no-library name)
    (expect "with a sentence" t (and (search "asks for SBCL" (princ-to-string condition)) t))))

(defun values-come-back ()
  (with-store (store :library (folder "values"))
    (dolist (value (list 0 -7 22/7 (expt 2 126) #\a #\Newline "" "plain" (format nil "a~%\"b\" \\ ~C" (code-char 0)) '(1 . 2)
                         '(a (b . c) "d") #() #(1 #(2) "x") nil t :key '|a b| 'some-symbol))
      (expect "a value" value (send store `(setf (get 'place 'value) ',value)))
      (expect "its property" value (send store '(get 'place 'value))))))

(defun ten-thousand-forms ()
  (with-store (store :library (folder "forms"))
    (expect "5,000 forms one by one, and what they set" t
            (loop for i from 1 to 5000
                  always (and (= i (send store `(setf (get 'counter 'count) ,i))) (= i (send store '(get 'counter 'count))))))
    (expect "5,000 forms at once" (loop for i from 1 to 5000 collect i)
            (send-all store (loop for i from 1 to 5000 collect `(setf (get 'counter 'count) ,i))))
    (expect "a refusal in between" '(1 31 3)
            (mapcar (lambda (outcome) (if (typep outcome 'refused) (refused-number outcome) outcome))
                    (send-all store '(1 (frob) 3) :on-refusal :return)))
    (snapshot store)
    (expect "the figures" '(2 0 2) (multiple-value-list (figures store)))
    (reopen-store store)
    (expect "it is there" 5000 (send store '(get 'counter 'count)))))

(defun conditions-and-restarts ()
  (with-store (store :library (folder "conditions"))
    (expect "a refusal" 31 (handler-case (send store '(frob)) (refused (condition) (refused-number condition))))
    (expect "it is skipped" nil
            (handler-bind ((refused (lambda (condition) (declare (ignore condition)) (invoke-restart 'skip-form))))
              (send store '(frob))))
    (let ((times 0))
      (expect "it is tried again" '(nil 3)
              (handler-bind ((refused (lambda (condition)
                                        (declare (ignore condition))
                                        (invoke-restart (if (< (incf times) 3) 'retry-form 'skip-form)))))
                (list (send store '(frob)) times))))
    (expect "a float" 'unsendable (signalled (send store 1.5)))
    (expect "no whole form" 'unsendable (signalled (send-text store "(list 1")))
    (multiple-value-bind (name condition) (signalled (open-store :library (folder "conditions")))
      (expect "the lock" '(fault 60 "DEVICE" "locked by another process")
              (list name (fault-number condition) (fault-name condition) (fault-cause condition))))
    (expect "no time limits" t (handler-case (send store 1 :time-limit 1) (store-error () nil) (error () t)))
    (expect "the store goes on" 1 (send store 1))
    (close-store store)
    (expect "a closed store" 'closed (signalled (send store 1)))
    (reopen-store store)
    (expect "is opened again" 1 (send store 1)))
  (multiple-value-bind (name condition) (signalled (open-store :library (folder "none") :existing t))
    (expect "no such store" '(fault "there is no store in this folder") (list name (fault-cause condition)))
    (let ((word (string-right-trim "/" (folder "none"))))
      (expect "its folder" (list word t) (list (fault-folder condition) (and (search word (princ-to-string condition)) t)))))
  (expect "no such library" 'no-library (signalled (open-store '(:library "/nowhere.so") (folder "values")))))

(defun own-snapshots ()
  (let ((form `(progn (setf (get 'place 'value) ,(make-string 100000 :initial-element #\x)) 7)))
    (dolist (case '((nil 2) (0 1)))
      (destructuring-bind (ratio generation) case
        (with-store (store :library (folder (format nil "ratio ~A" ratio)) :snapshot-ratio ratio)
          (expect "eleven long forms" t (loop repeat 11 always (eql (send store form) 7)))
          (expect "the generation" generation (values (figures store))))))
    (expect "no number" t (handler-case (open-store :library (folder "ratio") :snapshot-ratio -1) (error () t)))
    (expect "a program" t (handler-case (open-store "/nowhere" (folder "ratio") :snapshot-ratio 10) (store-error () nil) (error () t)))))

(defun packages ()
  (with-store (store :library (folder "packages"))
    (send store '(make-package "P"))
    (expect "names before and after a change of the package" '(some-name "P" some-name)
            (send-all store '('some-name (in-package "P") 'some-name)))))

(defun messages ()
  (with-feed (feed :library (folder "feed"))
    (expect "no message yet" 0 (feed-last feed))
    (expect "a message" 1 (feed-form feed '(setf (get 'n 'n) 1)))
    (expect "many, some of them refused" '(2 31 1 ("a") new)
            (mapcar (lambda (outcome) (if (typep outcome 'refused) (refused-number outcome) outcome))
                    (feed-all feed (list "(INCF (GET 'N 'N))" "(FROB)" "(LIST 1" '(list "a") ''new))))
    (expect "5,000 of them" (loop for i from 3 to 5002 collect i)
            (feed-all feed (loop repeat 5000 collect '(incf (get 'n 'n)))))
    (expect "a refusal has its form" '("(CL-USER::FROB)" 1)
            (let ((outcome (second (feed-all feed '(1 (frob)))))) (list (store-error-form outcome) (store-error-index outcome))))
    (expect "a question" 5002 (ask feed '(get 'n 'n)))
    (expect "one that would write" 51 (handler-case (ask feed '(setf (get 'n 'n) 1)) (refused (condition) (refused-number condition))))
    (feed-snapshot feed)
    (expect "the number of the last one" 5008 (feed-last feed))
    (expect "the lock" 'fault (signalled (open-feed :library (folder "feed")))))
  (with-feed (feed :library (folder "feed"))
    (expect "its position" 5006 (feed-last feed))
    (expect "what it holds" 5002 (ask feed '(get 'n 'n)))
    (close-feed feed)
    (expect "a feed that was closed" 'closed (signalled (ask feed 1))))
  (with-store (store :library (folder "feed"))
    (send-text store "(SETF (GET '|position| '|position|) \"x\")"))
  (expect "no position" 52 (handler-case (open-feed :library (folder "feed")) (refused (condition) (refused-number condition)))))

;;; Timers unwind in the middle of everything; no answer is taken for that of another form.
#+sb-thread
(defun unwindings ()
  (with-store (store :library (folder "unwindings"))
    (let ((unwound 0) (wrong 0))
      (dotimes (time 300)
        (handler-case (sb-ext:with-timeout (/ (1+ (random 20)) 100000)
                        (loop (unless (eql time (send store time)) (incf wrong))))
          (sb-ext:timeout () (incf unwound))
          (broken () (reopen-store store))))
      (expect "each of them came" 300 unwound)
      (expect "no other answer" 0 wrong)
      (when (eq (store-state store) :broken) (reopen-store store))
      (expect "the store goes on" 1 (send store 1)))))

#+sb-thread
(defun interrupts ()
  (with-store (store :library (folder "interrupted")) (pazturrok-check::check-interrupted-store store))
  (with-feed (feed :library (folder "interrupted feed"))
    (feed-form feed "(SETF (GET 'N 'N) 0)")
    (pazturrok-check::check-interrupted-feed feed "(INCF (GET 'N 'N))" "(GET 'N 'N)")))

#+sb-thread
(defun other-threads ()
  (with-store (store :library (folder "threads"))
    (expect "deep lists in a thread of the usual stack" 97
            (sb-thread:join-thread
             (sb-thread:make-thread
              (lambda ()
                (let ((form 1)) (dotimes (time 97) (setf form (list form)))
                  (loop for inner = (send store `(quote ,form)) then (first inner) while (consp inner) count t))))))))

#+sbcl
(defun let-go ()
  (open-store :library (folder "let go"))
  nil)

#+sbcl
(defun a-store-that-is-let-go-is-closed ()
  (let-go)
  ;; its finalizer may run in a thread of its own, and a stack may still have the store for a while
  (loop repeat 600
        do (sb-ext:gc :full t) (sleep 1/20)
        until (handler-case (progn (close-store (open-store :library (folder "let go"))) t) (fault () nil))
        finally (expect "a store that nobody has any more is closed" t
                        (handler-case (progn (close-store (open-store :library (folder "let go"))) t) (fault () nil)))))

(handler-case
    #-sbcl (elsewhere)
    #+sbcl (progn (values-come-back) (ten-thousand-forms) (conditions-and-restarts) (own-snapshots) (packages) (messages)
                  #+sb-thread (unwindings) #+sb-thread (interrupts) #+sb-thread (other-threads)
                  (a-store-that-is-let-go-is-closed))
  (error (condition) (incf *failed*) (format t "lisp: ~A~%" condition)))
(format t "~D passed, ~D failed~%" *passed* *failed*)
(finish-output)
(uiop:quit (if (zerop *failed*) 0 1))
