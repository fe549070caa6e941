;;;; What goes wrong: an unwinding at each byte of an answer, answers of no protocol, a kill, a program that hangs.

(in-package "PAZTURROK-CHECK")

;;; Unwindings

(defun call-with-unwinding (count function)
  "Calls FUNCTION, and leaves it where COUNT characters of answers were read. Gives whether it was left."
  (let ((next #'pazturrok-client::next-character) (left count))
    (unwind-protect
         (catch 'unwound
           (setf (fdefinition 'pazturrok-client::next-character)
                 (lambda (program)
                   (when (minusp (decf left)) (throw 'unwound t))
                   (funcall next program)))
           (funcall function)
           nil)
      (setf (fdefinition 'pazturrok-client::next-character) next))))

(define-check an-unwinding-at-each-byte-breaks-the-store ()
  (with-new-store (store "unwound")
    (let ((form '(list 1 "two
lines" '|a b| #\( '(3 . 4) '#(5 6) 'unwound))
          (value '(1 "two
lines" |a b| #\( (3 . 4) #(5 6) unwound)))
      (loop for count from 0
            while (call-with-unwinding count (lambda () (send store form)))
            do (expect "the next form is not sent" 'broken (signalled (send store 8)))
               (expect "nor the one after it" 'broken (signalled (send store '(frob))))
               (reopen-store store)
               (expect "the store opens again" 8 (send store 8))
            finally (expect "each byte of the answer" t (> count 45)))
      (expect "the answer" value (send store form)))
    (call-with-unwinding 3 (lambda () (send store 12345)))
    (expect "a restart opens again" 8
            (handler-bind ((broken (lambda (condition) (declare (ignore condition)) (invoke-restart 'retry-form))))
              (send store 8)))
    (call-with-unwinding 3 (lambda () (send-all store '(1 2 3 4))))
    (expect "many forms" 'broken (signalled (send store 8)))
    (expect "a restart skips" '(nil)
            (handler-bind ((broken (lambda (condition) (declare (ignore condition)) (invoke-restart 'skip-form))))
              (send-all store '(8))))
    (expect "and opens again" 9 (send store 9))))

(define-check a-broken-store-closes-at-once ()
  (let ((store (open-store *program* (subfolder "long"))))
    (send store `(setf (get 'long 'text) ,(make-string 1000000 :initial-element #\x)))
    (call-with-unwinding 10 (lambda () (send store '(get 'long 'text))))
    (expect "closed within a long answer" t (ends-p (lambda () (close-store store))))
    (expect "a closed store" 'closed (signalled (send store 1)))
    (reopen-store store)
    (expect "it opens again" 1000000 (length (send store '(get 'long 'text))))
    (expect "its status" 0 (close-store store))
    (expect "closed twice" 0 (close-store store))))

;;; Answers of no protocol, from a program that says what it is told

(defvar *fake* (uiop:subpathname (asdf:component-pathname (asdf:find-system "pazturrok-client/tests")) "fake"))

(defun call-with-answers (answers end told function &rest options)
  "Calls FUNCTION with a store whose program gives these answers in turn, as they are, and says before the first ones what TOLD has
on standard error; and then nothing, or the fault END."
  (let ((folder (uiop:ensure-directory-pathname (subfolder (format nil "fake-~36R" (below (expt 36 8)))))))
    (ensure-directories-exist folder)
    (flet ((file (name text)
             (with-open-file (to (uiop:subpathname folder name) :direction :output :external-format :latin-1)
               (write-string text to))))
      (loop for answer in answers for number from 1 do (file (princ-to-string number) answer))
      (loop for text in told for number from 1 do (file (format nil "~D.told" number) text))
      (when end (file "end" end)))
    (let ((store (apply #'open-store (uiop:native-namestring *fake*) folder options)))
      (unwind-protect (funcall function store)
        (close-store store)))))

(defmacro with-answers ((store answers &key end told options) &body body)
  `(call-with-answers ,answers ,end ,told (lambda (,store) ,@body) ,@options))

(define-check hostile-answers-harm-nobody ()
  (let ((answers (list "'A" "#.(error \"evaluated\")" "(1 #.(uiop:quit 1) 3)" "1.5" "#<X>" "A:B:C" "(1 . 2 3)" "#\\Nothing" "1/0"
                       (format nil "\"~C\"" (code-char 252)) "`(A ,B)" "#1=(1 . #1#)" "a" "" "(((" "#S(X)")))
    (with-answers (store (loop for answer in (remove "(((" answers :test #'equal)
                               collect (lines answer) collect (lines "7")))
      (loop repeat (1- (length answers))
            do (expect "no answer" 'malformed-answer (signalled (send store 1)))
               (expect "the next one is the next one" 7 (send store 1)))))
  (let ((home (package-name (symbol-package 'uiop:getcwd))))
    (with-answers (store (list (lines (format nil "(1 ~A::FROB 3)" home)) (lines (format nil "~A:FROB" home)) (lines "(COMMON-LISP::FROB)")
                               (lines "8")))
      (expect "a name of a package of the image" "FROB" (symbol-name (second (send store 1))))
      (expect "with one colon" "FROB" (symbol-name (send store 1)))
      (expect "of COMMON-LISP" 'frob (first (send store 1)))
      (expect "the next" 8 (send store 1))
      (expect "no symbol in that package" nil (find-symbol "FROB" home))
      (expect "nor in COMMON-LISP" nil (find-symbol "FROB" "COMMON-LISP"))))
  (dolist (answer (list ")" "(1))" "1 2" (format nil "(1~%2)") "! 31" "! NO NUMBER" "! "))
    (with-answers (store (list (lines answer) (lines "7")))
      (expect answer 'malformed-answer (signalled (send store 1)))
      (expect (format nil "after ~S" answer) 'broken (signalled (send store 1)))))
  (with-answers (store (list (lines "1" "2") (lines "3")))
    (expect "one answer" 1 (send store 1))
    (expect "and one too many" 'malformed-answer (signalled (send store 1)))
    (expect "breaks the store" 'broken (signalled (send store 1)))))

(define-check answers-that-are-cut-stop-the-store ()
  (dolist (answer '("" "(1" "\"abc" "|a" "#\\" "12" "! 31 UNKNOWN"))
    (with-answers (store (list answer) :end (lines "! 60 DEVICE" "the cause" "and more"))
      (multiple-value-bind (name condition)
          (signalled (send-all store '(0 1)))
        (expect answer 'stopped name)
        (when (typep condition 'stopped)
          (expect "its status" 3 (stopped-status condition))
          (expect "all of standard error" (format nil "! 60 DEVICE~%the cause~%and more") (stopped-fault condition))))
      (expect "the store is broken" 'broken (signalled (send store 1))))))

(define-check a-program-that-hangs-is-ended ()
  (dolist (answer '("" "(1" "\"abc" "12"))
    (with-answers (store (list answer) :options (:time-limit 1/4))
      (expect answer 'timed-out (signalled (send store 1)))
      (expect "the store is broken" 'broken (signalled (send store 1)))
      (expect "a restart opens again" 0
              (handler-bind ((broken (lambda (condition) (declare (ignore condition)) (invoke-restart 'skip-form))))
                (if (send store 1) 1 0)))))
  (with-new-store (store "hanging")
    (send store '(setf (get 'a 'b) 1))
    (hang store)
    (expect "a limit of one form" 'timed-out (signalled (send store 2 :time-limit 1/4)))
    (reopen-store store)
    #+sb-thread
    (progn
      (hang store)
      (expect "a form that fills the pipe" 'timed-out
              (signalled (send store (make-string 500000 :initial-element #\x) :time-limit 1/4)))
      (reopen-store store))
    (expect "what was answered is there" 1 (send store '(get 'a 'b)))
    (hang store)
    (let ((*end-limit* 1/4))
      (expect "a hanging program is closed" t (ends-p (lambda () (close-store store)))))))

(defun hang (store)
  "Stops the program, as a device that hangs does."
  (uiop:run-program (list "sh" "-c" (format nil "kill -STOP ~D" (uiop:process-info-pid (store-process store))))))

(define-check a-kill-loses-nothing-that-was-answered ()
  (with-new-store (store "killed")
    (loop for i from 1 to 50 do (send store `(setf (get 'survivor 'count) ,i)))
    (uiop:terminate-process (store-process store) :urgent t)
    (multiple-value-bind (name condition) (signalled (loop (send store 1)))
      (expect "a killed program has stopped" 'stopped name)
      (expect "its status" t (plusp (stopped-status condition))))
    (expect "the store is broken" 'broken (signalled (send store 1)))
    (reopen-store store)
    (expect "what was answered is there" 50 (send store '(get 'survivor 'count)))
    (uiop:terminate-process (store-process store) :urgent t)
    (expect "a restart opens again and sends once more" 50
            (handler-bind ((stopped (lambda (condition) (declare (ignore condition)) (invoke-restart 'retry-form))))
              (send store '(get 'survivor 'count))))
    (uiop:terminate-process (store-process store) :urgent t)
    (expect "many forms, sent once more" '(50 51 52)
            (handler-bind ((stopped (lambda (condition) (declare (ignore condition)) (invoke-restart 'retry-form))))
              (send-all store '((get 'survivor 'count) 51 52))))))

(define-check two-stores-in-one-image ()
  (let ((first (open-store *program* (subfolder "one")))
        (second (open-store *program* (subfolder "two"))))
    (expect "the first" 1 (send first '(setf (get 'a 'b) 1)))
    (expect "the second" 2 (send second '(setf (get 'a 'b) 2)))
    (expect "the first ends while the second runs" t (ends-p (lambda () (expect "its status" 0 (close-store first)))))
    (expect "the second goes on" 2 (send second '(get 'a 'b)))
    (expect "and ends" 0 (close-store second))))
