;;;; Messages, over a program that serves them from a dict: checks/messages/fake.

(in-package "PAZTURROK-CHECK")

(defparameter *serving* (uiop:native-namestring
                         (asdf:system-relative-pathname "pazturrok-client" "../../checks/messages/fake")))

(define-check messages-and-questions ()
  (with-feed (feed *serving* (subfolder "fed"))
    (expect "a new store" 0 (feed-last feed))
    (expect "a value" 0 (feed-form feed "(SETF (GET 'NT 'KY) 0)"))
    (expect "values" (list 1 2 (format nil "a~%b"))
            (feed-all feed (list "(INCF (GET 'NT 'KY))" "(INCF (GET 'NT 'KY))" (format nil "(SETF (GET 'TEXT 'KY) \"a~%b\")"))))
    (expect "a question" 2 (ask feed "(GET 'NT 'KY)"))
    (expect "a question that writes" 51 (number-of-refusal (ask feed "(INCF (GET 'NT 'KY))")))
    (expect "refusals in their places" '(4 31 26 1 5)
            (mapcar (lambda (outcome) (if (typep outcome 'refused) (refused-number outcome) outcome))
                    (feed-all feed '(")" "(NOTHING)" "1 2" "" "(SETF (GET 'NT 'KY) 5)"))))
    (expect "one is signalled" 4 (number-of-refusal (feed-form feed ")")))
    (expect "the last number" 10 (feed-last feed)))
  (with-feed (feed *serving* (subfolder "fed"))
    (expect "the position after it" 9 (feed-last feed))
    (expect "what it holds" 5 (ask feed "(GET 'NT 'KY)"))
    (close-feed feed)
    (expect "a feed that was closed" 'closed (signalled (ask feed "(GET 'NT 'KY)")))))

(define-check each-once-whatever-becomes-of-the-program ()
  (with-feed (feed *serving* (subfolder "killed"))
    (feed-form feed "(SETF (GET 'NT 'KY) 0)")
    (let ((lost 0) (wrong 0))
      (loop for round from 0 below 8
            do (let ((process (pazturrok-client::program-process (pazturrok-client::feed-program feed))))
                 (uiop:launch-program (list "sh" "-c" (format nil "sleep 0.0~D; kill -9 ~D" round (uiop:process-info-pid process)))))
               (loop for outcome in (feed-all feed (make-list 200 :initial-element "(INCF (GET 'NT 'KY))"))
                     for wanted from (1+ (* round 200))
                     do (cond ((typep outcome 'lost-answer) (incf lost))
                              ((not (eql outcome wanted)) (incf wrong)))))
      (expect "no other answers" 0 wrong)
      (expect "each once" 1600 (ask feed "(GET 'NT 'KY)"))
      (expect "few answers lost" t (< lost 1000)))))

(define-check a-program-that-ends-by-itself ()
  (multiple-value-bind (name condition) (signalled (open-feed "/bin/false" (subfolder "none")))
    (expect "is not started again" 'stopped name)
    (expect "its status" 1 (stopped-status condition))))

#+sb-thread
(define-check interrupts-within-messages ()
  (with-feed (feed *serving* (subfolder "interrupted feed"))
    (feed-form feed "(SETF (GET 'NT 'KY) 0)")
    (check-interrupted-feed feed "(INCF (GET 'NT 'KY))" "(GET 'NT 'KY)")))
