;;;; The nodes of a store on several machines: checks/cluster/fake_nodes.py stands in for them.

(in-package "PAZTURROK-CHECK")

(defparameter *nodes* (uiop:native-namestring
                       (asdf:system-relative-pathname "pazturrok-client" "../../checks/cluster/fake_nodes.py")))
(defparameter *add* "(INCF (GET 'COUNTER 'KY))")
(defparameter *look* "(GET 'COUNTER 'KY)")

(defun call-with-standing-nodes (loses function)
  "Calls FUNCTION with the places of two nodes, which lose so many of the connections."
  (let ((process (uiop:launch-program (list "python3" *nodes* "2" loses) :input :stream :output :stream)))
    (unwind-protect (funcall function (uiop:split-string (read-line (uiop:process-info-output process)) :separator " "))
      (uiop:terminate-process process :urgent t)
      (uiop:wait-process process))))

(define-check nodes-values-and-reads ()
  (call-with-standing-nodes
   "0"
   (lambda (nodes)
     (with-nodes (feed nodes)
       (expect "a value" 1 (feed-form feed *add*))
       (expect "values, and conditions in their places" '(2 4 lost-answer 3)
               (mapcar (lambda (outcome)
                         (typecase outcome (refused (refused-number outcome)) (store-error (type-of outcome)) (t outcome)))
                       (feed-all feed (list *add* ")" "OLD" *add*))))
       (expect "a list" (list 'a (format nil "b~%") nil t) (feed-form feed '(list 1)))
       (expect "one node's store" 3 (ask feed *look*))
       (expect "after all that was answered" 3 (ask-fresh feed *look*))
       (expect "a refusal is signalled" 4 (number-of-refusal (feed-form feed ")")))
       (expect "a name of one's own" '(4 4) (list (send-named feed "order-17" *add*) (send-named feed "order-17" *add*)))
       (expect "a name of one's own with another text" 55 (number-of-refusal (send-named feed "order-17" '(list 1))))
       (expect "what cannot be sent" 'unsendable (signalled (feed-form feed "(LIST 1.5d0 \"ä\")")))
       (expect "names that are none" '(unsendable unsendable unsendable)
               (mapcar (lambda (name) (nth-value 0 (signalled (send-named feed name *add*)))) (list "" "a b" (format nil "x 5~%(A)~%do y"))))
       (close-feed feed)
       (expect "a feed that was closed" 'closed (signalled (feed-form feed *add*)))))))

(define-check nodes-that-lose-connections ()
  (call-with-standing-nodes
   "0.1"
   (lambda (nodes)
     (with-nodes (feed nodes)
       (expect "each once, in order" (loop for number from 1 to 200 collect number)
               (loop repeat 5 nconc (feed-all feed (make-list 40 :initial-element *add*))))
       (expect "no more" 200 (ask-fresh feed *look*))))))

(define-check a-question-is-not-carried-on-for-ever ()
  (call-with-standing-nodes
   "0"
   (lambda (nodes)
     (with-nodes (feed nodes :time-limit *long*)
       (expect "no node, before the time is up" 'no-node
               (let (name)
                 (expect "its end" t (ends-p (lambda () (setf name (signalled (ask feed "(LOSE)"))))))
                 name))
       (expect "the next one is answered" 1 (feed-form feed *add*))))))

(define-check no-node-at-all ()
  (with-nodes (feed '("127.0.0.1:1" "/no/socket") :time-limit 1/2)
    (multiple-value-bind (name condition) (signalled (feed-form feed *add*))
      (expect "no node" 'no-node name)
      (when (typep condition 'no-node)
        (expect "one is named" t (some (lambda (node) (and (search node (no-node-reason condition)) t)) '("127.0.0.1:1" "/no/socket")))))))

#+sb-thread
(define-check interrupts-within-requests ()
  (call-with-standing-nodes "0" (lambda (nodes) (with-nodes (feed nodes) (check-interrupted-feed feed *add* *look*)))))
