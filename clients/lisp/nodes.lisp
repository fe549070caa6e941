;;;; A store on several machines: a feed whose messages go to its nodes, of which any answers.

(in-package "PAZTURROK-CLIENT")

(defun new-prefix ()
  "What the names of a feed begin with, and those of no other: what is sent under one of them is carried out once, whoever sends it."
  (format nil "~(~36R~)" (random (ash 1 120) (make-random-state t))))

(defstruct (node-feed (:include feed) (:constructor make-node-feed (words naming time-limit patience)) (:copier nil))
  "Nodes, HOST:PORT or `unix:` and the path of a socket, of which one is asked after the other. Its words are they."
  time-limit
  patience
  (at 0 :type unsigned-byte)
  (socket nil)
  (stream nil)
  (prefix (new-prefix))
  (count 0 :type unsigned-byte))

(defstruct (named-node-feed (:include node-feed) (:constructor make-named-node-feed (words naming time-limit patience client-name))
                            (:copier nil))
  "The same of a client that has a name: the store keeps the answer to its last message. `feed-last` is the number of that."
  client-name
  (asked-p nil))                                ; whether the store was asked for that number

(defmethod print-object ((feed node-feed) stream)
  (print-unreadable-object (feed stream :type t :identity t)
    (format stream "~{~A~^ ~}" (feed-words feed))))

(defparameter *pause-between-nodes* 1/20
  "How many seconds are between two tries.")

(defparameter *resend-limit* 140
  "So many seconds a message is sent again. Its name may be free after 150, and it would be carried out twice.")

(defgeneric version-frame (feed)
  (:documentation "The version of the frames that are sent.")
  (:method ((feed node-feed)) (format nil "version 1 0~%~%"))
  (:method ((feed named-node-feed)) (format nil "version 2 0~%~%")))

(defparameter *most-tries* 6
  "How often a question is sent, to one node after the other. By one for which it has no memory each store ends.")

;;; Connections

(defun socket-path-p (node)
  "Whether a node is `unix:` and the path of a socket."
  (eql (mismatch "unix:" node) 5))

#+(or sbcl ecl)
(defun connected-socket (node)
  "A socket that is connected to a node."
  (flet ((connected (socket &rest place)
           (handler-bind ((error (lambda (condition)
                                   (declare (ignore condition))
                                   (ignore-errors (sb-bsd-sockets:socket-close socket)))))
             (apply #'sb-bsd-sockets:socket-connect socket place))
           socket))
    (if (or (find #\/ node) (socket-path-p node))
        (connected (make-instance 'sb-bsd-sockets:local-socket :type :stream) (subseq node (if (socket-path-p node) 5 0)))
        (let ((colon (position #\: node :from-end t)))
          (connected (make-instance 'sb-bsd-sockets:inet-socket :type :stream :protocol :tcp)
                     (sb-bsd-sockets:host-ent-address (sb-bsd-sockets:get-host-by-name (subseq node 0 colon)))
                     (parse-integer node :start (1+ colon)))))))

#+(or sbcl ecl)
(defun connect-node (feed node)
  (let ((socket (connected-socket node)))
    #+ecl (setf (sb-bsd-sockets:sockopt-receive-timeout socket) (node-feed-patience feed))
    (setf (node-feed-socket feed) socket
          (node-feed-stream feed)
          (sb-bsd-sockets:socket-make-stream socket :input t :output t :buffering :full :external-format :latin-1
                                                    #+sbcl :timeout #+sbcl (node-feed-patience feed)))))

#-(or sbcl ecl)
(defun connect-node (feed node)
  (declare (ignore feed node))
  (error "this Lisp has no sockets here"))

(defmethod leave ((feed node-feed))
  (when (node-feed-stream feed) (ignore-errors (close (node-feed-stream feed) :abort t)))
  #+(or sbcl ecl)
  (when (node-feed-socket feed) (ignore-errors (sb-bsd-sockets:socket-close (node-feed-socket feed))))
  (setf (node-feed-socket feed) nil (node-feed-stream feed) nil)
  (values nil nil))

(defmethod leave-in-child ((feed node-feed))
  "A child has names and a connection of its own: under the parent's names its forms would count as the parent's."
  (leave feed)
  (setf (node-feed-prefix feed) (new-prefix)
        (node-feed-count feed) 0))

(defmethod leave-in-child ((feed named-node-feed))
  "A client with a name stays with the parent."
  (call-next-method)
  (setf (feed-closed-p feed) t))

(defmethod ask-feed-naming ((feed node-feed))
  "The next connection asks."
  (leave feed))

(defun ready-node (feed)
  "The stream to a node. A new one asks first how symbols are printed."
  (or (node-feed-stream feed)
      (progn (connect-node feed (nth (node-feed-at feed) (feed-words feed)))
             (write-string (version-frame feed) (node-feed-stream feed))
             (write-string (question-frame *qualified-question*) (node-feed-stream feed))
             (finish-output (node-feed-stream feed))
             (heed-greeting (nth-value 1 (read-node-answer feed)))
             (take-naming feed (nth-value 1 (read-node-answer feed)))
             (node-feed-stream feed))))

(defun heed-greeting (answer)
  "What a node says first: it may refuse a client, and ends the connection then. Another one may take it, or none."
  (multiple-value-bind (number name) (refusal-of answer)
    (cond ((null number))
          ((= number 54) (error "it takes no more clients"))
          (t (error 'refused :number number :name name)))))

(defun read-whole-line (stream)
  (multiple-value-bind (line cut-p) (read-line stream)
    (if cut-p (error 'end-of-file :stream stream) line)))

(defun read-node-answer (feed)
  "The number of the next answer, or NIL of a question, and its text."
  (let* ((stream (node-feed-stream feed))
         (line (read-whole-line stream))
         (space (or (position #\Space line :from-end t) (malformed line "no head of an answer")))
         (head (subseq line (if (eql (mismatch "by " line) 3) 3 0) space))
         (text (make-string (numeral (subseq line (1+ space)) line))))
    (unless (= (read-sequence text stream) (length text)) (error 'end-of-file :stream stream))
    (unless (char= (read-char stream) #\Newline) (malformed text "it is longer than its length"))
    (values (and (string/= head "ask") (numeral head line)) text)))

;;; Sending

(defun time-after (seconds)
  (+ (get-internal-real-time) (* seconds internal-time-units-per-second)))

(defun call-with-nodes (feed function &key (tries most-positive-fixnum) resend-limit)
  "Calls FUNCTION, which speaks to a node, until it returns; after an error of the connection with the next node. It is called
so many times at most, and for so many seconds after the first time; a try that comes to no connection does not count."
  (when (feed-closed-p feed) (error 'closed))
  (loop with end = (time-after (node-feed-time-limit feed))
        do (let ((whole-p nil))
             (unwind-protect
                  (handler-case (let ((stream (ready-node feed)))
                                  (decf tries)
                                  (when resend-limit
                                    (setf end (min end (time-after (shiftf resend-limit nil)))))
                                  (return (multiple-value-prog1 (funcall function stream) (setf whole-p t))))
                    (store-error (condition) (error condition))
                    (error (condition)
                      (when (or (>= (get-internal-real-time) end) (not (plusp tries)))
                        (error 'no-node :seconds (node-feed-time-limit feed)
                                        :reason (format nil "~:[it was sent ~D times; ~;~*~]~A: ~A" (plusp tries) *most-tries*
                                                        (nth (node-feed-at feed) (feed-words feed)) condition)))))
               (unless whole-p (leave feed))))
           (setf (node-feed-at feed) (mod (1+ (node-feed-at feed)) (length (feed-words feed))))
           (sleep *pause-between-nodes*)))

(defun send-to-nodes (feed texts name receive)
  "Sends texts at once, each under a name of its own, or one under NAME, and calls RECEIVE with the outcome of each."
  (let ((names (loop repeat (length texts)
                     collect (or name (format nil "~A-~D" (node-feed-prefix feed) (incf (node-feed-count feed)))))))
    (call-with-nodes
     feed
     (lambda (stream)
       (loop for name in names
             for text in texts
             do (format stream "do ~A ~D~%~A~%" name (length text) text))
       (finish-output stream)
       (loop while texts
             do (multiple-value-bind (number answer) (read-node-answer feed)
                  (unless number (malformed answer "it is not that of a message"))
                  (setf (feed-last feed) (max number (feed-last feed)))
                  (pop names)
                  (pop texts)
                  (funcall receive (node-outcome feed number answer)))))
     :resend-limit *resend-limit*)))

(defmethod send-messages ((feed node-feed) texts receive)
  (send-to-nodes feed texts nil receive))

(defmethod send-under-number ((feed named-node-feed) text number)
  (let ((frame (named-frame (named-node-feed-client-name feed) number text)))
    (setf (feed-last feed) (max number (feed-last feed)))
    (call-with-nodes feed
                     (lambda (stream)
                       (write-string frame stream)
                       (finish-output stream)
                       (multiple-value-bind (told answer) (read-node-answer feed)
                         (unless (eql told number) (malformed answer "it is not that of a message with this number"))
                         (named-outcome feed answer number))))))

(defmethod last-number ((feed named-node-feed))
  "The store is asked for it once."
  (unless (named-node-feed-asked-p feed)
    (let ((answer (ask-nodes feed "read" (question-of-entry (named-node-feed-client-name feed)))))
      (setf (feed-last feed) (number-of-entry (feed-outcome feed answer))
            (named-node-feed-asked-p feed) t)))
  (feed-last feed))

(defmethod room-of ((feed named-node-feed)) 0)

(defmethod send-messages ((feed named-node-feed) texts receive)
  (send-one-by-one feed texts receive))

(defmethod send-numbered ((feed named-node-feed) text number receive)
  (send-with-number feed text number receive))

(defun node-outcome (feed number answer)
  (let ((outcome (feed-outcome feed answer)))
    (if (and (typep outcome 'refused) (= (refused-number outcome) 50))
        (make-condition 'lost-answer :number number)
        outcome)))

(defun ask-nodes (feed kind text)
  "The text of the answer to a question: of one node's store, or, where KIND is \"read\", after all that was answered."
  (call-with-nodes feed
                   (lambda (stream)
                     (format stream "~A ~D~%~A~%" kind (length text) text)
                     (finish-output stream)
                     (nth-value 1 (read-node-answer feed)))
                   :tries *most-tries*))

(defmethod answer-to-question ((feed node-feed) text)
  (ask-nodes feed "ask" text))

;;; Opening

(defun check-node (node)
  (let ((colon (position #\: node :from-end t)))
    (unless (or (find #\/ node)
                (socket-path-p node)
                (and colon (< 0 colon (1- (length node))) (every #'digit-char-p (subseq node (1+ colon)))))
      (error "a node is HOST:PORT, or unix: and the path of a socket, and not ~S" node))))

(defun open-nodes (nodes &key (package *package*) intern (time-limit 120) (patience 10) (unicode t) client-name)
  "A feed whose messages go to NODES, a list of HOST:PORT or of paths of sockets. A request goes to one of them, and to
the next one where that does not answer within PATIENCE seconds; NO-NODE is signalled where none does within TIME-LIMIT, or
140 seconds after a message was sent first.
PACKAGE, INTERN and UNICODE are those of OPEN-STORE, and CLIENT-NAME is that of OPEN-FEED; nodes of several machines take such messages once all of them know them."
  (check-type nodes cons)
  (mapc #'check-node nodes)
  (let ((naming (make-naming :package (find-package package) :interns-p intern :unicode-p unicode)))
    (if client-name
        (make-named-node-feed nodes naming time-limit patience (check-name client-name))
        (make-node-feed nodes naming time-limit patience))))

(defmacro with-nodes ((feed nodes &rest options) &body body)
  "Evaluates BODY with FEED bound to what OPEN-NODES gives, and closes it."
  `(let ((,feed (open-nodes ,nodes ,@options :package ,(package-name *package*))))
     (unwind-protect (progn ,@body) (close-feed ,feed))))

(defun send-named (feed name form)
  "Has a form carried out under a name of one's own, once with all that is sent under it, and gives its value."
  (check-name name)
  (check-type feed (and node-feed (not named-node-feed)))
  (let ((texts (list (feed-text feed form))))
    (value-of (first (call-telling texts nil (lambda (receive) (alone (feed) (send-to-nodes feed texts name receive))))))))

(defun ask-fresh (feed form)
  "Asks after all that was answered before, by any node, to anybody."
  (asked-value feed form (lambda (text) (ask-nodes feed "read" text))))
