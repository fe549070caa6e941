;;;; Messages of a client with a name: the store keeps the number of its last message, and the answer.

(in-package "PAZTURROK-CLIENT")

(defun name-p (name)
  "Whether this is the name of a client, or of a message: 1 to 100 letters, digits, dots, hyphens and underscores."
  (and (stringp name) (<= 1 (length name) 100)
       (every (lambda (one) (and (< (char-code one) 128) (or (alphanumericp one) (find one "._-")))) name)))

(defun check-name (name)
  (unless (name-p name)
    (cannot-send name "a name has 1 to 100 letters, digits, dots, hyphens and underscores"))
  name)

(defun check-number (number)
  (unless (typep number '(unsigned-byte 64))
    (cannot-send number "a number is from 0 to 18,446,744,073,709,551,615"))
  number)

(defun named-frame (name number text)
  "A message of a client. Without a text it takes the entry of the client away."
  (let ((named (if text (format nil "~A ~A" name text) name)))
    (when (> (length named) +form-limit+)
      (cannot-send text "with the name of the client it is longer than ~D characters" +form-limit+))
    (format nil "by ~D ~D~%~A~%" number (length named) named)))

;;; The entry of a client

(defun question-of-entry (name)
  "A form whose value is the entry of a client."
  (format nil "(COMMON-LISP:GET (COMMON-LISP:QUOTE %CLIENTS::|~A|) (COMMON-LISP:QUOTE %CLIENTS::%MESSAGE))" name))

(defun number-of-entry (entry)
  "The number of the last message of a client, by its entry; 0 where it has none, or where the store has no table of clients yet."
  (cond ((null entry) 0)
        ((and (typep entry 'refused) (= (refused-number entry) 11)) 0)
        ((typep entry 'store-error) (error entry))
        ((and (consp entry) (integerp (first entry))) (first entry))
        (t (error 'refused :number 48 :name "NO-ENTRY"))))

(defmethod ask-position ((feed named-feed) told)
  "That of the client, whatever the program has told of messages without a name."
  (declare (ignore told))
  (number-of-entry (feed-outcome feed (exchange-question feed (question-of-entry (named-feed-client-name feed))))))

;;; Sending

(defun named-outcome (feed answer number)
  "The outcome of a message of a client with a name."
  (let ((outcome (feed-outcome feed answer)))
    (if (and (typep outcome 'refused) (= (refused-number outcome) 49))
        (make-condition 'lost-answer :number number)
        outcome)))

(defgeneric send-under-number (feed text number)
  (:documentation
   "The outcome of a message of a client with a name. It is sent again where the program was killed, or a connection was lost, as the store keeps
its answer.")
  (:method ((feed named-feed) text number)
    (let ((frame (named-frame (named-feed-client-name feed) number text)))
      (setf (feed-last feed) (max number (feed-last feed)))
      (named-outcome feed
                     (call-with-program feed (lambda () (exchange-frame feed frame (format nil "by ~D" number))))
                     number))))

(defgeneric last-number (feed)
  (:documentation "The number of the last message of a client with a name, as the store told it, or as it was sent since.")
  (:method ((feed named-feed))
    (make-feed-ready feed)
    (feed-last feed)))

(defun send-one-by-one (feed texts receive)
  (dolist (text texts)
    (funcall receive (send-under-number feed text (check-number (1+ (last-number feed)))))))

(defun send-with-number (feed text number receive)
  (check-number number)
  (last-number feed)
  (funcall receive (send-under-number feed text number)))

(defmethod room-of ((feed named-feed))
  "Each message waits for the answer to the one before it, as the store keeps the last answer alone."
  0)

(defmethod send-messages ((feed named-feed) texts receive)
  (send-one-by-one feed texts receive))

(defmethod send-numbered ((feed named-feed) text number receive)
  (send-with-number feed text number receive))

(defun unregister (feed)
  "Has the store forget the client of this name: its number and its answer go, and its numbers begin anew."
  (value-of (alone (feed) (send-under-number feed nil (last-number feed)))))
