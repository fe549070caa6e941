;;;; Answers: first where the text of one ends, then the object that it is the text of.
;;;;
;;;; READ is not used: it interns what it reads, and evaluates #. of it. The printed text of a store is
;;;; canonical and its grammar short (docs/run/protocol.md), and a text that is not of it is an error here.

(in-package "PAZTURROK-CLIENT")

(defun malformed (text reason &rest arguments)
  (error 'malformed-answer :text text :reason (apply #'format nil reason arguments)))

;;; Where an answer ends

(defun take-delimited (mark take)
  "Takes characters up to MARK; a backslash takes the next one as it is."
  (loop for char = (funcall take)
        until (char= char mark)
        do (when (char= char #\\) (funcall take))))

(defun take-answer (take seen)
  "Takes the characters of one answer, up to the newline that ends it. SEEN gives what was taken.
A newline ends it outside of lists, strings and bars; only in a refusal is there a space outside of them."
  (flet ((malformed (reason) (malformed (funcall seen) reason)))
    (loop with depth = 0
          for char = (funcall take)
          do (case char
               (#\( (incf depth))
               (#\) (when (minusp (decf depth)) (malformed "a parenthesis too many")))
               ((#\" #\|) (take-delimited char take))
               (#\\ (funcall take))
               (#\Newline (if (zerop depth) (return) (malformed "a line ends in a list")))
               (#\Space (when (zerop depth)
                          (unless (string= (funcall seen) "! ") (malformed "a second object"))
                          (take-delimited #\Newline take)
                          (return)))))))

(defun answer-text (next)
  "The text of one answer, without its newline. NEXT gives the next character of the program's output."
  (let ((text (make-array 80 :element-type 'character :adjustable t :fill-pointer 0)))
    (take-answer (lambda ()
                   (let ((char (funcall next)))
                     (vector-push-extend char text (max 80 (length text)))
                     char))
                 (lambda () (copy-seq text)))
    (subseq text 0 (1- (length text)))))

;;; The object of a text. SYMBOL is called with the prefix, or NIL, and the name of each symbol.

(defstruct (source (:constructor make-source (text symbol unicode-p)) (:copier nil))
  (text "" :type simple-string)
  (place 0 :type fixnum)
  (symbol nil :type function)
  (unicode-p nil))

(defun peek (source)
  "The next character, or NIL at the end."
  (let ((text (source-text source)) (place (source-place source)))
    (and (< place (length text)) (char text place))))

(defun wrong (source)
  (malformed (source-text source) "at place ~D" (source-place source)))

(defun take-char (source)
  (prog1 (or (peek source) (wrong source))
    (incf (source-place source))))

(defun take-if (source char)
  (when (eql (peek source) char) (take-char source)))

(defun expect (source char)
  (unless (take-if source char) (wrong source)))

(defun parse-delimited (source mark)
  (with-output-to-string (text)
    (loop for char = (take-char source)
          until (char= char mark)
          do (write-char (if (char= char #\\) (take-char source) char) text))))

(defun parse-text (source)
  (let ((text (parse-delimited source #\")))
    (if (source-unicode-p source) (without-references text) text)))

(defun take-word (source enders)
  "The characters up to one of ENDERS or the end."
  (let* ((start (source-place source))
         (end (or (position-if (lambda (char) (find char enders)) (source-text source) :start start)
                  (length (source-text source)))))
    (setf (source-place source) end)
    (subseq (source-text source) start end)))

(defun parse-name (source)
  (if (take-if source #\|)
      (parse-delimited source #\|)
      (let ((name (take-word source " ():")))
        (if (plain-name-p name) name (wrong source)))))

(defun parse-symbol (source)
  (if (take-if source #\:)
      (funcall (source-symbol source) "KEYWORD" (parse-name source))
      (let ((name (parse-name source)))
        (cond ((take-if source #\:)
               (take-if source #\:)
               (funcall (source-symbol source) name (parse-name source)))
              (t (funcall (source-symbol source) nil name))))))

(defun parse-digits (source digits)
  (if (and (plusp (length digits)) (every (lambda (char) (char<= #\0 char #\9)) digits))
      (parse-integer digits)
      (wrong source)))

(defun parse-number (source)
  (let* ((sign (if (take-if source #\-) -1 1))
         (word (take-word source " ()"))
         (slash (position #\/ word))
         (numerator (parse-digits source (subseq word 0 slash)))
         (denominator (if slash (parse-digits source (subseq word (1+ slash))) 1)))
    (when (zerop denominator) (wrong source))
    (* sign (/ numerator denominator))))

(defun parse-character (source)
  (let* ((first (take-char source))
         (word (concatenate 'string (string first) (take-word source " ()"))))
    (if (= (length word) 1)
        first
        (or (car (rassoc word *character-names* :test #'string=)) (wrong source)))))

(defun parse-items (source depth dot-p)
  "The objects up to the closing parenthesis; where DOT-P, after a dot the tail."
  (loop with items = '()
        until (take-if source #\))
        do (when items (expect source #\Space))
           (when (and dot-p items (take-if source #\.))
             (expect source #\Space)
             (let ((tail (parse-object source depth)))
               (expect source #\))
               (return (nreconc items tail))))
           (push (parse-object source depth) items)
        finally (return (nreverse items))))

(defun parse-sharp (source depth)
  (case (take-char source)
    (#\\ (parse-character source))
    (#\: (make-symbol (parse-name source)))
    (#\( (coerce (parse-items source depth nil) 'simple-vector))
    (t (wrong source))))

(defun parse-object (source depth)
  (when (> depth (* 2 +depth-limit+)) (wrong source))
  (let ((char (or (peek source) (wrong source))))
    (cond ((take-if source #\() (parse-items source (1+ depth) t))
          ((take-if source #\") (parse-text source))
          ((take-if source #\#) (parse-sharp source (1+ depth)))
          ((or (char= char #\-) (char<= #\0 char #\9)) (parse-number source))
          (t (parse-symbol source)))))

(defun parse-answer (text symbol &optional unicode-p)
  "The object that TEXT is the printed text of; where UNICODE-P is true the references in its texts are characters."
  (let ((source (make-source (coerce text 'simple-string) symbol unicode-p)))
    (when (find 127 text :key #'char-code :test #'<)
      (malformed text "a character over 127"))
    (prog1 (parse-object source 0)
      (when (peek source) (wrong source)))))

(defun refusal-of (text)
  "The number and the name of a refusal, or NIL. Only a refusal begins with an exclamation mark and a space."
  (when (and (> (length text) 1) (string= text "! " :end1 2))
    (let ((space (position #\Space text :start 2)))
      (unless (and space (> space 2)
                   (every (lambda (char) (char<= #\0 char #\9)) (subseq text 2 space)))
        (malformed text "a refusal has a number and a name"))
      (values (parse-integer text :start 2 :end space) (subseq text (1+ space))))))
