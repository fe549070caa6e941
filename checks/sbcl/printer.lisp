;;; How both parts of SBCL's side print an object: as docs/use/printing.md says. And texts in hexadecimal.

(define-condition out-of-profile (error) ())

(defvar *named-characters*
  '((#\Space . "Space") (#\Newline . "Newline") (#\Tab . "Tab") (#\Page . "Page") (#\Return . "Return")
    (#\Backspace . "Backspace") (#\Rubout . "Rubout")))

(defun begins-plainly (c)
  (or (char<= #\A c #\Z) (find c "*!$<>=?%&_")))

(defun is-plain (name)
  (and (plusp (length name))
       (begins-plainly (char name 0))
       (every (lambda (c) (or (begins-plainly c) (char<= #\0 c #\9) (find c "+-/"))) name)))

(defun needs-escape (c)
  (let ((code (char-code c)))
    (or (find c "|\\") (<= 0 code 7) (= code 11) (<= 14 code 31))))

(defun print-name (name out)
  (if (is-plain name)
      (write-string name out)
      (progn
        (write-char #\| out)
        (loop for c across name
              do (when (needs-escape c) (write-char #\\ out))
                 (write-char c out))
        (write-char #\| out))))

(defun print-symbol (x out)
  (let ((name (symbol-name x)) (home (symbol-package x)))
    (cond ((null home) (write-string "#:" out))
          ((eq (find-symbol name) x))
          ((eq home (find-package "KEYWORD")) (write-char #\: out))
          (t (print-name (package-name home) out)
             (write-string (if (eq (nth-value 1 (find-symbol name home)) :external) ":" "::") out)))
    (print-name name out)))

(defun print-string (x out)
  (write-char #\" out)
  (loop for c across x
        do (when (find c "\"\\") (write-char #\\ out))
           (write-char c out))
  (write-char #\" out))

(defun print-list (x out)
  (write-char #\( out)
  (loop
    (print-object-to (car x) out)
    (setf x (cdr x))
    (cond ((null x) (return))
          ((consp x) (write-char #\Space out))
          (t (write-string " . " out)
             (print-object-to x out)
             (return))))
  (write-char #\) out))

(defun print-object-to (x out)
  (typecase x
    (integer (if (<= (integer-length x) 127) (format out "~D" x) (error 'out-of-profile)))
    (ratio (format out "~D/~D" (numerator x) (denominator x)))
    (character (format out "#\\~A" (or (cdr (assoc x *named-characters*)) x)))
    (string (print-string x out))
    (symbol (print-symbol x out))
    (cons (print-list x out))
    (simple-vector
     (write-string "#(" out)
     (loop for i from 0 for y across x
           do (when (plusp i) (write-char #\Space out))
              (print-object-to y out))
     (write-char #\) out))
    (t (error 'out-of-profile))))

(defun from-hexadecimal (text)
  (let ((result (make-string (/ (length text) 2))))
    (dotimes (i (length result) result)
      (setf (char result i) (code-char (parse-integer text :start (* 2 i) :end (+ 2 (* 2 i)) :radix 16))))))

(defun write-hexadecimal (text)
  "Writes a line of the text in hexadecimal."
  (loop for c across text
        do (format t "~(~2,'0x~)" (char-code c)))
  (terpri))
