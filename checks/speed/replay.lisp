;;;; What one would do without a store: keep a file of forms, read it with READ and carry out each.
;;;; usage: sbcl --script replay.lisp FILE, of forms (SETF (GET 'S 'I) N); prints the seconds
(let ((start (get-internal-real-time)))
  (with-open-file (in (second sb-ext:*posix-argv*) :external-format :latin-1)
    (loop for form = (read in nil in)
          until (eq form in)
          do (destructuring-bind (operator (get (quote-1 symbol) (quote-2 indicator)) value) form
               (declare (ignore operator get quote-1 quote-2))
               (setf (get symbol indicator) value))))
  (format t "~,6f~%" (/ (- (get-internal-real-time) start) internal-time-units-per-second 1.0)))
