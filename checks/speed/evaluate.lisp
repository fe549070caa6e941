;;;; What one would do without a store: read, evaluate and print each form of GETS, after those of FORMS.
;;;; usage: sbcl --script evaluate.lisp FORMS GETS; prints the seconds
(setf sb-ext:*evaluator-mode* :interpret)

(defun each-form (file function)
  (with-open-file (in file :external-format :latin-1)
    (loop for form = (read in nil in) until (eq form in) do (funcall function form))))

(each-form (second sb-ext:*posix-argv*) #'eval)
(let ((start (get-internal-real-time)))
  (with-open-file (out "/dev/null" :direction :output :if-exists :append)
    (each-form (third sb-ext:*posix-argv*) (lambda (form) (prin1 (eval form) out) (terpri out))))
  (format t "~,6f~%" (/ (- (get-internal-real-time) start) internal-time-units-per-second 1.0)))
