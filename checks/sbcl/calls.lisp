;;; SBCL's side of the comparison of operators. A line of standard input is a form in hexadecimal. The answer is a line
;;; in hexadecimal: its printed value, or PROFILE or REFUSED.

(declaim (sb-ext:muffle-conditions warning))

(load (merge-pathnames "printer.lisp" *load-truename*))

(setf sb-ext:*evaluator-mode* :interpret)
(defpackage "TRIAL" (:use "COMMON-LISP") (:shadow "+" "-" "*" "FLOOR" "MOD" "NTH" "DECF"))
; (INCF with a default is written PAZTURROK::INCF)
(defpackage "PAZTURROK" (:use "COMMON-LISP") (:shadow "INCF"))

;;; SBCL's arithmetic, of integers of 128 bits alone: each argument is one, and each result on the way from the left.
(defun within (x)
  (if (and (integerp x) (<= (integer-length x) 127)) x (error "no integer of 128 bits")))

(defun from-left (function first others)
  (reduce (lambda (n m) (within (funcall function n m))) (mapc #'within others) :initial-value (within first)))

(defun trial::+ (&rest numbers) (from-left #'+ 0 numbers))
(defun trial::* (&rest numbers) (from-left #'* 1 numbers))
(defun trial::- (number &rest others) (if others (from-left #'- number others) (from-left #'- 0 (list number))))
(defun trial::floor (number &optional (divisor 1)) (within (values (floor (within number) (within divisor)))))
(defun trial::mod (number divisor) (within (mod (within number) (within divisor))))
; (SBCL's NTH counts down from a large index, also behind the end of the list)
(defun trial::nth (index list)
  (nth (if (integerp index) (min index (loop for rest = list then (cdr rest) while (consp rest) count t)) index) list))
(defmacro trial::decf (place &optional (amount 1)) `(setf ,place (trial::- ,place ,amount)))
(defmacro pazturrok::incf (place &optional (amount 1)) `(setf ,place (trial::+ ,place ,amount)))

(defun outcome (text)
  (let ((*package* (find-package "TRIAL")))
    (handler-case
        (let ((x (eval (read-from-string text))))
          (with-output-to-string (out) (print-object-to x out)))
      (out-of-profile () "PROFILE")
      (error () "REFUSED"))))

(loop for line = (read-line *standard-input* nil)
      while line
      do (write-hexadecimal (outcome (from-hexadecimal line))))
