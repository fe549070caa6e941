;;; Loads the forms of `export DIR --data` into another Common Lisp.
;;;
;;;   sbcl --load lisp/load-export.lisp --eval '(pazturrok-export:load-export "forms")'
;;;
;;; A function of the store's package PAZTURROK is the symbol of COMMON-LISP there, where COMMON-LISP has such a name: so CAR of the store is CAR. Where
;;; a package has a symbol of its own, of a name that COMMON-LISP has too, its own is kept, as in the store.

(defpackage "PAZTURROK-EXPORT"
  (:use "COMMON-LISP")
  (:export "LOAD-EXPORT"))

(in-package "PAZTURROK-EXPORT")

;;; In the store COMMON-LISP has the names of the language alone. So each name that it has here besides is a function of PAZTURROK, or is taken by a
;;; symbol of another package, which goes before.

(defun intern-function (name)
  "The symbol of PAZTURROK of this name: that of COMMON-LISP, where it has one and the store has but one of that name."
  (let ((symbol (and (string/= name "INCF") (find-symbol name "COMMON-LISP"))))
    (if symbol
        (import (list symbol) "PAZTURROK")
        (intern name "PAZTURROK"))))

(defun prepare (package used)
  "Has a package keep each symbol that it has by itself, and find those of the store before those of this Lisp, where it is to use another one."
  (do-external-symbols (symbol used)
    (multiple-value-bind (found status) (find-symbol (symbol-name symbol) package)
      (cond ((or (null status) (eq found symbol)))
            ((not (eq status :inherited)) (shadow (list (symbol-name symbol)) package))
            ((eq (find-package used) (find-package "COMMON-LISP")) (shadowing-import (list found) package))
            (t (shadowing-import (list symbol) package))))))

(defun use (used &optional (package *package*))
  "USE-PACKAGE, without a conflict of names."
  (dolist (each (if (listp used) used (list used)))
    (prepare package each)
    (use-package each package)))

(defun carry-out (form)
  "Evaluates a form of an export."
  (case (and (consp form) (first form))
    (make-package (make-package (second form) :use '()))
    (intern (if (equal (third form) "PAZTURROK") (intern-function (second form)) (eval form)))
    (use-package (apply #'use (mapcar #'eval (rest form))))
    (otherwise (eval form))))

(defun load-export (file)
  "Carries out the forms of a file, in COMMON-LISP-USER and under the standard readtable, and gives how many there were."
  (let ((*package* (find-package "COMMON-LISP-USER")) (*readtable* (copy-readtable nil)) (*read-base* 10))
    (with-open-file (stream file)
      (loop for form = (read stream nil stream)
            until (eq form stream)
            do (carry-out form)
            count form))))
