;;;; Loads the forms of `export --data` of a store that checks/lisp/exported.lisp has made, by lisp/load-export.lisp, and looks at what is there then.

(load (merge-pathnames "../../lisp/load-export.lisp" *load-truename*))

(in-package "COMMON-LISP-USER")

(defvar *counts* (list 0 0) "How many passed, and how many failed.")

(defun same-object (one other)
  (cond ((and (consp one) (consp other)) (and (same-object (car one) (car other)) (same-object (cdr one) (cdr other))))
        ((and (vectorp one) (vectorp other)) (and (= (length one) (length other)) (every #'same-object one other)))
        (t (eql one other))))

(defun expect (what wanted got)
  (cond ((same-object wanted got) (incf (first *counts*)))
        (t (incf (second *counts*))
           (format t "~A: wanted ~S, got ~S~%" what wanted got))))

(defun named (name &optional (package "COMMON-LISP-USER"))
  (values (find-symbol name package)))

(defun property (symbol indicator)
  (get symbol (named indicator)))

;;; COMMON-LISP-USER has names of its own here, so what is looked at is found by its name
(defun check-export (count)
  (expect "forms" t (> count 50))
  (expect "a function of PAZTURROK" 7 (property 'common-lisp:car "PRICE"))
  (expect "a function that COMMON-LISP has not" "PAZTURROK" (package-name (symbol-package (property (named "APPLE") "FORGET"))))
  (expect "the INCF with a default" '("INCF" "PAZTURROK" nil)
          (let ((symbol (get (named "APPLE") 'list)))
            (list (symbol-name symbol) (package-name (symbol-package symbol)) (eq symbol 'common-lisp:incf))))
  (expect "a symbol of its own" (list (named "CAR" "SHOP") nil) (list (intern "CAR" "SHOP") (eq (named "CAR" "SHOP") 'common-lisp:car)))
  (expect "its property" (list 'common-lisp:car (named "a b" "SHOP") #\Space #(1 -1/2) "te\"xt" :key) (property (named "CAR" "SHOP") "PRICE"))
  (expect "a symbol of a package that others use" (list (named "SORT" "P") (named "SORT" "P") 1)
          (list (named "SORT") (named "SORT" "SHOP") (property (named "SORT" "P") "OWN"))))

(check-export (pazturrok-export:load-export #+sbcl (sb-ext:posix-getenv "PAZTURROK_EXPORT") #+ecl (ext:getenv "PAZTURROK_EXPORT")))
(format t "~{~D passed, ~D failed~%~}" *counts*)
(finish-output)
#+ecl (ext:quit (second *counts*))
#+sbcl (sb-ext:exit :code (second *counts*))
