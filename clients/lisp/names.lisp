;;;; Which symbol of the image stands for which symbol of the store.
;;;;
;;;; A symbol of the store is named by its home there and its name. HOME-OF gives the home for a symbol
;;;; of the image, SYMBOL-OF the symbol for a home and a name, and each undoes the other: SYMBOL-OF takes
;;;; a symbol that the image has only if HOME-OF leads back. A symbol that the image has not becomes one
;;;; of a package of this client's, so that no answer adds a symbol to a package of the image's.

(in-package "PAZTURROK-CLIENT")

(defparameter *operators*
  '(t nil function *package* *readtable* *read-base* quote progn if list get setf remprop symbol-plist
    incf push make-package in-package export import use-package intern copy-readtable
    set-syntax-from-char set-macro-character get-macro-character make-dispatch-macro-character
    set-dispatch-macro-character get-dispatch-macro-character readtable-case)
  "The symbols of COMMON-LISP that the store has there too. Its IN-READTABLE is none of the image's.")

(defparameter *own-prefix* "PAZTURROK/"
  "The package PAZTURROK/BOOK has the symbols of the store's package BOOK that the image has not.")

(defstruct (naming (:copier nil))
  "How the symbols of a store are named."
  (package *package* :type package)             ; stands for the store's COMMON-LISP-USER
  (interns-p nil)                               ; whether answers add symbols to it
  (unicode-p t)                                 ; whether texts may have characters past ASCII
  (current "COMMON-LISP-USER" :type string)     ; the store's current package: answers are printed in it
  (bare '() :type list))                        ; the names of COMMON-LISP that it finds

(defun operator-named-p (name)
  (multiple-value-bind (symbol status) (find-symbol name "COMMON-LISP")
    (and status (member symbol *operators*) t)))

(defun own-package-p (package)
  (let ((name (package-name package)) (length (length *own-prefix*)))
    (and (>= (length name) length) (string= *own-prefix* name :end2 length))))

(defun own-package (home)
  "The client's own package for the store's package HOME."
  (let ((name (concatenate 'string *own-prefix* home)))
    (or (find-package name) (make-package name :use '()))))

(defun home-of (symbol naming)
  "The store's package in which SYMBOL, which has a home, is named. If it has no name there, NIL and why."
  (let ((home (symbol-package symbol))
        (name (symbol-name symbol))
        (package (naming-package naming)))
    (cond ((eq home (find-package "KEYWORD")) "KEYWORD")
          ((own-package-p home) (subseq (package-name home) (length *own-prefix*)))
          ((member symbol *operators*) "COMMON-LISP")
          ((operator-named-p name)
           (values nil "an operator of the store has its name"))
          ((eq symbol (find-symbol name package)) "COMMON-LISP-USER")
          ((and (eq home (find-package "COMMON-LISP")) (not (find-symbol name package)))
           "COMMON-LISP-USER")
          ((member (package-name home) '("COMMON-LISP" "COMMON-LISP-USER") :test #'string=)
           (values nil (format nil "the package ~A stands for COMMON-LISP-USER" (package-name package))))
          (t (package-name home)))))

(defun symbol-of (home name naming)
  "The image's symbol for the symbol NAME of the store's package HOME."
  (flet ((found-in (package)
           (multiple-value-bind (symbol status) (and package (find-symbol name package))
             (when (and status symbol (symbol-package symbol)
                        (equal (home-of symbol naming) home))
               symbol))))
    (cond ((string= home "KEYWORD") (values (intern name "KEYWORD")))
          ((string= home "COMMON-LISP") (values (find-symbol name "COMMON-LISP")))
          ((string/= home "COMMON-LISP-USER")
           (or (found-in (find-package home)) (values (intern name (own-package home)))))
          ((found-in (naming-package naming)))
          ((found-in "COMMON-LISP"))
          (t (values (intern name (if (naming-interns-p naming)
                                      (naming-package naming)
                                      (own-package home))))))))

(defun home-named (prefix name naming)
  "The home of a symbol that an answer names with this prefix, or with none."
  (let ((home (cond (prefix)
                    ((member name (naming-bare naming) :test #'string=) "COMMON-LISP")
                    (t (naming-current naming)))))
    (if (and (string= home "COMMON-LISP") (not (operator-named-p name)))
        "COMMON-LISP-USER"
        home)))
