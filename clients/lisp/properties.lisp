;;;; Properties of symbols by calls, each one form: of a store over a pipe or in this process, of a feed, and of nodes.

(in-package "PAZTURROK-CLIENT")

(defgeneric put-form (store form)
  (:documentation "The value of a form that writes.")
  (:method ((store store) form) (send store form))
  (:method ((feed feed) form) (feed-form feed form)))

(defgeneric look-form (store form)
  (:documentation "The value of a form that writes nothing; of nodes after all that was answered before.")
  (:method ((store store) form) (send store form))
  (:method ((feed feed) form) (ask feed form))
  (:method ((feed node-feed) form) (ask-fresh feed form)))

(defun property (store symbol indicator &optional default)
  "The property of a symbol in STORE, which is a store or a feed; or DEFAULT, where the symbol has none."
  (look-form store `(get ',symbol ',indicator ',default)))

(defun (setf property) (value store symbol indicator)
  "Sets the property of a symbol in STORE. INCF or PUSH of a PROPERTY is two forms, and others may come between: send them as one form."
  (put-form store `(setf (get ',symbol ',indicator) ',value))
  value)

(defparameter *function-names*
  '("EQL" "EQUAL" "NOT" "CONSP" "SYMBOLP" "STRINGP" "INTEGERP" "CHARACTERP" "VECTORP" "=" "/=" "<" "<=" ">"
    ">=" "MIN" "MAX" "+" "-" "*" "FLOOR" "MOD" "STRING=" "STRING<" "SYMBOL-NAME" "CONS" "CAR" "CDR" "NTH"
    "APPEND" "MEMBER" "ASSOC" "ADJOIN" "LENGTH" "REVERSE" "REMOVE" "VECTOR" "SVREF" "AND" "OR" "COND" "WHEN"
    "UNLESS" "PROG1" "ASSERT" "FIND-SYMBOL" "LIST-ALL-PACKAGES" "SYMBOLS-WITH" "DECF" "POP" "FORGET-NAMES")
  "The functions that lisp/operators.lisp makes known. INCF with a default is none of them, as its plain name is that of another operator.")

(defconstant +package-exists+ 35)
(defconstant +name-conflict+ 37)

(defun add-operators (store)
  "Makes the functions that compare and compute known to STORE, a store or a feed, by their plain names, as `run DIR --operators` does. A second
time nothing changes. Where COMMON-LISP-USER has a symbol of such a name, REFUSED is signalled with the number 37; the functions are there then
by their names with the package, as PAZTURROK::CAR."
  (let ((refusals '()))
    (dolist (form `((make-package "PAZTURROK")
                    (export (list ,@(loop for name in *function-names* collect `(intern ,name "PAZTURROK"))) "PAZTURROK")
                    (use-package "PAZTURROK" "COMMON-LISP-USER")))
      (handler-case (put-form store form)
        (refused (refusal)
          (when (= (refused-number refusal) +name-conflict+)
            (setf (refused-hint refusal) "a symbol of such a name is there already: write a function with its package, as PAZTURROK::CAR"))
          (unless (= (refused-number refusal) +package-exists+)
            (push refusal refusals)))))
    (when refusals
      (error (first (last refusals))))
    t))

(defconstant +unknown-operator+ 31)

(defun put-form-with-functions (store form)
  "The value of a form that writes, and takes functions that a store may not know: its refusal says what makes them known."
  (handler-bind ((refused (lambda (condition)
                            (when (= (refused-number condition) +unknown-operator+)
                              (setf (refused-hint condition)
                                    (if (node-feed-p store)
                                        "the store does not know the functions: call ADD-OPERATORS, or send the forms of lisp/operators.lisp to a node, once"
                                        "the store does not know the functions: open it once by `pazturrok run DIR --operators`, or call ADD-OPERATORS"))))))
    (put-form store form)))

(defun compare-and-set (store symbol indicator old new)
  "Sets the property of a symbol in STORE where it is EQUAL to OLD, and tells whether it did; NIL stands for none. The store has to know
EQUAL by its plain name, as ADD-OPERATORS makes it known."
  (put-form-with-functions store `(if (equal (get ',symbol ',indicator) ',old)
                                      (progn (setf (get ',symbol ',indicator) ',new) t)
                                      nil)))

(defun take (store symbol indicator &optional default)
  "Takes the first item away from the list that is the property of a symbol in STORE, and gives it; or DEFAULT, where the list is empty.
The store has to know CAR and CDR by their plain names, as ADD-OPERATORS makes them known."
  (put-form-with-functions store `(if (get ',symbol ',indicator)
                                      (car (list (car (get ',symbol ',indicator))
                                                 (setf (get ',symbol ',indicator) (cdr (get ',symbol ',indicator)))))
                                      ',default)))

(defun properties (store symbol)
  "The property list of a symbol in STORE: indicators and properties in turn."
  (look-form store `(symbol-plist ',symbol)))
