;;;; Forms as text that every session reads, under the standard readtable, and in COMMON-LISP-USER or in every package; or UNSENDABLE.

(in-package "PAZTURROK-CLIENT")

(defconstant +form-limit+ (expt 2 20) "How many bytes a form may have (23).")
(defconstant +token-limit+ 4096 "How many characters a token may have (24), and a symbol's name.")
(defconstant +depth-limit+ 100 "How many lists and vectors may be open at once (22).")

(defvar *form* nil "The form that is written.")
(defvar *naming* nil "How its symbols are named.")
(defvar *text* nil "Where its text goes.")
(defvar *room* 0 "How many characters it may still have.")
(defvar *homes* '() "The store's packages that it names.")
(defvar *anywhere-p* nil "Whether its text means the same in every package and read base of the store, or in COMMON-LISP-USER in base 10 alone.")

(defparameter *short-prefixes* '(("COMMON-LISP-USER" . "CL-USER::") ("COMMON-LISP" . "CL:"))
  "How a symbol is named in every package. No form gives these nicknames to another one.")

(defun put (text)
  (when (minusp (decf *room* (length text)))
    (cannot-send *form* "it is longer than ~D characters, or circular" +form-limit+))
  (write-string text *text*))

(defun check-characters (text object)
  (let ((char (find 127 text :key #'char-code :test #'<)))
    (when char (cannot-send object "the character ~S is over 127" char))))

(defun name-start-p (char)
  (or (char<= #\A char #\Z) (find char "*!$<>=?%&_")))

(defun plain-name-p (name)
  "Whether the name is written without bars."
  (and (plusp (length name))
       (name-start-p (char name 0))
       (every (lambda (char) (or (name-start-p char) (char<= #\0 char #\9) (find char "+-/"))) name)))

(defun escaped-in-bars-p (char)
  (let ((code (char-code char)))
    (or (find char "|\\") (<= code 7) (= code 11) (<= 14 code 31))))

(defun delimited (text mark escaped-p)
  (with-output-to-string (to)
    (write-char mark to)
    (loop for char across text
          do (when (funcall escaped-p char) (write-char #\\ to))
             (write-char char to))
    (write-char mark to)))

(defun name-text (name)
  (if (plain-name-p name) name (delimited name #\| #'escaped-in-bars-p)))

(defun symbol-prefix (symbol)
  (if (null (symbol-package symbol))
      "#:"
      (multiple-value-bind (home reason) (home-of symbol *naming*)
        (unless home (cannot-send symbol "~A" reason))
        (check-characters home symbol)
        (cond ((assoc home *short-prefixes* :test #'string=)
               (if *anywhere-p* (whole-prefix (cdr (assoc home *short-prefixes* :test #'string=)) 0 symbol) ""))
              ((string= home "KEYWORD") ":")
              (t (pushnew home *homes* :test #'string=)
                 (whole-prefix (concatenate 'string (name-text home) "::") (- (length home) (length (name-text home))) symbol))))))

(defun whole-prefix (prefix less symbol)
  "PREFIX, where the token of SYMBOL behind it is not too long. LESS is what the bars and escapes in it count, which is negative."
  (when (> (+ (length prefix) less (length (symbol-name symbol))) +token-limit+)
    (cannot-send symbol "with its package it has more than ~D characters" +token-limit+))
  prefix)

(defun put-symbol (symbol)
  (check-characters (symbol-name symbol) symbol)
  (when (> (length (symbol-name symbol)) +token-limit+)
    (cannot-send symbol "its name has more than ~D characters" +token-limit+))
  (put (symbol-prefix symbol))
  (put (name-text (symbol-name symbol))))

(defun put-rational (number)
  (unless (and (typep (numerator number) '(signed-byte 128))
               (typep (denominator number) '(unsigned-byte 128)))
    (cannot-send number "it has more than 128 bits"))
  (when (and *anywhere-p* (not (integerp number))) (put "#10R"))
  (put (let ((*print-base* 10) (*print-radix* nil)) (princ-to-string number)))
  (when (and *anywhere-p* (integerp number)) (put ".")))

(defparameter *character-names*
  '((#\Space . "Space") (#\Newline . "Newline") (#\Tab . "Tab") (#\Page . "Page")
    (#\Return . "Return") (#\Backspace . "Backspace") (#\Rubout . "Rubout")))

(defun put-character (char)
  (check-characters (string char) char)
  (put "#\\")
  (put (or (cdr (assoc char *character-names*)) (string char))))

(defun string-text (string)
  (delimited string #\" (lambda (char) (find char "\"\\"))))

(defun put-string (string)
  (let ((text (if (naming-unicode-p *naming*) (with-references string) string)))
    (check-characters text string)
    (put (string-text text))))

(defun short-quotation-p (object)
  "Whether it is a quotation that is written with a quote."
  (and *anywhere-p* (consp object) (eq (first object) 'quote) (consp (rest object)) (null (cddr object))))

(defun put-list (list depth)
  (put "(")
  (loop for (item . rest) on list
        for first = t then nil
        do (unless first (put " "))
           (put-object item depth)
           (when (and rest (atom rest))
             (put " . ")
             (put-object rest depth)))
  (put ")"))

(defun put-object (object &optional (depth 0))
  (when (and (or (consp object) (and (vectorp object) (not (stringp object))))
             (> (incf depth) +depth-limit+))
    (cannot-send *form* "it is deeper than ~D, or circular" +depth-limit+))
  (typecase object
    (rational (put-rational object))
    (character (put-character object))
    (string (put-string object))
    (symbol (put-symbol object))
    ((satisfies short-quotation-p) (put "'") (put-object (second object) depth))
    (cons (put-list object depth))
    (vector (put "#") (put-list (coerce object 'list) depth))
    (t (cannot-send object "a store has no objects of type ~S" (type-of object)))))

(defun form-text (form naming &optional anywhere)
  "The text of FORM, and the store's packages that it names. With ANYWHERE it means the same in every package and read base."
  (let* ((*form* form) (*naming* naming) (*room* +form-limit+) (*homes* '()) (*anywhere-p* anywhere)
         (text (with-output-to-string (*text*) (put-object form))))
    (values text *homes*)))
