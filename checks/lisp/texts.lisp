;;;; Texts alone: forms as text, where an answer ends, what it means, which symbol is which. No program runs.

(in-package "PAZTURROK-CHECK")

(defun lines (&rest lines)
  (format nil "~{~A~%~}" lines))

(defun answers-of (text)
  "The texts of the answers in TEXT, one after the other."
  (with-input-from-string (from text)
    (flet ((next () (or (read-char from nil) (error "the text is at its end"))))
      (loop while (peek-char nil from nil) collect (answer-text #'next)))))

(define-check answers-end-where-they-end ()
  (dolist (texts (list '("7") '("NIL" "T") '("!" "! 31 UNKNOWN-OPERATOR" "!" "!X")
                       '("(A B)" "#(1 2)" "(A . B)")
                       (list (format nil "\"two~%lines\"") (format nil "(\"a~%! 31 X~%b\" |c~%d|)") "8")
                       '("\"a \\\" b\"" "|a \\| (b|" "#\\(" "#\\)" "#\\\"" "#\\|" "(#\\( #\\) #\\\")" "#\\\\" "9")
                       (list "! 7 FLOAT-TOKEN" "(! X)" "|! X|")))
    (expect "the answers" texts (answers-of (apply #'lines texts))))
  (dolist (text (list ")" "(A))" "A B" "1 2" (format nil "(A~%B)") "!X Y" "\"a\" \"b\"" "! X Y" "(A) B"))
    (expect text (if (string= text "! X Y") :nothing 'malformed-answer)
            (signalled (answers-of (lines text))))))

(defun value-of (text &optional (naming (make-naming :bare (mapcar #'symbol-name *operators*))))
  (parse-answer text (lambda (prefix name) (symbol-of (home-named prefix name naming) name naming))))

(define-check texts-are-objects ()
  (loop for (text object)
        in `(("0" 0) ("-7" -7) ("22/7" 22/7) ("-1/2" -1/2) (,(format nil "~D" (expt 2 126)) ,(expt 2 126))
             ("#\\a" #\a) ("#\\Space" #\Space) ("#\\Newline" #\Newline) ("#\\Rubout" ,(code-char 127)) ("#\\(" #\()
             ("\"\"" "") ("\"a\\\\b\\\"c\"" "a\\b\"c") ("NIL" nil) ("T" t) (":KEY" :key) ("CAR" car) ("COMMON-LISP:NIL" nil)
             ("(1 . 2)" (1 . 2)) ("(1 2 . 3)" (1 2 . 3)) ("(1 (2) #(3 \"x\"))" (1 (2) #(3 "x"))) ("#()" #())
             ("(NIL T QUOTE)" (nil t quote)) ("(QUOTE X)" 'x) ("#:FREE" #:free) ("(#\\( #\\) #\\a)" (#\( #\) #\a))
             ("|a b|" |a b|) ("||" ||) ("!" !) ("(|1+| *X*)" (|1+| *x*)))
        do (expect text object (value-of text)))
  (dolist (text '("" "#.(error \"evaluated\")" "#<FOO>" "1.5" "1/0" "1e5" "#C(1 2)" "#1=(A)" "#1A(1)" "#'CAR" "(1 .)" "(. 1)"
                  "(1 . 2 3)" "#(1 . 2)" "`(A)" "'A" "a" "#\\Foo" "A:B:C" "::A" "A:" ":" "#" "#:" "\"open" "|open" "(1" "(1  2)"
                  "( 1)" "(1 )" "--1" "-" "1+" "A.B" "\\A" "A|b|"))
    (expect text 'malformed-answer (signalled (value-of text))))
  (expect "a deep answer" 'malformed-answer
          (signalled (value-of (format nil "~A1~A" (make-string 100000 :initial-element #\()
                                       (make-string 100000 :initial-element #\))))))
  (expect "a character over 127" 'malformed-answer
          (signalled (value-of (format nil "\"~A\"" (code-char 252))))))

(define-check characters-past-ascii ()
  (loop for (text written)
        in `((,(format nil "Z~Crich" (code-char 252)) "Z&#xFC;rich") ("&" "&") ("&#x41;" "&#x41;") ("&#xFC;" "&#x26;#xFC;")
             ("&#x26;" "&#x26;#x26;") ("&#x0FC;" "&#x0FC;") ("&#xfc;" "&#xfc;") ("&#xD800;" "&#xD800;") ("&#xFC" "&#xFC")
             ("&#x110000;" "&#x110000;") ("&#x10FFFF;" "&#x26;#x10FFFF;") (,(string (code-char #x1F600)) "&#x1F600;"))
        do (expect text written (with-references text))
           (expect written text (without-references written)))
  (let ((bits (list "&" "#" "x" "2" "6" "F" ";" "&#x26;" "&#xE9;" (string (code-char 233)) (string (code-char 8364)) "a")))
    (dotimes (count 2000)
      (let ((text (format nil "~{~A~}" (loop repeat (random 8) collect (nth (random (length bits)) bits)))))
        (expect text text (without-references (with-references text))))))
  (let ((naming (make-naming :unicode-p nil)) (text (string (code-char 252))))
    (expect "a character that may not be sent" 'unsendable (signalled (form-text text naming)))
    (expect "one that may" "\"&#xFC;\"" (values (form-text text (make-naming))))
    (expect "a name" 'unsendable (signalled (form-text (make-symbol text) (make-naming))))
    (expect "what is left as it is" "&#xFC;" (parse-answer "\"&#xFC;\"" #'list))
    (expect "what is read" (list text) (parse-answer "(\"&#xFC;\")" #'list t))))

(define-check refusals-are-told-from-values ()
  (expect "a refusal" '(31 "UNKNOWN-OPERATOR") (multiple-value-list (refusal-of "! 31 UNKNOWN-OPERATOR")))
  (dolist (text '("!" "!X" "31" "\"! 31 X\""))
    (expect text nil (refusal-of text)))
  (dolist (text '("! " "! X" "! 31" "!  31 X" "! +31 X"))
    (expect text 'malformed-answer (signalled (refusal-of text)))))

(define-check packages-of-the-image-stay ()
  (let ((home (package-name (symbol-package 'open-store))))
    (dolist (text (list (format nil "~A::NO-SUCH-NAME" home) (format nil "(A ~A:NO-SUCH-NAME)" home) "COMMON-LISP::NO-SUCH-NAME"
                        "NO-SUCH-NAME" "UIOP/DRIVER::NO-SUCH-NAME" "COMMON-LISP-USER::NO-SUCH-NAME"))
      (value-of text))
    (dolist (package (list home "COMMON-LISP" "COMMON-LISP-USER" "UIOP/DRIVER" "PAZTURROK-CHECK"))
      (expect package nil (nth-value 1 (find-symbol "NO-SUCH-NAME" package))))
    (expect "a new name is one symbol" (value-of "NO-SUCH-NAME") (value-of "NO-SUCH-NAME"))
    (expect "it goes back by its name" "NO-SUCH-NAME" (form-text (value-of "NO-SUCH-NAME") (make-naming)))
    (expect "so does one of another package" "NO-SUCH::NAME" (form-text (value-of "NO-SUCH::NAME") (make-naming)))
    (expect "a symbol of a package of the image is found" 'pazturrok-client:open-store
            (value-of "PAZTURROK-CLIENT:OPEN-STORE" (make-naming :package (find-package "COMMON-LISP-USER")))))
  (expect "NIL of a package without COMMON-LISP" "NIL"
          (let ((symbol (value-of "NIL" (make-naming :current "P" :bare '()))))
            (and symbol (symbol-name symbol))))
  (expect "it goes back" "P::NIL" (form-text (value-of "NIL" (make-naming :current "P" :bare '())) (make-naming)))
  (expect "interned where that is asked for" '(:internal "FRESH-NAME")
          (let ((symbol (value-of "FRESH-NAME" (make-naming :package (find-package "PAZTURROK-CHECK") :interns-p t))))
            (list (nth-value 1 (find-symbol "FRESH-NAME" "PAZTURROK-CHECK")) (symbol-name symbol)))))

(define-check forms-are-texts ()
  (loop for (object text)
        in `((0 "0") (-1/2 "-1/2") (nil "NIL") (car "CAR") (:key ":KEY") (#:free "#:FREE") (|a b| "|a b|") ("a\"b" "\"a\\\"b\"")
             ((1 . 2) "(1 . 2)") (#(1 "x") "#(1 \"x\")") (#*101 "#(1 0 1)") (#\Space "#\\Space") (,(code-char 7) ,(format nil "#\\~C" (code-char 7)))
             ('x "(QUOTE X)") (|| "||") (uiop:getcwd "UIOP/OS::GETCWD"))
        do (expect text text (form-text object (make-naming :package (find-package "PAZTURROK-CHECK")))))
  (let ((circle (list 1 2)) (deep nil))
    (setf (cddr circle) circle)
    (dotimes (i 101) (setf deep (list deep)))
    (dolist (object (list 1.5 1d0 (complex 1 2) (code-char 955) (intern (string (code-char 252)))
                          (expt 2 127) (/ 1 (expt 2 128)) (make-hash-table) #'car (find-package "COMMON-LISP") (list 1 2.0)
                          (make-array '(2 2) :initial-element 0) circle deep (make-string 1048577 :initial-element #\a)
                          (make-symbol (make-string 4097 :initial-element #\A)) (vector 1 #p"x") (list 1 (cons 2 1.5)) '|PI/2.0|))
      (if (eq object '|PI/2.0|)
          (expect "a name with a dot" "|PI/2.0|" (form-text object (make-naming)))
          (expect "an object that no session reads" 'unsendable (signalled (form-text object (make-naming))))))))

(define-check a-text-is-one-form ()
  (dolist (text '("A" "1" "(A B)" "'A" "''(A)" "#'CAR" "#(1 2)" "#3(A)" "\"a(b\"" "|a(b|" "a\\(b" "#\\(" "#\\)" "#\\ " "#:A" "#xFF" "#36rZ"
                  " A " "A ; note" "; note
A" "#|(|# A" "A #|b|#" "#| #| |# |# A" "(A ; )
)" "(A #|)|# B)" "(\")\" |)| #\\) \\))" "a#|b|" "(')" "#.(A)" "'#|b|#A" "(A . B)" "`(A ,B)"))
    (expect text t (one-form-p text)))
  (dolist (text '("" " " "; A" "#|A|#" "(A" "(A))" ")" "A B" "A\"b\"" "\"a" "|a" "a\\" "#\\" "#" "#(1" "'" "A '" "(A) #'" "#|A" "#|#||#A" "(A)(B)" "(A \")"
                  "1 2" "'A 'B" "#12"))
    (expect text nil (one-form-p text))))
