;;; SBCL's side of the comparison of readers. A line of standard input has three fields, between tabs: the forms that
;;; change the readtable, each in hexadecimal, between commas; the case of the readtable, or nothing; the text in
;;; hexadecimal. The answer is a line in hexadecimal: the printed object, or CHANGES, PROFILE or REFUSED.

(declaim (sb-ext:muffle-conditions warning))

(load (merge-pathnames "printer.lisp" *load-truename*))

(defun fresh-package ()
  (dolist (name '("P" "TRIAL"))
    (when (find-package name) (delete-package name)))
  (make-package "TRIAL" :use '("COMMON-LISP")))

(defun outcome (changes case text)
  (let ((*package* (fresh-package)) (*readtable* (copy-readtable nil)) (*read-eval* nil))
    (handler-case (dolist (change changes) (eval (read-from-string change)))
      (error () (return-from outcome "CHANGES")))
    (when case (setf (readtable-case *readtable*) (intern case "KEYWORD")))
    (handler-case
        (let ((x (read-from-string text)))
          (with-output-to-string (out)
            (if (and (consp x) (eq (car x) 'quote) (consp (cdr x)) (null (cddr x)))
                (print-object-to (cadr x) out)
                (error "the quote has another meaning"))))
      (out-of-profile () "PROFILE")
      (error () "REFUSED"))))

(defun parts (text separator)
  (loop with start = 0
        for end = (position separator text :start start)
        collect (subseq text start end)
        while end
        do (setf start (1+ end))))

(loop for line = (read-line *standard-input* nil)
      while line
      do (destructuring-bind (changes case text) (parts line #\Tab)
           (write-hexadecimal (outcome (mapcar #'from-hexadecimal (remove "" (parts changes #\,) :test #'equal))
                                       (if (equal case "") nil case)
                                       (from-hexadecimal text)))))
