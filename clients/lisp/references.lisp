;;;; Characters past ASCII in texts: a store has a reference in place of each, as `&#xFC;', the number of the character in
;;;; hexadecimal digits. A text that has such a reference of its own is written with `&#x26;' in place of the ampersand, so
;;;; what is read is what was written.

(in-package "PAZTURROK-CLIENT")

(defconstant +most-digits+ 6 "Of the number of a character.")

(defun character-number-p (code)
  "Whether CODE is that of an ampersand, or of a character past ASCII. Surrogates are no characters."
  (or (= code (char-code #\&)) (<= 128 code #xD7FF) (<= #xE000 code #x10FFFF)))

(defun reference-at (text place)
  "The number of the character for which a reference at PLACE of TEXT stands, and the place after it; or NIL."
  (let ((start (+ place 3)) (length (length text)))
    (when (and (< start length) (string= "&#x" text :start2 place :end2 start) (char/= (char text start) #\0))
      (let ((end (position-if-not (lambda (char) (find char "0123456789ABCDEF")) text
                                  :start start :end (min length (+ start +most-digits+ 1)))))
        (when (and end (> end start) (char= (char text end) #\;))
          (let ((code (parse-integer text :start start :end end :radix 16)))
            (when (character-number-p code) (values code (1+ end)))))))))

(defun with-references (text)
  "A text as a store has it."
  (with-output-to-string (to)
    (loop for char across text
          for place from 0
          for code = (char-code char)
          do (cond ((and (> code 127) (not (character-number-p code))) (cannot-send text "it has a half of a surrogate pair"))
                   ((or (> code 127) (and (char= char #\&) (reference-at text place))) (format to "&#x~:@(~X~);" code))
                   (t (write-char char to))))))

(defun without-references (text)
  "The text that a store has so."
  (if (not (search "&#x" text))
      text
      (with-output-to-string (to)
        (loop with place = 0
              while (< place (length text))
              do (multiple-value-bind (code end) (reference-at text place)
                   (write-char (if code (code-char code) (char text place)) to)
                   (setf place (or end (1+ place))))))))
