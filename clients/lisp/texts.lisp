;;;; Whether a text is just one whole form, as the standard readtable has it.
;;;;
;;;; A form that is not whole has no answer, and a second form has an answer that nobody waits for.

(in-package "PAZTURROK-CLIENT")

(defparameter *token-enders* (concatenate 'string *whitespace* "()'\"`,;"))

(defun skip-delimited (text place mark)
  "The place after the next MARK, or NIL where there is none; a backslash takes the next character as it is."
  (loop while (< place (length text))
        do (let ((char (char text place)))
             (incf place)
             (cond ((char= char mark) (return place))
                   ((char= char #\\) (incf place))))))

(defun skip-token (text place)
  "The place where the token ends that goes on at PLACE, or NIL where it is open at the end."
  (loop with length = (length text)
        while (< place length)
        do (let ((char (char text place)))
             (cond ((find char *token-enders*) (return place))
                   ((char= char #\\) (incf place 2))
                   ((char= char #\|)
                    (setf place (or (skip-delimited text (1+ place) #\|) (return nil))))
                   (t (incf place))))
        finally (return (and (= place length) place))))

(defun skip-block (text place)
  "The place after the block comment that goes on at PLACE, or NIL where it is open at the end."
  (loop with depth = 1
        while (< (1+ place) (length text))
        do (cond ((string= text "|#" :start1 place :end1 (+ place 2))
                  (incf place 2)
                  (when (zerop (decf depth)) (return place)))
                 ((string= text "#|" :start1 place :end1 (+ place 2))
                  (incf place 2)
                  (incf depth))
                 (t (incf place)))))

(defun skip-sharp (text place)
  "What stands after the sharp sign before PLACE: the place after it, or NIL where it is open; and its effect."
  (let ((sub (position-if-not (lambda (char) (char<= #\0 char #\9)) text :start place)))
    (when sub
      (case (char text sub)
        (#\( (values (1+ sub) :opens))
        (#\| (values (skip-block text (1+ sub)) :nothing))
        (#\\ (values (and (< (1+ sub) (length text)) (skip-token text (+ sub 2))) :object))
        ((#\: #\b #\B #\o #\O #\x #\X #\r #\R) (values (skip-token text (1+ sub)) :object))
        (t (values (1+ sub) :begins))))))

(defun skip-piece (text place)
  "One piece of a text: the place after it, or NIL where it is open; and its effect."
  (let ((char (char text place)) (next (1+ place)))
    (case char
      (#\( (values next :opens))
      (#\) (values next :closes))
      ((#\' #\` #\,) (values next :begins))
      (#\" (values (skip-delimited text next #\") :object))
      (#\; (values (or (position #\Newline text :start next) (length text)) :nothing))
      (#\# (skip-sharp text next))
      (t (if (find char *whitespace*)
             (values next :nothing)
             (values (skip-token text place) :object))))))

(defun one-form-p (text)
  "Whether TEXT is one whole form, with nothing beside it but whitespace and comments."
  (loop with depth = 0 and objects = 0 and begun-p = nil and place = 0
        while (< place (length text))
        do (multiple-value-bind (next effect) (skip-piece text place)
             (unless next (return nil))
             (ecase effect
               (:opens (incf depth))
               (:closes (decf depth))
               (:begins (setf begun-p t))
               ((:object :nothing)))
             (when (minusp depth) (return nil))
             (when (and (zerop depth) (member effect '(:closes :object)))
               (incf objects)
               (setf begun-p nil))
             (setf place next))
        finally (return (and (zerop depth) (= objects 1) (not begun-p)))))
