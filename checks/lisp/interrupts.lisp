;;;; Interrupts that use a store within a call of their thread: they are refused, and the call goes on. On SBCL with threads,
;;;; whose timers interrupt one.

(in-package "PAZTURROK-CHECK")

#+sb-thread
(progn

(defparameter *enough* 50 "How many interrupts have to come within a call.")

(defun call-with-interrupts (interrupt function)
  "Calls FUNCTION again and again, and INTERRUPT by a timer, until that was refused often enough. Gives the list of its values."
  (let* ((values '()) (refused 0) (busy-p nil)
         (timer (sb-ext:make-timer
                 (lambda ()
                   (unless busy-p
                     (setf busy-p t)
                     (unwind-protect (handler-case (push (funcall interrupt) values) (nested-call () (incf refused)))
                       (setf busy-p nil))))
                 :thread sb-thread:*current-thread*)))
    (sb-ext:schedule-timer timer 1/2000 :repeat-interval 1/2000)
    (unwind-protect (loop until (or (>= refused *enough*) (> (length values) (* 20 *enough*))) do (funcall function))
      (sb-ext:unschedule-timer timer))
    (expect "interrupts within calls" t (>= refused *enough*))
    values))

(defun expect-in-turn (what increment)
  "Interrupts and what they interrupt increment one counter, which is 0: each value is that of its own call."
  (let* ((own '())
         (inner (call-with-interrupts increment (lambda () (push (funcall increment) own))))
         (all (append own inner)))
    (expect (format nil "~A: each of its own in turn" what) t (apply #'> own))
    (expect (format nil "~A: each once" what) (loop for number from 1 to (length all) collect number) (sort (copy-list all) #'<))
    (length all)))

(defun check-interrupted-store (store)
  (let ((wrong '()))
    (expect "an interrupt between calls" '()
            (remove 2222 (call-with-interrupts
                          (lambda () (send-text store "(LIST 2222)"))
                          (lambda () (let ((value (send-text store "(LIST 1111)"))) (unless (equal value '(1111)) (push value wrong)))))
                    :key #'first))
    (expect "answers of the interrupt" '() wrong))
  (send-text store "(SETF (GET 'N 'N) 0)")
  (expect "as many as were done" (expect-in-turn "a store" (lambda () (send-text store "(INCF (GET 'N 'N))"))) (send-text store "(GET 'N 'N)"))
  (expect "the store" :good (store-state store)))

(defun check-interrupted-feed (feed form question)
  (expect "as many messages as were done" (expect-in-turn "a feed" (lambda () (feed-form feed form))) (ask feed question)))

)
