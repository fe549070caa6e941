;;;; Calls on a store: one at a time in a thread.

(in-package "PAZTURROK-CLIENT")

(defun process-number ()
  "The number of this process: that of a child of a fork is another one."
  #+sbcl (sb-unix:unix-getpid)
  #+ecl (si:getpid)
  #-(or sbcl ecl) 0)

(defgeneric leave-to-parent (store)
  (:documentation "Leaves a store, or a feed, to the parent, where this process is a child of a fork after which nobody called it yet."))

(defvar *calls-under-way* '() "The stores and feeds of which this thread is within a call.")

(defun call-alone (store function)
  "What FUNCTION gives, within which no other call on STORE, or feed, begins in this thread: one of an interrupt or a
finalizer is refused, as each would take what is answered for its own. What is signalled of the store is signalled
after it, so a handler may call the store."
  (when (member store *calls-under-way* :test #'eq) (error 'nested-call))
  (let ((signalled nil))
    (multiple-value-prog1
        (handler-case (let ((*calls-under-way* (cons store *calls-under-way*)))
                        (leave-to-parent store)
                        (funcall function))
          (own-error (condition) (setf signalled condition)))
      (when signalled (error signalled)))))

(defmacro alone ((store) &body body)
  "What BODY gives, which is alone on STORE, or a feed."
  `(call-alone ,store (lambda () ,@body)))
