;;;; A store or a feed that was opened before a fork, in the child and in its parent.

(in-package "PAZTURROK-CHECK")

(defun call-in-child (function)
  "The number that FUNCTION gives in a child of a fork: 0 to 250, or 255 after an error."
  #+sbcl
  (let ((child (sb-posix:fork)))
    (when (zerop child)
      (sb-ext:exit :code (handler-case (funcall function) (error () 255)) :abort t))
    (sb-posix:wexitstatus (nth-value 1 (sb-posix:waitpid child 0))))
  #-sbcl
  (funcall function))

(defmacro in-child ((owner) &body body)
  "What BODY gives in a child. A Lisp without a fork has it in place of one that OWNER, an accessor, was opened by another process."
  #+sbcl (declare (ignore owner))
  `(progn #-sbcl (setf ,owner 0)
          (call-in-child (lambda () ,@body))))

(define-check no-form-of-a-child-is-left-out ()
  (call-with-standing-nodes
   "0"
   (lambda (nodes)
     (with-nodes (feed nodes)
       (expect "in the child, before any connection" 1 (in-child ((pazturrok-client::feed-owner feed)) (feed-form feed *add*)))
       (expect "in its parent" 2 (feed-form feed *add*))
       (expect "in the child, over a connection of its own" 3 (in-child ((pazturrok-client::feed-owner feed)) (feed-form feed *add*)))
       (expect "in its parent, over its own" 4 (feed-form feed *add*))))))

#+sbcl
(define-check a-program-answers-its-parent-alone ()
  (let ((*end-limit* 1/10))
    (with-store (store *program* (subfolder "forked"))
      (expect "a value" 7 (setf (property store 'a 'b) 7))
      (expect "the child has no store, and ends no program" 1
              (in-child ((pazturrok-client::store-owner store))
                (prog1 (if (eq (signalled (property store 'a 'b)) 'broken) 1 0)
                  (close-store store))))
      (expect "the parent goes on" 7 (property store 'a 'b)))
    (with-feed (feed *serving* (subfolder "forked feed"))
      (expect "a value" 0 (feed-form feed "(SETF (GET 'NT 'KY) 0)"))
      (expect "a child that closes a feed ends no program" 1 (in-child ((pazturrok-client::feed-owner feed)) (close-feed feed) 1))
      (expect "the parent goes on" 0 (ask feed "(GET 'NT 'KY)")))))
