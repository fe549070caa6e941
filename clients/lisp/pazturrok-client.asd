(defsystem "pazturrok-client"
  :version "0.3.0"
  :description "Sends forms to a store of Pazturrok, a program or a library in this process, and reads its answers."
  :depends-on ("uiop" (:feature :sbcl (:require "sb-bsd-sockets")) (:feature :ecl (:require "sockets")))
  :serial t
  :components ((:file "package")
               (:file "conditions")
               (:file "names")
               (:file "references")
               (:file "printer")
               (:file "answers")
               (:file "texts")
               (:file "calls")
               (:file "process")
               (:file "library")
               (:file "store")
               (:file "messages")
               (:file "named")
               (:file "nodes")
               (:file "properties"))
  :in-order-to ((test-op (test-op "pazturrok-client/tests"))))

(defsystem "pazturrok-client/tests"
  :description "Checks of the client, which need the program: PAZTURROK_PROGRAM is its path."
  :depends-on ("pazturrok-client" (:feature :sbcl (:require "sb-posix")))
  ;; checks/lisp of the repository; ECL takes no "../" here.
  :pathname #.(merge-pathnames "checks/lisp/" (uiop:pathname-parent-directory-pathname
                                               (uiop:pathname-parent-directory-pathname *load-truename*)))
  :serial t
  :components ((:file "harness")
               (:file "interrupts")
               (:file "texts")
               (:file "store")
               (:file "messages")
               (:file "named")
               (:file "nodes")
               (:file "forks")
               (:file "properties")
               (:file "hostile")
               (:file "errors"))
  :perform (test-op (operation component)
             (uiop:symbol-call "PAZTURROK-CHECK" "TEST")))
