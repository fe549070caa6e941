;;;; Runs the checks of the client: PAZTURROK_PROGRAM is the program, PAZTURROK_FOLDER a folder for stores.
(require #+ecl :asdf #-ecl "asdf")

(let ((*standard-output* (make-broadcast-stream)))
  (asdf:load-asd (merge-pathnames "../../clients/lisp/pazturrok-client.asd" *load-truename*))
  (asdf:load-system "pazturrok-client/tests"))

(uiop:symbol-call "PAZTURROK-CHECK" "RUN-AND-EXIT" (uiop:getenv "PAZTURROK_PROGRAM") (uiop:getenv "PAZTURROK_FOLDER"))
