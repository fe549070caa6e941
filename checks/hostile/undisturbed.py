"""What each session of the campaign gives where nothing is disturbed: its status, and standard output. Taken from a run
of the proved program and read against the rules of the language by one reader: it shows a change, and is no independent
model."""

WANTED = {
    "property": (0, (
        b'7\n'
        b'7\n'
    )),
    "tokens": (0, b'(|1| |1| 1 1 0 2/3 |1+|)\n'),
    "brackets": (0, (
        b'T\n'
        b'T\n'
        b'#(1 2)\n'
    )),
    "brackets again": (1, (
        b'#(1 2)\n'
        b'! 20 MACRO-REFUSED\n'
    )),
    "no way in": (0, b'T\n'),
    "rescue": (0, b':USER\n'),
    "rescued": (0, b'NIL\n'),
    "together": (0, b"7\n8\n! 31 UNKNOWN-OPERATOR\n8\n\"t\"\n"),
    "snapshots": (0, (
        b'7\n'
        b'8\n'
        b'"t"\n'
    )),
    "more snapshots": (0, (
        b'9\n'
        b'9\n'
        b'10\n'
        b'11\n'
    )),
    "sharp sign": (0, (
        b'(255 35 -1/2 #\\Space)\n'
        b'(#:A (FUNCTION F) "")\n'
    )),
    "dispatch": (1, (
        b'T\n'
        b'T\n'
        b'42\n'
        b'! 20 MACRO-REFUSED\n'
    )),
    "a closed half": (0, (
        b'7\n'
        b'8\n'
    )),
    "messages": (0, (
        b'at 0\n'
        b'1 1\n7\n'
        b'ask 1\n7\n'
        b'ask 20\n! 51 QUESTION-WRITES\n'
        b'1 15\n! 50 OLD-NUMBER\n'
        b'4 1\n8\n'
        b'ask 15\n! 4 STRAY-CLOSE\n'
        b'8 4\n"t\n"\n'
    )),
    "more messages": (0, (
        b'at 8\n'
        b'9 2\n18\n'
        b'ask 2\n18\n'
        b'10 1\n9\n'
    )),
    "operators": (0, (
        b'"P"\n'
        b'"P"\n'
        b'NEWONE\n'
        b'(1 2 "three" #\\a #(1 2) |odd name| #:UN)\n'
        b'COMMON-LISP:T\n'
        b'"COMMON-LISP-USER"\n'
        b'T\n'
        b'! 30 NOT-A-FORM\n'
        b'|made|\n'
        b'T\n'
        b'(1)\n'
        b'(2 1)\n'
        b'! 33 ARGUMENT-KIND\n'
        b'! 33 ARGUMENT-KIND\n'
        b'(B (2 1))\n'
        b'T\n'
        b'("COMMON-LISP-USER" :USER 10)\n'
        b'(:UPCASE :STD-QUOTE :STD-CHAR)\n'
        b':OTHER\n'
        b':OTHER\n'
        b'T\n'
        b'T\n'
        b'T\n'
        b'42\n'
        b':INVERT\n'
        b'(D 42)\n'
        b'! 31 UNKNOWN-OPERATOR\n'
    )),
    "after operators": (0, (
        b'(D 42)\n'
        b'(D 42)\n'
    )),
    "dump": (0, (
        b'(("COMMON-LISP-USER" ("COMMON-LISP" "P") ("A" "B" "D" "made") NIL (("OTHER" "P"))) ("KEYWORD" NIL ("NOTE" "OTHER" "SCALE") NIL NIL) ("P" NIL ("COMMON-LISP-USER" "IND" "NEWONE" "OTHER" "odd name") ("NEWONE") NIL))\n'
        b'((A D 42) (NEWONE P::IND (1 2 "three" #\\a #(1 2) P::|odd name| #:UN)))\n'
        b'("COMMON-LISP-USER" "OTHER" 10 (("OTHER" "INVERT" ((33 2 "NOTE" NIL) (64 2 "STD-DISPATCH" ((83 "SCALE"))))) ("USER" "UPCASE" NIL)))\n'
    )),
    "verify": (0, b'half A generation 7 records 2\n'),
    "snapshot": (0, b'half B generation 8 records 0\n'),
    "a further snapshot": (0, b'half A generation 9 records 0\n'),
    "strict": (1, b'7\n8\n! 31 UNKNOWN-OPERATOR\n'),
    "version 1": (0, b'8\n17\n18\n'),
    "version 3": (0, b'8\n8\n"t"\n! 31 UNKNOWN-OPERATOR\n9\n'),
    "batches": (0, b'7\n8\n! 31 UNKNOWN-OPERATOR\n8\n"t"\n'),
    "after version 3": (0, b'8\n17\n18\n'),
    "upgrade": (0, b'version 2\n'),
    "one sync": (0, b'8\n8\n"t"\n! 31 UNKNOWN-OPERATOR\n9\n'),
    "batches with one sync": (0, b"7\n8\n! 31 UNKNOWN-OPERATOR\n8\n\"t\"\n"),
    "more with one sync": (0, b'9\n"t"\n10\n'),
    "to one sync": (0, b'8\n17\n18\n'),
    "messages with one sync": (0, (
        b'at 0\n'
        b'1 1\n7\n'
        b'ask 1\n7\n'
        b'ask 20\n! 51 QUESTION-WRITES\n'
        b'1 15\n! 50 OLD-NUMBER\n'
        b'4 1\n8\n'
        b'ask 15\n! 4 STRAY-CLOSE\n'
        b'8 4\n"t\n"\n'
    )),
    "upgrade to one sync": (0, b'version 3\n'),
    "export": (0, (
        b'(IN-READTABLE :STANDARD)\n'
        b'(MAKE-PACKAGE "P")\n'
        b'(INTERN "A" "COMMON-LISP-USER")\n'
        b'(INTERN "B" "COMMON-LISP-USER")\n'
        b'(INTERN "D" "COMMON-LISP-USER")\n'
        b'(INTERN "made" "COMMON-LISP-USER")\n'
        b'(INTERN "NOTE" "KEYWORD")\n'
        b'(INTERN "OTHER" "KEYWORD")\n'
        b'(INTERN "SCALE" "KEYWORD")\n'
        b'(INTERN "COMMON-LISP-USER" "P")\n'
        b'(INTERN "IND" "P")\n'
        b'(INTERN "NEWONE" "P")\n'
        b'(INTERN "OTHER" "P")\n'
        b'(INTERN "odd name" "P")\n'
        b'(IMPORT \'(P::OTHER) "COMMON-LISP-USER")\n'
        b'(EXPORT \'(P::NEWONE) "P")\n'
        b'(USE-PACKAGE "P" "COMMON-LISP-USER")\n'
        b"(SETF (GET 'A 'D) '42)\n"
        b'(SETF (GET \'P::NEWONE \'P::IND) \'(1 2 "three" #\\a #(1 2) P::|odd name| #:UN))\n'
        b'(COPY-READTABLE :STANDARD :OTHER)\n'
        b'(SETF (READTABLE-CASE :OTHER) :INVERT)\n'
        b'(SET-MACRO-CHARACTER #\\! :NOTE NIL :OTHER)\n'
        b'(MAKE-DISPATCH-MACRO-CHARACTER #\\@ NIL :OTHER)\n'
        b'(SET-DISPATCH-MACRO-CHARACTER #\\@ #\\S :SCALE :OTHER)\n'
        b'(COPY-READTABLE :STANDARD :USER)\n'
        b'(PROGN (IN-PACKAGE "COMMON-LISP-USER") (SETF *READ-BASE* 10) (IN-READTABLE :OTHER))\n'
    )),
    "export of data": (0, (
        b'(MAKE-PACKAGE "P")\n'
        b'(INTERN "A" "COMMON-LISP-USER")\n'
        b'(INTERN "B" "COMMON-LISP-USER")\n'
        b'(INTERN "D" "COMMON-LISP-USER")\n'
        b'(INTERN "made" "COMMON-LISP-USER")\n'
        b'(INTERN "NOTE" "KEYWORD")\n'
        b'(INTERN "OTHER" "KEYWORD")\n'
        b'(INTERN "SCALE" "KEYWORD")\n'
        b'(INTERN "COMMON-LISP-USER" "P")\n'
        b'(INTERN "IND" "P")\n'
        b'(INTERN "NEWONE" "P")\n'
        b'(INTERN "OTHER" "P")\n'
        b'(INTERN "odd name" "P")\n'
        b'(IMPORT \'(P::OTHER) "COMMON-LISP-USER")\n'
        b'(EXPORT \'(P::NEWONE) "P")\n'
        b'(USE-PACKAGE "P" "COMMON-LISP-USER")\n'
        b"(SETF (GET 'A 'D) '42)\n"
        b'(SETF (GET \'P::NEWONE \'P::IND) \'(1 2 "three" #\\a #(1 2) P::|odd name| #:UN))\n'
        b'(PROGN (IN-PACKAGE "COMMON-LISP-USER"))\n'
    )),
}
