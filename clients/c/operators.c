/* The functions that compare and compute, made known to a store by the forms of lisp/operators.lisp. */
#include "pazturrok.h"
#include <string.h>

enum { PACKAGE_EXISTS = 35 };

/* checks/embedded compares these with lisp/operators.lisp. */
static const char *const FORMS[] = {
    "(MAKE-PACKAGE \"PAZTURROK\")",
    "(EXPORT '(PAZTURROK::EQL PAZTURROK::EQUAL PAZTURROK::NOT"
    " PAZTURROK::CONSP PAZTURROK::SYMBOLP PAZTURROK::STRINGP"
    " PAZTURROK::INTEGERP PAZTURROK::CHARACTERP PAZTURROK::VECTORP"
    " PAZTURROK::= PAZTURROK::/= PAZTURROK::< PAZTURROK::<= PAZTURROK::> PAZTURROK::>="
    " PAZTURROK::MIN PAZTURROK::MAX"
    " PAZTURROK::+ PAZTURROK::- PAZTURROK::* PAZTURROK::FLOOR PAZTURROK::MOD"
    " PAZTURROK::STRING= PAZTURROK::STRING< PAZTURROK::SYMBOL-NAME"
    " PAZTURROK::CONS PAZTURROK::CAR PAZTURROK::CDR PAZTURROK::NTH"
    " PAZTURROK::APPEND PAZTURROK::MEMBER PAZTURROK::ASSOC PAZTURROK::ADJOIN"
    " PAZTURROK::LENGTH PAZTURROK::REVERSE PAZTURROK::REMOVE"
    " PAZTURROK::VECTOR PAZTURROK::SVREF"
    " PAZTURROK::AND PAZTURROK::OR PAZTURROK::COND PAZTURROK::WHEN PAZTURROK::UNLESS"
    " PAZTURROK::PROG1 PAZTURROK::ASSERT"
    " PAZTURROK::FIND-SYMBOL PAZTURROK::LIST-ALL-PACKAGES PAZTURROK::SYMBOLS-WITH"
    " PAZTURROK::DECF PAZTURROK::POP"
    " PAZTURROK::FORGET-NAMES)"
    " \"PAZTURROK\")",
    "(USE-PACKAGE \"PAZTURROK\" \"COMMON-LISP-USER\")"};

enum { FORM_COUNT = sizeof FORMS / sizeof *FORMS };

int pazturrok_operators(pazturrok_store store) {
    size_t lengths[FORM_COUNT];
    pazturrok_outcome outcomes[FORM_COUNT];
    for (size_t place = 0; place < FORM_COUNT; place++) lengths[place] = strlen(FORMS[place]);
    int number = pazturrok_execute_all(store, PAZTURROK_RESCUE, FORMS, lengths, FORM_COUNT, outcomes);
    for (size_t place = 0; number == 0 && place < FORM_COUNT; place++)
        /* a store that has the package gets the names that it lacks */
        if (outcomes[place].number != PACKAGE_EXISTS) number = outcomes[place].number;
    return number;
}
