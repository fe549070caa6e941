/* What the calls of pazturrok.h have in common. */
#ifndef PAZTURROK_CALLS_H
#define PAZTURROK_CALLS_H
#include "stores.h"

/* Texts over this in one call are not handed to the engine: it is far over what a form may have. */
#define TEXT_LIMIT 1073741824u

enum { FORM_TOO_LONG = 23 };

/* The head of one answer of many: a number of two bytes, and a length of eight. */
enum { ANSWER_HEAD = 10 };

/* Begins a call that the arguments allow; `*number` is 0 where it goes on. */
struct call begin_call(pazturrok_store id, bool is_allowed, int *number);

/* Makes room for an answer of this length. What is far too much is let go. */
bool make_room(struct store *store, size_t length);

/* The answer of a call that the engine has answered, in the room of the store, with a zero after it. Where there is no room for
   it, none of its orders is carried out. */
int finish_answer(struct store *store, pzt_done *done);

/* One answer of many: the number in its head, and its text. */
struct answer {
    unsigned number;
    char *text;
    size_t length;
};

/* Fills the outcomes of a call to many, each by its number, with a zero after its answer. Where they are not that many, or one is 60, the
   call has failed, before any of its orders is carried out. */
void take_outcomes(struct store *store, pzt_done *done, int (*number_of)(const struct answer *), pazturrok_outcome *outcomes, size_t count);

/* Adds the length of a text to that of all: a number where it is none, or too much. */
int add_length(size_t *whole, const char *text, size_t length);
/* Copies a text, and gives where the next one goes. */
uint8_t *copy_text(uint8_t *to, const char *text, size_t length);

/* No outcome of a call that was not done. */
void empty_outcomes(pazturrok_outcome *outcomes, size_t count);

#endif
