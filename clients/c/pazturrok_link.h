/* A link of a client that has a name to the program, which serves a store in a folder (`run DIR --messages`); or to the node of one machine, or the
   nodes of several, which serve one to many clients.

   The store keeps the number of the client's last message, with its form and its answer. So a message that is sent again under its number
   is answered again, word for word: by a process that was killed between sending and reading, and is started again, or by this one where
   the program was killed. Write down the number and the form, call pazturrok_link_do, and cross them out once it has answered.

   A link belongs to one thread at a time, and after a fork to the parent; a name belongs to one link at a time. One program at a time has a store
   open, so there is one link to it by a program. To a node there may be many, of different names.

   Numbers of calls are those of pazturrok.h, and of messages with a name: 48 a form has overwritten the entry of the client; 49 the message was
   carried out, and its answer is not kept; 50 the number is below that of the client's last message; 54 the store has as many clients as it may;
   55 the last message has this number and another form; 56 the name is none; 57 the form is too long. A call with one of these answers did nothing.
   60 the program cannot be started, or has ended by itself, and 61 the link has failed so before: close it, and open it again. Of a node 60 says that
   none answered in time: the same message may be sent again under its number at once, by the same link. 54 is also that the node has no room, and
   58 that it takes no clients with a name. */
#ifndef PAZTURROK_LINK_H
#define PAZTURROK_LINK_H
#include "pazturrok.h"
#ifdef __cplusplus
extern "C" {
#endif

typedef struct pazturrok_link pazturrok_link;

enum {
    PAZTURROK_NO_ENTRY = 48,
    PAZTURROK_NOT_KEPT = 49,
    PAZTURROK_NO_ROOM = 54,
    PAZTURROK_OTHER_TEXT = 55,
    PAZTURROK_NO_FRAME = 56,
    PAZTURROK_TEXT_TOO_LONG = 57
};

/* Starts the program over a folder for the client of this name: 1 to 100 letters, digits, dots, hyphens and underscores. Fills `*link`; or,
   where the number is not 0, `*fault`, which may be NULL. */
int pazturrok_link_open(const char *program, const char *folder, const char *client_name, pazturrok_link **link, pazturrok_fault *fault);

/* Connects to a node, `unix:` and the path of its socket or HOST:PORT without TLS, for the client of this name; or to one of several of a store, with
   commas between their places. A call tries for so many seconds to have an answer; a node that says nothing for ten is left, and the next one, or
   the same again, is asked. */
int pazturrok_link_connect(const char *places, const char *client_name, int seconds, pazturrok_link **link, pazturrok_fault *fault);

/* The number of the client's last message, as the store had it when the link was opened, or as it was sent since; 0 where there is none. */
uint64_t pazturrok_link_last(const pazturrok_link *link);

/* Has one form carried out, once, under a number greater than that of the client's last message; or gives the answer to that message, where it
   is sent again. It is read as the store reads. What `*answer` points to belongs to the link, and lasts until the next call on it; it may be
   NULL. */
int pazturrok_link_do(pazturrok_link *link, uint64_t number, const char *text, size_t length, const char **answer, size_t *answer_length);

/* Asks for the value of one form, which changes nothing; one that would write is refused with 51. */
int pazturrok_link_ask(pazturrok_link *link, const char *text, size_t length, const char **answer, size_t *answer_length);

/* The same after all that was answered before, by any node of the store, to anybody. */
int pazturrok_link_read(pazturrok_link *link, const char *text, size_t length, const char **answer, size_t *answer_length);

/* Has the store forget the client: its number and its answer go, and its numbers begin anew. */
int pazturrok_link_unregister(pazturrok_link *link);

/* Why the last call was refused. */
void pazturrok_link_fault_of(const pazturrok_link *link, pazturrok_fault *fault);

/* Ends the program, which loses nothing that it answered, and lets go of the link. */
void pazturrok_link_close(pazturrok_link *link);

#ifdef __cplusplus
}
#endif
#endif
