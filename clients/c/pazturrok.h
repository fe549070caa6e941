/* Pazturrok in one's own process: a store in a folder, which is opened, executes forms, and keeps them.

   A form is a text, as (SETF (GET 'APPLE 'PRICE) 7); its answer is the printed text of its value. When a call has answered 0 to
   a form that writes, the form is on the disk. A call that answers another number has changed nothing, but for 60.

   - Which thread: calls on one store wait for one another, so threads may share it. That is tried; what is proved speaks of a
     store that stays on the thread that opened it. No call may come from a signal handler; one that has interrupted a call is
     refused with 61.
   - A fork: the child has no store. Each call there is 61, and the parent goes on. In a process of one thread a signal handler may fork
     within a call; its child ends, or starts another program, and does not return into the call. Where there are more threads a handler
     must not fork: fork itself waits for the locks of malloc, which the interrupted thread may hold.
   - Who owns what: what is handed over stays the caller's, and nothing of it is kept after the call. Answers belong to the
     store, and last until the next call on it; so threads that share a store look at an answer under a lock of their own.
   - Texts are bytes below 128, and need no zero at their end. Answers have one after their length, which is not counted.

   Numbers: 0; 1 to 26 the text cannot be read as one form; 30 to 47 the form is refused; 50 to 52 are of messages; 60 the device
   failed, and the store has to be closed and opened again; 61 there is no store, or it has failed before; 62, 63, 65, 66 what
   stands in the files is refused; 64 the file in use is full: take a snapshot, and execute the form again; 67 the system gave no
   random bytes; 90 no memory. docs/use/refusals.md tells them all. */
#ifndef PAZTURROK_H
#define PAZTURROK_H
#include <stddef.h>
#include <stdint.h>
#ifdef __cplusplus
extern "C" {
#endif

/* A store that was opened. 0 is none, and no number is given twice in a process: one that was closed is only refused. */
typedef uint64_t pazturrok_store;

enum {
    /* Forms are read under the readtable and in the package that are current in the store. */
    PAZTURROK_CURRENT = 0,
    /* Forms are read under the standard readtable, in COMMON-LISP-USER, in base 10. */
    PAZTURROK_RESCUE = 1
};

/* A flag of pazturrok_open: what is missing is not made. */
enum { PAZTURROK_EXISTING = 1 };

enum {
    /* An argument is NULL where none may be, or a mode or a flag that is none: nothing was done. */
    PAZTURROK_MISUSE = -1,
    PAZTURROK_OLD_NUMBER = 50,
    PAZTURROK_QUESTION_WRITES = 51,
    PAZTURROK_NO_POSITION = 52,
    PAZTURROK_DEVICE = 60,
    PAZTURROK_REOPEN = 61,
    PAZTURROK_RANDOM = 67,
    PAZTURROK_NO_MEMORY = 90
};

/* Why a call was refused: its number, the error of the system or 0, and a sentence, which may be empty. */
typedef struct {
    int number;
    int system_error;
    char cause[120];
} pazturrok_fault;

/* The text of one object, as (1 2). */
typedef struct {
    const char *text;
    size_t length;
} pazturrok_object;

/* What became of one form of many. */
typedef struct {
    int number;
    const char *answer;
    size_t length;
} pazturrok_outcome;

/* A form that is carried out once: its number, over that of the message before it, and its text. */
typedef struct {
    uint64_t number;
    const char *text;
    size_t length;
} pazturrok_message;

/* What the file in use holds. */
typedef struct {
    uint64_t generation;
    uint64_t records;
    int version;
} pazturrok_figures;

/* Opens the store in a folder, and locks it against every other process. What is missing is made, with rights for the owner
   alone; with PAZTURROK_EXISTING it is refused. Fills `*store`; or, where the number is not 0, `*fault`, which may be NULL. */
int pazturrok_open(const char *folder, int flags, pazturrok_store *store, pazturrok_fault *fault);

/* Executes one form, in a mode. Gives its answer, which may be NULL if it is not wanted: what it points to belongs to the store,
   and lasts until the next call on it. */
int pazturrok_execute(pazturrok_store store, int mode, const char *text, size_t length, const char **answer,
                      size_t *answer_length);

/* Executes many forms, one after the other, whether one is refused or not. Fills an outcome for each, whose answer belongs to
   the store as that of pazturrok_execute. If the number is not 0, there are no outcomes, and no form was executed; but after 60
   the first ones may be on the disk. */
int pazturrok_execute_all(pazturrok_store store, int mode, const char *const *texts, const size_t *lengths, size_t count,
                          pazturrok_outcome *outcomes);

/* Makes the functions that compare and compute known to the store, by their plain names in COMMON-LISP-USER, as `run DIR --operators`
   does; a second time nothing changes. 37 where that package has a symbol of such a name of its own: the functions are there then by
   their names with the package, as PAZTURROK::CAR, and so are plain names that clash with none, after (IMPORT 'PAZTURROK::CAR). */
int pazturrok_operators(pazturrok_store store);

/* The property of a symbol, as pazturrok_execute gives it: NIL where it has none. Names are of COMMON-LISP-USER, as they are printed,
   with a zero at their end: the symbol apple of a form is "APPLE". */
int pazturrok_get(pazturrok_store store, const char *symbol, const char *indicator, const char **answer, size_t *answer_length);

/* Sets the property of a symbol to an object, by the text of that one object, as (1 2), which is not evaluated. */
int pazturrok_put(pazturrok_store store, const char *symbol, const char *indicator, const char *value, size_t length);

/* Sets the property of a symbol to another object where it is EQUAL to `old`, of which NIL stands for none, and tells in `*is_set` whether
   it did. The store has to have the package PAZTURROK, as pazturrok_operators makes it: else it is 11. */
int pazturrok_compare_and_set(pazturrok_store store, const char *symbol, const char *indicator, pazturrok_object old, pazturrok_object wanted,
                              int *is_set);

/* Takes the first item away from the list that is the property of a symbol, and gives it; NIL where the list is empty. The store has to
   have the package PAZTURROK. */
int pazturrok_take(pazturrok_store store, const char *symbol, const char *indicator, const char **answer, size_t *answer_length);

/* The property list of a symbol: indicators and properties in turn. */
int pazturrok_plist(pazturrok_store store, const char *symbol, const char **answer, size_t *answer_length);

/* Gives the position: the number of the last message of which the store holds what it wrote, and of every one before it. Whoever opens
   a store again sends what is over its position once more: nothing is done twice, and nothing is left out. In a store that never had
   a message it is 0, which is logged. 52 where the property that is to be the position is no number, or
   the name `position` stands for another symbol. */
int pazturrok_position(pazturrok_store store, uint64_t *position);

/* Carries out messages, one after the other, whether one is refused or not. Each is read as the store reads, and sees the world without
   the position. What they write is logged together, with the position: after a crash the store has all of it or nothing. Fills an
   outcome for each, as pazturrok_execute_all: 50 for one whose number is not over the position, and that of each message before it. If
   the number is not 0, no message was carried out; but after 60 the store may have all of them. */
int pazturrok_do(pazturrok_store store, const pazturrok_message *messages, size_t count, pazturrok_outcome *outcomes);

/* Asks for the value of one form, which is read as the store reads. It changes nothing, and interns nothing; one that would write is
   refused with 51. Its answer is as that of pazturrok_execute. */
int pazturrok_ask(pazturrok_store store, const char *text, size_t length, const char **answer, size_t *answer_length);

/* Takes a snapshot: the next opening reads the world as it is, and not each form that made it. It waits as long as the disk
   takes to write the world. */
int pazturrok_snapshot(pazturrok_store store);

/* Says when the store takes a snapshot by itself: within a call that wrote, after what it wrote is on the disk, once the file in use has
   1 MiB and is so many times as long as when it was begun; 0 for never. An open store has 10 until this is called, and it is asked anew
   after each opening. Such a snapshot changes no answer. One that is refused is tried again once the file is 1 MiB longer. After one
   that failed, the call has its answer, the next one is 61, and pazturrok_fault_of tells why. */
int pazturrok_snapshot_ratio(pazturrok_store store, uint64_t ratio);

/* What the file in use holds; all 0 where the number is not 0. */
int pazturrok_figures_of(pazturrok_store store, pazturrok_figures *figures);

/* Why the last call on the store was refused, where the number alone does not tell; else an empty cause. */
void pazturrok_fault_of(pazturrok_store store, pazturrok_fault *fault);

/* Closes the store and lets go of its memory and its lock, also after 60. A store that is none is 61. */
int pazturrok_close(pazturrok_store store);

/* The name of a number, as in an answer of the program; an empty text where it has none. It is never let go. */
const char *pazturrok_name(int number);

#ifdef __cplusplus
}
#endif
#endif
