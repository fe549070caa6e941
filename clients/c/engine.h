/* What crates/pazturrok_c exports: a store that makes no call of the system. It executes forms, and gives orders for two files,
   which pazturrok.c carries out. A slice is a pointer and a length; all numbers in bytes have the lowest byte first. */
#ifndef PAZTURROK_ENGINE_H
#define PAZTURROK_ENGINE_H
#include <stdbool.h>
#include <stddef.h>
#include <stdint.h>

/* Holds an engine, or none where all its bytes are 0. It is handed to one call at a time. */
typedef struct {
    void *at;
    bool is_open;
} pzt_slot;

/* How a call ended: the number of the refusal, or 0; how many bytes the answer has; how many bytes of orders are to be carried
   out before anything else is asked. */
typedef struct {
    uint16_t number;
    size_t answer;
    size_t orders;
} pzt_done;

typedef struct {
    uint64_t generation;
    uint64_t records;
    uint16_t version;
} pzt_told;

/* Where the text of a request ends among those of all; its number, if it is a message; and whether it is a question. */
typedef struct {
    uint64_t number;
    uint64_t end;
    bool is_question;
} pzt_request_head;

/* How many bytes a half may take, and the words by which names are hashed. */
typedef struct {
    uint64_t limit;
    uint64_t seed_first;
    uint64_t seed_second;
} pzt_setting;

/* An order: a kind, a half (0 or 1), a place and a length of eight bytes each, and the bytes of a write. */
enum { ORDER_HEAD = 18, ORDER_WRITES = 1, ORDER_CUTS = 2, ORDER_SYNCS = 3 };

/* Opens the store of two files that hold these bytes, and of which a crash leaves just these. */
void pzt_open(pzt_slot *slot, const uint8_t *a, size_t a_length, const uint8_t *b, size_t b_length, const pzt_setting *setting,
              pzt_done *done);

/* Executes a form. As much of its answer is copied as there is room for. */
void pzt_execute(pzt_slot *slot, bool rescue, const uint8_t *text, size_t length, uint8_t *answer, size_t capacity,
                 pzt_done *done);

/* Executes the forms of which these are the texts, one after the other; `ends` says where each ends. The answer has for each
   the number of its refusal or 0 in two bytes, a length in eight, and so many bytes. What they write is logged together where
   there is room. */
void pzt_execute_all(pzt_slot *slot, bool rescue, const uint8_t *texts, size_t length, const uint64_t *ends, size_t count,
                     pzt_done *done);

/* Begins with messages: gives the number of the last one that the store holds. One that has none yet logs that it is 0. */
void pzt_begin_messages(pzt_slot *slot, uint64_t *position, pzt_done *done);

/* Answers messages and questions, one after the other, after the message of the last number. What they write is logged together, with
   the position. The answer has for each 1 in two bytes if it is of a message that wrote, else 0, a length in eight, and so many bytes:
   the line that the program writes. */
void pzt_answer_requests(pzt_slot *slot, uint64_t last, const uint8_t *texts, size_t length, const pzt_request_head *heads, size_t count,
                         pzt_done *done);

void pzt_snapshot(pzt_slot *slot, pzt_done *done);

/* Copies of the last answer, or of the orders, from a place on what there is room for. They give how many bytes. */
size_t pzt_answer(pzt_slot *slot, size_t at, uint8_t *out, size_t capacity);
size_t pzt_orders(pzt_slot *slot, size_t at, uint8_t *out, size_t capacity);

/* Says that so many bytes of orders have been carried out. It has to be all of them: another count changes nothing. */
void pzt_performed(pzt_slot *slot, size_t orders);

void pzt_tell(pzt_slot *slot, pzt_told *told);

/* Lets the engine go. Orders that were not carried out are lost, as in a crash. */
void pzt_close(pzt_slot *slot);

/* Copies the name of a number as far as there is room, and gives its length: 0 for a number that has none. */
size_t pzt_name(uint16_t number, uint8_t *out, size_t capacity);

#endif
