/* The stores of the process: each has an engine of crates/pazturrok_c and two files, and one call at a time. */
#ifndef PAZTURROK_STORES_H
#define PAZTURROK_STORES_H
#include "device.h"
#include "engine.h"
#include <pthread.h>
#include <stdatomic.h>

/* How many bytes of an answer there is room for from the first. */
#define ANSWER_ROOM 4096

struct store {
    pthread_mutex_t lock;       /* held by the call that is under way */
    atomic_uint_fast64_t id;    /* 0 where the store is not open */
    atomic_bool is_taken;       /* by an opening, and then as long as the store is open */
    bool has_failed;
    pzt_slot engine;
    struct device device;
    pazturrok_fault fault;
    char *answer;
    size_t capacity;            /* of the answer, without the zero after it */
    uint64_t last;              /* the number of the last message since the opening */
    uint64_t ratio;             /* a snapshot is due once the half in use has grown so many times; 0 for never */
    uint64_t sizes[2];          /* of the halves, with the gate after the last record */
    int in_use;                 /* the half in use */
    uint64_t first_size;        /* its size when it was begun */
    uint64_t least_size;        /* a smaller half has not grown enough */
};

/* A call that is under way: the store that it has locked, or NULL; and whether the thread could be cancelled before it. */
struct call {
    struct store *store;
    int cancel_state;
};

/* Begins what no signal handler of this thread may call within, and in which the thread is not cancelled; or gives false, if
   such a thing is under way. */
bool begin_alone(int *cancel_state);
void end_alone(int cancel_state);

/* Locks an open store. There is no store of a number that was closed, and none within a call of this thread on it. */
struct call enter(pazturrok_store id);
/* Ends a call, and gives the number. */
int leave(struct call call, int number);

/* A store that is not open, and is taken now; or NULL where all are open, or the process has no locks. */
struct store *take_store(void);
/* Numbers a store that was taken: it is open from now on. */
pazturrok_store number_store(struct store *store);
/* Lets go of a store that was taken and has no number any more. */
void let_store_go(struct store *store);
/* Opens the files of a store that was taken. */
bool open_device(struct store *store, const char *folder, bool make, pazturrok_fault *fault);

/* Forgets the fault of the call before, if the store has not failed by it. */
bool is_ready(struct store *store);
/* Keeps why a call is refused, and gives the number. */
int refuse(struct store *store, int number);
/* The same; after it the store answers nothing more, as its files may lack what its engine holds. */
int fail(struct store *store, int number);

/* A number of eight bytes, the lowest first. */
uint64_t number_at(const uint8_t *bytes);
/* Carries out all orders, in their order, and says so to the engine. After one that fails, none. */
bool carry_out(struct store *store, size_t count);
/* Ends a call of the engine: it carries out the orders of what is answered, and only then gives 0. */
int finish(struct store *store, const pzt_done *done);

/* How often a half in use grows before a snapshot is due, where nothing else is asked for. */
enum { RATIO = 10 };

/* Sees in the bytes of both files how far their halves have grown. */
void see_halves(struct store *store, const contents both[2]);
/* Follows a write of an order; where there are many bytes, `bytes` may be NULL. */
void follow_write(struct store *store, int half, uint64_t place, uint64_t length, const uint8_t *bytes);
/* Takes a snapshot after a call that has done this, if it wrote and one is due. What is answered stays answered. After a snapshot that
   failed the store answers nothing more; one that was refused is tried again once the half has grown by 1 MiB. */
void renew_after(struct store *store, const pzt_done *done);

#endif
