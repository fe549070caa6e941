/* A store is opened and closed. */
#define _POSIX_C_SOURCE 200809L
#define _DEFAULT_SOURCE
#include "stores.h"
#include <errno.h>
#include <stdlib.h>
#include <sys/random.h>

/* Draws the words by which names are hashed: who does not know them cannot choose names that fall together. */
static bool draw(pzt_setting *setting, pazturrok_fault *fault) {
    uint64_t seed[2] = {0, 0};
    ssize_t drawn;
    do drawn = getrandom(seed, sizeof seed, 0);
    while (drawn < 0 && errno == EINTR);
    setting->seed_first = seed[0];
    setting->seed_second = seed[1];
    if (drawn == (ssize_t)sizeof seed) return true;
    set_system_fault(fault, errno);
    fault->number = PAZTURROK_RANDOM;
    return false;
}

/* Whether a file begins as a half in use does. */
static bool is_half_in_use(const contents *file) { return file->length >= 2 && file->bytes[0] == 0xA5; }

/* Opens the engine over the bytes of both files, and tells how many bytes of orders it gave. */
static bool open_engine(struct store *store, const contents both[2], int flags, size_t *orders, pazturrok_fault *fault) {
    pzt_setting setting = {HALF_LIMIT, 0, 0};
    pzt_done done = {0, 0, 0};
    if ((flags & PAZTURROK_EXISTING) && !is_half_in_use(&both[0]) && !is_half_in_use(&both[1])) {
        set_fault(fault, PAZTURROK_DEVICE, "there is no store in this folder");
        return false;
    }
    if (!draw(&setting, fault)) return false;
    pzt_open(&store->engine, both[0].bytes, both[0].length, both[1].bytes, both[1].length, &setting, &done);
    *orders = done.orders;
    if (done.number == 0) return true;
    set_fault(fault, done.number, done.number == PAZTURROK_NO_MEMORY ? "out of memory" : "");
    return false;
}

/* Reads both files, and opens the engine over them. The bytes are let go before the orders are carried out. */
static bool open_files(struct store *store, int flags, pazturrok_fault *fault) {
    contents both[2] = {{NULL, 0}, {NULL, 0}};
    size_t orders = 0;
    bool is_open = device_read(&store->device, both, fault) && open_engine(store, both, flags, &orders, fault);
    if (is_open) see_halves(store, both);
    free(both[0].bytes);
    free(both[1].bytes);
    if (!is_open) return false;
    if (carry_out(store, orders)) return true;
    (void)fail(store, PAZTURROK_DEVICE);
    *fault = store->fault;
    return false;
}

static bool open_store(struct store *store, const char *folder, int flags, pazturrok_fault *fault) {
    store->has_failed = false;
    store->last = 0;
    store->ratio = RATIO;
    store->fault = (pazturrok_fault){0, 0, ""};
    store->answer = malloc(ANSWER_ROOM + 1);
    if (!store->answer) {
        set_fault(fault, PAZTURROK_NO_MEMORY, "out of memory");
        return false;
    }
    store->capacity = ANSWER_ROOM;
    return open_device(store, folder, !(flags & PAZTURROK_EXISTING), fault) && open_files(store, flags, fault);
}

/* Opens a store, and gives its number; or 0 and the fault. */
static pazturrok_store opened(const char *folder, int flags, pazturrok_fault *fault) {
    struct store *store = take_store();
    if (!store) {
        set_fault(fault, PAZTURROK_NO_MEMORY, "256 stores are open");
        return 0;
    }
    if (open_store(store, folder, flags, fault)) return number_store(store);
    let_store_go(store);
    return 0;
}

int pazturrok_open(const char *folder, int flags, pazturrok_store *store, pazturrok_fault *fault) {
    pazturrok_fault own = {0, 0, ""};
    int cancel_state;
    if (store) *store = 0;
    if (!store || !folder || (flags & ~PAZTURROK_EXISTING)) {
        set_fault(&own, PAZTURROK_MISUSE, "no folder, no place for the store, or an unknown flag");
    } else if (!begin_alone(&cancel_state)) {
        set_fault(&own, PAZTURROK_REOPEN, "this thread is in another call");
    } else {
        *store = opened(folder, flags, &own);
        end_alone(cancel_state);
    }
    if (fault) *fault = own;
    return own.number;
}

int pazturrok_close(pazturrok_store id) {
    struct call call = enter(id);
    if (!call.store) return PAZTURROK_REOPEN;
    atomic_store(&call.store->id, 0);
    /* a call that has waited for this one finds no store of its number any more */
    (void)pthread_mutex_unlock(&call.store->lock);
    let_store_go(call.store);
    end_alone(call.cancel_state);
    return 0;
}
