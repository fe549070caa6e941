#define _POSIX_C_SOURCE 200809L
#define _DEFAULT_SOURCE
#include "stores.h"
#include <signal.h>
#include <stdlib.h>
#include <string.h>

/* How many stores may be open at a time. */
#define STORE_COUNT 256

static struct store stores[STORE_COUNT];
static pthread_once_t once = PTHREAD_ONCE_INIT;
static bool has_locks = true;
/* Held while files are opened or closed, and over a fork: so a child knows each file that it has to close. No handler of the thread that
   holds it runs meanwhile: one that forks would wait for its own thread. */
static pthread_mutex_t files_lock = PTHREAD_MUTEX_INITIALIZER;
static atomic_uint_fast64_t ids_given;
/* Whether this thread is in a call: a signal handler that calls within one is refused, and does not wait for itself. */
static _Thread_local volatile sig_atomic_t is_in_call;

/* Blocks all signals of this thread but those of its own faults. */
static void block_signals(sigset_t *blocked_before) {
    static const int faults[] = {SIGSEGV, SIGBUS, SIGFPE, SIGILL, SIGTRAP, SIGSYS};
    sigset_t others;
    (void)sigfillset(&others);
    for (size_t place = 0; place < sizeof faults / sizeof faults[0]; place++) (void)sigdelset(&others, faults[place]);
    (void)pthread_sigmask(SIG_BLOCK, &others, blocked_before);
}

static void unblock_signals(const sigset_t *blocked_before) { (void)pthread_sigmask(SIG_SETMASK, blocked_before, NULL); }

static void lock_files(sigset_t *blocked_before) {
    block_signals(blocked_before);
    (void)pthread_mutex_lock(&files_lock);
}

static void unlock_files(const sigset_t *blocked_before) {
    (void)pthread_mutex_unlock(&files_lock);
    unblock_signals(blocked_before);
}

/* Forks */

static void before_fork(void) { (void)pthread_mutex_lock(&files_lock); }

static void after_fork(void) { (void)pthread_mutex_unlock(&files_lock); }

/* The child has no store: it closes the files, so that the lock is the parent's alone, and leaves the memory as it is. */
static void in_child(void) {
    for (size_t place = 0; place < STORE_COUNT; place++) {
        struct store *store = &stores[place];
        if (!atomic_load(&store->is_taken)) continue;
        device_leave(&store->device);
        atomic_store(&store->id, 0);
        store->answer = NULL;
        store->capacity = 0;
        memset(&store->engine, 0, sizeof store->engine);
        (void)pthread_mutex_init(&store->lock, NULL);
        atomic_store(&store->is_taken, false);
    }
    after_fork();
}

static void begin(void) {
    sigset_t signals;
    for (size_t place = 0; place < STORE_COUNT; place++) {
        stores[place].device = NO_DEVICE;
        if (pthread_mutex_init(&stores[place].lock, NULL)) has_locks = false;
    }
    /* a fork would wait for it too */
    block_signals(&signals);
    if (pthread_atfork(before_fork, after_fork, in_child)) has_locks = false;
    unblock_signals(&signals);
}

/* Calls */

bool begin_alone(int *cancel_state) {
    if (is_in_call) return false;
    is_in_call = 1;
    (void)pthread_setcancelstate(PTHREAD_CANCEL_DISABLE, cancel_state);
    return true;
}

void end_alone(int cancel_state) {
    is_in_call = 0;
    (void)pthread_setcancelstate(cancel_state, NULL);
}

struct call enter(pazturrok_store id) {
    struct store *store = &stores[id % STORE_COUNT];
    struct call none = {NULL, 0}, call = {store, 0};
    if (id == 0 || atomic_load(&store->id) != id || !begin_alone(&call.cancel_state)) return none;
    (void)pthread_mutex_lock(&store->lock);
    if (atomic_load(&store->id) == id) return call;
    (void)pthread_mutex_unlock(&store->lock);
    end_alone(call.cancel_state);
    return none;
}

int leave(struct call call, int number) {
    (void)pthread_mutex_unlock(&call.store->lock);
    end_alone(call.cancel_state);
    return number;
}

bool is_ready(struct store *store) {
    if (store->has_failed) return false;
    store->fault = (pazturrok_fault){0, 0, ""};
    return true;
}

int refuse(struct store *store, int number) {
    if (store->fault.number == 0) set_fault(&store->fault, number, number == PAZTURROK_NO_MEMORY ? "out of memory" : "");
    return number;
}

int fail(struct store *store, int number) {
    store->has_failed = true;
    (void)refuse(store, number);
    store->fault.number = number;
    return number;
}

/* Opening and closing */

struct store *take_store(void) {
    if (pthread_once(&once, begin) != 0 || !has_locks) return NULL;
    for (size_t place = 0; place < STORE_COUNT; place++) {
        bool was_taken = false;
        if (atomic_compare_exchange_strong(&stores[place].is_taken, &was_taken, true)) return &stores[place];
    }
    return NULL;
}

pazturrok_store number_store(struct store *store) {
    uint64_t id = (atomic_fetch_add(&ids_given, 1) + 1) * STORE_COUNT + (uint64_t)(store - stores);
    atomic_store(&store->id, id);
    return id;
}

bool open_device(struct store *store, const char *folder, bool make, pazturrok_fault *fault) {
    sigset_t signals;
    if (!device_find_folder(folder, make, fault)) return false;
    lock_files(&signals);
    bool is_open = device_open(&store->device, folder, make, fault);
    unlock_files(&signals);
    return is_open && device_sync_folder(folder, fault);
}

void let_store_go(struct store *store) {
    sigset_t signals;
    pzt_close(&store->engine);
    lock_files(&signals);
    device_close(&store->device);
    unlock_files(&signals);
    free(store->answer);
    store->answer = NULL;
    store->capacity = 0;
    atomic_store(&store->is_taken, false);
}
