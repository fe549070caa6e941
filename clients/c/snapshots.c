/* A snapshot that is asked for, and those that a store takes by itself once its half in use has grown enough, as a session does. */
#include "calls.h"

/* A half in use begins with an open gate; its head has the generation and the length of its snapshot (docs/run/files.md). */
enum { OPEN_GATE = 0xA5, GENERATION_AT = 3, SNAPSHOT_AT = 11, HALF_HEAD = 16 };

/* The least size of a half that has grown enough, and how much more it takes after a snapshot that was refused. */
#define LEAST_GROWN 1048576

/* A number of some bytes, the highest first, as files have it. */
static uint64_t number_in_file(const uint8_t *bytes, int count) {
    uint64_t number = 0;
    for (int place = 0; place < count; place++) number = number << 8 | bytes[place];
    return number;
}

static void use_half(struct store *store, int half, uint64_t first_size) {
    store->in_use = half;
    store->first_size = first_size;
    store->least_size = LEAST_GROWN;
}

/* What comes in a file after its half is counted until the next record is written over it. */
void see_halves(struct store *store, const contents both[2]) {
    uint64_t newest = 0;
    use_half(store, 0, 0);
    for (int half = 0; half < 2; half++) {
        const uint8_t *bytes = both[half].bytes;
        store->sizes[half] = both[half].length;
        if (both[half].length < HALF_HEAD || bytes[0] != OPEN_GATE) continue;
        uint64_t generation = number_in_file(bytes + GENERATION_AT, 8);
        if (generation <= newest) continue;
        newest = generation;
        use_half(store, half, HALF_HEAD + number_in_file(bytes + SNAPSHOT_AT, 4));
    }
}

/* A write of one byte is that of a gate; at the front of a half it is the one that begins it. */
void follow_write(struct store *store, int half, uint64_t place, uint64_t length, const uint8_t *bytes) {
    if (length > 1) store->sizes[half] = place + length;
    else if (length == 1 && place == 0 && bytes && bytes[0] == OPEN_GATE) use_half(store, half, store->sizes[half]);
}

static bool has_grown(const struct store *store) {
    uint64_t size = store->sizes[store->in_use];
    return store->ratio > 0 && size >= store->least_size && size / store->ratio >= store->first_size;
}

static int take_snapshot(struct store *store) {
    pzt_done done = {0, 0, 0};
    pzt_snapshot(&store->engine, &done);
    return finish(store, &done);
}

void renew_after(struct store *store, const pzt_done *done) {
    if (done->orders == 0 || !has_grown(store) || take_snapshot(store) == 0 || store->has_failed) return;
    /* it was refused, and the call that wrote was not */
    store->fault = (pazturrok_fault){0, 0, ""};
    store->least_size = store->sizes[store->in_use] + LEAST_GROWN;
}

int pazturrok_snapshot(pazturrok_store id) {
    int number;
    struct call call = begin_call(id, true, &number);
    if (!call.store) return number;
    return leave(call, number ? number : take_snapshot(call.store));
}

int pazturrok_snapshot_ratio(pazturrok_store id, uint64_t ratio) {
    int number;
    struct call call = begin_call(id, true, &number);
    if (!call.store) return number;
    if (number == 0) call.store->ratio = ratio;
    return leave(call, number);
}
