/* Many forms in one call. */
#include "calls.h"
#include <stdlib.h>

struct texts {
    uint8_t *bytes;
    uint64_t *ends;
    size_t length, count;
};

/* Joins texts, and says where each ends. */
static int join_texts(struct texts *joined, const char *const *texts, const size_t *lengths, size_t count) {
    for (size_t place = 0; place < count; place++) {
        int number = add_length(&joined->length, texts[place], lengths[place]);
        if (number != 0) return number;
    }
    joined->count = count;
    joined->bytes = malloc(joined->length + 1);
    joined->ends = count > TEXT_LIMIT ? NULL : malloc((count + 1) * sizeof joined->ends[0]);
    if (!joined->bytes || !joined->ends) return PAZTURROK_NO_MEMORY;
    uint8_t *to = joined->bytes;
    for (size_t place = 0; place < count; place++) {
        to = copy_text(to, texts[place], lengths[place]);
        joined->ends[place] = (uint64_t)(to - joined->bytes);
    }
    return 0;
}

/* The number that the engine tells of a form. */
static int number_told(const struct answer *answer) { return (int)answer->number; }

/* The outcomes are looked at before the orders are carried out: with a 60 among them none is. */
static int execute_texts(struct store *store, bool rescue, const struct texts *texts, pazturrok_outcome *outcomes) {
    pzt_done done = {0, 0, 0};
    pzt_execute_all(&store->engine, rescue, texts->bytes, texts->length, texts->ends, texts->count, &done);
    take_outcomes(store, &done, number_told, outcomes, texts->count);
    int number = finish(store, &done);
    if (number == 0) renew_after(store, &done);
    return number;
}

int pazturrok_execute_all(pazturrok_store id, int mode, const char *const *texts, const size_t *lengths, size_t count,
                          pazturrok_outcome *outcomes) {
    int number;
    bool is_mode = mode == PAZTURROK_CURRENT || mode == PAZTURROK_RESCUE;
    struct call call = begin_call(id, is_mode && (count == 0 || (texts && lengths && outcomes)), &number);
    struct texts joined = {NULL, NULL, 0, 0};
    if (outcomes) empty_outcomes(outcomes, count);
    if (!call.store) return number;
    if (number == 0) {
        number = join_texts(&joined, texts, lengths, count);
        number = number ? refuse(call.store, number) : execute_texts(call.store, mode == PAZTURROK_RESCUE, &joined, outcomes);
        if (number != 0) empty_outcomes(outcomes, count);
    }
    free(joined.bytes);
    free(joined.ends);
    return leave(call, number);
}
