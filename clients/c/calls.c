/* What the calls of pazturrok.h have in common: how they begin, texts that are joined, and answers. */
#include "calls.h"
#include <stdlib.h>
#include <string.h>

/* An answer that is longer is not kept when the next call comes. */
#define ANSWER_KEPT 1048576

struct call begin_call(pazturrok_store id, bool is_allowed, int *number) {
    struct call call = enter(id);
    *number = PAZTURROK_REOPEN;
    if (!call.store) return call;
    if (is_ready(call.store)) *number = is_allowed ? 0 : PAZTURROK_MISUSE;
    if (*number == 0 && call.store->capacity > ANSWER_KEPT) (void)make_room(call.store, 0);
    if (*number == PAZTURROK_MISUSE) set_fault(&call.store->fault, *number, "an argument is NULL, or a mode that is none");
    return call;
}

/* Texts */

int add_length(size_t *whole, const char *text, size_t length) {
    if (!text && length > 0) return PAZTURROK_MISUSE;
    if (length > TEXT_LIMIT - *whole) return FORM_TOO_LONG;
    *whole += length;
    return 0;
}

uint8_t *copy_text(uint8_t *to, const char *text, size_t length) {
    if (length > 0) memcpy(to, text, length);
    return to + length;
}

/* Answers */

bool make_room(struct store *store, size_t length) {
    if (length <= store->capacity && store->capacity <= ANSWER_KEPT) return true;
    size_t wanted = length < ANSWER_ROOM ? ANSWER_ROOM : length;
    char *room = realloc(store->answer, wanted + 1);
    if (!room) return length <= store->capacity;
    store->answer = room;
    store->capacity = wanted;
    return true;
}

int finish_answer(struct store *store, pzt_done *done) {
    bool is_there = done->answer <= store->capacity;
    if (done->number == 0 && !is_there) {
        if (!make_room(store, done->answer)) done->number = PAZTURROK_NO_MEMORY;
        else if (pzt_answer(&store->engine, 0, (uint8_t *)store->answer, done->answer) != done->answer) done->number = PAZTURROK_DEVICE;
    }
    int number = finish(store, done);
    if (number == 0) store->answer[done->answer] = 0;
    return number;
}

/* The answer that begins at a place, which goes on to the next one. False where there is none. */
static bool next_answer(const struct store *store, size_t whole, size_t *place, struct answer *answer) {
    if (whole - *place < ANSWER_HEAD) return false;
    const uint8_t *head = (const uint8_t *)store->answer + *place;
    uint64_t length = number_at(head + 2);
    if (length > whole - *place - ANSWER_HEAD) return false;
    *answer = (struct answer){(unsigned)(head[0] | head[1] << 8), store->answer + *place + ANSWER_HEAD, (size_t)length};
    *place += ANSWER_HEAD + (size_t)length;
    return true;
}

static bool fill(const struct store *store, size_t whole, int (*number_of)(const struct answer *), pazturrok_outcome *outcomes, size_t count) {
    size_t at = 0;
    struct answer answer = {0, store->answer, 0};
    for (size_t place = 0; place < count; place++) {
        char *end = answer.text + answer.length;
        if (!next_answer(store, whole, &at, &answer)) return false;
        /* the zero stands where this head was */
        if (place > 0) *end = 0;
        int number = number_of(&answer);
        if (number == PAZTURROK_DEVICE) return false;
        outcomes[place] = number ? (pazturrok_outcome){number, "", 0} : (pazturrok_outcome){0, answer.text, answer.length};
    }
    if (count > 0) answer.text[answer.length] = 0;
    return at == whole;
}

void take_outcomes(struct store *store, pzt_done *done, int (*number_of)(const struct answer *), pazturrok_outcome *outcomes,
                   size_t count) {
    if (done->number != 0) return;
    if (done->answer > store->capacity && !make_room(store, done->answer)) done->number = PAZTURROK_NO_MEMORY;
    else if (pzt_answer(&store->engine, 0, (uint8_t *)store->answer, done->answer) != done->answer
             || !fill(store, done->answer, number_of, outcomes, count))
        done->number = PAZTURROK_DEVICE;
}

void empty_outcomes(pazturrok_outcome *outcomes, size_t count) {
    for (size_t place = 0; place < count; place++) outcomes[place] = (pazturrok_outcome){PAZTURROK_REOPEN, "", 0};
}
