/* Messages with numbers, and questions. */
#include "calls.h"
#include <stdlib.h>
#include <string.h>

/* The line of a refusal begins so; then come its number, a space and its name. */
#define REFUSAL "! "

/* The number of the refusal whose line an answer is, or 0: a value never begins so. */
static int number_of(const struct answer *answer) {
    size_t place = sizeof REFUSAL - 1;
    int number = 0;
    if (answer->length < place || memcmp(answer->text, REFUSAL, place) != 0) return 0;
    for (; place < answer->length && answer->text[place] >= '0' && answer->text[place] <= '9' && number < 1000; place++)
        number = 10 * number + (answer->text[place] - '0');
    return number;
}

/* Begins with messages, and gives the position. A store that has none yet logs one, which is carried out here. */
static int begin_messages(struct store *store, uint64_t *position) {
    pzt_done done = {0, 0, 0};
    pzt_begin_messages(&store->engine, position, &done);
    return finish(store, &done);
}

int pazturrok_position(pazturrok_store id, uint64_t *position) {
    int number;
    uint64_t found = 0;
    struct call call = begin_call(id, position != NULL, &number);
    if (position) *position = 0;
    if (!call.store) return number;
    if (number == 0) number = begin_messages(call.store, &found);
    if (number == 0) *position = found;
    return leave(call, number);
}

/* Messages */

struct requests {
    uint8_t *bytes;
    pzt_request_head *heads;
    size_t length, count;
};

/* Joins messages, and says where the text of each ends. */
static int join_messages(struct requests *joined, const pazturrok_message *messages, size_t count) {
    for (size_t place = 0; place < count; place++) {
        int number = add_length(&joined->length, messages[place].text, messages[place].length);
        if (number != 0) return number;
    }
    joined->count = count;
    joined->bytes = malloc(joined->length + 1);
    joined->heads = count > TEXT_LIMIT ? NULL : malloc((count + 1) * sizeof joined->heads[0]);
    if (!joined->bytes || !joined->heads) return PAZTURROK_NO_MEMORY;
    uint8_t *to = joined->bytes;
    for (size_t place = 0; place < count; place++) {
        to = copy_text(to, messages[place].text, messages[place].length);
        joined->heads[place] = (pzt_request_head){messages[place].number, (uint64_t)(to - joined->bytes), false};
    }
    return 0;
}

/* What is up to the position was carried out before. */
static int answer_messages(struct store *store, uint64_t position, const struct requests *requests, pazturrok_outcome *outcomes) {
    pzt_done done = {0, 0, 0};
    uint64_t last = store->last > position ? store->last : position;
    pzt_answer_requests(&store->engine, last, requests->bytes, requests->length, requests->heads, requests->count, &done);
    take_outcomes(store, &done, number_of, outcomes, requests->count);
    int number = finish(store, &done);
    for (size_t place = 0; number == 0 && place < requests->count; place++)
        if (requests->heads[place].number > store->last) store->last = requests->heads[place].number;
    if (number == 0) renew_after(store, &done);
    return number;
}

int pazturrok_do(pazturrok_store id, const pazturrok_message *messages, size_t count, pazturrok_outcome *outcomes) {
    int number;
    uint64_t position = 0;
    struct call call = begin_call(id, count == 0 || (messages && outcomes), &number);
    struct requests joined = {NULL, NULL, 0, 0};
    if (outcomes) empty_outcomes(outcomes, count);
    if (!call.store) return number;
    if (number == 0) number = begin_messages(call.store, &position);
    if (number == 0) {
        number = join_messages(&joined, messages, count);
        number = number ? refuse(call.store, number) : answer_messages(call.store, position, &joined, outcomes);
        if (number != 0) empty_outcomes(outcomes, count);
    }
    free(joined.bytes);
    free(joined.heads);
    return leave(call, number);
}

/* Questions */

static int answer_question(struct store *store, const char *text, size_t length, pazturrok_outcome *outcome) {
    pzt_request_head head = {0, length, true};
    pzt_done done = {0, 0, 0};
    pzt_answer_requests(&store->engine, store->last, (const uint8_t *)(text ? text : ""), length, &head, 1, &done);
    take_outcomes(store, &done, number_of, outcome, 1);
    int number = finish(store, &done);
    if (number == 0 && outcome->number != 0) number = refuse(store, outcome->number);
    return number;
}

int pazturrok_ask(pazturrok_store id, const char *text, size_t length, const char **answer, size_t *answer_length) {
    int number;
    struct call call = begin_call(id, text || length == 0, &number);
    pazturrok_outcome found = {0, "", 0};
    if (answer) *answer = "";
    if (answer_length) *answer_length = 0;
    if (!call.store) return number;
    if (number == 0 && length > TEXT_LIMIT) number = refuse(call.store, FORM_TOO_LONG);
    if (number == 0) number = answer_question(call.store, text, length, &found);
    if (number == 0 && answer) *answer = found.answer;
    if (number == 0 && answer_length) *answer_length = found.length;
    return leave(call, number);
}
