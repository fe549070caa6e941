/* One form, and what a store tells. What an engine orders is carried out on the files before an answer is passed on. */
#include "calls.h"

int pazturrok_execute(pazturrok_store id, int mode, const char *text, size_t length, const char **answer, size_t *answer_length) {
    int number;
    struct call call = begin_call(id, (mode == PAZTURROK_CURRENT || mode == PAZTURROK_RESCUE) && (text || length == 0), &number);
    pzt_done done = {0, 0, 0};
    if (answer) *answer = "";
    if (answer_length) *answer_length = 0;
    if (!call.store) return number;
    if (number != 0) return leave(call, number);
    if (length > TEXT_LIMIT) return leave(call, refuse(call.store, FORM_TOO_LONG));
    pzt_execute(&call.store->engine, mode == PAZTURROK_RESCUE, (const uint8_t *)(text ? text : ""), length,
                (uint8_t *)call.store->answer, call.store->capacity, &done);
    number = finish_answer(call.store, &done);
    if (number == 0 && answer) *answer = call.store->answer;
    if (number == 0 && answer_length) *answer_length = done.answer;
    if (number == 0) renew_after(call.store, &done);
    return leave(call, number);
}

/* What a store tells */

int pazturrok_figures_of(pazturrok_store id, pazturrok_figures *figures) {
    pzt_told told = {0, 0, 0};
    int number;
    struct call call = begin_call(id, figures != NULL, &number);
    if (figures) *figures = (pazturrok_figures){0, 0, 0};
    if (!call.store) return number;
    if (number != 0) return leave(call, number);
    pzt_tell(&call.store->engine, &told);
    *figures = (pazturrok_figures){told.generation, told.records, told.version};
    return leave(call, 0);
}

void pazturrok_fault_of(pazturrok_store id, pazturrok_fault *fault) {
    struct call call;
    if (!fault) return;
    call = enter(id);
    if (!call.store) {
        set_fault(fault, PAZTURROK_REOPEN, "no store of this number is open");
        return;
    }
    *fault = call.store->fault;
    (void)leave(call, 0);
}
