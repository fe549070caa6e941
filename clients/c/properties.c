/* Properties of symbols by calls, each one form in the mode Rescue. */
#include "pazturrok.h"
#include <stdlib.h>
#include <string.h>

/* The parts of a form: texts as they are, and names, which stand between bars. */
struct part {
    const char *text;
    size_t length;
    int is_name;
};

#define PLAIN(text) {(text), sizeof(text) - 1, 0}

static size_t written(const struct part *part, char *to) {
    size_t count = 0;
    if (part->is_name) to[count++] = '|';
    for (size_t place = 0; place < part->length; place++) {
        if (part->is_name && (part->text[place] == '|' || part->text[place] == '\\')) to[count++] = '\\';
        to[count++] = part->text[place];
    }
    if (part->is_name) to[count++] = '|';
    return count;
}

static int execute(pazturrok_store store, const struct part *parts, size_t count, const char **answer, size_t *answer_length) {
    size_t room = 1, length = 0;
    int number;
    char *form;
    for (size_t place = 0; place < count; place++) {
        if (parts[place].length > SIZE_MAX / 16) return PAZTURROK_MISUSE;
        room += 2 * parts[place].length + 2;
    }
    form = malloc(room);
    if (!form) return PAZTURROK_NO_MEMORY;
    for (size_t place = 0; place < count; place++) length += written(&parts[place], form + length);
    number = pazturrok_execute(store, PAZTURROK_RESCUE, form, length, answer, answer_length);
    free(form);
    return number;
}

static struct part name_of(const char *name) { return (struct part){name, strlen(name), 1}; }

int pazturrok_get(pazturrok_store store, const char *symbol, const char *indicator, const char **answer, size_t *answer_length) {
    if (!symbol || !indicator) return PAZTURROK_MISUSE;
    const struct part parts[] = {PLAIN("(GET '"), name_of(symbol), PLAIN(" '"), name_of(indicator), PLAIN(")")};
    return execute(store, parts, sizeof parts / sizeof *parts, answer, answer_length);
}

int pazturrok_put(pazturrok_store store, const char *symbol, const char *indicator, const char *value, size_t length) {
    if (!symbol || !indicator || !value) return PAZTURROK_MISUSE;
    const struct part parts[] = {PLAIN("(SETF (GET '"), name_of(symbol), PLAIN(" '"), name_of(indicator),
                                 PLAIN(") (QUOTE "), {value, length, 0}, PLAIN("))")};
    return execute(store, parts, sizeof parts / sizeof *parts, NULL, NULL);
}

int pazturrok_plist(pazturrok_store store, const char *symbol, const char **answer, size_t *answer_length) {
    if (!symbol) return PAZTURROK_MISUSE;
    const struct part parts[] = {PLAIN("(SYMBOL-PLIST '"), name_of(symbol), PLAIN(")")};
    return execute(store, parts, sizeof parts / sizeof *parts, answer, answer_length);
}

#define GET(symbol, indicator) PLAIN("(GET '"), name_of(symbol), PLAIN(" '"), name_of(indicator), PLAIN(")")

int pazturrok_compare_and_set(pazturrok_store store, const char *symbol, const char *indicator, pazturrok_object old, pazturrok_object wanted,
                              int *is_set) {
    const char *answer;
    size_t length;
    int number;
    if (!symbol || !indicator || !old.text || !wanted.text || !is_set) return PAZTURROK_MISUSE;
    *is_set = 0;
    const struct part parts[] = {PLAIN("(IF (PAZTURROK::EQUAL "), GET(symbol, indicator), PLAIN(" (QUOTE "), {old.text, old.length, 0},
                                 PLAIN(")) (PROGN (SETF "), GET(symbol, indicator), PLAIN(" (QUOTE "), {wanted.text, wanted.length, 0},
                                 PLAIN(")) 1) 0)")};
    number = execute(store, parts, sizeof parts / sizeof *parts, &answer, &length);
    /* T and NIL have a package before them where the store's current package does not use COMMON-LISP; a number has none. */
    if (number == 0) *is_set = length == 1 && *answer == '1';
    return number;
}

int pazturrok_take(pazturrok_store store, const char *symbol, const char *indicator, const char **answer, size_t *answer_length) {
    if (!symbol || !indicator) return PAZTURROK_MISUSE;
    const struct part parts[] = {PLAIN("(IF "), GET(symbol, indicator), PLAIN(" (PAZTURROK::CAR (LIST (PAZTURROK::CAR "), GET(symbol, indicator),
                                 PLAIN(") (SETF "), GET(symbol, indicator), PLAIN(" (PAZTURROK::CDR "), GET(symbol, indicator),
                                 PLAIN(")))) NIL)")};
    return execute(store, parts, sizeof parts / sizeof *parts, answer, answer_length);
}
