/* Calls of the library, of which checks/instructions counts the instructions: counted FOLDER SETS GETS */
#include "pazturrok.h"
#include <stdio.h>
#include <stdlib.h>
#include <string.h>

enum { SYMBOLS = 500 };

static void execute(pazturrok_store store, const char *text) {
    const char *answer;
    size_t length;
    if (pazturrok_execute(store, PAZTURROK_CURRENT, text, strlen(text), &answer, &length) == 0) return;
    fprintf(stderr, "counted: %s\n", text);
    exit(1);
}

int main(int count, char **words) {
    pazturrok_store store;
    pazturrok_fault fault;
    char text[100];
    if (count != 4 || pazturrok_open(words[1], 0, &store, &fault) != 0) return 2;
    for (int turn = 0; turn < atoi(words[2]); turn++) {
        (void)snprintf(text, sizeof text, "(SETF (GET 'S%d 'B) %d)", turn % SYMBOLS, turn);
        execute(store, text);
    }
    for (int turn = 0; turn < atoi(words[3]); turn++) {
        (void)snprintf(text, sizeof text, "(GET 'S%d 'B)", turn % SYMBOLS);
        execute(store, text);
    }
    (void)pazturrok_close(store);
    return 0;
}
