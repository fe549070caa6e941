/* What the programs that call the library have in common: they tell what was not as it is to be. */
#include "pazturrok.h"
#include <stdbool.h>
#include <stdio.h>
#include <string.h>

static int passed, failed;
static const char *room;

#define EXPECT(holds) expect(holds, #holds, __LINE__)

static void expect(bool holds, const char *what, int line) {
    if (holds) passed++;
    else printf("line %d: %s\n", line, what), failed++;
}

static const char *folder(const char *name) {
    static char path[4096];
    (void)snprintf(path, sizeof path, "%s/%s", room, name);
    return path;
}

static pazturrok_store opened(const char *name) {
    pazturrok_store store = 0;
    pazturrok_fault fault;
    if (pazturrok_open(folder(name), 0, &store, &fault) != 0) printf("%s: %d %s\n", name, fault.number, fault.cause);
    return store;
}

static int execute(pazturrok_store store, const char *text, const char **answer) {
    return pazturrok_execute(store, PAZTURROK_CURRENT, text, strlen(text), answer, NULL);
}

static bool answers(pazturrok_store store, const char *text, const char *wanted) {
    const char *answer;
    return execute(store, text, &answer) == 0 && strcmp(answer, wanted) == 0;
}
