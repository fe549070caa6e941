/* Microseconds a call, by the library and by SQLite, in the same minute: a form that writes nothing, and one that writes, with its syncs. */
#include "pazturrok.h"
#include <sqlite3.h>
#include <stdio.h>
#include <stdlib.h>
#include <string.h>
#include <time.h>
#include <unistd.h>

/* The best of many short turns, so that other work on the machine counts little. */
enum { TURNS = 200, READS = 1000, WRITES = 100 };

static double now(void) {
    struct timespec time;
    (void)clock_gettime(CLOCK_MONOTONIC, &time);
    return (double)time.tv_sec * 1e6 + (double)time.tv_nsec / 1e3;
}

static void best(double *least, double found) {
    if (*least <= 0 || found < *least) *least = found;
}

static void must(int is_done, const char *what) {
    if (is_done) return;
    fprintf(stderr, "speed: %s\n", what);
    exit(1);
}

static double executed(pazturrok_store store, const char *text, int times) {
    double start = now();
    const char *answer;
    size_t length;
    for (int time = 0; time < times; time++)
        must(pazturrok_execute(store, PAZTURROK_CURRENT, text, strlen(text), &answer, &length) == 0, text);
    return (now() - start) / times;
}

static sqlite3 *database(const char *room, const char *journal) {
    char text[4200];
    sqlite3 *opened;
    (void)snprintf(text, sizeof text, "%s/sqlite-%s", room, journal);
    must(sqlite3_open(text, &opened) == SQLITE_OK, "open");
    (void)snprintf(text, sizeof text, "PRAGMA journal_mode=%s; PRAGMA synchronous=FULL;"
                   "CREATE TABLE p (s TEXT, i TEXT, v TEXT, PRIMARY KEY (s, i)) WITHOUT ROWID; INSERT INTO p VALUES ('A', 'B', '7')", journal);
    must(sqlite3_exec(opened, text, NULL, NULL, NULL) == SQLITE_OK, "make");
    return opened;
}

static sqlite3_stmt *prepared(sqlite3 *opened, const char *text) {
    sqlite3_stmt *made;
    must(sqlite3_prepare_v2(opened, text, -1, &made, NULL) == SQLITE_OK, text);
    return made;
}

static double stepped(sqlite3_stmt *statement, int values, int times) {
    static const char *const TEXTS[] = {"A", "B", "7"};
    double start = now();
    for (int time = 0; time < times; time++) {
        for (int place = 0; place < values; place++) (void)sqlite3_bind_text(statement, place + 1, TEXTS[place], 1, SQLITE_STATIC);
        int step = sqlite3_step(statement);
        must(step == SQLITE_ROW || step == SQLITE_DONE, "step");
        if (step == SQLITE_ROW) must(sqlite3_column_text(statement, 0) != NULL, "column");
        (void)sqlite3_reset(statement);
    }
    return (now() - start) / times;
}

int main(int count, char **words) {
    static const char *const JOURNALS[] = {"WAL", "DELETE"};
    double least[6] = {0, 0, 0, 0, 0, 0};
    sqlite3_stmt *reads[2], *writes[2];
    pazturrok_store store;
    must(count == 2 && pazturrok_open(words[1], 0, &store, NULL) == 0, "a folder");
    must(executed(store, "(SETF (GET 'A 'B) 7)", 1) > 0, "set");
    for (int kind = 0; kind < 2; kind++) {
        sqlite3 *opened = database(words[1], JOURNALS[kind]);
        reads[kind] = prepared(opened, "SELECT v FROM p WHERE s=? AND i=?");
        writes[kind] = prepared(opened, "INSERT OR REPLACE INTO p VALUES (?, ?, ?)");
    }
    for (int turn = 0; turn < TURNS; turn++) {
        best(&least[0], executed(store, "(GET 'A 'B)", READS));
        best(&least[3], executed(store, "(SETF (GET 'A 'B) 7)", WRITES));
        for (int kind = 0; kind < 2; kind++) {
            best(&least[1 + kind], stepped(reads[kind], 2, READS));
            best(&least[4 + kind], stepped(writes[kind], 3, WRITES / (kind ? 10 : 1)));
        }
    }
    printf("read: GET %.2f us; SQLite, prepared SELECT: WAL %.2f, DELETE %.2f\n", least[0], least[1], least[2]);
    printf("write: SETF %.2f us; SQLite, synchronous=FULL: WAL %.2f, DELETE %.2f\n", least[3], least[4], least[5]);
    return pazturrok_close(store) == 0 ? 0 : 1;
}
