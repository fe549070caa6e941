/* Calls of the library as its header has them, and others: over a folder that is thrown away, which is the first argument. It tells what
   was not as it is to be; the last line is `N passed, M failed`. */
#include "expect.h"
#include <fcntl.h>
#include <pthread.h>
#include <signal.h>
#include <stdlib.h>
#include <sys/stat.h>
#include <sys/time.h>
#include <sys/wait.h>
#include <unistd.h>

/* Whether calls take long, as under valgrind: signals come less often then, and less is done. */
static bool is_slow;

/* How a child ended, by its status. */
#define EXPECT_STATUS(status) expect_status(status, __LINE__)

static void expect_status(int status, int line) {
    if (status != 0) printf("line %d: a child ended with %d\n", line, WEXITSTATUS(status));
    expect(status == 0, "status == 0", line);
}

static void forms(void) {
    pazturrok_store store = opened("forms");
    pazturrok_figures figures;
    const char *answer;
    size_t length;
    EXPECT(answers(store, "(SETF (GET 'A 'B) 7)", "7"));
    EXPECT(answers(store, "(INCF (GET 'A 'B))", "8"));
    EXPECT(execute(store, "(FROB)", &answer) == 31 && answer[0] == 0);
    EXPECT(execute(store, "(LIST 1", NULL) == 1);
    EXPECT(execute(store, "", NULL) == 1);
    EXPECT(execute(store, "1 2", NULL) == 26);
    EXPECT(execute(store, "\"M\xc3\xbcller\"", NULL) == 2);
    EXPECT(pazturrok_execute(store, PAZTURROK_CURRENT, "\"a\0b\"", 5, &answer, &length) == 0 && length == 5);
    EXPECT(memcmp(answer, "\"a\0b\"", 6) == 0);
    EXPECT(pazturrok_figures_of(store, &figures) == 0 && figures.generation == 1 && figures.records == 2 && figures.version == 2);
    EXPECT(pazturrok_snapshot(store) == 0);
    EXPECT(pazturrok_figures_of(store, &figures) == 0 && figures.generation == 2 && figures.records == 0);
    EXPECT(answers(store, "(GET 'A 'B)", "8"));
    EXPECT(pazturrok_close(store) == 0);
    store = opened("forms");
    EXPECT(answers(store, "(GET 'A 'B)", "8"));
    EXPECT(pazturrok_close(store) == 0);
}

static void modes(void) {
    pazturrok_store store = opened("modes");
    const char *answer;
    EXPECT(answers(store, "(SET-SYNTAX-FROM-CHAR #\\( #\\;)", "T"));
    EXPECT(execute(store, "(GET 'A 'B)", NULL) == 1);
    EXPECT(pazturrok_execute(store, PAZTURROK_RESCUE, "(LIST 10)", 9, &answer, NULL) == 0 && strcmp(answer, "(10)") == 0);
    EXPECT(pazturrok_execute(store, 2, "1", 1, NULL, NULL) == PAZTURROK_MISUSE);
    EXPECT(pazturrok_execute(store, -1, "1", 1, NULL, NULL) == PAZTURROK_MISUSE);
    EXPECT(pazturrok_close(store) == 0);
}

static pazturrok_object object(const char *text) { return (pazturrok_object){text, strlen(text)}; }

static void expect_calls_that_compare(pazturrok_store store) {
    const char *answer;
    size_t length;
    int is_set = 1;
    EXPECT(pazturrok_compare_and_set(store, "APPLE", "PRICE", object("7"), object("8"), &is_set) == 11 && is_set == 0);
    EXPECT(pazturrok_take(store, "QUEUE", "JOBS", &answer, &length) == 11);
    EXPECT(pazturrok_operators(store) == 0);
    EXPECT(pazturrok_compare_and_set(store, "APPLE", "PRICE", object("7"), object("(8 \"x\")"), &is_set) == 0 && is_set == 1);
    EXPECT(pazturrok_compare_and_set(store, "APPLE", "PRICE", object("7"), object("9"), &is_set) == 0 && is_set == 0);
    EXPECT(pazturrok_compare_and_set(store, "APPLE", "PRICE", object("(8 \"x\")"), object("7"), &is_set) == 0 && is_set == 1);
    EXPECT(pazturrok_compare_and_set(store, "APPLE", "PRICE", object("7"), object(")"), &is_set) != 0 && is_set == 0);
    EXPECT(pazturrok_compare_and_set(store, "APPLE", "PRICE", object("7"), (pazturrok_object){NULL, 0}, &is_set) == PAZTURROK_MISUSE);
    EXPECT(pazturrok_compare_and_set(store, "APPLE", "PRICE", object("7"), object("8"), NULL) == PAZTURROK_MISUSE);
    EXPECT(pazturrok_put(store, "QUEUE", "JOBS", "(\"first\" (2))", 13) == 0);
    EXPECT(pazturrok_take(store, "QUEUE", "JOBS", &answer, &length) == 0 && strcmp(answer, "\"first\"") == 0);
    EXPECT(pazturrok_take(store, "QUEUE", "JOBS", &answer, &length) == 0 && strcmp(answer, "(2)") == 0 && length == 3);
    EXPECT(pazturrok_take(store, "QUEUE", "JOBS", &answer, &length) == 0 && strcmp(answer, "NIL") == 0);
    EXPECT(pazturrok_take(store, "APPLE", "PRICE", &answer, &length) == 33);
    EXPECT(pazturrok_take(store, NULL, "JOBS", &answer, &length) == PAZTURROK_MISUSE);
}

static void properties(void) {
    pazturrok_store store = opened("properties");
    const char *answer;
    size_t length;
    EXPECT(pazturrok_get(store, "APPLE", "PRICE", &answer, &length) == 0 && strcmp(answer, "NIL") == 0 && length == 3);
    EXPECT(pazturrok_put(store, "APPLE", "PRICE", "7", 1) == 0);
    EXPECT(pazturrok_put(store, "a |strange\\ name", "IT IS", "(1 . #(\"two\"))", 14) == 0);
    EXPECT(answers(store, "(GET 'APPLE 'PRICE)", "7"));
    EXPECT(pazturrok_get(store, "a |strange\\ name", "IT IS", &answer, &length) == 0 && strcmp(answer, "(1 . #(\"two\"))") == 0);
    EXPECT(answers(store, "(SET-SYNTAX-FROM-CHAR #\\( #\\;)", "T"));
    EXPECT(pazturrok_put(store, "APPLE", "NAME", "COX", 3) == 0);
    EXPECT(pazturrok_plist(store, "APPLE", &answer, NULL) == 0 && strcmp(answer, "(PRICE 7 NAME COX)") == 0);
    EXPECT(pazturrok_put(store, "APPLE", "PRICE", "1 2", 3) == 32);
    expect_calls_that_compare(store);
    EXPECT(pazturrok_put(store, "APPLE", "PRICE", "", 0) == 32);
    EXPECT(pazturrok_put(store, "APPLE", "PRICE", ")", 1) != 0);
    EXPECT(pazturrok_get(store, "M\xc3\xbcller", "PRICE", &answer, &length) == 2 && length == 0);
    EXPECT(pazturrok_get(store, NULL, "PRICE", &answer, &length) == PAZTURROK_MISUSE);
    EXPECT(pazturrok_put(store, "APPLE", NULL, "1", 1) == PAZTURROK_MISUSE);
    EXPECT(pazturrok_plist(store, NULL, &answer, &length) == PAZTURROK_MISUSE);
    EXPECT(pazturrok_get(0, "APPLE", "PRICE", &answer, &length) == PAZTURROK_REOPEN);
    EXPECT(pazturrok_close(store) == 0);
}

static uint64_t records_of(pazturrok_store store) {
    pazturrok_figures figures;
    return pazturrok_figures_of(store, &figures) == 0 ? figures.records : UINT64_MAX;
}

/* The functions are known by their plain names under any readtable and package; what is there already is no fault; a name that is taken is told. */
static void operators(void) {
    pazturrok_store store = opened("operators"), other = opened("conflict");
    EXPECT(execute(store, "(EQL 1 1)", NULL) == 31);
    EXPECT(answers(store, "(MAKE-PACKAGE \"SHOP\")", "\"SHOP\"") && execute(store, "(IN-PACKAGE \"SHOP\")", NULL) == 0);
    EXPECT(pazturrok_operators(store) == 0 && records_of(store) == 5);
    EXPECT(pazturrok_operators(store) == 0 && records_of(store) == 5);
    EXPECT(answers(store, "(COMMON-LISP:IN-PACKAGE \"CL-USER\")", "\"COMMON-LISP-USER\""));
    EXPECT(answers(store, "(IF (< 1 2) (CAR '(7)) 8)", "7"));
    EXPECT(answers(store, "(SET-SYNTAX-FROM-CHAR #\\( #\\;)", "T") && pazturrok_operators(store) == 0);
    EXPECT(pazturrok_close(store) == 0 && pazturrok_operators(store) == PAZTURROK_REOPEN && pazturrok_operators(0) == PAZTURROK_REOPEN);
    EXPECT(answers(other, "'CAR", "CAR") && pazturrok_operators(other) == 37);
    EXPECT(answers(other, "(PAZTURROK::CAR '(7))", "7") && execute(other, "(EQL 1 1)", NULL) == 31);
    EXPECT(pazturrok_operators(other) == 37);
    EXPECT(pazturrok_close(other) == 0);
}

static void bad_arguments(void) {
    pazturrok_store store = opened("bad"), other = 1;
    pazturrok_fault fault;
    const char *answer = NULL, *texts[2] = {"1", NULL};
    size_t length = 1, lengths[2] = {1, 1};
    pazturrok_outcome outcomes[2];
    EXPECT(pazturrok_open(NULL, 0, &other, &fault) == PAZTURROK_MISUSE && other == 0 && fault.number == PAZTURROK_MISUSE);
    EXPECT(pazturrok_open(room, 0, NULL, NULL) == PAZTURROK_MISUSE);
    EXPECT(pazturrok_open(room, 64, &other, NULL) == PAZTURROK_MISUSE);
    EXPECT(pazturrok_open("", 0, &other, &fault) == 60 && strcmp(fault.cause, "the folder has no name") == 0);
    EXPECT(pazturrok_execute(0, 0, "1", 1, &answer, &length) == 61 && answer[0] == 0 && length == 0);
    EXPECT(pazturrok_execute(UINT64_MAX, 0, "1", 1, NULL, NULL) == 61);
    EXPECT(pazturrok_execute(store, 0, NULL, 1, NULL, NULL) == PAZTURROK_MISUSE);
    EXPECT(pazturrok_execute(store, 0, NULL, 0, NULL, NULL) == 1);
    EXPECT(pazturrok_execute(store, 0, "1", SIZE_MAX, NULL, NULL) == 23);
    EXPECT(pazturrok_execute_all(store, 0, NULL, NULL, 0, NULL) == 0);
    EXPECT(pazturrok_execute_all(store, 0, texts, lengths, 2, outcomes) == PAZTURROK_MISUSE && outcomes[1].answer[0] == 0);
    EXPECT(pazturrok_execute_all(store, 0, NULL, lengths, 2, outcomes) == PAZTURROK_MISUSE);
    lengths[0] = SIZE_MAX;
    EXPECT(pazturrok_execute_all(store, 0, texts, lengths, 1, outcomes) == 23);
    EXPECT(pazturrok_figures_of(store, NULL) == PAZTURROK_MISUSE);
    pazturrok_fault_of(store, &fault);
    EXPECT(fault.number == PAZTURROK_MISUSE && fault.cause[0] != 0);
    pazturrok_fault_of(store, NULL);
    EXPECT(answers(store, "1", "1"));
    EXPECT(pazturrok_close(store) == 0);
    EXPECT(pazturrok_close(store) == 61 && pazturrok_close(0) == 61 && pazturrok_snapshot(store) == 61);
    EXPECT(pazturrok_execute(store, 0, "1", 1, NULL, NULL) == 61);
    pazturrok_fault_of(store, &fault);
    EXPECT(fault.number == 61 && strcmp(fault.cause, "no store of this number is open") == 0);
    EXPECT(strcmp(pazturrok_name(31), "UNKNOWN-OPERATOR") == 0 && strcmp(pazturrok_name(90), "NO-MEMORY") == 0);
    EXPECT(pazturrok_name(0)[0] == 0 && pazturrok_name(-5)[0] == 0 && pazturrok_name(27)[0] == 0 && pazturrok_name(1 << 30)[0] == 0);
}

static void stale_numbers(void) {
    pazturrok_store first = opened("stale"), second;
    EXPECT(pazturrok_close(first) == 0);
    second = opened("stale");
    EXPECT(first != second && pazturrok_execute(first, 0, "1", 1, NULL, NULL) == 61 && answers(second, "1", "1"));
    EXPECT(pazturrok_close(second) == 0);
}

/* One text at each limit and past it. */
static void long_texts(void) {
    pazturrok_store store = opened("long");
    const size_t limit = 1048576;
    char *text = malloc(limit + 2);
    const char *answer;
    size_t length;
    if (!text) return;
    memset(text, 'x', limit + 2);
    text[0] = '"';
    text[limit - 1] = '"';
    EXPECT(pazturrok_execute(store, 0, text, limit, &answer, &length) == 0 && length == limit && answer[limit] == 0);
    EXPECT(memcmp(answer, text, limit) == 0);
    text[limit - 1] = 'x';
    text[limit] = '"';
    EXPECT(pazturrok_execute(store, 0, text, limit + 1, &answer, &length) == 23 && length == 0);
    EXPECT(answers(store, "'SHORT", "SHORT"));
    free(text);
    EXPECT(pazturrok_close(store) == 0);
}

static void many_forms(void) {
    pazturrok_store store = opened("many");
    const char *texts[5] = {"(SETF (GET 'N 'N) 1)", "(FROB)", "(INCF (GET 'N 'N) 4)", "(LIST 1", "(LIST \"a\" 'b)"};
    size_t lengths[5];
    pazturrok_outcome outcomes[5];
    pazturrok_figures figures;
    for (int place = 0; place < 5; place++) lengths[place] = strlen(texts[place]);
    EXPECT(pazturrok_execute_all(store, PAZTURROK_RESCUE, texts, lengths, 5, outcomes) == 0);
    EXPECT(outcomes[0].number == 0 && strcmp(outcomes[0].answer, "1") == 0);
    EXPECT(outcomes[1].number == 31 && outcomes[1].answer[0] == 0 && outcomes[1].length == 0);
    EXPECT(outcomes[2].number == 0 && strcmp(outcomes[2].answer, "5") == 0);
    EXPECT(outcomes[3].number == 1);
    EXPECT(outcomes[4].number == 0 && strcmp(outcomes[4].answer, "(\"a\" B)") == 0 && outcomes[4].length == 7);
    EXPECT(pazturrok_figures_of(store, &figures) == 0 && figures.records == 3);
    EXPECT(pazturrok_close(store) == 0);
}

static void folders(void) {
    pazturrok_store store, other;
    pazturrok_fault fault;
    struct stat found;
    EXPECT(pazturrok_open(folder("none"), PAZTURROK_EXISTING, &store, &fault) == 60);
    EXPECT(strcmp(fault.cause, "there is no store in this folder") == 0 && stat(folder("none"), &found) != 0);
    store = opened("deep/er/folder/");
    EXPECT(answers(store, "1", "1") && stat(folder("deep/er/folder/half-a"), &found) == 0 && (found.st_mode & 0777) == 0600);
    EXPECT(pazturrok_open(folder("deep/er/folder"), 0, &other, &fault) == 60 && strcmp(fault.cause, "locked by another process") == 0);
    EXPECT(pazturrok_close(store) == 0);
    EXPECT(pazturrok_open(folder("deep/er/folder"), PAZTURROK_EXISTING, &store, NULL) == 0 && pazturrok_close(store) == 0);
    EXPECT(pazturrok_open("/dev/null", 0, &store, &fault) == 60 && fault.system_error != 0 && fault.cause[0] != 0);
    EXPECT(pazturrok_open("/proc/1/none", 0, &store, &fault) == 60);
    char *name = malloc(6000);
    if (!name) return;
    memset(name, 'a', 5999);
    name[5999] = 0;
    EXPECT(pazturrok_open(name, 0, &store, &fault) == 60);
    for (int place = 0; place < 600; place++) name[place] = place % 2 ? '/' : 'b';
    name[600] = 0;
    EXPECT(chdir(room) == 0 && pazturrok_open(name, 0, &store, &fault) == 0 && pazturrok_close(store) == 0);
    EXPECT(mkdir(folder("linked"), 0700) == 0 && symlink("/etc/passwd", folder("linked/half-a")) == 0);
    EXPECT(pazturrok_open(folder("linked"), 0, &store, &fault) == 60 && strstr(fault.cause, "is a link") != NULL);
    EXPECT(mkdir(folder("piped"), 0700) == 0 && mkfifo(folder("piped/half-b"), 0600) == 0);
    EXPECT(pazturrok_open(folder("piped"), 0, &store, &fault) == 60 && strstr(fault.cause, "no regular file") != NULL);
    free(name);
}

/* A file is far longer than a half may be: what comes after the half is not looked at. */
static void long_files(void) {
    pazturrok_store store = opened("long file");
    EXPECT(answers(store, "(SETF (GET 'A 'B) 7)", "7"));
    EXPECT(pazturrok_snapshot(store) == 0 && pazturrok_close(store) == 0);
    EXPECT(truncate(folder("long file/half-a"), (off_t)1 << 33) == 0);
    store = opened("long file");
    EXPECT(answers(store, "(INCF (GET 'A 'B))", "8"));
    EXPECT(pazturrok_snapshot(store) == 0 && pazturrok_close(store) == 0);
    store = opened("long file");
    EXPECT(answers(store, "(GET 'A 'B)", "8") && pazturrok_close(store) == 0);
}

/* Snapshots that a store takes by itself */

enum { LONG_FORM = 100000 };

static const char *long_form(void) {
    static char form[LONG_FORM];
    const char *front = "(PROGN (SETF (GET 'A 'B) \"", *back = "\") 7)";
    memset(form, 'x', sizeof form);
    memcpy(form, front, strlen(front));
    memcpy(form + sizeof form - strlen(back), back, strlen(back));
    return form;
}

/* Whether so many long forms are answered as ever, and the store has this generation and so many records then. */
static bool writes(pazturrok_store store, int count, uint64_t generation, uint64_t records) {
    pazturrok_figures figures;
    const char *answer = "";
    size_t length = 0;
    for (int time = 0; time < count; time++)
        if (pazturrok_execute(store, PAZTURROK_RESCUE, long_form(), LONG_FORM, &answer, &length) != 0 || strcmp(answer, "7") != 0 || length != 1)
            return false;
    return pazturrok_figures_of(store, &figures) == 0 && figures.generation == generation && figures.records == records;
}

/* Eleven long forms are more than 1 MiB, and after a snapshot, which has the text of one, ten. */
static void own_snapshots(void) {
    pazturrok_store store = opened("own snapshots");
    const char *texts[11];
    size_t lengths[11];
    pazturrok_outcome outcomes[11];
    pazturrok_figures figures;
    for (int place = 0; place < 11; place++) texts[place] = long_form(), lengths[place] = LONG_FORM;
    EXPECT(pazturrok_snapshot_ratio(0, 10) == 61);
    EXPECT(writes(store, 10, 1, 10) && writes(store, 1, 2, 0));
    EXPECT(pazturrok_close(store) == 0);
    store = opened("own snapshots");
    EXPECT(writes(store, 9, 2, 9) && writes(store, 1, 3, 0));
    EXPECT(pazturrok_snapshot_ratio(store, 0) == 0 && writes(store, 12, 3, 12));
    EXPECT(pazturrok_snapshot_ratio(store, 20) == 0 && writes(store, 1, 3, 13));
    EXPECT(pazturrok_snapshot_ratio(store, UINT64_MAX) == 0 && writes(store, 1, 3, 14));
    /* what writes nothing takes none */
    EXPECT(pazturrok_snapshot_ratio(store, 11) == 0 && answers(store, "(LIST 1)", "(1)") && writes(store, 0, 3, 14));
    EXPECT(writes(store, 1, 4, 0));
    EXPECT(pazturrok_execute_all(store, PAZTURROK_RESCUE, texts, lengths, 11, outcomes) == 0);
    for (int place = 0; place < 11; place++) EXPECT(outcomes[place].number == 0 && strcmp(outcomes[place].answer, "7") == 0);
    EXPECT(pazturrok_figures_of(store, &figures) == 0 && figures.generation == 5 && figures.records == 0);
    EXPECT(pazturrok_close(store) == 0);
}

/* The descriptor of a file. */
static int descriptor_of(const char *path) {
    struct stat wanted, found;
    if (stat(path, &wanted) != 0) return -1;
    for (int file = 3; file < 1024; file++)
        if (fstat(file, &found) == 0 && found.st_dev == wanted.st_dev && found.st_ino == wanted.st_ino) return file;
    return -1;
}

/* A snapshot that a store takes by itself fails: what was answered stays answered, and the store has to be opened again. */
static void failed_snapshot(void) {
    pazturrok_store store = opened("failed snapshot");
    pazturrok_fault fault = {0, 0, ""};
    int half = descriptor_of(folder("failed snapshot/half-b")), other = open(folder("failed snapshot/half-b"), O_RDONLY);
    EXPECT(half > 2 && other > 2 && writes(store, 10, 1, 10) && dup2(other, half) == half && close(other) == 0);
    EXPECT(pazturrok_execute(store, PAZTURROK_RESCUE, long_form(), LONG_FORM, NULL, NULL) == 0);
    pazturrok_fault_of(store, &fault);
    EXPECT(fault.number == 60 && fault.cause[0] != 0);
    EXPECT(execute(store, "1", NULL) == 61 && pazturrok_close(store) == 0);
    store = opened("failed snapshot");
    EXPECT(writes(store, 0, 1, 11) && pazturrok_close(store) == 0);
}

static void many_stores(void) {
    static pazturrok_store stores[257];
    pazturrok_fault fault;
    char name[32];
    int count = 0;
    while (count < 257) {
        (void)snprintf(name, sizeof name, "many stores/%d", count);
        if (pazturrok_open(folder(name), 0, &stores[count], &fault) != 0) break;
        count++;
    }
    EXPECT(count == 256 && fault.number == PAZTURROK_NO_MEMORY && strcmp(fault.cause, "256 stores are open") == 0);
    EXPECT(answers(stores[255], "1", "1"));
    while (count > 0) EXPECT(pazturrok_close(stores[--count]) == 0);
}

/* Threads */

enum { THREADS = 4, TIMES = 500 };

static void *increment(void *argument) {
    const pazturrok_store *store = argument;
    intptr_t refused = 0;
    for (int time = 0; time < TIMES; time++) refused += execute(*store, "(INCF (GET 'N 'N))", NULL) != 0;
    return (void *)refused;
}

static void threads(void) {
    pazturrok_store store = opened("threads");
    pthread_t others[THREADS];
    void *refused;
    EXPECT(answers(store, "(SETF (GET 'N 'N) 0)", "0"));
    for (int place = 0; place < THREADS; place++) EXPECT(pthread_create(&others[place], NULL, increment, &store) == 0);
    for (int place = 0; place < THREADS; place++) EXPECT(pthread_join(others[place], &refused) == 0 && refused == NULL);
    EXPECT(answers(store, "(GET 'N 'N)", "2000"));
    EXPECT(pazturrok_close(store) == 0);
}

static void *close_soon(void *argument) {
    const pazturrok_store *store = argument;
    (void)usleep(2000);
    return (void *)(intptr_t)pazturrok_close(*store);
}

/* A store is closed by one thread while others use it: each of their calls is done or is 61. */
static void closed_by_another(void) {
    for (int time = 0; time < 5; time++) {
        pazturrok_store store = opened("closed");
        pthread_t other;
        void *number;
        int last = 0;
        EXPECT(pthread_create(&other, NULL, close_soon, &store) == 0);
        for (int turn = 0; turn < 1000000 && last == 0; turn++) last = execute(store, "(SETF (GET 'A 'B) 7)", NULL);
        EXPECT(last == 61);
        EXPECT(pthread_join(other, &number) == 0 && number == NULL);
    }
}

/* Cancelling a thread waits for the end of its call. */
static void *execute_for_ever(void *argument) {
    const pazturrok_store *store = argument;
    while (execute(*store, "(INCF (GET 'N 'N))", NULL) == 0) pthread_testcancel();
    return NULL;
}

static void cancelled(void) {
    pazturrok_store store = opened("cancelled");
    pthread_t other;
    EXPECT(answers(store, "(SETF (GET 'N 'N) 0)", "0"));
    EXPECT(pthread_create(&other, NULL, execute_for_ever, &store) == 0);
    (void)usleep(5000);
    EXPECT(pthread_cancel(other) == 0 && pthread_join(other, NULL) == 0);
    EXPECT(execute(store, "(INCF (GET 'N 'N))", NULL) == 0);
    EXPECT(pazturrok_close(store) == 0);
}

/* Signals and forks */

static pazturrok_store interrupted;
static volatile sig_atomic_t signals, refusals, others;

/* The number of one call after the other. The folder of the store is locked, so it is not opened. */
static int call_in_turn(int turn) {
    const char *text = "1";
    size_t length = 1;
    pazturrok_outcome outcome;
    pazturrok_figures figures;
    pazturrok_store other;
    uint64_t position;
    switch (turn % 7) {
    case 0: return pazturrok_execute(interrupted, 0, text, length, NULL, NULL);
    case 1: return pazturrok_execute_all(interrupted, 0, &text, &length, 1, &outcome);
    case 2: return pazturrok_ask(interrupted, text, length, NULL, NULL);
    case 3: return pazturrok_position(interrupted, &position);
    case 4: return pazturrok_snapshot(interrupted);
    case 5: return pazturrok_figures_of(interrupted, &figures);
    default: return pazturrok_open(folder("signals"), 0, &other, NULL) == 61 ? 61 : 0;
    }
}

static void within(int signal) {
    int number = call_in_turn(signals);
    (void)signal;
    signals++;
    if (number == 61) refusals++;
    else if (number != 0) others++;
}

/* A signal that comes within a call goes on with it; a call of its handler is refused or is one between two calls. */
static void signalled(void) {
    struct sigaction action = {.sa_handler = within};
    const int pause = is_slow ? 20000 : 300, times = is_slow ? 1000 : 20000;
    struct itimerval often = {{0, pause}, {0, pause}}, never = {{0, 0}, {0, 0}};
    char wanted[16];
    int refused = 0;
    interrupted = opened("signals");
    EXPECT(answers(interrupted, "(SETF (GET 'N 'N) 0)", "0"));
    EXPECT(sigaction(SIGALRM, &action, NULL) == 0 && setitimer(ITIMER_REAL, &often, NULL) == 0);
    for (int time = 0; time < times; time++) refused += execute(interrupted, "(INCF (GET 'N 'N))", NULL) != 0;
    EXPECT(setitimer(ITIMER_REAL, &never, NULL) == 0);
    EXPECT(refused == 0 && signals > 0 && (refusals > 0 || is_slow) && others == 0);
    (void)snprintf(wanted, sizeof wanted, "%d", times);
    EXPECT(answers(interrupted, "(GET 'N 'N)", wanted));
    EXPECT(pazturrok_close(interrupted) == 0);
}

static int in_child(pazturrok_store store) {
    pazturrok_store again;
    pazturrok_fault fault;
    if (pazturrok_execute(store, 0, "(SETF (GET 'A 'B) 8)", 20, NULL, NULL) != 61) return 1;
    if (pazturrok_close(store) != 61) return 2;
    /* the parent has the files: the child neither has the lock nor lets it go */
    if (pazturrok_open(folder("fork"), 0, &again, &fault) != 60) return 3;
    if (strcmp(fault.cause, "locked by another process") != 0) return 4;
    again = opened("the child's");
    if (!answers(again, "(SETF (GET 'A 'B) 9)", "9")) return 5;
    return pazturrok_close(again) == 0 ? 0 : 6;
}

static void forked(void) {
    pazturrok_store store = opened("fork");
    int status = -1;
    EXPECT(answers(store, "(SETF (GET 'A 'B) 7)", "7"));
    (void)fflush(stdout);
    pid_t child = fork();
    if (child == 0) _exit(in_child(store));
    EXPECT(waitpid(child, &status, 0) == child);
    EXPECT_STATUS(status);
    EXPECT(answers(store, "(GET 'A 'B)", "7"));
    /* a child that lives on does not keep the lock */
    child = fork();
    if (child == 0) {
        (void)pause();
        _exit(0);
    }
    EXPECT(pazturrok_close(store) == 0);
    store = opened("fork");
    EXPECT(answers(store, "(GET 'A 'B)", "7") && pazturrok_close(store) == 0);
    EXPECT(kill(child, SIGKILL) == 0 && waitpid(child, NULL, 0) == child);
}

/* The standard streams are closed: neither file gets one of their numbers. */
static void streams_closed(void) {
    int status = -1;
    (void)fflush(stdout);
    pid_t child = fork();
    if (child == 0) {
        pazturrok_store store = 0;
        for (int file = 0; file < 3; file++) (void)close(file);
        if (pazturrok_open(folder("streams"), 0, &store, NULL) != 0) _exit(1);
        for (int file = 0; file < 3; file++)
            if (fcntl(file, F_GETFD) != -1) _exit(2);
        _exit(answers(store, "1", "1") && pazturrok_close(store) == 0 ? 0 : 3);
    }
    EXPECT(waitpid(child, &status, 0) == child);
    EXPECT_STATUS(status);
}

int main(int count, char **words) {
    if (count < 2) return 2;
    room = words[1];
    is_slow = count > 2;
    forms();
    modes();
    properties();
    operators();
    bad_arguments();
    stale_numbers();
    long_texts();
    many_forms();
    folders();
    own_snapshots();
    failed_snapshot();
    /* it takes 2 GB for a moment */
    if (getenv("CALLS_LONG_FILES")) long_files();
    many_stores();
    threads();
    closed_by_another();
    cancelled();
    signalled();
    forked();
    streams_closed();
    printf("%d passed, %d failed\n", passed, failed);
    return failed ? 1 : 0;
}
