/* A link of a client that has a name to the program: the calls of pazturrok_link.h, and clients that are killed between sending and reading.

     link PROGRAM FOLDER KILLS PLACE

   At the place a node serves a store. */
#define _GNU_SOURCE
#include "pazturrok_link.h"
#include <signal.h>
#include <stdbool.h>
#include <stdio.h>
#include <stdlib.h>
#include <string.h>
#include <sys/wait.h>
#include <unistd.h>

#define EXPECT(holds) expect(holds, #holds, __LINE__)
#define PLUS "(INCF (GET 'NT 'KY))"
#define LONGEST 1048576

static int passed, failed;
static const char *program, *room;

static void expect(bool holds, const char *what, int line) {
    if (holds) passed++;
    else printf("line %d: %s\n", line, what), failed++;
}

static pazturrok_link *linked(const char *name) {
    pazturrok_link *link = NULL;
    pazturrok_fault fault;
    if (pazturrok_link_open(program, room, name, &link, &fault) != 0) printf("%s: %d %s\n", name, fault.number, fault.cause);
    return link;
}

static bool gives(pazturrok_link *link, uint64_t number, const char *text, const char *wanted) {
    const char *answer;
    size_t length;
    int got = pazturrok_link_do(link, number, text, strlen(text), &answer, &length);
    if (got != 0 || strcmp(answer, wanted) != 0) printf("%d %s\n", got, answer);
    return got == 0 && length == strlen(wanted) && strcmp(answer, wanted) == 0;
}

static int refusal(pazturrok_link *link, uint64_t number, const char *text) { return pazturrok_link_do(link, number, text, strlen(text), NULL, NULL); }

static bool tells(pazturrok_link *link, const char *text, const char *wanted) {
    const char *answer;
    return pazturrok_link_ask(link, text, strlen(text), &answer, NULL) == 0 && strcmp(answer, wanted) == 0;
}

static void look_at_answers(void) {
    const char *text = "(LIST (INCF (GET 'NT 'KY)) \"a \\\"text\\\" \\\\\n\" 'B)", *answer = "(1 \"a \\\"text\\\" \\\\\n\" B)";
    pazturrok_link *link = linked("till-3");
    EXPECT(pazturrok_link_last(link) == 0);
    EXPECT(gives(link, 1, "(SETF (GET 'NT 'KY) 0)", "0"));
    EXPECT(gives(link, 5, text, answer));
    EXPECT(gives(link, 5, text, answer));
    EXPECT(refusal(link, 5, PLUS) == PAZTURROK_OTHER_TEXT);
    EXPECT(refusal(link, 4, PLUS) == PAZTURROK_OLD_NUMBER);
    EXPECT(refusal(link, 6, "(FROB)") == 31);
    EXPECT(refusal(link, 6, "(FROB)") == 31);
    EXPECT(refusal(link, 7, "") == 1);
    EXPECT(tells(link, "(GET 'NT 'KY)", "1"));
    EXPECT(pazturrok_link_ask(link, PLUS, strlen(PLUS), NULL, NULL) == PAZTURROK_QUESTION_WRITES);
    pazturrok_link_close(link);
    for (int times = 0; times < 2; times++) {
        link = linked("till-3");
        EXPECT(pazturrok_link_last(link) == 7);
        EXPECT(refusal(link, 7, "") == 1);
        pazturrok_link_close(link);
    }
}

static void look_at_numbers(void) {
    pazturrok_link *link = linked("other");
    EXPECT(pazturrok_link_last(link) == 0);
    EXPECT(gives(link, UINT64_MAX, PLUS, "2"));
    EXPECT(gives(link, UINT64_MAX, PLUS, "2"));
    EXPECT(refusal(link, 1, PLUS) == PAZTURROK_OLD_NUMBER);
    EXPECT(pazturrok_link_unregister(link) == 0);
    EXPECT(gives(link, 1, PLUS, "3"));
    EXPECT(pazturrok_link_unregister(link) == 0);
    pazturrok_link_close(link);
}

static void look_at_long_texts(void) {
    pazturrok_link *link = linked("long");
    char *text = malloc(LONGEST + 1);
    if (!text) exit(1);
    memset(text, 'x', LONGEST);
    text[LONGEST] = 0;
    memcpy(text, "'(\"", 3);
    EXPECT(refusal(link, 1, text) == PAZTURROK_TEXT_TOO_LONG);
    memcpy(text + 70000, "\")", 3);
    text[0] = ' ';
    EXPECT(refusal(link, 1, text) == 30);
    text[0] = '\'';
    EXPECT(gives(link, 2, text, text + 1));
    EXPECT(refusal(link, 2, text) == PAZTURROK_NOT_KEPT);
    EXPECT(gives(link, 3, "(LIST 1)", "(1)"));
    free(text);
    pazturrok_link_close(link);
}

static void look_at_faults(void) {
    pazturrok_link *link = NULL, *second = NULL;
    pazturrok_fault fault;
    char long_name[102] = "";
    memset(long_name, 'x', 101);
    const char *const none[] = {"", "a b", "a/b", "a|b", "\xc3\xa4", long_name};
    for (size_t place = 0; place < sizeof none / sizeof none[0]; place++)
        EXPECT(pazturrok_link_open(program, room, none[place], &link, &fault) == PAZTURROK_NO_FRAME && fault.number == PAZTURROK_NO_FRAME && !link);
    EXPECT(pazturrok_link_open(program, room, NULL, &link, NULL) == PAZTURROK_MISUSE);
    EXPECT(pazturrok_link_open(program, room, "a", NULL, NULL) == PAZTURROK_MISUSE);
    EXPECT(pazturrok_link_open("/no/program", room, "a", &link, &fault) == PAZTURROK_DEVICE && strstr(fault.cause, "No such file"));
    EXPECT(pazturrok_link_open("/bin/false", room, "a", &link, &fault) == PAZTURROK_DEVICE && strstr(fault.cause, "has ended"));
    EXPECT(pazturrok_link_open("/bin/echo", room, "a", &link, &fault) == PAZTURROK_DEVICE && strstr(fault.cause, "none of its answers"));
    link = linked("a");
    EXPECT(pazturrok_link_open(program, room, "b", &second, &fault) == PAZTURROK_DEVICE && !second);
    EXPECT(gives(link, 1, "(SETF (GET '%CLIENTS::|a| '%CLIENTS::%MESSAGE) 'GONE)", "GONE"));
    EXPECT(gives(link, 2, "(LIST 1)", "(1)"));
    pazturrok_link_close(link);
    pazturrok_link_close(NULL);
}

static void look_at_node(const char *place) {
    pazturrok_link *link = NULL, *other = NULL;
    pazturrok_fault fault;
    EXPECT(pazturrok_link_connect(place, "till-3", 600, &link, NULL) == 0 && pazturrok_link_last(link) == 0);
    EXPECT(gives(link, 1, "(SETF (GET 'NT 'KY) 0)", "0"));
    EXPECT(pazturrok_link_connect(place, "till-4", 600, &other, NULL) == 0);
    EXPECT(gives(link, 5, PLUS, "1") && gives(other, 5, PLUS, "2") && gives(link, 5, PLUS, "1") && gives(other, 5, PLUS, "2"));
    EXPECT(refusal(link, 5, "(LIST 1)") == PAZTURROK_OTHER_TEXT && refusal(link, 4, PLUS) == PAZTURROK_OLD_NUMBER && refusal(link, 6, "(FROB)") == 31);
    EXPECT(tells(link, "(GET 'NT 'KY)", "2"));
    pazturrok_link_close(link);
    EXPECT(pazturrok_link_connect(place, "till-3", 600, &link, NULL) == 0 && pazturrok_link_last(link) == 6);
    EXPECT(refusal(link, 6, "(FROB)") == 31 && gives(link, 7, PLUS, "3") && pazturrok_link_unregister(link) == 0 && gives(link, 1, PLUS, "4"));
    pazturrok_link_close(link);
    pazturrok_link_close(other);
    EXPECT(pazturrok_link_connect(place, "a b", 1, &link, &fault) == PAZTURROK_NO_FRAME && !link);
    EXPECT(pazturrok_link_connect(place, NULL, 1, &link, &fault) == PAZTURROK_MISUSE);
    const char *const nowhere[] = {"unix:/no/socket", "/no/socket", "127.0.0.1:1", "[::1]:1", "nothing", "u/x", ":", ""};
    for (size_t at = 0; at < sizeof nowhere / sizeof nowhere[0]; at++)
        EXPECT(pazturrok_link_connect(nowhere[at], "a", 0, &link, &fault) == PAZTURROK_DEVICE && fault.system_error != 0 && !link);
}

/* Carries out messages from a number on, and tells each that was answered; a parent kills it. */
static void carry_out(int to, uint64_t number) {
    pazturrok_link *link = NULL;
    /* the program of the client before may not have ended yet */
    while (pazturrok_link_open(program, room, "killed", &link, NULL) == PAZTURROK_DEVICE) (void)usleep(1000);
    for (; link; number++) {
        const char *answer;
        uint64_t told[2] = {number, 0};
        if (pazturrok_link_do(link, number, PLUS, strlen(PLUS), &answer, NULL) != 0) break;
        told[1] = strtoull(answer, NULL, 10);
        if (write(to, told, sizeof told) < 0) break;
    }
    _exit(1);
}

/* Kills a client while it sends and reads: after the number of its last answer. */
static uint64_t killed(uint64_t number) {
    int ends[2];
    uint64_t told[2];
    if (pipe(ends) < 0) exit(1);
    pid_t child = fork();
    if (child == 0) {
        (void)close(ends[0]);
        carry_out(ends[1], number + 1);
    }
    (void)close(ends[1]);
    for (int answers = 0; read(ends[0], told, sizeof told) == (ssize_t)sizeof told; answers++) {
        /* the answer of each is its number: carried out once, and answered again */
        if (told[0] != number + 1 || told[1] != told[0]) failed++, printf("%llu: %llu\n", (unsigned long long)told[0], (unsigned long long)told[1]);
        else passed++;
        number = told[0];
        if (answers == 0) (void)usleep((useconds_t)(rand() % 3000)), (void)kill(child, SIGKILL);
    }
    (void)close(ends[0]);
    (void)waitpid(child, NULL, 0);
    return number;
}

int main(int count, char **words) {
    if (count != 5) return 2;
    program = words[1], room = words[2];
    look_at_node(words[4]);
    look_at_answers();
    look_at_numbers();
    look_at_long_texts();
    look_at_faults();
    pazturrok_link *link = linked("first");
    EXPECT(gives(link, 1, "(SETF (GET 'NT 'KY) 0)", "0"));
    pazturrok_link_close(link);
    uint64_t number = 0, kills = strtoull(words[3], NULL, 10);
    for (uint64_t times = 0; times < kills; times++) number = killed(number);
    printf("%llu answers, and %llu kills\n", (unsigned long long)number, (unsigned long long)kills);
    printf("%d passed, %d failed\n", passed, failed);
    return failed ? 1 : 0;
}
