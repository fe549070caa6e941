/* Messages and questions by the library: over a folder that is thrown away, which is the first argument. It tells what was not as it is to
   be; the last line is `N passed, M failed`. */
#include "expect.h"
#include <stdlib.h>

static pazturrok_message message(uint64_t number, const char *text) { return (pazturrok_message){number, text, strlen(text)}; }

/* Whether one message has this number of a refusal, or this answer. */
static bool does(pazturrok_store store, uint64_t number, const char *text, int wanted, const char *answer) {
    pazturrok_message one = message(number, text);
    pazturrok_outcome outcome;
    return pazturrok_do(store, &one, 1, &outcome) == 0 && outcome.number == wanted && strcmp(outcome.answer, answer) == 0
           && outcome.length == strlen(answer);
}

static bool asks(pazturrok_store store, const char *text, int wanted, const char *answer) {
    const char *found;
    size_t length;
    int number = pazturrok_ask(store, text, strlen(text), &found, &length);
    return number == wanted && strcmp(found, answer) == 0 && length == strlen(answer);
}

static bool is_at(pazturrok_store store, uint64_t wanted) {
    uint64_t position = 1;
    return pazturrok_position(store, &position) == 0 && position == wanted;
}

static uint64_t records(pazturrok_store store) {
    pazturrok_figures figures;
    return pazturrok_figures_of(store, &figures) == 0 ? figures.records : UINT64_MAX;
}

static void each_once(void) {
    pazturrok_store store = opened("once");
    pazturrok_message messages[4] = {message(3, "(SETF (GET 'N 'N) 1)"), message(4, "(FROB)"), message(9, "(INCF (GET 'N 'N) 4)"),
                                     message(9, "(INCF (GET 'N 'N))")};
    pazturrok_outcome outcomes[4];
    EXPECT(is_at(store, 0) && records(store) == 1);
    EXPECT(pazturrok_do(store, messages, 4, outcomes) == 0);
    EXPECT(outcomes[0].number == 0 && strcmp(outcomes[0].answer, "1") == 0);
    EXPECT(outcomes[1].number == 31 && outcomes[1].answer[0] == 0 && outcomes[1].length == 0);
    EXPECT(outcomes[2].number == 0 && strcmp(outcomes[2].answer, "5") == 0 && outcomes[2].length == 1);
    EXPECT(outcomes[3].number == PAZTURROK_OLD_NUMBER);
    /* the position out and in again, and the two that wrote */
    EXPECT(is_at(store, 9) && records(store) == 5);
    EXPECT(does(store, 9, "(INCF (GET 'N 'N))", 50, "") && does(store, 10, "(INCF (GET 'N 'N))", 0, "6"));
    EXPECT(does(store, 12, "(LIST 1", 1, "") && does(store, 13, "", 1, "") && does(store, 14, "1 2", 26, "") && is_at(store, 10));
    EXPECT(does(store, 11, "(INCF (GET 'N 'N))", 50, ""));
    EXPECT(pazturrok_close(store) == 0);
    store = opened("once");
    EXPECT(is_at(store, 10) && does(store, 10, "(INCF (GET 'N 'N))", 50, "") && does(store, 11, "(INCF (GET 'N 'N))", 0, "7"));
    EXPECT(does(store, UINT64_MAX, "(INCF (GET 'N 'N))", 0, "8") && does(store, UINT64_MAX, "1", 50, ""));
    EXPECT(pazturrok_snapshot(store) == 0 && pazturrok_close(store) == 0);
    store = opened("once");
    EXPECT(is_at(store, UINT64_MAX) && asks(store, "(GET 'N 'N)", 0, "8"));
    EXPECT(pazturrok_close(store) == 0);
}

/* A message and a question see the world without the position; forms beside them may change it. */
static void beside_forms(void) {
    pazturrok_store store = opened("beside");
    const char *position = "(GET '|position| '|position|)";
    pazturrok_message late = message(2000, "(SETF (GET 'A 'B) 1)");
    pazturrok_outcome outcome;
    uint64_t found = 1;
    EXPECT(does(store, 1, "(SETF (GET 'A 'B) 7)", 0, "7") && does(store, 2, position, 0, "NIL") && asks(store, position, 0, "NIL"));
    EXPECT(answers(store, position, "1"));
    EXPECT(answers(store, "(SETF (GET '|position| '|position|) 1000)", "1000"));
    EXPECT(does(store, 1000, "(INCF (GET 'A 'B))", 50, "") && does(store, 1001, "(INCF (GET 'A 'B))", 0, "8") && is_at(store, 1001));
    EXPECT(answers(store, "(SETF (GET '|position| '|position|) \"x\")", "\"x\""));
    EXPECT(pazturrok_position(store, &found) == PAZTURROK_NO_POSITION && found == 0);
    EXPECT(pazturrok_do(store, &late, 1, &outcome) == PAZTURROK_NO_POSITION && outcome.number == 61 && outcome.answer[0] == 0);
    EXPECT(asks(store, "(GET 'A 'B)", 0, "8") && answers(store, position, "\"x\""));
    EXPECT(answers(store, "(REMPROP '|position| '|position|)", "T") && is_at(store, 0));
    EXPECT(pazturrok_close(store) == 0);
}

static void questions(void) {
    pazturrok_store store = opened("questions");
    const char *answer;
    size_t length;
    pazturrok_fault fault;
    /* no message was sent yet, and nothing is logged */
    EXPECT(asks(store, "(LIST 'NEW 1)", 0, "(NEW 1)") && asks(store, "(INTERN \"NEW\")", PAZTURROK_QUESTION_WRITES, "") && records(store) == 0);
    EXPECT(asks(store, "(SETF (GET 'A 'B) 7)", PAZTURROK_QUESTION_WRITES, "") && asks(store, "(FROB)", 31, "") && asks(store, "(", 1, ""));
    EXPECT(asks(store, "1 2", 26, "") && asks(store, "", 1, "") && records(store) == 0);
    EXPECT(pazturrok_ask(store, "\"a\0b\"", 5, &answer, &length) == 0 && length == 5 && memcmp(answer, "\"a\0b\"", 6) == 0);
    EXPECT(pazturrok_ask(store, NULL, 1, &answer, &length) == PAZTURROK_MISUSE && answer[0] == 0 && length == 0);
    pazturrok_fault_of(store, &fault);
    EXPECT(fault.number == PAZTURROK_MISUSE);
    EXPECT(pazturrok_ask(store, "1", SIZE_MAX, NULL, NULL) == 23 && pazturrok_ask(store, "1", 1, NULL, NULL) == 0);
    EXPECT(pazturrok_close(store) == 0 && pazturrok_ask(store, "1", 1, &answer, &length) == 61 && answer[0] == 0);
}

static void bad_arguments(void) {
    pazturrok_store store = opened("bad");
    pazturrok_message messages[2] = {message(1, "(SETF (GET 'A 'B) 7)"), {2, NULL, 1}};
    pazturrok_outcome outcomes[2];
    EXPECT(pazturrok_position(store, NULL) == PAZTURROK_MISUSE && pazturrok_position(0, NULL) == 61);
    EXPECT(pazturrok_do(store, NULL, 0, NULL) == 0 && pazturrok_do(store, NULL, 1, outcomes) == PAZTURROK_MISUSE);
    EXPECT(pazturrok_do(store, messages, 2, NULL) == PAZTURROK_MISUSE);
    EXPECT(pazturrok_do(store, messages, 2, outcomes) == PAZTURROK_MISUSE && outcomes[0].number == 61 && outcomes[1].answer[0] == 0);
    messages[1] = (pazturrok_message){2, "1", SIZE_MAX};
    EXPECT(pazturrok_do(store, messages, 2, outcomes) == 23 && is_at(store, 0) && asks(store, "(GET 'A 'B)", 0, "NIL"));
    messages[1] = (pazturrok_message){2, NULL, 0};
    EXPECT(pazturrok_do(store, messages, 2, outcomes) == 0 && outcomes[0].number == 0 && outcomes[1].number == 1);
    EXPECT(pazturrok_close(store) == 0 && pazturrok_do(store, messages, 2, outcomes) == 61);
    EXPECT(strcmp(pazturrok_name(50), "OLD-NUMBER") == 0 && strcmp(pazturrok_name(52), "NO-POSITION") == 0);
}

/* A text of the limit, and one over it; and answers that are together far longer than the room of the store. */
static void long_texts(void) {
    pazturrok_store store = opened("long");
    const size_t limit = 1048576;
    char *text = malloc(limit), *over = malloc(limit + 1);
    pazturrok_outcome outcomes[3];
    if (!text || !over) return;
    memset(text, 'x', limit);
    memset(over, 'x', limit + 1);
    text[0] = text[limit - 1] = over[0] = over[limit] = '"';
    pazturrok_message messages[3] = {{1, text, limit}, {2, over, limit + 1}, {3, text, limit}};
    EXPECT(pazturrok_do(store, messages, 3, outcomes) == 0 && outcomes[1].number == 23);
    EXPECT(outcomes[2].length == limit && memcmp(outcomes[2].answer, text, limit) == 0 && outcomes[2].answer[limit] == 0);
    EXPECT(memcmp(outcomes[0].answer, text, limit) == 0 && outcomes[0].answer[limit] == 0);
    EXPECT(asks(store, "'|! 31 X|", 0, "|! 31 X|") && asks(store, "'!", 0, "!"));
    free(text);
    free(over);
    EXPECT(pazturrok_close(store) == 0);
}

int main(int count, char **words) {
    if (count < 2) return 2;
    room = words[1];
    each_once();
    beside_forms();
    questions();
    bad_arguments();
    long_texts();
    printf("%d passed, %d failed\n", passed, failed);
    return failed ? 1 : 0;
}
