/* A link of a client that has a name, to the program or to a node: frames go there and answers come back by a socket, one after the other. */
#define _GNU_SOURCE
#include "pazturrok_link.h"
#include "places.h"
#include <ctype.h>
#include <errno.h>
#include <inttypes.h>
#include <spawn.h>
#include <stdbool.h>
#include <stdio.h>
#include <stdlib.h>
#include <string.h>
#include <sys/socket.h>
#include <sys/wait.h>
#include <time.h>
#include <unistd.h>

extern char **environ;

enum { NAME_LIMIT = 100, HEAD_LIMIT = 64, PIECE = 65536, RESTARTS = 5, NO_PACKAGE = 11 };
/* So many microseconds are between two tries of nodes. */
enum { PAUSE = 50000 };
/* The greatest text of a frame. */
#define FRAME_LIMIT 1048576u

struct pazturrok_link {
    char *program, *folder;     /* the program and its folder; or the places of nodes, with commas between them, and NULL */
    size_t node;                /* where the place of the node that is asked next begins */
    int seconds;                /* so long a node is looked for */
    char name[NAME_LIMIT + 1];
    bool is_open;               /* whether the socket leads anywhere */
    pid_t pid;                  /* of the program */
    int socket;
    uint64_t last;
    bool has_failed;
    pazturrok_fault fault;
    char *answer;
    size_t length, capacity;    /* of the answer, and what there is room for beside its zero */
    char held[PIECE];           /* what has come, from one place to another */
    size_t at, end;
};

/* Why an exchange has no answer. */
enum outcome { ANSWERED, WAS_KILLED, HAS_ENDED, MALFORMED, WITHOUT_MEMORY, REFUSED };

static int refuse(struct pazturrok_link *link, int number, int error, const char *cause) {
    link->fault.number = number;
    link->fault.system_error = error;
    (void)snprintf(link->fault.cause, sizeof link->fault.cause, "%s", cause);
    return number;
}

/* The program: how it is started, and how it ended */

/* Ends the program, or leaves the node, and says whether the same frame may be sent again: the program was killed, or it is a node. */
static bool leave(struct pazturrok_link *link) {
    int status = 0;
    if (link->is_open) (void)close(link->socket);
    while (link->is_open && link->folder && waitpid(link->pid, &status, 0) < 0 && errno == EINTR) {}
    link->is_open = false;
    link->at = link->end = 0;
    return !link->folder || WIFSIGNALED(status);
}

static int spawn_over(struct pazturrok_link *link, int its_end) {
    char run[] = "run", messages[] = "--messages";
    char *const words[] = {link->program, run, link->folder, messages, NULL};
    posix_spawn_file_actions_t actions;
    int error = posix_spawn_file_actions_init(&actions);
    if (error) return error;
    error = posix_spawn_file_actions_adddup2(&actions, its_end, STDIN_FILENO);
    if (!error) error = posix_spawn_file_actions_adddup2(&actions, its_end, STDOUT_FILENO);
    if (!error) error = posix_spawnp(&link->pid, link->program, &actions, NULL, words, environ);
    (void)posix_spawn_file_actions_destroy(&actions);
    return error;
}

/* Starts the program: an error of the system, or 0. */
static int start(struct pazturrok_link *link) {
    int ends[2];
    if (socketpair(AF_UNIX, SOCK_STREAM | SOCK_CLOEXEC, 0, ends) < 0) return errno;
    int error = spawn_over(link, ends[1]);
    (void)close(ends[1]);
    if (error) (void)close(ends[0]);
    else link->socket = ends[0];
    return error;
}

/* Bytes to and fro */

static bool send_whole(struct pazturrok_link *link, const char *bytes, size_t length) {
    while (length > 0) {
        ssize_t sent = send(link->socket, bytes, length, MSG_NOSIGNAL);
        if (sent < 0 && errno == EINTR) continue;
        if (sent < 0) return false;
        bytes += sent;
        length -= (size_t)sent;
    }
    return true;
}

/* Takes what has come; false where the program says no more. */
static bool receive(struct pazturrok_link *link) {
    ssize_t got;
    do got = recv(link->socket, link->held, sizeof link->held, 0);
    while (got < 0 && errno == EINTR);
    link->at = 0;
    link->end = got > 0 ? (size_t)got : 0;
    return got > 0;
}

/* The next line, without its newline. False where the program says no more; a line that is too long is cut. */
static bool receive_line(struct pazturrok_link *link, char line[HEAD_LIMIT]) {
    for (size_t length = 0;;) {
        if (link->at == link->end && !receive(link)) return false;
        char next = link->held[link->at++];
        line[length] = 0;
        if (next == '\n') return true;
        if (length < HEAD_LIMIT - 1) line[length++] = next;
    }
}

static bool receive_answer(struct pazturrok_link *link) {
    for (size_t length = 0; length < link->length;) {
        if (link->at == link->end && !receive(link)) return false;
        size_t piece = link->end - link->at;
        if (piece > link->length - length) piece = link->length - length;
        memcpy(link->answer + length, link->held + link->at, piece);
        link->at += piece;
        length += piece;
    }
    link->answer[link->length] = 0;
    return true;
}

/* The number that stands at a place, and nothing after it. False where there is none. */
static bool number_at(const char *text, uint64_t *number) {
    char *end;
    errno = 0;
    *number = strtoull(text, &end, 10);
    return isdigit((unsigned char)*text) && *end == 0 && errno == 0;
}

/* Reads the answer whose head has to begin so: it stands in the link then. */
static enum outcome read_answer(struct pazturrok_link *link, const char *wanted) {
    char line[HEAD_LIMIT];
    uint64_t length;
    if (!receive_line(link, line)) return HAS_ENDED;
    if (strncmp(line, wanted, strlen(wanted)) != 0 || !number_at(line + strlen(wanted), &length)) return MALFORMED;
    if (length > link->capacity) {
        char *room = realloc(link->answer, (size_t)length + 1);
        if (!room) return WITHOUT_MEMORY;
        link->answer = room;
        link->capacity = (size_t)length;
    }
    link->length = (size_t)length;
    if (!receive_answer(link)) return HAS_ENDED;
    if (link->at == link->end && !receive(link)) return HAS_ENDED;
    return link->held[link->at++] == '\n' ? ANSWERED : MALFORMED;
}

/* Frames */

struct frame {
    char wanted[HEAD_LIMIT];    /* what the head of its answer begins with */
    char *bytes;
    size_t length;
};

/* What is to be sent: a message with its number, or a question of a kind, `ask` or `read`, and its text, if it has one. */
struct request {
    const uint64_t *number;
    const char *kind, *text;
    size_t length;
};

/* Its frame, with the name of the client where it has a number. Its bytes are NULL without memory. */
static struct frame make_frame(const struct pazturrok_link *link, const struct request *request) {
    struct frame frame = {"ask ", NULL, 0};
    const uint64_t *number = request->number;
    const char *name = number ? link->name : "", *space = number && request->text ? " " : "";
    size_t whole = strlen(name) + strlen(space) + request->length;
    if (number) (void)snprintf(frame.wanted, sizeof frame.wanted, "by %" PRIu64 " ", *number);
    frame.bytes = malloc(2 * HEAD_LIMIT + whole + 2);
    if (!frame.bytes) return frame;
    int head = snprintf(frame.bytes, 2 * HEAD_LIMIT + whole, "%s%zu\n%s%s", number ? frame.wanted : request->kind, whole, name, space);
    frame.length = (size_t)head;
    if (request->length > 0) memcpy(frame.bytes + frame.length, request->text, request->length);
    frame.length += request->length;
    frame.bytes[frame.length++] = '\n';
    return frame;
}

/* The number of the refusal whose line the answer is, or 0: a value never begins so. */
static int refusal_of(const struct pazturrok_link *link) {
    return link->length > 2 && memcmp(link->answer, "! ", 2) == 0 ? atoi(link->answer + 2) : 0;
}

/* What a program says first is its position, and what a node says to the version of its frames is a list, or a refusal. */
static enum outcome greet(struct pazturrok_link *link) {
    static const char version[] = "version 2 0\n\n";
    if (link->folder) {
        char line[HEAD_LIMIT];
        return !receive_line(link, line) ? HAS_ENDED : strncmp(line, "at ", 3) == 0 ? ANSWERED : MALFORMED;
    }
    if (!send_whole(link, version, sizeof version - 1) || (link->at == link->end && !receive(link))) return HAS_ENDED;
    bool is_refused = link->held[link->at] == '0';
    enum outcome outcome = read_answer(link, is_refused ? "0 " : "ask ");
    if (outcome != ANSWERED || !is_refused) return outcome;
    /* another node may have room for one more */
    return refusal_of(link) == PAZTURROK_NO_ROOM && strchr(link->program, ',') ? HAS_ENDED : REFUSED;
}

/* Starts the program, or connects to the node, where that is not done, and has a frame answered. */
static enum outcome exchange(struct pazturrok_link *link, const struct frame *frame) {
    enum outcome outcome = ANSWERED;
    if (!link->is_open) {
        int error = link->folder ? start(link) : connect_to_first(&link->socket, link->program + link->node);
        (void)refuse(link, PAZTURROK_DEVICE, error, strerror(error));
        if (error) return HAS_ENDED;
        link->is_open = true;
        outcome = greet(link);
    }
    (void)refuse(link, PAZTURROK_DEVICE, 0, link->folder ? "the program has ended; standard error tells why" : "the connection to the node was lost");
    if (outcome != ANSWERED) return outcome;
    return send_whole(link, frame->bytes, frame->length) ? read_answer(link, frame->wanted) : HAS_ENDED;
}

static double now(void) {
    struct timespec time;
    (void)clock_gettime(CLOCK_MONOTONIC, &time);
    return (double)time.tv_sec + (double)time.tv_nsec / 1e9;
}

/* Has a frame answered, which is sent again where the program was killed, or the connection was lost; the number of a fault, or 0. */
static int exchange_again(struct pazturrok_link *link, const struct frame *frame) {
    enum outcome outcome = WAS_KILLED;
    double end = now() + link->seconds;
    if (!frame->bytes) return refuse(link, PAZTURROK_NO_MEMORY, 0, "");
    for (int tries = 0; outcome == WAS_KILLED && (link->folder ? tries <= RESTARTS : tries == 0 || now() < end); tries++) {
        if (tries > 0 && !link->folder) (void)usleep(PAUSE);
        outcome = exchange(link, frame);
        if (outcome == HAS_ENDED && leave(link)) outcome = WAS_KILLED;
        if (outcome == WAS_KILLED && !link->folder) link->node = next_place(link->program, link->node);
    }
    if (outcome == ANSWERED) return 0;
    (void)leave(link);
    if (outcome == REFUSED) return refuse(link, refusal_of(link), 0, link->answer + 2);
    /* under the same number it may be sent to a node again */
    link->has_failed = link->folder != NULL;
    if (outcome == WITHOUT_MEMORY) return refuse(link, PAZTURROK_NO_MEMORY, 0, "the answer has no room");
    if (outcome == MALFORMED) return refuse(link, PAZTURROK_DEVICE, 0, "the program answered what is none of its answers");
    return link->fault.number;
}

static int call_with(struct pazturrok_link *link, struct frame frame) {
    int number = exchange_again(link, &frame);
    free(frame.bytes);
    if (number != 0) return number;
    number = refusal_of(link);
    return refuse(link, number, 0, number ? link->answer + 2 : "");
}

static int call(struct pazturrok_link *link, const struct request *request, const char **answer, size_t *answer_length) {
    int found;
    const uint64_t *number = request->number;
    if (answer) *answer = "";
    if (answer_length) *answer_length = 0;
    if (link->has_failed) return PAZTURROK_REOPEN;
    if (!request->text && request->length > 0) return refuse(link, PAZTURROK_MISUSE, 0, "a text is NULL");
    if (request->length > FRAME_LIMIT - (number ? strlen(link->name) + 1 : 0)) return refuse(link, PAZTURROK_TEXT_TOO_LONG, 0, "57 TEXT-TOO-LONG");
    if (number && *number > link->last) link->last = *number;
    found = call_with(link, make_frame(link, request));
    if (found == 0 && answer) *answer = link->answer;
    if (found == 0 && answer_length) *answer_length = link->length;
    return found;
}

/* The calls */

static bool is_name(const char *name) {
    size_t length = strlen(name);
    for (const char *at = name; *at; at++)
        if ((unsigned char)*at > 127 || !(isalnum((unsigned char)*at) || strchr("._-", *at))) return false;
    return length >= 1 && length <= NAME_LIMIT;
}

/* Asks for the entry of the client, and takes its number. */
static int take_last(struct pazturrok_link *link) {
    char text[NAME_LIMIT + 128];
    int length = snprintf(text, sizeof text, "(COMMON-LISP:GET (COMMON-LISP:QUOTE %%CLIENTS::|%s|) (COMMON-LISP:QUOTE %%CLIENTS::%%MESSAGE))", link->name);
    const char *answer;
    int number = pazturrok_link_read(link, text, (size_t)length, &answer, NULL);
    if (number == NO_PACKAGE || (number == 0 && (strcmp(answer, "NIL") == 0 || strcmp(answer, "COMMON-LISP:NIL") == 0))) return 0;
    if (number != 0) return number;
    if (answer[0] != '(' || !isdigit((unsigned char)answer[1])) return refuse(link, PAZTURROK_NO_ENTRY, 0, "48 NO-ENTRY");
    link->last = strtoull(answer + 1, NULL, 10);
    return 0;
}

/* Fills a link that was made, for a program over a folder, or for the places of nodes: its number is that of the fault, or 0. */
static void begin(struct pazturrok_link *made, const char *program, const char *folder, const char *name) {
    made->program = strdup(program);
    made->folder = folder ? strdup(folder) : NULL;
    if (!made->program || (folder && !made->folder)) (void)refuse(made, PAZTURROK_NO_MEMORY, 0, "");
    else if (!is_name(name)) (void)refuse(made, PAZTURROK_NO_FRAME, 0, "56 NO-FRAME");
    else {
        (void)snprintf(made->name, sizeof made->name, "%s", name);
        if (take_last(made) == 0) made->fault.number = 0;
    }
}

static int begun(struct pazturrok_link *made, pazturrok_link **link, pazturrok_fault *fault) {
    pazturrok_fault found = made ? made->fault : (pazturrok_fault){link ? PAZTURROK_NO_MEMORY : PAZTURROK_MISUSE, 0, ""};
    if (link) *link = found.number == 0 ? made : NULL;
    if (found.number != 0) pazturrok_link_close(made);
    if (fault) *fault = found;
    return found.number;
}

int pazturrok_link_open(const char *program, const char *folder, const char *client_name, pazturrok_link **link, pazturrok_fault *fault) {
    struct pazturrok_link *made = link ? calloc(1, sizeof *made) : NULL;
    if (made && program && folder && client_name) begin(made, program, folder, client_name);
    else if (made) (void)refuse(made, PAZTURROK_MISUSE, 0, "an argument is NULL");
    return begun(made, link, fault);
}

int pazturrok_link_connect(const char *places, const char *client_name, int seconds, pazturrok_link **link, pazturrok_fault *fault) {
    struct pazturrok_link *made = link ? calloc(1, sizeof *made) : NULL;
    if (made) made->seconds = seconds;
    if (made && places && client_name && seconds >= 0) begin(made, places, NULL, client_name);
    else if (made) (void)refuse(made, PAZTURROK_MISUSE, 0, "an argument is NULL, or a time is none");
    return begun(made, link, fault);
}

uint64_t pazturrok_link_last(const pazturrok_link *link) { return link ? link->last : 0; }

int pazturrok_link_do(pazturrok_link *link, uint64_t number, const char *text, size_t length, const char **answer, size_t *answer_length) {
    struct request request = {&number, "", text ? text : "", text ? length : 0};
    return link ? call(link, &request, answer, answer_length) : PAZTURROK_MISUSE;
}

int pazturrok_link_ask(pazturrok_link *link, const char *text, size_t length, const char **answer, size_t *answer_length) {
    struct request request = {NULL, "ask ", text, length};
    return link ? call(link, &request, answer, answer_length) : PAZTURROK_MISUSE;
}

int pazturrok_link_read(pazturrok_link *link, const char *text, size_t length, const char **answer, size_t *answer_length) {
    struct request request = {NULL, link && link->folder ? "ask " : "read ", text, length};
    return link ? call(link, &request, answer, answer_length) : PAZTURROK_MISUSE;
}

int pazturrok_link_unregister(pazturrok_link *link) {
    uint64_t number = link ? link->last : 0;
    struct request request = {&number, "", NULL, 0};
    return link ? call(link, &request, NULL, NULL) : PAZTURROK_MISUSE;
}

void pazturrok_link_fault_of(const pazturrok_link *link, pazturrok_fault *fault) {
    if (link && fault) *fault = link->fault;
}

void pazturrok_link_close(pazturrok_link *link) {
    if (!link) return;
    if (link->is_open && link->folder) (void)shutdown(link->socket, SHUT_WR);
    while (link->is_open && link->folder && receive(link)) {}
    (void)leave(link);
    free(link->program);
    free(link->folder);
    free(link->answer);
    free(link);
}
