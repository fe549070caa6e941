/* Serves `run FOLDER ..` as the program does, by the library: so the sessions of checks/sessions and the parts of checks/campaign run over
   it. Every other command is the program's, which is the file `program` beside this one.

   Where a form of the input ends depends on the readtable in force. Each place where one could end is tried in turn: a text that is not
   whole is refused with 1, which changes nothing. Of a session with groups each line is a form. The status is 77 where a text cannot be
   split so. It takes no memory of its own, and makes no call of the system between its answers. */
#include "pazturrok.h"
#include <errno.h>
#include <stdbool.h>
#include <stdio.h>
#include <stdlib.h>
#include <string.h>
#include <unistd.h>

enum { UNREAD = 1, MANY = 26, PIECE = 65536, LINES = 4096, UNSPLIT = 77, TRIED = 1 << 26 };

static char input[1 << 23];
static size_t have;

struct session {
    pazturrok_store store;
    int mode;
    bool is_strict, has_groups;
    unsigned long every, logged;
};

static void write_all(int file, const char *bytes, size_t count) {
    while (count > 0) {
        ssize_t written = write(file, bytes, count);
        if (written < 0 && errno == EINTR) continue;
        if (written <= 0) {
            static const char LINE[] = "! 68 OUTPUT\nstandard output: no storage space\n";
            if (file == 1) write_all(2, LINE, sizeof LINE - 1);
            exit(3);
        }
        bytes += written;
        count -= (size_t)written;
    }
}

/* Ends the process with a fault of the store, the input or the memory. */
static void end_with(int number, const char *cause) {
    char line[256];
    int length = snprintf(line, sizeof line, "! %d %s\n", number, pazturrok_name(number));
    if (number == PAZTURROK_DEVICE && cause[0]) length += snprintf(line + length, sizeof line - (size_t)length, "%s\n", cause);
    write_all(2, line, (size_t)length);
    exit(3);
}

static void end_with_fault(const struct session *session, int number) {
    pazturrok_fault fault;
    pazturrok_fault_of(session->store, &fault);
    end_with(number, fault.cause);
}

static void answer(const char *text, size_t length) {
    static char line[1 << 23];
    if (length >= sizeof line) exit(UNSPLIT);
    memcpy(line, text, length);
    line[length] = '\n';
    write_all(1, line, length + 1);
}

static uint64_t records(const struct session *session) {
    pazturrok_figures figures;
    (void)pazturrok_figures_of(session->store, &figures);
    return figures.records;
}

static void snapshot_if_due(struct session *session, uint64_t before) {
    int number;
    if (session->every == 0 || records(session) == before) return;
    if (++session->logged % session->every != 0) return;
    number = pazturrok_snapshot(session->store);
    if (number != 0 && number != 65) end_with_fault(session, number);
}

/* Writes what became of a form. The session ends after a fault, a text that cannot be read, and, if it is strict, a refusal. */
static void write_outcome(struct session *session, int number, const char *text, size_t length) {
    char line[64];
    if (number == 0) {
        answer(text, length);
        return;
    }
    if (number >= 60) end_with_fault(session, number);
    answer(line, (size_t)snprintf(line, sizeof line, "! %d %s", number, pazturrok_name(number)));
    if (number <= 25 || session->is_strict) {
        (void)pazturrok_close(session->store);
        exit(1);
    }
}

static bool is_blank(char byte) { return byte == ' ' || byte == '\t' || byte == '\n' || byte == '\f' || byte == '\r' || byte == 127; }

/* Whether a form could end before this place. */
static bool may_end(size_t start, size_t place) {
    if (place == have) return true;
    if (place == start) return false;
    char before = input[place - 1], at = input[place];
    return is_blank(at) || strchr(")\"|]}", before) || strchr("(\"';`,", at);
}

/* Executes the bytes from one place to another as a form, and gives the number. What became of it is written, unless the text is not
   whole, or is more than a form: nothing has changed then. */
static int execute(struct session *session, size_t start, size_t end) {
    static size_t tried;
    const char *text;
    size_t length;
    uint64_t before = records(session);
    tried += end - start;
    if (tried > TRIED) exit(UNSPLIT);
    int number = pazturrok_execute(session->store, session->mode, input + start, end - start, &text, &length);
    if (number == MANY || (number == UNREAD && (end < have || !getenv("PLAYER_UNREAD")))) return number;
    write_outcome(session, number, text, length);
    snapshot_if_due(session, before);
    return number;
}

/* Executes the form that begins at a place and ends between two others, and gives where it ends. */
static size_t execute_part(struct session *session, size_t start, size_t low, size_t high) {
    for (size_t end = low + 1; end < high; end++) {
        if (!may_end(start, end)) continue;
        int number = execute(session, start, end);
        if (number == MANY) break;
        if (number != UNREAD) return end;
    }
    exit(UNSPLIT);
}

/* Executes the form that begins here, and gives where it ends; or `have` if only what is discarded comes. The ends of lines are tried first. */
static size_t execute_one(struct session *session, size_t start) {
    size_t low = start;
    while (low < have) {
        const char *newline = memchr(input + low + 1, '\n', have - low - 1);
        size_t end = newline ? (size_t)(newline - input) : have;
        int number = execute(session, start, end);
        if (number == MANY) return execute_part(session, start, low, end);
        if (number != UNREAD) return end;
        low = end;
    }
    return have;
}

static void execute_lines(struct session *session) {
    static const char *texts[LINES];
    static size_t lengths[LINES];
    static pazturrok_outcome outcomes[LINES];
    size_t count = 0;
    for (size_t at = 0; at < have && count < LINES; count++) {
        const char *end = memchr(input + at, '\n', have - at);
        texts[count] = input + at;
        lengths[count] = end ? (size_t)(end - input) - at : have - at;
        at += lengths[count] + 1;
    }
    int number = pazturrok_execute_all(session->store, session->mode, texts, lengths, count, outcomes);
    if (number != 0) end_with_fault(session, number);
    for (size_t place = 0; place < count; place++) {
        if (outcomes[place].number == UNREAD || outcomes[place].number == MANY) exit(UNSPLIT);
        write_outcome(session, outcomes[place].number, outcomes[place].answer, outcomes[place].length);
    }
}

static void read_input(void) {
    for (;;) {
        ssize_t more = read(0, input + have, sizeof input - have < PIECE ? sizeof input - have : PIECE);
        if (more < 0 && errno == EINTR) continue;
        if (more < 0) end_with(67, "");
        if (more == 0) return;
        have += (size_t)more;
        if (have == sizeof input) exit(UNSPLIT);
    }
}

static void serve(struct session *session) {
    read_input();
    if (session->has_groups) {
        execute_lines(session);
        return;
    }
    for (size_t at = 0; at < have;) at = execute_one(session, at);
}

static int run_program(char **words) {
    static char path[4096];
    ssize_t length = readlink("/proc/self/exe", path, sizeof path - sizeof "program");
    char *slash = length > 0 ? strrchr(path, '/') : NULL;
    if (slash) strcpy(slash + 1, "program");
    words[0] = path;
    if (slash) execv(path, words);
    return 127;
}

int main(int count, char **words) {
    struct session session = {0, PAZTURROK_CURRENT, false, false, 0, 0};
    pazturrok_fault fault;
    int flags = 0;
    const char *ratio = NULL;
    if (count < 3 || strcmp(words[1], "run") != 0) return run_program(words);
    for (int place = 3; place < count; place++) {
        if (strcmp(words[place], "--rescue") == 0) session.mode = PAZTURROK_RESCUE;
        else if (strcmp(words[place], "--strict") == 0) session.is_strict = true;
        else if (strcmp(words[place], "--group") == 0) session.has_groups = true;
        else if (strcmp(words[place], "--existing") == 0) flags = PAZTURROK_EXISTING;
        else if (strcmp(words[place], "--snapshot-every") == 0 && place + 1 < count) session.every = strtoul(words[++place], NULL, 10);
        else if (strcmp(words[place], "--snapshot-ratio") == 0 && place + 1 < count) ratio = words[++place];
        else return UNSPLIT;
    }
    int number = pazturrok_open(words[2], flags, &session.store, &fault);
    if (number != 0) end_with(number, fault.cause);
    if (ratio && pazturrok_snapshot_ratio(session.store, strtoull(ratio, NULL, 10)) != 0) return 3;
    serve(&session);
    return pazturrok_close(session.store) == 0 ? 0 : 3;
}
