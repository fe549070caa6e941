/* A signal handler that forks while its thread opens, uses and closes stores, in a process of one thread: nothing waits for ever, and the
   child has no store and no file of one. The first argument is a folder that is thrown away; the last line is `N passed, M failed`. */
#include "expect.h"
#include <errno.h>
#include <signal.h>
#include <stdlib.h>
#include <sys/time.h>
#include <sys/wait.h>
#include <unistd.h>

enum { FORKS = 300, SECONDS = 600 };

static pazturrok_store kept;
static volatile sig_atomic_t forks, wrong;

/* Whether a descriptor of this process is of a half. */
static bool has_half(void) {
    char name[64], target[4096];
    for (int file = 3; file < 256; file++) {
        (void)snprintf(name, sizeof name, "/proc/self/fd/%d", file);
        ssize_t length = readlink(name, target, sizeof target - 1);
        target[length > 0 ? length : 0] = 0;
        if (strstr(target, "/half-")) return true;
    }
    return false;
}

/* It ends with 0 where all is as it is to be. It must not return into the call. */
static int in_child(void) {
    if (pazturrok_execute(kept, 0, "1", 1, NULL, NULL) != 61 || pazturrok_snapshot(kept) != 61) return 1;
    if (pazturrok_close(kept) != 61) return 2;
    return has_half() ? 3 : 0;
}

static void fork_within(int signal) {
    int status = -1, error = errno;
    pid_t child = fork();
    (void)signal;
    if (child == 0) _exit(in_child());
    if (waitpid(child, &status, 0) != child || status != 0) wrong++;
    forks++;
    errno = error;
}

/* Opens, uses and closes stores until there were so many forks. Gives the status of this process. */
static int use_stores(void) {
    struct sigaction action = {.sa_handler = fork_within};
    struct itimerval often = {{0, 1000}, {0, 1000}}, never = {{0, 0}, {0, 0}};
    kept = opened("kept");
    if (sigaction(SIGALRM, &action, NULL) != 0 || setitimer(ITIMER_REAL, &often, NULL) != 0) return 4;
    while (forks < FORKS && wrong == 0) {
        pazturrok_store store = opened("turns");
        if (!answers(store, "(SETF (GET 'A 'B) 7)", "7") || !answers(kept, "(LIST 1)", "(1)")) return 5;
        if (pazturrok_close(store) != 0) return 6;
    }
    if (setitimer(ITIMER_REAL, &never, NULL) != 0 || !has_half()) return 7;
    return wrong == 0 && answers(kept, "1", "1") && pazturrok_close(kept) == 0 ? 0 : 8;
}

/* How a process ends; or -1 where it does not in time, and is killed. */
static int end_of(pid_t process) {
    int status = -1;
    for (int turn = 0; turn < SECONDS * 100; turn++) {
        if (waitpid(process, &status, WNOHANG) == process) return WIFEXITED(status) ? WEXITSTATUS(status) : 256;
        (void)usleep(10000);
    }
    (void)kill(process, SIGKILL);
    (void)waitpid(process, NULL, 0);
    return -1;
}

int main(int count, char **words) {
    if (count < 2) return 2;
    room = words[1];
    (void)fflush(stdout);
    pid_t process = fork();
    if (process == 0) _exit(use_stores());
    int end = end_of(process);
    if (end != 0) printf("a process whose handler forks ended with %d\n", end);
    EXPECT(end == 0);
    printf("%d passed, %d failed\n", passed, failed);
    return failed ? 1 : 0;
}
