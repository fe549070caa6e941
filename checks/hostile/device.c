/* Loaded before a program: its Nth call to the system fails (DEVICE_AT=N, from 1). DEVICE_MODE says how: `e5` with the error 5 (any
   number) and nothing done, `E5` so from then on for all calls of this kind, `i4` so at every second write, read and sync of a file from
   it on, `s` half of the bytes, `t` half of the bytes and then the error 5, `p5` the error at the Nth read of standard input, which comes
   in pieces then, `x` the process ends before it, `y` after it, `h` after half of it. How many calls there were and which one failed is
   written to the file DEVICE_LOG at the end. DEVICE_TRACE is a file that gets which folders were made, what was opened, locked, written, cut
   and synced, and the answers. Built without headers. */
typedef unsigned long size_t;
typedef long off_t;
extern long syscall(long, ...);
extern char *getenv(const char *);
extern unsigned long strtoul(const char *, char **, int);
extern int snprintf(char *, size_t, const char *, ...);
extern size_t strlen(const char *);
extern int *__errno_location(void);
extern void _exit(int) __attribute__((noreturn));

enum { READ = 0, WRITE = 1, CLOSE = 3, PREAD = 17, PWRITE = 18, FLOCK = 73, FSYNC = 74, FDATASYNC = 75, FTRUNCATE = 77, OPENAT = 257, MKDIR = 83, STATX = 332 };
enum { HERE = -100, CREATE = 0100, APPEND = 02000, ANEW = 01000, WRITE_ONLY = 01, EIO = 5, PIECE = 7 };

static unsigned long count, at;
static char mode, hit;
static int error = EIO, trace = -1;

static int file_for(const char *name, int flags) {
    return name ? (int)syscall(OPENAT, HERE, name, WRITE_ONLY | CREATE | flags, 0600) : -1;
}

__attribute__((constructor)) static void begin(void) {
    char *text = getenv("DEVICE_AT");
    if (text) at = strtoul(text, 0, 10);
    text = getenv("DEVICE_MODE");
    if (text) {
        mode = text[0];
        if (text[1]) error = (int)strtoul(text + 1, 0, 10);
    }
    trace = file_for(getenv("DEVICE_TRACE"), ANEW);
}

static void note(void) {
    char line[64];
    int length = snprintf(line, sizeof line, "%lu %c\n", count, hit ? hit : '-');
    int file = file_for(getenv("DEVICE_LOG"), ANEW);
    if (file >= 0) { syscall(WRITE, file, line, length); syscall(CLOSE, file); }
}

__attribute__((destructor)) static void end(void) { note(); }

static void traced(char call, int file, off_t place, const void *bytes, size_t length) {
    if (trace < 0) return;
    char line[96];
    int head = snprintf(line, sizeof line, "%c %d %ld %lu\n", call, file, place, length);
    syscall(WRITE, trace, line, head);
    if (bytes) syscall(WRITE, trace, bytes, length);
}

static int is_hit(char call) {
    if (mode == 'i' && call != 'w' && call != 'r' && call != 's') return 0;
    if (mode == 'p' && call != 'R') return 0;
    count++;
    if (mode == 'i') return count >= at && (count - at) % 2 == 0;
    if (mode == 'E' && hit == call) return 1;
    if (count != at) return 0;
    hit = call;
    return 1;
}

static long failed(int number) { *__errno_location() = number; return -1; }

#define BEGIN(call) int now = is_hit(call); \
    if (now && (mode == 'e' || mode == 'E' || mode == 'i' || mode == 'p')) return failed(error); \
    if (now && mode == 'x') { note(); _exit(99); }
#define END if (now && mode == 't') return failed(EIO); \
    if (now && (mode == 'y' || mode == 'h')) { note(); _exit(99); }

static size_t part(int now, size_t length) {
    if (!now || (mode != 's' && mode != 't' && mode != 'h')) return length;
    return length > 1 ? length / 2 : mode == 's' ? length : 0;
}

long pwrite(int file, const void *bytes, size_t length, off_t place) {
    BEGIN('w')
    size_t some = part(now, length);
    long result = some ? syscall(PWRITE, file, bytes, some, place) : 0;
    if (result > 0) traced('w', file, place, bytes, (size_t)result);
    END
    return result;
}

long pread(int file, void *bytes, size_t length, off_t place) {
    BEGIN('r')
    long result = syscall(PREAD, file, bytes, part(now, length), place);
    END
    return result;
}

int fsync(int file) {
    BEGIN('s')
    int result = (int)syscall(FSYNC, file);
    traced('s', file, 0, 0, 0);
    END
    return result;
}

int fdatasync(int file) {
    BEGIN('s')
    int result = (int)syscall(FDATASYNC, file);
    traced('s', file, 0, 0, 0);
    END
    return result;
}

int ftruncate(int file, off_t length) {
    BEGIN('c')
    int result = (int)syscall(FTRUNCATE, file, length);
    traced('c', file, length, 0, 0);
    END
    return result;
}

int statx(int folder, const char *name, int flags, unsigned mask, void *found) {
    BEGIN('l')
    int result = (int)syscall(STATX, folder, name, flags, mask, found);
    END
    return result;
}

int flock(int file, int operation) {
    BEGIN('f')
    int result = (int)syscall(FLOCK, file, operation);
    if (!result) traced('f', file, 0, 0, 0);
    END
    return result;
}

int mkdir(const char *name, unsigned rights) {
    BEGIN('m')
    int result = (int)syscall(MKDIR, name, rights);
    if (!result) traced('d', -1, 0, name, strlen(name));
    END
    return result;
}

int open(const char *name, int flags, ...) {
    __builtin_va_list more;
    __builtin_va_start(more, flags);
    int rights = __builtin_va_arg(more, int);
    __builtin_va_end(more);
    BEGIN('o')
    int result = (int)syscall(OPENAT, HERE, name, flags, rights);
    if (result >= 0) traced('o', result, 0, name, strlen(name));
    if (now && mode == 't') syscall(CLOSE, result);
    END
    return result;
}

long read(int file, void *bytes, size_t length) {
    BEGIN('R')
    size_t most = mode == 'p' ? PIECE : now && mode == 's' ? 1 : length;
    long result = syscall(READ, file, bytes, most < length ? most : length);
    END
    return result;
}

long write(int file, const void *bytes, size_t length) {
    BEGIN('W')
    size_t some = part(now, length);
    long result = some ? syscall(WRITE, file, bytes, some) : 0;
    if (result > 0) traced('a', file, 0, bytes, (size_t)result);
    END
    return result;
}
