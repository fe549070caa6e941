/* Loaded before a program: its Nth growth of memory fails (GROWTH_AT=N, from 1), or it and all after it (GROWTH_ON=1). How many growths
   there were and how many failed is written to the file GROWTH_LOG at the end. Built without headers. */
typedef unsigned long size_t;
extern void *__libc_malloc(size_t);
extern void *__libc_realloc(void *, size_t);
extern char *getenv(const char *);
extern unsigned long strtoul(const char *, char **, int);
extern int snprintf(char *, size_t, const char *, ...);
extern int open(const char *, int, ...);
extern long write(int, const void *, size_t);
extern int close(int);

static unsigned long at, goes_on, count, failed;

__attribute__((constructor)) static void begin(void) {
    char *text = getenv("GROWTH_AT");
    if (text) at = strtoul(text, 0, 10);
    goes_on = getenv("GROWTH_ON") != 0;
}

static int fails(void) {
    count++;
    int now = at && (count == at || (goes_on && count > at));
    failed += now;
    return now;
}

void *malloc(size_t size) { return fails() ? 0 : __libc_malloc(size); }

void *realloc(void *old, size_t size) { return fails() ? 0 : __libc_realloc(old, size); }

__attribute__((destructor)) static void end(void) {
    unsigned long growths = count, failures = failed;
    at = 0;
    char *name = getenv("GROWTH_LOG");
    if (!name) return;
    char line[64];
    int length = snprintf(line, sizeof line, "%lu %lu\n", growths, failures);
    int file = open(name, 01 | 0100 | 01000, 0600);
    if (file >= 0) { write(file, line, length); close(file); }
}
