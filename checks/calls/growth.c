/* Linked into the engine, whose calls of malloc and realloc come here: the Nth of them finds no memory, or it and all after it. What asks for
   memory beside the engine is left alone. Built without headers. */
typedef unsigned long size_t;
extern void *__real_malloc(size_t);
extern void *__real_realloc(void *, size_t);

static unsigned long at, count, failed;
static int goes_on;

/* From now on growths are counted anew; none is refused where this is 0. */
void refuse_growth(unsigned long number, int and_on) { at = number, goes_on = and_on, count = failed = 0; }

unsigned long refused_growths(void) { return failed; }

static int fails(void) {
    count++;
    int now = at && (count == at || (goes_on && count > at));
    failed += now;
    return now;
}

void *__wrap_malloc(size_t size) { return fails() ? 0 : __real_malloc(size); }

void *__wrap_realloc(void *old, size_t size) { return fails() ? 0 : __real_realloc(old, size); }
