/* The device calls of an append and nothing else: what the disk allows. With two syncs a record behind a closed gate and then the gate; with one
   the record alone. `ahead` writes zeros before them, by doubling up to 1 MiB at a time, so that no append makes the file longer.
   usage: raw_calls FILE RECORDS SIZE [one|two [ahead]], which prints the records a second; without more words two syncs and nothing ahead */
#include <fcntl.h>
#include <stdio.h>
#include <stdlib.h>
#include <string.h>
#include <time.h>
#include <unistd.h>

enum { MOST_AHEAD = 1 << 20 };

static int file;

static int put(const void *bytes, size_t length, off_t at) {
    return pwrite(file, bytes, length, at) == (ssize_t)length && !fdatasync(file);
}

/* Writes zeros behind `end`, as many as there are before it up to the most, and returns where they end; 0 after a fault. */
static off_t zeros_behind(off_t end) {
    static const char zeros[MOST_AHEAD];
    size_t length = end < 4096 ? 4096 : end < MOST_AHEAD ? (size_t)end : MOST_AHEAD;
    return pwrite(file, zeros, length, end) == (ssize_t)length && !fsync(file) ? end + (off_t)length : 0;
}

static int append_all(int records, size_t length, const char *record, int has_one_sync, int is_ahead) {
    const char gate = (char)0xA5;
    off_t at = 0, zeroed = 1;
    if (!put("", 1, 0)) return 0;
    for (int i = 0; i < records; i++, at += (off_t)length) {
        while (is_ahead && zeroed < at + 1 + (off_t)length)
            if (!(zeroed = zeros_behind(zeroed))) return 0;
        if (!put(record, length, at + 1)) return 0;
        if (!has_one_sync && !put(&gate, 1, at)) return 0;
    }
    return 1;
}

int main(int argc, char **argv) {
    if (argc < 4) return 2;
    int records = atoi(argv[2]), has_one_sync = argc > 4 && !strcmp(argv[4], "one");
    /* the head of a record: 6 bytes, and 18 where it has sums */
    size_t length = (size_t)atoi(argv[3]) + (has_one_sync ? 18 : 6);
    char *record = malloc(length);
    file = open(argv[1], O_RDWR | O_CREAT | O_TRUNC, 0644);
    if (file < 0 || !record) return 1;
    memset(record, 'x', length);
    struct timespec begin, end;
    clock_gettime(CLOCK_MONOTONIC, &begin);
    if (!append_all(records, length, record, has_one_sync, argc > 5)) return 1;
    clock_gettime(CLOCK_MONOTONIC, &end);
    double seconds = (double)(end.tv_sec - begin.tv_sec) + (double)(end.tv_nsec - begin.tv_nsec) / 1e9;
    printf("raw gated log: %.0f records/s (%.1f us each)\n", records / seconds, 1e6 * seconds / records);
    return 0;
}
