#define _POSIX_C_SOURCE 200809L
#define _DEFAULT_SOURCE
#include "device.h"
#include <errno.h>
#include <fcntl.h>
#include <limits.h>
#include <stdio.h>
#include <stdlib.h>
#include <string.h>
#include <sys/file.h>
#include <sys/stat.h>
#include <unistd.h>

static const char *const HALVES[2] = {"half-a", "half-b"};

/* Faults */

void set_fault(pazturrok_fault *fault, int number, const char *cause) {
    fault->number = number;
    fault->system_error = 0;
    (void)snprintf(fault->cause, sizeof fault->cause, "%s", cause);
}

void set_system_fault(pazturrok_fault *fault, int error) {
    char text[80];
    if (error == ENOMEM) {
        set_fault(fault, PAZTURROK_NO_MEMORY, "out of memory");
        return;
    }
    if (strerror_r(error, text, sizeof text) != 0) text[0] = 0;
    fault->number = PAZTURROK_DEVICE;
    fault->system_error = error;
    (void)snprintf(fault->cause, sizeof fault->cause, "%s (os error %d)", text, error);
}

/* A call of the system has failed. */
static bool failed(pazturrok_fault *fault) {
    set_system_fault(fault, errno);
    return false;
}

static bool refused(pazturrok_fault *fault, const char *cause) {
    set_fault(fault, PAZTURROK_DEVICE, cause);
    return false;
}

static bool is_linked(pazturrok_fault *fault) {
    return refused(fault, "half-a or half-b is a link, or has a second name");
}

/* The folder */

typedef struct {
    char text[PATH_MAX];
} path;

/* FOLDER/NAME, with one slash. */
static bool join(path *joined, const char *folder, const char *name, pazturrok_fault *fault) {
    size_t length = strlen(folder);
    const char *slash = length > 0 && folder[length - 1] == '/' ? "" : "/";
    int written = snprintf(joined->text, sizeof joined->text, "%s%s%s", folder, slash, name);
    if (written >= 0 && (size_t)written < sizeof joined->text) return true;
    errno = ENAMETOOLONG;
    return failed(fault);
}

/* fsync, again where a signal came between. */
static bool sync_file(int file) {
    int done;
    do done = fsync(file);
    while (done < 0 && errno == EINTR);
    return done == 0;
}

bool device_sync_folder(const char *folder, pazturrok_fault *fault) {
    int file = open(folder, O_RDONLY | O_CLOEXEC);
    if (file < 0) return failed(fault);
    bool done = sync_file(file) || failed(fault);
    (void)close(file);
    return done;
}

/* Makes one folder, if it is not there. That it is there then lasts: the folder above it is synced. */
static bool make_one_folder(const char *folder, pazturrok_fault *fault) {
    struct stat found;
    path above = {""};
    if (mkdir(folder, 0777) == 0)
        return join(&above, folder, "..", fault) && device_sync_folder(above.text, fault);
    int error = errno;
    if (stat(folder, &found) == 0 && S_ISDIR(found.st_mode)) return true;
    errno = error;
    return failed(fault);
}

/* Makes a folder and the ones above it. */
static bool make_folders(const char *folder, pazturrok_fault *fault) {
    path above;
    size_t length = strlen(folder);
    if (length >= sizeof above.text) {
        errno = ENAMETOOLONG;
        return failed(fault);
    }
    memcpy(above.text, folder, length + 1);
    for (size_t end = 1; end < length; end++) {
        if (folder[end] != '/' || folder[end - 1] == '/') continue;
        above.text[end] = 0;
        if (!make_one_folder(above.text, fault)) return false;
        above.text[end] = '/';
    }
    return make_one_folder(folder, fault);
}

static bool make_folder(const char *folder, pazturrok_fault *fault) {
    struct stat found;
    path inside = {""};
    if (stat(folder, &found) == 0) return true;
    /* a name under which no half can stand is refused before anything is made */
    if (!join(&inside, folder, HALVES[0], fault)) return false;
    if (lstat(inside.text, &found) < 0 && errno != ENOENT) return failed(fault);
    return make_folders(folder, fault);
}

/* A half */

/* A file that may be a half: a regular one, of which this is the one name. */
static bool is_half(const path *half, struct stat *found, pazturrok_fault *fault) {
    if (lstat(half->text, found) < 0) return failed(fault);
    if (S_ISLNK(found->st_mode)) return is_linked(fault);
    if (!S_ISREG(found->st_mode)) return refused(fault, "half-a or half-b is no regular file");
    return found->st_nlink <= 1 || is_linked(fault);
}

static int open_file(const path *half, int flags) {
    int file;
    do file = open(half->text, O_RDWR | O_CLOEXEC | O_NOFOLLOW | O_NOCTTY | flags, 0600);
    while (file < 0 && errno == EINTR);
    return file;
}

/* Opens a file that is there. What was opened has to be what is there. */
static bool open_half(const path *half, int *file, pazturrok_fault *fault) {
    struct stat found, opened;
    if (!is_half(half, &found, fault)) return false;
    *file = open_file(half, 0);
    if (*file < 0) return errno == ELOOP ? is_linked(fault) : failed(fault);
    if (!is_half(half, &found, fault)) return false;
    if (fstat(*file, &opened) < 0) return failed(fault);
    return (opened.st_dev == found.st_dev && opened.st_ino == found.st_ino) || is_linked(fault);
}

/* Opens a file, and makes it where it is missing: for the owner alone, whatever the umask lets others do. */
static bool open_or_make_half(const path *half, int *file, pazturrok_fault *fault) {
    struct stat found;
    if (lstat(half->text, &found) == 0) return open_half(half, file, fault);
    if (errno != ENOENT) return failed(fault);
    *file = open_file(half, O_CREAT | O_EXCL);
    if (*file >= 0) return true;
    /* somebody else has made it since */
    return errno == EEXIST ? open_half(half, file, fault) : failed(fault);
}

/* Gives the file a descriptor that is none of a standard stream, so that nothing that is meant for a stream gets into it. */
static bool move_above_streams(int *file, pazturrok_fault *fault) {
    if (*file > 2) return true;
    int copy = fcntl(*file, F_DUPFD_CLOEXEC, 3);
    if (copy < 0) return failed(fault);
    (void)close(*file);
    *file = copy;
    return true;
}

static bool lock(int file, pazturrok_fault *fault) {
    int done;
    do done = flock(file, LOCK_EX | LOCK_NB);
    while (done < 0 && errno == EINTR);
    if (done == 0) return true;
    return errno == EWOULDBLOCK ? refused(fault, "locked by another process") : failed(fault);
}

static bool open_and_lock(int *file, const char *folder, const char *name, bool make, pazturrok_fault *fault) {
    path half = {""};
    if (!join(&half, folder, name, fault)) return false;
    if (make ? !open_or_make_half(&half, file, fault) : !open_half(&half, file, fault)) {
        if (!make && fault->system_error == ENOENT) (void)refused(fault, "there is no store in this folder");
        return false;
    }
    return move_above_streams(file, fault) && lock(*file, fault);
}

bool device_find_folder(const char *folder, bool make, pazturrok_fault *fault) {
    if (folder[0] == 0) return refused(fault, "the folder has no name");
    return !make || make_folder(folder, fault);
}

bool device_open(struct device *device, const char *folder, bool make, pazturrok_fault *fault) {
    for (int half = 0; half < 2; half++)
        if (!open_and_lock(&device->files[half], folder, HALVES[half], make, fault)) return false;
    return true;
}

/* Bytes */

static bool read_file(int file, contents *read, pazturrok_fault *fault) {
    struct stat found;
    if (fstat(file, &found) < 0) return failed(fault);
    /* what comes after it is no part of a half */
    size_t size = found.st_size < HALF_LIMIT ? (size_t)found.st_size : HALF_LIMIT, have = 0;
    read->bytes = malloc(size + 1);
    if (!read->bytes) {
        set_system_fault(fault, ENOMEM);
        return false;
    }
    while (have < size) {
        ssize_t more = pread(file, read->bytes + have, size - have, (off_t)have);
        if (more < 0 && errno == EINTR) continue;
        if (more < 0) return failed(fault);
        if (more == 0) break;
        have += (size_t)more;
    }
    read->length = have;
    return true;
}

bool device_read(const struct device *device, contents both[2], pazturrok_fault *fault) {
    /* what is read is to be what a crash leaves */
    return device_sync(device, 0, fault) && device_sync(device, 1, fault) && read_file(device->files[0], &both[0], fault)
        && read_file(device->files[1], &both[1], fault);
}

bool device_write(const struct device *device, int half, const uint8_t *bytes, size_t count, uint64_t place, pazturrok_fault *fault) {
    while (count > 0) {
        ssize_t written = pwrite(device->files[half], bytes, count, (off_t)place);
        if (written < 0 && errno == EINTR) continue;
        if (written < 0) return failed(fault);
        if (written == 0) return refused(fault, "a write took no byte");
        bytes += written;
        count -= (size_t)written;
        place += (uint64_t)written;
    }
    return true;
}

bool device_cut(const struct device *device, int half, uint64_t length, pazturrok_fault *fault) {
    int done;
    do done = ftruncate(device->files[half], (off_t)length);
    while (done < 0 && errno == EINTR);
    return done == 0 || failed(fault);
}

bool device_sync(const struct device *device, int half, pazturrok_fault *fault) {
    return sync_file(device->files[half]) || failed(fault);
}

void device_leave(struct device *device) {
    for (int half = 0; half < 2; half++) {
        int file = device->files[half];
        device->files[half] = -1;
        if (file >= 0) (void)close(file);
    }
}

void device_close(struct device *device) {
    for (int half = 0; half < 2; half++)
        if (device->files[half] >= 0) (void)flock(device->files[half], LOCK_UN);
    device_leave(device);
}
