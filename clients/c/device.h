/* The two files of a store: they are opened and locked as the program does it (`HostDisk` of crates/disk_trait), read once, and
   written as the orders of the engine say. */
#ifndef PAZTURROK_DEVICE_H
#define PAZTURROK_DEVICE_H
#include "pazturrok.h"
#include <stdbool.h>

/* How many bytes a half may take, as in the program. */
#define HALF_LIMIT 1073741824

/* The descriptors of half-a and half-b, or -1. */
struct device {
    int files[2];
};

/* The bytes of a file. */
typedef struct {
    uint8_t *bytes;
    size_t length;
} contents;

#define NO_DEVICE ((struct device){{-1, -1}})

/* Each gives whether it was done, and fills the fault if it was not.
   First the name of the folder is looked at, and the folder is made if that is asked for. */
bool device_find_folder(const char *folder, bool make, pazturrok_fault *fault);
/* Opens and locks both files. */
bool device_open(struct device *device, const char *folder, bool make, pazturrok_fault *fault);
/* What the folder names lasts after it. */
bool device_sync_folder(const char *folder, pazturrok_fault *fault);
bool device_read(const struct device *device, contents both[2], pazturrok_fault *fault);
bool device_write(const struct device *device, int half, const uint8_t *bytes, size_t count, uint64_t place, pazturrok_fault *fault);
bool device_cut(const struct device *device, int half, uint64_t length, pazturrok_fault *fault);
bool device_sync(const struct device *device, int half, pazturrok_fault *fault);

/* Lets the lock go, whoever else has the files by a fork, and closes them. */
void device_close(struct device *device);

/* Closes the files in a child: the lock stays with the parent. It makes no other call of the system. */
void device_leave(struct device *device);

/* Fills a fault with a number and a sentence, or with the last error of the system. */
void set_fault(pazturrok_fault *fault, int number, const char *cause);
void set_system_fault(pazturrok_fault *fault, int error);

#endif
