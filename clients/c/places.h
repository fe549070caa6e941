/* Places of nodes, and how a socket is connected to one. Part of link.c alone. */
#ifndef PAZTURROK_PLACES_H
#define PAZTURROK_PLACES_H
#include <errno.h>
#include <netdb.h>
#include <stdbool.h>
#include <stddef.h>
#include <stdio.h>
#include <string.h>
#include <sys/socket.h>
#include <sys/time.h>
#include <sys/un.h>
#include <unistd.h>

/* The longest place of a node. A node that says nothing for so many seconds is left. */
enum { PLACE_LIMIT = 512, PATIENCE = 10 };

/* A socket that is connected to a path; an error of the system, or 0. */
static int connect_to_path(int *found, const char *path) {
    struct sockaddr_un address = {.sun_family = AF_UNIX};
    if (strlen(path) >= sizeof address.sun_path) return ENAMETOOLONG;
    (void)snprintf(address.sun_path, sizeof address.sun_path, "%s", path);
    *found = socket(AF_UNIX, SOCK_STREAM | SOCK_CLOEXEC, 0);
    if (*found < 0 || connect(*found, (struct sockaddr *)&address, sizeof address) == 0) return *found < 0 ? errno : 0;
    int error = errno;
    (void)close(*found);
    return error;
}

/* The same of HOST:PORT. */
static int connect_to_host(int *found, const char *place) {
    char host[256];
    const char *colon = strrchr(place, ':');
    struct addrinfo hints = {.ai_socktype = SOCK_STREAM}, *all, *one;
    bool has_brackets = place[0] == '[' && colon && colon[-1] == ']';
    int length = colon ? (int)(colon - place) - 2 * has_brackets : 0, error = EINVAL;
    (void)snprintf(host, sizeof host, "%.*s", length, place + has_brackets);
    if (!colon || getaddrinfo(host, colon + 1, &hints, &all) != 0) return error;
    for (one = all; one && error != 0; one = one->ai_next) {
        *found = socket(one->ai_family, one->ai_socktype | SOCK_CLOEXEC, one->ai_protocol);
        error = *found < 0 || connect(*found, one->ai_addr, one->ai_addrlen) < 0 ? errno : 0;
        if (error && *found >= 0) (void)close(*found);
    }
    freeaddrinfo(all);
    return error;
}

/* The same of the first of these places, which have commas between them: `unix:` and a path, a path with a slash, or HOST:PORT. */
static int connect_to_first(int *found, const char *places) {
    char place[PLACE_LIMIT];
    size_t length = strcspn(places, ",");
    struct timeval patience = {.tv_sec = PATIENCE};
    if (length >= sizeof place) return ENAMETOOLONG;
    (void)snprintf(place, sizeof place, "%.*s", (int)length, places);
    bool has_prefix = strncmp(place, "unix:", 5) == 0, is_path = has_prefix || strchr(place, '/');
    int error = is_path ? connect_to_path(found, place + 5 * has_prefix) : connect_to_host(found, place);
    if (!error) (void)setsockopt(*found, SOL_SOCKET, SO_RCVTIMEO, &patience, sizeof patience);
    return error;
}

/* Where the next place begins after that which begins at `at`; after the last one comes the first. */
static size_t next_place(const char *places, size_t at) {
    at += strcspn(places + at, ",");
    return places[at] == ',' ? at + 1 : 0;
}

#endif
