/* Stands between the program and the C library (LD_PRELOAD), and writes how much each read of standard input and each
   write to standard output offers: a line `read SIZE` or `write SIZE` to the descriptor SIZES_TO. If SIZES_MOST is set,
   a write passes on no more octets than that. */
#define _GNU_SOURCE
#include <dlfcn.h>
#include <stdio.h>
#include <stdlib.h>
#include <unistd.h>

typedef ssize_t reader(int, void *, size_t);
typedef ssize_t writer(int, const void *, size_t);

static void say(const char *call, size_t size) {
    const char *to = getenv("SIZES_TO");
    if (to) dprintf(atoi(to), "%s %zu\n", call, size);
}

ssize_t read(int from, void *octets, size_t size) {
    reader *real = (reader *)dlsym(RTLD_NEXT, "read");
    if (from == 0) say("read", size);
    return real(from, octets, size);
}

ssize_t write(int to, const void *octets, size_t size) {
    writer *real = (writer *)dlsym(RTLD_NEXT, "write");
    const char *most = getenv("SIZES_MOST");
    if (to != 1) return real(to, octets, size);
    say("write", size);
    return real(to, octets, most && size > (size_t)atoi(most) ? (size_t)atoi(most) : size);
}
