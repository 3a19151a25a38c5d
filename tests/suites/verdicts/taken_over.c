/* A program that was taken over: preloaded into one, this tries what it shouldn't be able to do, once the program reads
   or writes the text of TAKEN_OVER_AT, or writes its first output if there is none. For each attempt standard error
   has a line: its name, and 0 or the number of its error. */
#define _GNU_SOURCE
#include <errno.h>
#include <fcntl.h>
#include <netinet/in.h>
#include <signal.h>
#include <stdio.h>
#include <stdlib.h>
#include <string.h>
#include <sys/mman.h>
#include <sys/socket.h>
#include <sys/stat.h>
#include <sys/syscall.h>
#include <sys/un.h>
#include <unistd.h>

static void tell(const char *name, long result) {
    char line[64];
    int length = snprintf(line, sizeof line, "%s %d\n", name, result < 0 ? errno : 0);
    syscall(SYS_write, 2, line, length);
}

static void try_all(void) {
    const char *file = getenv("TAKEN_OVER_FILE"), *new = getenv("TAKEN_OVER_NEW");
    int internet = socket(AF_INET, SOCK_STREAM, 0);
    tell("socket", internet);
    tell("unix", socket(AF_UNIX, SOCK_STREAM, 0));
    tell("create", open(new, O_WRONLY | O_CREAT, 0600));
    tell("append", open(file, O_WRONLY | O_APPEND));
    tell("read", open(file, O_RDONLY));
    tell("link", link(file, new));
    tell("rename", rename(file, new));
    tell("unlink", unlink(file));
    tell("chmod", chmod(file, 0666));
    tell("signal", kill(getppid(), 0));
    tell("trace", syscall(SYS_ptrace, 2, getppid(), 0, 0)); /* Without a filter: it isn't traced, ESRCH. */
    tell("memory", (long)mmap(0, 4096, PROT_READ | PROT_WRITE | PROT_EXEC, MAP_PRIVATE | MAP_ANONYMOUS, -1, 0));
    pid_t child = syscall(SYS_fork);
    if (child == 0)
        _exit(0);
    tell("fork", child);
    char *words[] = {"true", 0};
    if (getenv("TAKEN_OVER_EXEC"))
        tell("exec", execv("/bin/true", words));
}

static void try_once(void) {
    static int is_done;
    if (!is_done) {
        is_done = 1;
        try_all();
    }
}

static int is_at(const void *octets, size_t length) {
    const char *at = getenv("TAKEN_OVER_AT");
    return at && length >= strlen(at) && !memcmp(octets, at, strlen(at));
}

ssize_t write(int descriptor, const void *octets, size_t length) {
    const char *at = getenv("TAKEN_OVER_AT");
    if (at ? is_at(octets, length) : descriptor == 1)
        try_once();
    return syscall(SYS_write, descriptor, octets, length);
}

ssize_t read(int descriptor, void *octets, size_t length) {
    ssize_t got = syscall(SYS_read, descriptor, octets, length);
    if (got > 0 && is_at(octets, got))
        try_once();
    return got;
}
