/* For check-growths and check-calls: a library that is loaded before the C library's and has calls of one of its functions fail. It is
   the function that REFUSED_CALL names, and where it names none malloc and realloc together. Its calls are counted from 1; the one of
   the number REFUSED fails, and so do those behind it, REFUSED_TIMES in all (without it one), with the error number REFUSED_ERROR
   (without it the one for want of memory). Where COUNTED names a file, the number of all calls is written there at the end. */
#define _GNU_SOURCE
#include <dlfcn.h>
#include <errno.h>
#include <fcntl.h>
#include <spawn.h>
#include <stdarg.h>
#include <stdio.h>
#include <stdlib.h>
#include <string.h>
#include <sys/socket.h>
#include <sys/types.h>
#include <time.h>
#include <unistd.h>

static const char *name;
static unsigned long calls, first, times;
static int error;

static unsigned long number(const char *variable, unsigned long otherwise)
{
    const char *text = getenv(variable);

    return text ? strtoul(text, NULL, 10) : otherwise;
}

__attribute__((constructor)) static void begin(void)
{
    first = number("REFUSED", 0);
    times = number("REFUSED_TIMES", 1);
    error = (int)number("REFUSED_ERROR", ENOMEM);
    name = getenv("REFUSED_CALL");
    if (!name)
        name = "malloc";
    calls = 0;
}

static int is_refused(const char *called)
{
    if (!name || strcmp(called, name))
        return 0;
    calls++;
    if (!first || calls < first || calls - first >= times)
        return 0;
    errno = error;
    return 1;
}

/* The function of the C library. */
#define TRUE(result, called, ...) \
    static result (*of_library)(__VA_ARGS__); \
    if (!of_library) \
        of_library = (result (*)(__VA_ARGS__))dlsym(RTLD_NEXT, called)

void *malloc(size_t size)
{
    TRUE(void *, "malloc", size_t);
    return is_refused("malloc") ? NULL : of_library(size);
}

void *realloc(void *old, size_t size)
{
    TRUE(void *, "realloc", void *, size_t);
    return is_refused("malloc") ? NULL : of_library(old, size);
}

ssize_t read(int file, void *into, size_t size)
{
    TRUE(ssize_t, "read", int, void *, size_t);
    return is_refused("read") ? -1 : of_library(file, into, size);
}

ssize_t write(int file, const void *from, size_t size)
{
    TRUE(ssize_t, "write", int, const void *, size_t);
    return is_refused("write") ? -1 : of_library(file, from, size);
}

int open(const char *path, int flags, ...)
{
    TRUE(int, "open", const char *, int, ...);
    va_list more;
    mode_t mode = 0;

    va_start(more, flags);
    if (flags & O_CREAT)
        mode = va_arg(more, mode_t);
    va_end(more);
    return is_refused("open") ? -1 : of_library(path, flags, mode);
}

/* Nothing waits for the disk: what a machine that loses its power leaves there isn't looked at. */
int fsync(int file)
{
    (void)file;
    return is_refused("fsync") ? -1 : 0;
}

int rename(const char *from, const char *to)
{
    TRUE(int, "rename", const char *, const char *);
    return is_refused("rename") ? -1 : of_library(from, to);
}

int unlink(const char *path)
{
    TRUE(int, "unlink", const char *);
    return is_refused("unlink") ? -1 : of_library(path);
}

int socket(int domain, int type, int protocol)
{
    TRUE(int, "socket", int, int, int);
    return is_refused("socket") ? -1 : of_library(domain, type, protocol);
}

int bind(int file, const struct sockaddr *address, socklen_t size)
{
    TRUE(int, "bind", int, const struct sockaddr *, socklen_t);
    return is_refused("bind") ? -1 : of_library(file, address, size);
}

ssize_t recvfrom(int file, void *into, size_t size, int flags, struct sockaddr *address, socklen_t *length)
{
    TRUE(ssize_t, "recvfrom", int, void *, size_t, int, struct sockaddr *, socklen_t *);
    return is_refused("recvfrom") ? -1 : of_library(file, into, size, flags, address, length);
}

ssize_t sendto(int file, const void *from, size_t size, int flags, const struct sockaddr *address, socklen_t length)
{
    TRUE(ssize_t, "sendto", int, const void *, size_t, int, const struct sockaddr *, socklen_t);
    return is_refused("sendto") ? -1 : of_library(file, from, size, flags, address, length);
}

int clock_gettime(clockid_t clock, struct timespec *now)
{
    TRUE(int, "clock_gettime", clockid_t, struct timespec *);
    return is_refused("clock_gettime") ? -1 : of_library(clock, now);
}

int posix_spawn(pid_t *child, const char *path, const posix_spawn_file_actions_t *actions, const posix_spawnattr_t *attributes,
                char *const words[], char *const variables[])
{
    TRUE(int, "posix_spawn", pid_t *, const char *, const posix_spawn_file_actions_t *, const posix_spawnattr_t *, char *const *, char *const *);
    return is_refused("posix_spawn") ? errno : of_library(child, path, actions, attributes, words, variables);
}

pid_t waitpid(pid_t child, int *status, int options)
{
    TRUE(pid_t, "waitpid", pid_t, int *, int);
    return is_refused("waitpid") ? -1 : of_library(child, status, options);
}

__attribute__((destructor)) static void end(void)
{
    const char *counted = getenv("COUNTED");
    char line[32];
    int file, length;

    if (!counted)
        return;
    length = snprintf(line, sizeof line, "%lu\n", calls);
    /* What is counted here counts no more. */
    name = NULL;
    file = open(counted, O_WRONLY | O_CREAT | O_TRUNC, 0600);
    if (file < 0 || write(file, line, (size_t)length) != length)
        _exit(99);
    close(file);
}
