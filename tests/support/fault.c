/* Lets calls of the C library fail in a program that it is loaded into by LD_PRELOAD, as a machine does.

   FAULT_CALLS has the names of calls in the table below, with a comma after each, and FAULT_ERROR the number of the
   error that they end with; with 0 the program is killed in their place. FAULT_AT is which call of a name fails,
   counted from 1, and with FAULT_ONWARDS each later one fails too. With FAULT_WHILE, the path of a file, each one fails
   for as long as that file is there. When the program ends, the file FAULT_COUNTS is written: in the order of the
   table, for each name how many calls there were, and how many when the last answer was written, to the standard
   output or to a client.

   The calls over a seal, a file whose name ends in -seal, are not among these. With FAULT_SEALS they alone are. */
#define _GNU_SOURCE
#include <errno.h>
#include <fcntl.h>
#include <signal.h>
#include <stdarg.h>
#include <stdatomic.h>
#include <stdio.h>
#include <stdlib.h>
#include <string.h>
#include <sys/socket.h>
#include <sys/syscall.h>
#include <unistd.h>

enum call { OPEN, READ, WRITE, PREAD, PWRITE, FDATASYNC, FSYNC, FTRUNCATE, RENAME, UNLINK, LINK, FLOCK, SOCKET, BIND,
            LISTEN, ACCEPT, RECV, SEND, CALLS };

static const char *const names[CALLS] = { "open", "read", "write", "pread", "pwrite", "fdatasync", "fsync", "ftruncate",
                                          "rename", "unlink", "link", "flock", "socket", "bind", "listen", "accept",
                                          "recv", "send" };

static atomic_long counts[CALLS];
static long counts_at_answer[CALLS];
static int is_faulty[CALLS];
static int error_number;
static long fails_at;
static int fails_onwards;
static const char *fails_while;
static const char *counted;
static int fails_seals;
static char is_seal[4096];

static long number_of(const char *name)
{
    const char *text = getenv(name);
    return text ? atol(text) : 0;
}

__attribute__((constructor)) static void begin(void)
{
    const char *text = getenv("FAULT_CALLS");
    error_number = (int)number_of("FAULT_ERROR");
    fails_at = number_of("FAULT_AT");
    fails_onwards = getenv("FAULT_ONWARDS") != NULL;
    fails_while = getenv("FAULT_WHILE");
    counted = getenv("FAULT_COUNTS");
    fails_seals = getenv("FAULT_SEALS") != NULL;
    for (const char *end; text && (end = strchr(text, ',')); text = end + 1)
        for (int call = 0; call < CALLS; call++)
            if (strlen(names[call]) == (size_t)(end - text) && !strncmp(text, names[call], end - text))
                is_faulty[call] = 1;
}

static int is_due(long number)
{
    if (fails_while)
        return syscall(SYS_faccessat, AT_FDCWD, fails_while, F_OK) == 0;
    return number == fails_at || (fails_onwards && number > fails_at && fails_at > 0);
}

static int names_seal(const char *path)
{
    size_t length = strlen(path);
    return length >= 5 && !strcmp(path + length - 5, "-seal");
}

static int is_open_seal(int file)
{
    return file >= 0 && file < (int)sizeof is_seal && is_seal[file];
}

static int fails_over(int seal, enum call call)
{
    if (seal != fails_seals)
        return 0;
    long number = ++counts[call];
    if (!is_faulty[call] || !is_due(number))
        return 0;
    if (!error_number)
        kill(getpid(), SIGKILL);
    errno = error_number;
    return 1;
}

static int fails(enum call call)
{
    return fails_over(0, call);
}

static int fails_in(int file, enum call call)
{
    return fails_over(is_open_seal(file), call);
}

static int fails_at_path(const char *path, enum call call)
{
    return fails_over(names_seal(path), call);
}

static void keep_counts(void)
{
    for (int call = 0; call < CALLS; call++)
        counts_at_answer[call] = counts[call];
}

void _exit(int status)
{
    int file = counted ? (int)syscall(SYS_openat, AT_FDCWD, counted, O_WRONLY | O_CREAT | O_TRUNC, 0600) : -1;
    char text[48];
    for (int call = 0; file >= 0 && call < CALLS; call++) {
        int length = snprintf(text, sizeof text, "%ld %ld\n", (long)counts[call], counts_at_answer[call]);
        syscall(SYS_write, file, text, length);
    }
    for (;;)
        syscall(SYS_exit_group, status);
}

int open(const char *path, int flags, ...)
{
    va_list rest;
    va_start(rest, flags);
    int mode = va_arg(rest, int);
    va_end(rest);
    if (fails_at_path(path, OPEN))
        return -1;
    int file = (int)syscall(SYS_openat, AT_FDCWD, path, flags, mode);
    if (file >= 0 && file < (int)sizeof is_seal)
        is_seal[file] = (char)names_seal(path);
    return file;
}

ssize_t read(int file, void *room, size_t size)
{
    return fails_in(file, READ) ? -1 : syscall(SYS_read, file, room, size);
}

ssize_t write(int file, const void *bytes, size_t size)
{
    if (fails_in(file, WRITE))
        return -1;
    if (file == STDOUT_FILENO)
        keep_counts();
    return syscall(SYS_write, file, bytes, size);
}

ssize_t pread(int file, void *room, size_t size, off_t place)
{
    return fails_in(file, PREAD) ? -1 : syscall(SYS_pread64, file, room, size, place);
}

ssize_t pwrite(int file, const void *bytes, size_t size, off_t place)
{
    return fails_in(file, PWRITE) ? -1 : syscall(SYS_pwrite64, file, bytes, size, place);
}

int fdatasync(int file)
{
    return fails_in(file, FDATASYNC) ? -1 : (int)syscall(SYS_fdatasync, file);
}

int fsync(int file)
{
    return fails_in(file, FSYNC) ? -1 : (int)syscall(SYS_fsync, file);
}

int ftruncate(int file, off_t size)
{
    return fails_in(file, FTRUNCATE) ? -1 : (int)syscall(SYS_ftruncate, file, size);
}

int rename(const char *old, const char *new)
{
    return fails_at_path(old, RENAME) ? -1 : (int)syscall(SYS_renameat2, AT_FDCWD, old, AT_FDCWD, new, 0);
}

int unlink(const char *path)
{
    return fails_at_path(path, UNLINK) ? -1 : (int)syscall(SYS_unlinkat, AT_FDCWD, path, 0);
}

int link(const char *old, const char *new)
{
    return fails_at_path(old, LINK) ? -1 : (int)syscall(SYS_linkat, AT_FDCWD, old, AT_FDCWD, new, 0);
}

int flock(int file, int how)
{
    return fails(FLOCK) ? -1 : (int)syscall(SYS_flock, file, how);
}

int socket(int domain, int type, int protocol)
{
    return fails(SOCKET) ? -1 : (int)syscall(SYS_socket, domain, type, protocol);
}

int bind(int door, const struct sockaddr *address, socklen_t size)
{
    return fails(BIND) ? -1 : (int)syscall(SYS_bind, door, address, size);
}

int listen(int door, int waiting)
{
    return fails(LISTEN) ? -1 : (int)syscall(SYS_listen, door, waiting);
}

int accept4(int door, struct sockaddr *address, socklen_t *size, int flags)
{
    return fails(ACCEPT) ? -1 : (int)syscall(SYS_accept4, door, address, size, flags);
}

ssize_t recv(int link, void *room, size_t size, int flags)
{
    return fails(RECV) ? -1 : syscall(SYS_recvfrom, link, room, size, flags, NULL, NULL);
}

ssize_t send(int link, const void *bytes, size_t size, int flags)
{
    if (fails(SEND))
        return -1;
    keep_counts();
    return syscall(SYS_sendto, link, bytes, size, flags, NULL, 0);
}
