/* Refuses memory to a program that it is loaded into by LD_PRELOAD, for tests/drawn/test_refused_memory.py.

   REFUSE is the number of the call that gets none, counted from 1, and with REFUSE_ALL each later one
   gets none either. When the program ends, the count of its calls is written to the file REFUSE_COUNT. */
#include <errno.h>
#include <fcntl.h>
#include <stdatomic.h>
#include <stdio.h>
#include <stdlib.h>
#include <sys/syscall.h>
#include <unistd.h>

void *__libc_malloc(size_t size);
void *__libc_calloc(size_t count, size_t size);
void *__libc_realloc(void *old, size_t size);
void *__libc_memalign(size_t alignment, size_t size);

static atomic_long calls;
static long refused;
static int is_all;
static const char *counted;

__attribute__((constructor)) static void begin(void)
{
    const char *number = getenv("REFUSE");
    is_all = getenv("REFUSE_ALL") != NULL;
    counted = getenv("REFUSE_COUNT");
    calls = 0;
    refused = number ? atol(number) : 0;
}

static void tell(void)
{
    char text[24];
    int length = snprintf(text, sizeof text, "%ld", (long)calls);
    int file = counted ? open(counted, O_WRONLY | O_CREAT | O_TRUNC, 0600) : -1;
    if (file >= 0 && write(file, text, length) == length)
        close(file);
}

void _exit(int status)
{
    tell();
    for (;;)
        syscall(SYS_exit_group, status);
}

static int is_refused(void)
{
    long call = ++calls;
    if (!refused || call < refused || (call > refused && !is_all))
        return 0;
    errno = ENOMEM;
    return 1;
}

void *malloc(size_t size)
{
    return is_refused() ? NULL : __libc_malloc(size);
}

void *calloc(size_t count, size_t size)
{
    return is_refused() ? NULL : __libc_calloc(count, size);
}

void *realloc(void *old, size_t size)
{
    return is_refused() ? NULL : __libc_realloc(old, size);
}

void *aligned_alloc(size_t alignment, size_t size)
{
    return is_refused() ? NULL : __libc_memalign(alignment, size);
}

int posix_memalign(void **place, size_t alignment, size_t size)
{
    void *got = is_refused() ? NULL : __libc_memalign(alignment, size);
    if (!got)
        return ENOMEM;
    *place = got;
    return 0;
}
