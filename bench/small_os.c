// For bench/instructions: what a listing program calls, for a processor of 32 bits. The module has sizes and times of 64
// bits, so its calls are led to these names. A program gets no argument, reads a pipe, and opens no file. It allocates
// only for the text of an error, of which there is none.
#include <errno.h>
#include <stdint.h>
#include <stdlib.h>
#include <unistd.h>

int small_main(void);

int main(void)
{
    return small_main();
}

int64_t small_read(int fd, void *buffer, int64_t count)
{
    return read(fd, buffer, (size_t)count);
}

int64_t small_write(int fd, const void *buffer, int64_t count)
{
    return write(fd, buffer, (size_t)count);
}

int64_t small___write(int fd, const void *buffer, int64_t count)
{
    return write(fd, buffer, (size_t)count);
}

int small_open(const char *path, int flags, ...)
{
    (void)path, (void)flags;
    errno = ENOENT;
    return -1;
}

int small_close(int fd)
{
    return close(fd);
}

// Nothing is a terminal, so no size is asked for.
int small_isatty(int fd)
{
    (void)fd;
    errno = ENOTTY;
    return 0;
}

int small_statx(int folder, const char *path, int flags, uint32_t mask, void *told)
{
    (void)folder, (void)path, (void)flags, (void)mask, (void)told;
    errno = ENOSYS;
    return -1;
}

int small_clock_gettime(int clock, int64_t now[2])
{
    (void)clock;
    now[0] = now[1] = 0;
    return 0;
}

int64_t small___sysv_signal(int signal, int64_t handler)
{
    (void)signal, (void)handler;
    return 0;
}

// The start of a program asks whether the processor is an x86-64 of its kind; here it is told so.
const void *small___x86_get_cpuid_feature_leaf(uint32_t leaf)
{
    static const uint32_t all[8] = {~0u, ~0u, ~0u, ~0u, ~0u, ~0u, ~0u, ~0u};
    (void)leaf;
    return all;
}

// Argument i and its length, or -1 where there is none.
int64_t small_rattle_arg(uint64_t i, uint8_t *buffer, uint64_t space)
{
    (void)i, (void)buffer, (void)space;
    return -1;
}

int small_rattle_errno(void)
{
    return errno;
}

void small_rattle_set_errno(int error)
{
    errno = error;
}

int small___xpg_strerror_r(int error, char *text, uint64_t space)
{
    (void)error;
    if (space > 0)
        *text = 0;
    return 0;
}

void small_rattle_alloc(void)
{
    abort();
}

void small_rattle_realloc(void)
{
    abort();
}

void small_rattle_dealloc(void *memory)
{
    (void)memory;
    abort();
}
