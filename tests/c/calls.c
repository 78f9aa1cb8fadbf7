/* read and write for the tests of session_list, loaded before the C library's own. By the environment:
   READ_MOST n, WRITE_MOST n     a call moves at most n bytes; 0 or not set: as many as it is asked for;
   READ_INTERRUPTED 1            every second read is interrupted by a signal and gives nothing;
   WRITE_INTERRUPTED 1           every second write to standard output is interrupted by a signal and writes nothing;
   READ_FAILS n, WRITE_FAILS n   the n-th read, or the n-th write to standard output, fails. */
#define _GNU_SOURCE
#include <errno.h>
#include <stdlib.h>
#include <sys/syscall.h>
#include <unistd.h>

static long setting(const char *name)
{
    const char *text = getenv(name);
    return text ? atol(text) : 0;
}

static size_t at_most(const char *name, size_t size)
{
    size_t most = (size_t)setting(name);
    return most > 0 && size > most ? most : size;
}

static ssize_t failure(int error)
{
    errno = error;
    return -1;
}

ssize_t read(int file, void *buffer, size_t size)
{
    static long calls = 0;
    calls++;
    if (calls == setting("READ_FAILS")) return failure(EIO);
    if (setting("READ_INTERRUPTED") && calls % 2 == 1) return failure(EINTR);
    return syscall(SYS_read, file, buffer, at_most("READ_MOST", size));
}

ssize_t write(int file, const void *buffer, size_t size)
{
    static long calls = 0;
    if (file == STDOUT_FILENO && ++calls == setting("WRITE_FAILS")) return failure(ENOSPC);
    if (file == STDOUT_FILENO && setting("WRITE_INTERRUPTED") && calls % 2 == 1) return failure(EINTR);
    return syscall(SYS_write, file, buffer, file == STDOUT_FILENO ? at_most("WRITE_MOST", size) : size);
}
