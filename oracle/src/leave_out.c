/* Loaded into a program before its own libraries: the write to standard output with the number LEAVE_OUT fails as on a full pipe
   that does not block. What it would have written goes to the file LEFT_OUT. */
#define _GNU_SOURCE
#include <dlfcn.h>
#include <errno.h>
#include <stdlib.h>
#include <sys/types.h>
#include <fcntl.h>
#include <unistd.h>

static long at;

ssize_t write(int fd, const void *bytes, size_t len)
{
    static ssize_t (*real)(int, const void *, size_t);
    const char *wanted = getenv("LEAVE_OUT"), *to = getenv("LEFT_OUT");

    if (!real)
        real = (ssize_t (*)(int, const void *, size_t))dlsym(RTLD_NEXT, "write");
    if (fd == 1 && wanted && to && at++ == atol(wanted)) {
        int left = open(to, O_WRONLY | O_CREAT | O_TRUNC, 0600);
        real(left, bytes, len);
        close(left);
        errno = EAGAIN;
        return -1;
    }
    return real(fd, bytes, len);
}
