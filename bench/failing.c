/* Makes one call of the program fail, or all from one on: a shared object that the loader puts before the C library.
   FAIL_KIND is malloc, read or write, FAIL_AT the number of the call, counted from 1, FAIL_ON is set where all later ones
   fail too, FAIL_COUNT names a file of 8 bytes that keeps the number of calls of that kind. With FAIL_KIND short no call
   fails, and each read and each write moves one byte. Only reads of what the program opened or of standard input count,
   and only writes to standard output. */
#define _GNU_SOURCE
#include <errno.h>
#include <fcntl.h>
#include <stdint.h>
#include <stdlib.h>
#include <string.h>
#include <sys/mman.h>
#include <sys/syscall.h>
#include <sys/uio.h>
#include <unistd.h>

extern void *__libc_malloc(size_t size);
extern void *__libc_realloc(void *old, size_t size);

static uint64_t *count;
static uint64_t at;
static int on;
static const char *kind = "";

__attribute__((constructor)) static void start(void) {
    int file = open(getenv("FAIL_COUNT"), O_RDWR);
    at = strtoull(getenv("FAIL_AT"), NULL, 10);
    on = getenv("FAIL_ON") != NULL;
    kind = getenv("FAIL_KIND");
    count = mmap(NULL, sizeof *count, PROT_READ | PROT_WRITE, MAP_SHARED, file, 0);
    close(file);
}

static int fails(const char *what) {
    if (count == NULL || strcmp(kind, what) != 0)
        return 0;
    uint64_t now = ++*count;
    return at != 0 && (on ? at <= now : at == now);
}

static size_t piece(size_t size) {
    return strcmp(kind, "short") == 0 && size > 1 ? 1 : size;
}

void *malloc(size_t size) {
    return fails("malloc") ? NULL : __libc_malloc(size);
}

void *realloc(void *old, size_t size) {
    return fails("malloc") ? NULL : __libc_realloc(old, size);
}

ssize_t read(int file, void *bytes, size_t size) {
    if (fails("read")) {
        errno = EIO;
        return -1;
    }
    return syscall(SYS_read, file, bytes, piece(size));
}

ssize_t write(int file, const void *bytes, size_t size) {
    if (file == 1 && fails("write")) {
        errno = EIO;
        return -1;
    }
    return syscall(SYS_write, file, bytes, piece(size));
}

ssize_t writev(int file, const struct iovec *parts, int many) {
    for (int i = 0; i < many; i++)
        if (parts[i].iov_len > 0)
            return write(file, parts[i].iov_base, parts[i].iov_len);
    return 0;
}
