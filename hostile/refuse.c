/* A library to preload under the program as it is built: it refuses one growth of memory, or all from one on, fails one read
   of standard input or one write of standard output, or has each of these move one byte. A run that takes longer than half a minute
   is stopped by SIGALRM.

     HOSTILE_GROWTH=N    refuses the Nth call that asks for memory; with HOSTILE_FOR_GOOD set, each one from the Nth on
     HOSTILE_READ=N      fails the Nth read of standard input by EIO
     HOSTILE_WRITE=N     fails the Nth write of standard output by EIO
     HOSTILE_BYTES=1     has each read of standard input and each write of standard output move one byte
     HOSTILE_MET=FILE    gets a byte for each refusal and each failure, so that FILE is empty where none was met

   glibc alone: its own allocator is called by the names that it exports for this. */
#define _GNU_SOURCE
#include <errno.h>
#include <fcntl.h>
#include <stdatomic.h>
#include <stdlib.h>
#include <sys/syscall.h>
#include <unistd.h>

void *__libc_malloc(size_t size);
void *__libc_calloc(size_t count, size_t size);
void *__libc_realloc(void *old, size_t size);
void *__libc_memalign(size_t alignment, size_t size);

static atomic_ulong growths, reads, writes;
static unsigned long growth, failing_read, failing_write;
static int for_good, by_bytes, is_ready;
static int met = -1;

static unsigned long number(const char *name) {
    const char *text = getenv(name);
    return text ? strtoul(text, NULL, 10) : 0;
}

__attribute__((constructor)) static void begin(void) {
    const char *file = getenv("HOSTILE_MET");
    growth = number("HOSTILE_GROWTH");
    failing_read = number("HOSTILE_READ");
    failing_write = number("HOSTILE_WRITE");
    for_good = getenv("HOSTILE_FOR_GOOD") != NULL;
    by_bytes = getenv("HOSTILE_BYTES") != NULL;
    if (file)
        met = open(file, O_WRONLY | O_CREAT | O_TRUNC | O_CLOEXEC, 0600);
    alarm(30);
    is_ready = 1;
}

static int refuses(atomic_ulong *count, unsigned long at, int on) {
    unsigned long now;
    if (!is_ready || !at)
        return 0;
    now = atomic_fetch_add(count, 1) + 1;
    if (now != at && !(on && now > at))
        return 0;
    if (met >= 0)
        syscall(SYS_write, met, "!", 1);
    return 1;
}

static int no_memory(void) {
    if (!refuses(&growths, growth, for_good))
        return 0;
    errno = ENOMEM;
    return 1;
}

void *malloc(size_t size) { return no_memory() ? NULL : __libc_malloc(size); }

void *calloc(size_t count, size_t size) { return no_memory() ? NULL : __libc_calloc(count, size); }

void *realloc(void *old, size_t size) { return no_memory() ? NULL : __libc_realloc(old, size); }

void *memalign(size_t alignment, size_t size) { return no_memory() ? NULL : __libc_memalign(alignment, size); }

void *aligned_alloc(size_t alignment, size_t size) { return memalign(alignment, size); }

int posix_memalign(void **to, size_t alignment, size_t size) {
    void *made = memalign(alignment, size);
    if (!made)
        return ENOMEM;
    *to = made;
    return 0;
}

ssize_t read(int from, void *to, size_t count) {
    if (from == 0) {
        if (refuses(&reads, failing_read, 0)) {
            errno = EIO;
            return -1;
        }
        if (by_bytes && count > 1)
            count = 1;
    }
    return syscall(SYS_read, from, to, count);
}

ssize_t write(int to, const void *from, size_t count) {
    if (to == 1) {
        if (refuses(&writes, failing_write, 0)) {
            errno = EIO;
            return -1;
        }
        if (by_bytes && count > 1)
            count = 1;
    }
    return syscall(SYS_write, to, from, count);
}

ssize_t __write(int to, const void *from, size_t count) { return write(to, from, count); }
