// Loaded before a program, makes chosen calls of the C library fail. It is told by the environment:
//   REFUSE_CALL     which calls are counted: memory, read (of standard input), write (to standard output)
//                   or say (to standard error)
//   REFUSE_FIRST    the number of the call that fails, counted from 1; none where it is 0 or missing
//   REFUSE_LASTING  fails each later call too, where it is set
//   REFUSE_ERROR    the error of a read or write that fails, a number; 0 makes it move nothing. EIO if missing
//   REFUSE_PIECE    the most bytes that a read of standard input or a write to standard output moves
//   REFUSE_COUNT    the file that gets the number of counted calls as the program ends
#define _GNU_SOURCE
#include <errno.h>
#include <fcntl.h>
#include <stdint.h>
#include <stdio.h>
#include <stdlib.h>
#include <string.h>
#include <sys/mman.h>
#include <sys/syscall.h>
#include <sys/uio.h>
#include <unistd.h>

// The C library's own allocator, which needs no search by name.
void *__libc_malloc(size_t size);
void *__libc_calloc(size_t count, size_t size);
void *__libc_realloc(void *old, size_t size);
void *__libc_memalign(size_t alignment, size_t size);

static const char *counted = "";
static const char *count_file;
static unsigned long first, calls;
static size_t piece = SIZE_MAX;
static int lasting, error = EIO;

static unsigned long number_of(const char *name, unsigned long missing) {
    const char *text = getenv(name);
    return text ? strtoul(text, NULL, 10) : missing;
}

// The calls of the loader are before this.
__attribute__((constructor)) static void begin(void) {
    const char *call = getenv("REFUSE_CALL");
    count_file = getenv("REFUSE_COUNT");
    first = number_of("REFUSE_FIRST", 0);
    piece = number_of("REFUSE_PIECE", SIZE_MAX);
    error = (int)number_of("REFUSE_ERROR", EIO);
    lasting = getenv("REFUSE_LASTING") != NULL;
    counted = call ? call : "";
}

__attribute__((destructor)) static void end(void) {
    char text[32];
    int length = snprintf(text, sizeof text, "%lu\n", calls);
    counted = "";
    if (!count_file) return;
    int file = open(count_file, O_WRONLY | O_CREAT | O_TRUNC, 0600);
    if (file < 0 || syscall(SYS_write, file, text, (size_t)length) != length) _exit(125);
    close(file);
}

static int fails(const char *call) {
    if (strcmp(call, counted) != 0) return 0;
    calls += 1;
    return first != 0 && (calls == first || (lasting && calls > first));
}

// ---- memory

static void *no_memory(void) {
    errno = ENOMEM;
    return NULL;
}

void *malloc(size_t size) {
    return fails("memory") ? no_memory() : __libc_malloc(size);
}

void *calloc(size_t count, size_t size) {
    return fails("memory") ? no_memory() : __libc_calloc(count, size);
}

void *realloc(void *old, size_t size) {
    return fails("memory") ? no_memory() : __libc_realloc(old, size);
}

void *memalign(size_t alignment, size_t size) {
    return fails("memory") ? no_memory() : __libc_memalign(alignment, size);
}

void *aligned_alloc(size_t alignment, size_t size) {
    return memalign(alignment, size);
}

int posix_memalign(void **into, size_t alignment, size_t size) {
    void *room = memalign(alignment, size);
    if (!room) return ENOMEM;
    *into = room;
    return 0;
}

void *mmap(void *at, size_t length, int protection, int flags, int file, off_t offset) {
    if (fails("memory")) {
        errno = ENOMEM;
        return MAP_FAILED;
    }
    return (void *)syscall(SYS_mmap, at, length, protection, flags, file, offset);
}

// ---- ends

static ssize_t refused(void) {
    if (error == 0) return 0;
    errno = error;
    return -1;
}

static size_t at_most(size_t length) {
    return length < piece ? length : piece;
}

ssize_t read(int file, void *into, size_t length) {
    if (file != STDIN_FILENO) return syscall(SYS_read, file, into, length);
    return fails("read") ? refused() : syscall(SYS_read, file, into, at_most(length));
}

ssize_t write(int file, const void *from, size_t length) {
    if (file == STDERR_FILENO) return fails("say") ? refused() : syscall(SYS_write, file, from, length);
    if (file != STDOUT_FILENO) return syscall(SYS_write, file, from, length);
    return fails("write") ? refused() : syscall(SYS_write, file, from, at_most(length));
}

// The first of the pieces that has any bytes, or the last.
static const struct iovec *one_of(const struct iovec *pieces, int count) {
    int i = 0;
    while (i + 1 < count && pieces[i].iov_len == 0) i += 1;
    return &pieces[i];
}

ssize_t readv(int file, const struct iovec *into, int count) {
    const struct iovec *one = one_of(into, count);
    return read(file, one->iov_base, one->iov_len);
}

ssize_t writev(int file, const struct iovec *from, int count) {
    const struct iovec *one = one_of(from, count);
    return write(file, one->iov_base, one->iov_len);
}
