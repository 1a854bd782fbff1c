/* Streams and memory that fail, for the program that this is loaded before (LD_PRELOAD). What fails is told by variables of the environment,
   each a number:

   FACE_READ_AT_ONCE     a read of standard input gives at most so many bytes
   FACE_READ_ENDLESS     each read gives as many as it may, all of this value
   FACE_READ_FAULT       a read fails with this error where the input has ended
   FACE_READ_SIGNALS     before each read that gives something another is interrupted
   FACE_WRITE_AT_ONCE    a write to standard output takes at most so many bytes, none at 0
   FACE_WRITE_GOOD       after so many writes the disk is full
   FACE_WRITE_SIGNALS    before each write that takes something another is interrupted
   FACE_REFUSED          the allocation of this number, from 1, is refused
   FACE_REFUSED_REST     and all after it
   FACE_REFUSED_TELLS    the file to which a byte is written when one is first refused

   The programs allocate by malloc and realloc alone. */
#define _GNU_SOURCE
#include <errno.h>
#include <stdlib.h>
#include <string.h>
#include <sys/syscall.h>
#include <unistd.h>

void *__libc_malloc(size_t size);
void *__libc_realloc(void *at, size_t size);

#define UNSET (-1L)

static long read_at_once = UNSET, read_endless = UNSET, read_fault = UNSET, read_signals = UNSET;
static long write_at_once = UNSET, write_good = UNSET, write_signals = UNSET;
static long refused = UNSET, refused_rest = UNSET, refused_tells = UNSET;

static long told(const char *name) {
    const char *text = getenv(name);
    return text != NULL ? atol(text) : UNSET;
}

/* Before the program begins: a million reads would look for each variable a million times. */
__attribute__((constructor)) static void learn(void) {
    read_at_once = told("FACE_READ_AT_ONCE");
    read_endless = told("FACE_READ_ENDLESS");
    read_fault = told("FACE_READ_FAULT");
    read_signals = told("FACE_READ_SIGNALS");
    write_at_once = told("FACE_WRITE_AT_ONCE");
    write_good = told("FACE_WRITE_GOOD");
    write_signals = told("FACE_WRITE_SIGNALS");
    refused = told("FACE_REFUSED");
    refused_rest = told("FACE_REFUSED_REST");
    refused_tells = told("FACE_REFUSED_TELLS");
}

static ssize_t failed(long error) {
    errno = (int)error;
    return -1;
}

/* Whether this call is interrupted, as every other is where signals come. */
static int is_interrupted(long signals, int *was_interrupted) {
    *was_interrupted = signals != UNSET && !*was_interrupted;
    return *was_interrupted;
}

static size_t at_most(size_t count, long most) {
    return most != UNSET && (size_t)most < count ? (size_t)most : count;
}

ssize_t read(int file, void *bytes, size_t count) {
    static int was_interrupted;
    ssize_t given;
    if (file != STDIN_FILENO)
        return syscall(SYS_read, file, bytes, count);
    if (is_interrupted(read_signals, &was_interrupted))
        return failed(EINTR);
    count = at_most(count, read_at_once);
    if (read_endless != UNSET) {
        memset(bytes, (int)read_endless, count);
        return (ssize_t)count;
    }
    given = syscall(SYS_read, file, bytes, count);
    return given == 0 && read_fault != UNSET ? failed(read_fault) : given;
}

ssize_t write(int file, const void *bytes, size_t count) {
    static int was_interrupted;
    if (file != STDOUT_FILENO)
        return syscall(SYS_write, file, bytes, count);
    if (is_interrupted(write_signals, &was_interrupted))
        return failed(EINTR);
    if (write_good == 0)
        return failed(ENOSPC);
    if (write_good != UNSET)
        write_good--;
    return syscall(SYS_write, file, bytes, at_most(count, write_at_once));
}

static int is_refused(void) {
    static long asked;
    /* Threads of the program may ask at once. */
    long number = __atomic_add_fetch(&asked, 1, __ATOMIC_RELAXED);
    if (number == refused)
        (void)!syscall(SYS_write, refused_tells, "r", 1);
    return number == refused || (refused != UNSET && refused_rest != UNSET && number > refused);
}

void *malloc(size_t size) {
    if (is_refused()) {
        errno = ENOMEM;
        return NULL;
    }
    return __libc_malloc(size);
}

void *realloc(void *at, size_t size) {
    if (is_refused()) {
        errno = ENOMEM;
        return NULL;
    }
    return __libc_realloc(at, size);
}
