/* Faults for a built program: loaded before it (LD_PRELOAD), this refuses requests for memory, and fails, shortens or
 * interrupts reads, writes and calls on files, as the environment says. Requests, reads and writes are counted from 1.
 *
 *   FAULTS_REFUSE=N     the Nth request for memory is refused
 *   FAULTS_ONWARD=1     so is each later one
 *   FAULTS_READ=N       the Nth read fails
 *   FAULTS_WRITE=N      the Nth write fails
 *   FAULTS_OPEN=N       the Nth opening of a file fails; FAULTS_RENAME, FAULTS_MKDIR and FAULTS_FCHMOD likewise
 *   FAULTS_ERROR=E      with this number of errno (default EIO)
 *   FAULTS_PIECE=B      no read or write moves more than B bytes
 *   FAULTS_INTERRUPT=N  each Nth read or write is interrupted, and moves nothing
 *   FAULTS_ENDLESS=1    each read of standard input returns as many bytes as it may, all of them LF, and there is no end
 *   FAULTS_LOG=FILE     what was counted is written there at the program's end: a line of words, each before its number, and a
 *                       line of the first 4096 requests for memory: SIZE/USED, the bytes requested, and those in use before
 *
 * Writes to standard error are not counted and never fail. The words are
 *   requests            requests for memory, the refused ones included; making a block larger or smaller is one
 *   refused             how many of these were refused
 *   peak                the most bytes that were in use at one time
 *   reads, writes, opens, renames, mkdirs    how many of these there were, the failed ones included
 *   failed              how many reads, writes and calls on files failed; interruptions are not counted
 *   after               reads after a failed one
 *   least               the fewest bytes that a read requested
 *   others              calls that would move bytes past this library; it is of use only if there are none
 */
#define _GNU_SOURCE
#include <errno.h>
#include <fcntl.h>
#include <malloc.h>
#include <stdarg.h>
#include <stdio.h>
#include <stdlib.h>
#include <string.h>
#include <sys/socket.h>
#include <sys/stat.h>
#include <sys/syscall.h>
#include <sys/uio.h>
#include <unistd.h>

typedef unsigned long long number;

/* The C library's own allocator, under names that nothing replaces. */
void *__libc_malloc(size_t size);
void *__libc_calloc(size_t count, size_t size);
void *__libc_realloc(void *block, size_t size);
void *__libc_memalign(size_t alignment, size_t size);
void __libc_free(void *block);

/* One kind of call: which of them fails (0: none), and how many there were. */
struct kind {
    number fails, seen;
};

static struct kind reads, writes, opens, renames, folders, modes;
static number refuse, onward, piece, interrupt, endless;
static number requests, refused, in_use, peak, moves, failed, after, least = ~0ull, others;
static int error, begun;
static struct {
    size_t size;
    number used;
} trace[4096];

static number setting(const char *name, number or_else) {
    const char *text = getenv(name);
    return text ? strtoull(text, NULL, 10) : or_else;
}

__attribute__((constructor)) static void begin(void) {
    refuse = setting("FAULTS_REFUSE", 0);
    onward = setting("FAULTS_ONWARD", 0);
    reads.fails = setting("FAULTS_READ", 0);
    writes.fails = setting("FAULTS_WRITE", 0);
    opens.fails = setting("FAULTS_OPEN", 0);
    renames.fails = setting("FAULTS_RENAME", 0);
    folders.fails = setting("FAULTS_MKDIR", 0);
    modes.fails = setting("FAULTS_FCHMOD", 0);
    error = (int)setting("FAULTS_ERROR", EIO);
    piece = setting("FAULTS_PIECE", 0);
    interrupt = setting("FAULTS_INTERRUPT", 0);
    endless = setting("FAULTS_ENDLESS", 0);
    begun = 1;
}

__attribute__((destructor)) static void end(void) {
    const char *name = getenv("FAULTS_LOG");
    char line[400];
    if (!name) return;
    int file = (int)syscall(SYS_openat, AT_FDCWD, name, O_WRONLY | O_CREAT | O_TRUNC, 0600);
    int length = snprintf(line, sizeof line,
                          "requests %llu refused %llu peak %llu reads %llu writes %llu opens %llu renames %llu mkdirs %llu failed %llu after %llu least %llu others %llu\n",
                          requests, refused, peak, reads.seen, writes.seen, opens.seen, renames.seen, folders.seen, failed, after, least == ~0ull ? 0 : least, others);
    if (file < 0 || syscall(SYS_write, file, line, (size_t)length) != length) return;
    for (number n = 0; n < requests && n < sizeof trace / sizeof *trace; n++) {
        length = snprintf(line, sizeof line, "%zu/%llu ", trace[n].size, trace[n].used);
        if (syscall(SYS_write, file, line, (size_t)length) != length) return;
    }
}

/* Memory */

/* Whether this request is refused, which it counts. */
static int is_refused(size_t size) {
    if (!begun) return 0;
    if (requests < sizeof trace / sizeof *trace) trace[requests].size = size, trace[requests].used = in_use;
    requests++;
    if (!refuse || requests < refuse || (requests > refuse && !onward)) return 0;
    refused++;
    errno = ENOMEM;
    return 1;
}

static void *granted(void *block) {
    in_use += malloc_usable_size(block);
    if (peak < in_use) peak = in_use;
    return block;
}

void *malloc(size_t size) {
    return is_refused(size) ? NULL : granted(__libc_malloc(size));
}

void *calloc(size_t count, size_t size) {
    return is_refused(count * size) ? NULL : granted(__libc_calloc(count, size));
}

void *realloc(void *block, size_t size) {
    if (is_refused(size)) return NULL;
    size_t before = malloc_usable_size(block);
    void *larger = __libc_realloc(block, size);
    if (larger || !size) in_use -= before;
    return granted(larger);
}

void *aligned_alloc(size_t alignment, size_t size) {
    return is_refused(size) ? NULL : granted(__libc_memalign(alignment, size));
}

void *memalign(size_t alignment, size_t size) {
    return aligned_alloc(alignment, size);
}

int posix_memalign(void **block, size_t alignment, size_t size) {
    *block = aligned_alloc(alignment, size);
    return *block ? 0 : ENOMEM;
}

void free(void *block) {
    in_use -= malloc_usable_size(block);
    __libc_free(block);
}

/* Reads, writes and calls on files */

/* Whether this call fails, which it counts. */
static int fails(struct kind *kind) {
    if (++kind->seen != kind->fails) return 0;
    failed++;
    errno = error;
    return 1;
}

static int is_interrupted(void) {
    if (!interrupt || ++moves % interrupt) return 0;
    errno = EINTR;
    return 1;
}

static size_t at_most_a_piece(size_t count) {
    return piece && count > piece ? piece : count;
}

ssize_t read(int file, void *to, size_t count) {
    if (reads.fails && reads.seen >= reads.fails) after++;
    if (count < least) least = count;
    if (fails(&reads) || is_interrupted()) return -1;
    count = at_most_a_piece(count);
    if (!endless || file != 0) return syscall(SYS_read, file, to, count);
    memset(to, '\n', count);
    return (ssize_t)count;
}

ssize_t write(int file, const void *from, size_t count) {
    if (file == 2) return syscall(SYS_write, file, from, count);
    if (fails(&writes) || is_interrupted()) return -1;
    return syscall(SYS_write, file, from, at_most_a_piece(count));
}

int open(const char *name, int flags, ...) {
    va_list more;
    va_start(more, flags);
    unsigned mode = (flags & O_CREAT) || (flags & O_TMPFILE) == O_TMPFILE ? va_arg(more, unsigned) : 0;
    va_end(more);
    return fails(&opens) ? -1 : (int)syscall(SYS_openat, AT_FDCWD, name, flags, mode);
}

int rename(const char *from, const char *to) {
    return fails(&renames) ? -1 : (int)syscall(SYS_renameat2, AT_FDCWD, from, AT_FDCWD, to, 0);
}

int mkdir(const char *name, mode_t mode) {
    return fails(&folders) ? -1 : (int)syscall(SYS_mkdirat, AT_FDCWD, name, mode);
}

int fchmod(int file, mode_t mode) {
    return fails(&modes) ? -1 : (int)syscall(SYS_fchmod, file, mode);
}

/* Calls that no program here makes. They are counted, so that a fault is not taken for one that happened. */

ssize_t readv(int file, const struct iovec *parts, int count) {
    others++;
    return syscall(SYS_readv, file, parts, count);
}

ssize_t writev(int file, const struct iovec *parts, int count) {
    others++;
    return syscall(SYS_writev, file, parts, count);
}

ssize_t pread(int file, void *to, size_t count, off_t from) {
    others++;
    return syscall(SYS_pread64, file, to, count, from);
}

ssize_t pwrite(int file, const void *bytes, size_t count, off_t from) {
    others++;
    return syscall(SYS_pwrite64, file, bytes, count, from);
}

ssize_t sendmsg(int socket, const struct msghdr *message, int flags) {
    others++;
    return syscall(SYS_sendmsg, socket, message, flags);
}

ssize_t recvmsg(int socket, struct msghdr *message, int flags) {
    others++;
    return syscall(SYS_recvmsg, socket, message, flags);
}
