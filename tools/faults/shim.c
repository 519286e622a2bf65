/* Loaded before the C library (LD_PRELOAD): lets one call of a program go wrong, and writes down each call that it counts.
   Counted are the calls on the store, whose path FAULTS_STORE has (open, lock, size, seek, read, write, sync), the reads of
   standard input (take) and the writes to standard output (say), each kind from 1.
   FAULTS_CALL is KIND NUMBER FATE, as "write 3 torn"; the fates are below. FAULTS_TAKE is how many bytes a take gives at most.
   FAULTS_LOG is the file of the record: for each call its kind and whether it succeeded, in a byte each, where a write was in
   the file (or how many bytes a take gave) and how many bytes were written or said, in eight bytes each, and these bytes. */
#define _GNU_SOURCE
#include <errno.h>
#include <fcntl.h>
#include <signal.h>
#include <stdarg.h>
#include <stdint.h>
#include <stdio.h>
#include <stdlib.h>
#include <string.h>
#include <sys/stat.h>
#include <sys/syscall.h>
#include <sys/uio.h>
#include <unistd.h>

enum kind { OPEN, LOCK, SIZE, SEEK, READ, WRITE, SYNC, TAKE, SAY, KINDS, OTHER };
static const char *const kinds[] = {"open", "lock", "size", "seek", "read", "write", "sync", "take", "say"};

/* It does all; it fails; it does half; nothing; it is to be made again; it does half and fails; the program is killed. */
enum fate { WELL, FAILS, LESS, NOTHING, INTERRUPTED, TORN, DIES_BEFORE, DIES_IN, DIES_AFTER, FATES };
static const char *const fates[] = {"well", "fails", "less", "nothing", "interrupted", "torn", "before", "in", "after"};

/* The descriptor of the record lies above those that the program has, and below the limits that systems set. */
enum { FILES = 1024, LOG_AT = 200 };

static int is_begun, is_store[FILES];
static unsigned long made[KINDS], chosen_number, most_taken;
static enum kind chosen_kind = OTHER;
static enum fate chosen_fate = WELL;
static const char *store;
static int record_file = -1;

static int place_of(const char *word, const char *const *words, int count)
{
    int place = 0;
    while (place < count && strcmp(word, words[place]))
        place++;
    return place;
}

static void begin(void)
{
    if (is_begun)
        return;
    is_begun = 1;
    char kind[16], fate[16];
    const char *call = getenv("FAULTS_CALL"), *record = getenv("FAULTS_LOG"), *taken = getenv("FAULTS_TAKE");
    store = getenv("FAULTS_STORE");
    most_taken = taken ? strtoul(taken, NULL, 10) : 0;
    if (call && sscanf(call, "%15s %lu %15s", kind, &chosen_number, fate) == 3) {
        chosen_kind = place_of(kind, kinds, KINDS);
        chosen_fate = place_of(fate, fates, FATES);
    }
    if (record) {
        int file = syscall(SYS_openat, AT_FDCWD, record, O_WRONLY | O_CREAT | O_TRUNC, 0600);
        record_file = syscall(SYS_dup3, file, LOG_AT, O_CLOEXEC);
        syscall(SYS_close, file);
    }
}

static void write_down(enum kind kind, int is_well, uint64_t at, uint64_t size, const void *bytes)
{
    unsigned char head[18] = {kind, is_well};
    memcpy(head + 2, &at, 8);
    memcpy(head + 10, &size, 8);
    struct iovec parts[] = {{head, sizeof head}, {(void *)bytes, size}};
    if (record_file >= 0)
        syscall(SYS_writev, record_file, parts, size ? 2 : 1);
}

static void die(void)
{
    syscall(SYS_kill, getpid(), SIGKILL);
    for (;;)
        pause();
}

/* What is to become of the next call of the kind. */
static enum fate fate_of(enum kind kind)
{
    begin();
    if (kind == OTHER || ++made[kind] != chosen_number || kind != chosen_kind)
        return WELL;
    if (chosen_fate == DIES_BEFORE)
        die();
    return chosen_fate;
}

static int failed(enum kind kind, int error)
{
    write_down(kind, 0, 0, 0, NULL);
    errno = error;
    return -1;
}

static enum kind kind_of(int file, enum kind kind)
{
    return file >= 0 && file < FILES && is_store[file] ? kind : OTHER;
}

/* A call that does all or nothing, and what it answered. */
static long ended(enum kind kind, enum fate fate, long answer)
{
    if (kind != OTHER)
        write_down(kind, answer >= 0, kind == TAKE && answer > 0 ? answer : 0, 0, NULL);
    if (fate == DIES_AFTER)
        die();
    return answer;
}

static int opened(int folder, const char *path, int how, unsigned mode)
{
    begin();
    int is_it = store && !strcmp(path, store);
    enum kind kind = is_it ? OPEN : OTHER;
    enum fate fate = fate_of(kind);
    if (fate == FAILS)
        return failed(kind, EIO);
    int file = ended(kind, fate, syscall(SYS_openat, folder, path, how, mode));
    if (file >= 0 && file < FILES)
        is_store[file] = is_it;
    return file;
}

int open(const char *path, int how, ...)
{
    va_list more;
    va_start(more, how);
    unsigned mode = how & (O_CREAT | O_TMPFILE) ? va_arg(more, unsigned) : 0;
    va_end(more);
    return opened(AT_FDCWD, path, how, mode);
}

int open64(const char *path, int how, ...)
{
    va_list more;
    va_start(more, how);
    unsigned mode = how & (O_CREAT | O_TMPFILE) ? va_arg(more, unsigned) : 0;
    va_end(more);
    return opened(AT_FDCWD, path, how, mode);
}

int openat(int folder, const char *path, int how, ...)
{
    va_list more;
    va_start(more, how);
    unsigned mode = how & (O_CREAT | O_TMPFILE) ? va_arg(more, unsigned) : 0;
    va_end(more);
    return opened(folder, path, how, mode);
}

int openat64(int folder, const char *path, int how, ...)
{
    va_list more;
    va_start(more, how);
    unsigned mode = how & (O_CREAT | O_TMPFILE) ? va_arg(more, unsigned) : 0;
    va_end(more);
    return opened(folder, path, how, mode);
}

/* A second descriptor of the store is one of the store. */
int fcntl(int file, int what, ...)
{
    va_list more;
    va_start(more, what);
    void *given = va_arg(more, void *);
    va_end(more);
    int is_second = what == F_DUPFD || what == F_DUPFD_CLOEXEC;
    enum kind kind = is_second ? kind_of(file, OPEN) : OTHER;
    enum fate fate = fate_of(kind);
    if (fate == FAILS)
        return failed(kind, EIO);
    int answer = ended(kind, fate, syscall(SYS_fcntl, file, what, given));
    if (is_second && answer >= 0 && answer < FILES)
        is_store[answer] = is_store[file];
    return answer;
}

int close(int file)
{
    if (file >= 0 && file < FILES)
        is_store[file] = 0;
    return syscall(SYS_close, file);
}

int flock(int file, int how)
{
    enum kind kind = kind_of(file, LOCK);
    enum fate fate = fate_of(kind);
    return fate == FAILS ? failed(kind, EWOULDBLOCK) : (int)ended(kind, fate, syscall(SYS_flock, file, how));
}

int fstat(int file, struct stat *to)
{
    enum kind kind = kind_of(file, SIZE);
    enum fate fate = fate_of(kind);
    return fate == FAILS ? failed(kind, EIO) : (int)ended(kind, fate, syscall(SYS_fstat, file, to));
}

int fstat64(int file, struct stat64 *to)
{
    return fstat(file, (struct stat *)to);
}

/* Asked of an open file by its descriptor alone, this is fstat. */
int statx(int file, const char *path, int how, unsigned mask, struct statx *to)
{
    enum kind kind = how & AT_EMPTY_PATH && !*path ? kind_of(file, SIZE) : OTHER;
    enum fate fate = fate_of(kind);
    return fate == FAILS ? failed(kind, EIO) : (int)ended(kind, fate, syscall(SYS_statx, file, path, how, mask, to));
}

/* Asked for the end, this tells the size. */
off_t lseek(int file, off_t at, int from)
{
    enum kind kind = kind_of(file, from == SEEK_END ? SIZE : SEEK);
    enum fate fate = fate_of(kind);
    return fate == FAILS ? failed(kind, EIO) : ended(kind, fate, syscall(SYS_lseek, file, at, from));
}

off64_t lseek64(int file, off64_t at, int from)
{
    return lseek(file, at, from);
}

int fsync(int file)
{
    enum kind kind = kind_of(file, SYNC);
    enum fate fate = fate_of(kind);
    return fate == FAILS ? failed(kind, EIO) : (int)ended(kind, fate, syscall(SYS_fsync, file));
}

int fdatasync(int file)
{
    enum kind kind = kind_of(file, SYNC);
    enum fate fate = fate_of(kind);
    return fate == FAILS ? failed(kind, EIO) : (int)ended(kind, fate, syscall(SYS_fdatasync, file));
}

/* From a place in the file, or from where the descriptor stands. */
static ssize_t read_from(int file, void *to, size_t size, const off_t *at)
{
    enum kind kind = file == STDIN_FILENO ? TAKE : kind_of(file, READ);
    enum fate fate = fate_of(kind);
    if (kind == TAKE && most_taken && size > most_taken)
        size = most_taken;
    if (fate == FAILS || fate == INTERRUPTED)
        return failed(kind, fate == FAILS ? EIO : EINTR);
    if (fate == NOTHING)
        size = 0;
    if (fate == LESS)
        size = (size + 1) / 2;
    return ended(kind, fate, at ? syscall(SYS_pread64, file, to, size, *at) : syscall(SYS_read, file, to, size));
}

ssize_t read(int file, void *to, size_t size)
{
    return read_from(file, to, size, NULL);
}

ssize_t pread(int file, void *to, size_t size, off_t at)
{
    return read_from(file, to, size, &at);
}

ssize_t pread64(int file, void *to, size_t size, off64_t at)
{
    return read_from(file, to, size, &at);
}

static ssize_t put(int file, const void *from, size_t size, const off_t *at)
{
    return at ? syscall(SYS_pwrite64, file, from, size, *at) : syscall(SYS_write, file, from, size);
}

/* To a place in the file, or to where the descriptor stands. */
static ssize_t write_to(int file, const void *from, size_t size, const off_t *at)
{
    enum kind kind = file == STDOUT_FILENO ? SAY : kind_of(file, WRITE);
    enum fate fate = fate_of(kind);
    if (kind == OTHER)
        return put(file, from, size, at);
    if (fate == FAILS || fate == INTERRUPTED)
        return failed(kind, fate == FAILS ? EIO : EINTR);
    size_t part = fate == LESS ? (size + 1) / 2 : fate == TORN || fate == DIES_IN ? size / 2 : fate == NOTHING ? 0 : size;
    off_t place = at ? *at : kind == WRITE ? syscall(SYS_lseek, file, 0, SEEK_CUR) : 0;
    ssize_t done = part ? put(file, from, part, at) : 0;
    write_down(kind, done >= 0 && fate != TORN, place, done > 0 ? done : 0, from);
    if (fate == DIES_IN || fate == DIES_AFTER)
        die();
    if (fate != TORN)
        return done;
    errno = EIO;
    return -1;
}

ssize_t write(int file, const void *from, size_t size)
{
    return write_to(file, from, size, NULL);
}

ssize_t pwrite(int file, const void *from, size_t size, off_t at)
{
    return write_to(file, from, size, &at);
}

ssize_t pwrite64(int file, const void *from, size_t size, off64_t at)
{
    return write_to(file, from, size, &at);
}

/* The first part alone is written, as a system may. */
ssize_t writev(int file, const struct iovec *parts, int count)
{
    int first = 0;
    while (first < count - 1 && parts[first].iov_len == 0)
        first++;
    return count > 0 ? write(file, parts[first].iov_base, parts[first].iov_len) : 0;
}
