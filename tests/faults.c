/* A library that is loaded before a program (LD_PRELOAD): it makes calls of the C library fail, and writes down the calls on logs.

   cc -shared -fPIC -O1 -o faults.so faults.c

   A log is a file whose name begins with "shard-". The environment says what is to be done; what it doesn't name goes on as ever.

   FAULTS_TRACE=FILE   is given a line for each call on a log, and for each fault:
                         open LOG E | lock LOG E | len LOG E | read LOG AT SIZE E | write LOG AT HEX E | sync LOG E | folder E | fault KIND | stop
                       with the place AT, the bytes in HEX, and E, the number of the error or 0. `folder` is a sync of the working folder.
   FAULTS_CALL=KIND:N:E[:MORE]
                       the Nth call of a kind, from 1, fails with the error E. Kinds: open, lock, len, read, write, sync, folder; disk, which is
                       any of these; in and out, a read of standard input and a write of standard output; thread. KIND@LOG counts the calls on
                       that log alone. MORE is `on`: all later ones fail too; `short`: the call moves one byte and doesn't fail; `half`:
                       a write moves half of its bytes, and the next one fails.
   FAULTS_ALLOC=N      the Nth allocation (malloc or realloc) finds no memory; N.. is that and all later ones, N-M those from N to M.
   FAULTS_MARKS=1      no allocation finds memory from a write of the word "refuse" to standard output on, up to one of the word "give".
   FAULTS_STOP=N       the process ends in place of the Nth call on a log, with status 137.

   A call on a log, its count and its line are one step, whatever other threads do. */
#define _GNU_SOURCE
#include <dlfcn.h>
#include <errno.h>
#include <fcntl.h>
#include <pthread.h>
#include <stdarg.h>
#include <stdatomic.h>
#include <stdio.h>
#include <stdlib.h>
#include <string.h>
#include <sys/file.h>
#include <sys/stat.h>
#include <sys/syscall.h>
#include <unistd.h>

enum { FILES = 1024, NAME = 16, LONGEST = 1 << 20, TRACE_NUMBER = 900, STOPPED = 137 };
enum fate { AS_EVER, FAILS, MOVES_ONE, MOVES_HALF };
enum more { ONCE, ON, SHORT, HALF };

/* What the environment says. */
static int trace = -1;
static char kind[NAME], only[NAME];
static long call_number;
static int call_error;
static enum more call_more;
static long first_alloc, last_alloc, stop_number;
static int has_marks;

/* What has been so far. */
static char names[FILES][NAME];
static long calls, disk_calls;
static atomic_long allocs;
static atomic_int is_refusing;
static int has_begun;
static pthread_mutex_t lock = PTHREAD_MUTEX_INITIALIZER;

static void *(*real_malloc)(size_t);
static void *(*real_realloc)(void *, size_t);
static int (*real_create)(pthread_t *, const pthread_attr_t *, void *(*)(void *), void *);

/* What is to be done. */

static void read_call(char *text) {
    char *rest;
    char *what = strtok_r(text, ":", &rest);
    char *log = strchr(what, '@');
    if (log) {
        *log = 0;
        snprintf(only, sizeof only, "%s", log + 1);
    }
    snprintf(kind, sizeof kind, "%s", what);
    call_number = strtol(strtok_r(0, ":", &rest), 0, 10);
    call_error = strtol(strtok_r(0, ":", &rest), 0, 10);
    const char *more = strtok_r(0, ":", &rest);
    if (more) call_more = !strcmp(more, "on") ? ON : !strcmp(more, "short") ? SHORT : HALF;
}

static void read_allocs(const char *text) {
    char *end;
    first_alloc = last_alloc = strtol(text, &end, 10);
    if (end[0] == '.') last_alloc = 0x7fffffffffffffffL;
    if (end[0] == '-') last_alloc = strtol(end + 1, 0, 10);
}

/* The trace has a number that no log gets. */
static void open_trace(const char *path) {
    int opened = syscall(SYS_openat, AT_FDCWD, path, O_WRONLY | O_CREAT | O_APPEND | O_CLOEXEC, 0644);
    trace = syscall(SYS_fcntl, opened, F_DUPFD_CLOEXEC, TRACE_NUMBER);
    if (trace < 0) trace = opened;
    else syscall(SYS_close, opened);
}

__attribute__((constructor)) static void begin(void) {
    const char *said;
    char text[128];
    real_malloc = dlsym(RTLD_NEXT, "malloc");
    real_realloc = dlsym(RTLD_NEXT, "realloc");
    real_create = dlsym(RTLD_NEXT, "pthread_create");
    if ((said = getenv("FAULTS_TRACE"))) open_trace(said);
    if ((said = getenv("FAULTS_ALLOC"))) read_allocs(said);
    has_marks = getenv("FAULTS_MARKS") != 0;
    if ((said = getenv("FAULTS_STOP"))) stop_number = strtol(said, 0, 10);
    if ((said = getenv("FAULTS_CALL"))) {
        snprintf(text, sizeof text, "%s", said);
        read_call(text);
    }
    has_begun = 1;
}

static void tell(const char *form, ...) {
    char line[128];
    va_list values;
    if (trace < 0) return;
    va_start(values, form);
    int size = vsnprintf(line, sizeof line, form, values);
    va_end(values);
    syscall(SYS_write, trace, line, size);
}

static void tell_write(const char *log, off_t at, const unsigned char *bytes, size_t size, int error) {
    static char line[2 * LONGEST + 128];
    if (trace < 0) return;
    size_t end = snprintf(line, 64, "write %s %ld ", log, (long)at);
    for (size_t place = 0; place < size && place < LONGEST; place++) end += sprintf(line + end, "%02x", bytes[place]);
    end += sprintf(line + end, " %d\n", error);
    syscall(SYS_write, trace, line, end);
}

/* Which calls fail. */

static int is_meant(const char *what, const char *log) {
    if (only[0] && (!log || strcmp(only, log))) return 0;
    return !strcmp(kind, what) || (log && !strcmp(kind, "disk"));
}

/* What becomes of a call of this kind, on this log or none; the lock is held. */
static enum fate fate_of(const char *what, const char *log) {
    if (log && ++disk_calls == stop_number) {
        tell("stop\n");
        syscall(SYS_exit_group, STOPPED);
    }
    if (!kind[0] || !is_meant(what, log)) return AS_EVER;
    long number = ++calls;
    int is_next = number == call_number + 1, is_later = number > call_number;
    if (number != call_number && !(call_more == ON && is_later) && !(call_more == HALF && is_next)) return AS_EVER;
    tell("fault %s\n", what);
    if (call_more == SHORT) return MOVES_ONE;
    return call_more == HALF && !is_next ? MOVES_HALF : FAILS;
}

static size_t moved(enum fate fate, size_t size) {
    if (fate == MOVES_ONE && size) return 1;
    return fate == MOVES_HALF && size > 1 ? size / 2 : size;
}

static ssize_t failed(int error) {
    errno = error;
    return -1;
}

/* The name of an open log; "." for the working folder; none for other files. */
static const char *name_of(int file) { return file >= 0 && file < FILES && names[file][0] ? names[file] : 0; }

/* Allocations. */

static int is_refused(void) {
    if (!has_begun) return 0;
    long number = atomic_fetch_add(&allocs, 1) + 1;
    int is_numbered = first_alloc && number >= first_alloc && number <= last_alloc;
    if (!is_numbered && !is_refusing) return 0;
    tell("fault alloc\n");
    errno = ENOMEM;
    return 1;
}

void *malloc(size_t size) {
    if (!real_malloc) real_malloc = dlsym(RTLD_NEXT, "malloc");
    return is_refused() ? 0 : real_malloc(size);
}

void *realloc(void *block, size_t size) {
    if (!real_realloc) real_realloc = dlsym(RTLD_NEXT, "realloc");
    return is_refused() ? 0 : real_realloc(block, size);
}

/* Files. */

static int opened(const char *path, const char *base, int is_log, int flags, int mode) {
    if (is_log && fate_of("open", base) == FAILS) {
        tell("open %s %d\n", base, call_error);
        return failed(call_error);
    }
    int file = syscall(SYS_openat, AT_FDCWD, path, flags, mode);
    if (file >= 0 && file < FILES) snprintf(names[file], NAME, "%s", is_log ? base : strcmp(path, ".") ? "" : ".");
    if (file >= 0 && is_log) tell("open %s 0\n", base);
    return file;
}

int open(const char *path, int flags, ...) {
    va_list values;
    va_start(values, flags);
    int mode = flags & O_CREAT ? va_arg(values, int) : 0;
    va_end(values);
    const char *slash = strrchr(path, '/');
    const char *base = slash ? slash + 1 : path;
    pthread_mutex_lock(&lock);
    int file = opened(path, base, !strncmp(base, "shard-", 6), flags, mode);
    pthread_mutex_unlock(&lock);
    return file;
}

int close(int file) {
    pthread_mutex_lock(&lock);
    if (file >= 0 && file < FILES) names[file][0] = 0;
    pthread_mutex_unlock(&lock);
    return syscall(SYS_close, file);
}

int flock(int file, int how) {
    pthread_mutex_lock(&lock);
    const char *log = name_of(file);
    int error = log && fate_of("lock", log) == FAILS ? call_error : 0;
    if (log) tell("lock %s %d\n", log, error);
    int status = error ? failed(error) : syscall(SYS_flock, file, how);
    pthread_mutex_unlock(&lock);
    return status;
}

int statx(int file, const char *restrict path, int flags, unsigned mask, struct statx *restrict into) {
    pthread_mutex_lock(&lock);
    const char *log = name_of(file);
    int error = log && fate_of("len", log) == FAILS ? call_error : 0;
    if (log) tell("len %s %d\n", log, error);
    int status = error ? failed(error) : syscall(SYS_statx, file, path, flags, mask, into);
    pthread_mutex_unlock(&lock);
    return status;
}

ssize_t pread(int file, void *into, size_t size, off_t at) {
    pthread_mutex_lock(&lock);
    const char *log = name_of(file);
    enum fate fate = log ? fate_of("read", log) : AS_EVER;
    if (log) tell("read %s %ld %ld %d\n", log, (long)at, (long)size, fate == FAILS ? call_error : 0);
    ssize_t count = fate == FAILS ? failed(call_error) : syscall(SYS_pread64, file, into, moved(fate, size), at);
    pthread_mutex_unlock(&lock);
    return count;
}

ssize_t pwrite(int file, const void *from, size_t size, off_t at) {
    pthread_mutex_lock(&lock);
    const char *log = name_of(file);
    enum fate fate = log ? fate_of("write", log) : AS_EVER;
    size_t most = moved(fate, size);
    if (log) tell_write(log, at, from, most, fate == FAILS ? call_error : 0);
    ssize_t count = fate == FAILS ? failed(call_error) : syscall(SYS_pwrite64, file, from, most, at);
    pthread_mutex_unlock(&lock);
    return count;
}

/* A sync of a log, or of the working folder. */
static int synced(long call, int file) {
    pthread_mutex_lock(&lock);
    const char *log = name_of(file);
    int is_folder = log && !strcmp(log, ".");
    int error = log && fate_of(is_folder ? "folder" : "sync", log) == FAILS ? call_error : 0;
    if (is_folder) tell("folder %d\n", error);
    else if (log) tell("sync %s %d\n", log, error);
    int status = error ? failed(error) : syscall(call, file);
    pthread_mutex_unlock(&lock);
    return status;
}

int fdatasync(int file) { return synced(SYS_fdatasync, file); }

int fsync(int file) { return synced(SYS_fsync, file); }

/* Standard streams and threads. */

static enum fate fate_beside(const char *what) {
    pthread_mutex_lock(&lock);
    enum fate fate = fate_of(what, 0);
    pthread_mutex_unlock(&lock);
    return fate;
}

ssize_t read(int file, void *into, size_t size) {
    enum fate fate = file == 0 ? fate_beside("in") : AS_EVER;
    return fate == FAILS ? failed(call_error) : syscall(SYS_read, file, into, moved(fate, size));
}

static void mark(const void *from, size_t size) {
    if (memmem(from, size, "refuse", 6)) is_refusing = 1;
    if (memmem(from, size, "give", 4)) is_refusing = 0;
}

ssize_t write(int file, const void *from, size_t size) {
    enum fate fate = file == 1 ? fate_beside("out") : AS_EVER;
    if (has_marks && file == 1) mark(from, size);
    return fate == FAILS ? failed(call_error) : syscall(SYS_write, file, from, moved(fate, size));
}

int pthread_create(pthread_t *thread, const pthread_attr_t *how, void *(*body)(void *), void *value) {
    return fate_beside("thread") == FAILS ? call_error : real_create(thread, how, body, value);
}
