/* Stands between a proved program and the C library, and refuses what one case says: the n-th request for memory, the n-th
 * read, write, file or thread, the n-th call that changes files; or kills the program at the n-th of these. Preloaded by tests/faults/program.py, which sends one case after another: each is a process of
 * its own, forked before the program's first instruction, so that thousands of cases take seconds. */
#define _GNU_SOURCE
#include <errno.h>
#include <fcntl.h>
#include <malloc.h>
#include <pthread.h>
#include <stdbool.h>
#include <signal.h>
#include <stdarg.h>
#include <stdatomic.h>
#include <stdint.h>
#include <stdlib.h>
#include <string.h>
#include <sys/file.h>
#include <sys/mman.h>
#include <sys/resource.h>
#include <sys/stat.h>
#include <sys/syscall.h>
#include <sys/uio.h>
#include <sys/wait.h>
#include <unistd.h>

/* What a case refuses. Calls are counted from 1, from the beginning of main; 0: no call is refused. */
struct Case {
    int64_t words, bytes;             /* how many words, and their bytes, each with its NUL */
    int64_t seconds;                  /* after so many the program is stopped */
    int64_t growth, growth_lasts;     /* the request for memory that is refused, and whether all later ones are too */
    int64_t read, read_error;         /* the read that is refused, with this error */
    int64_t read_size;                /* a read gives at most so many bytes; 0: as many as there are */
    int64_t write, write_error, write_size;
    int64_t start, start_error;       /* the thread that is not started */
    int64_t open, open_error;         /* the file that is not opened */
    int64_t change, change_error;     /* the call that changes files and fails; writes are not counted */
    int64_t kill, kill_after;         /* the call that changes files, or the write, at which the program is killed: before, after */
    int64_t meddle, meddle_at, meddle_to; /* at the file opened so, a byte is set, or the file is cut where meddle_to is -1 */
};

/* What a case met. */
struct Counts {
    _Atomic int64_t growths, growths_refused, reads, reads_refused, writes, writes_refused;
    _Atomic int64_t starts, starts_refused, opens, opens_refused, changes, changes_refused, change_kind, kills, live, peak;
};

/* The calls that change files, as tests/faults/program.py has them. */
enum Change { NONE, CREATE, SYNC, SYNC_FOLDER, LOCK, LOCK_FOLDER, RENAME, UNLINK, MKDIR, MODE, OWNER };

struct Answer {
    int64_t status, seconds_us, resident;
    struct Counts counts;
};

void *__libc_malloc(size_t);
void *__libc_calloc(size_t, size_t);
void *__libc_realloc(void *, size_t);
void *__libc_memalign(size_t, size_t);
void __libc_free(void *);

static struct Case at;
static struct Counts unshared;
static struct Counts *met = &unshared;
static int counts_calls;
static int (*program)(int, char **, char **);

static int is_refused(_Atomic int64_t *calls, _Atomic int64_t *refused, int64_t wanted, int64_t lasts) {
    if (!counts_calls)
        return 0;
    int64_t call = atomic_fetch_add(calls, 1) + 1;
    if (wanted == 0 || (lasts ? call < wanted : call != wanted))
        return 0;
    atomic_fetch_add(refused, 1);
    return 1;
}

static int grows(void) {
    if (!is_refused(&met->growths, &met->growths_refused, at.growth, at.growth_lasts))
        return 1;
    errno = ENOMEM;
    return 0;
}

static void *taken(void *block) {
    if (block) {
        int64_t size = (int64_t)malloc_usable_size(block);
        int64_t live = atomic_fetch_add(&met->live, size) + size;
        int64_t peak = atomic_load(&met->peak);
        while (live > peak && !atomic_compare_exchange_weak(&met->peak, &peak, live))
            ;
    }
    return block;
}

static void given(void *block) {
    if (block)
        atomic_fetch_sub(&met->live, (int64_t)malloc_usable_size(block));
}

void *malloc(size_t size) { return grows() ? taken(__libc_malloc(size)) : NULL; }

void *calloc(size_t count, size_t size) { return grows() ? taken(__libc_calloc(count, size)) : NULL; }

void *realloc(void *block, size_t size) {
    if (!grows())
        return NULL;
    int64_t before = block ? (int64_t)malloc_usable_size(block) : 0;
    void *moved = __libc_realloc(block, size);
    if (moved)
        atomic_fetch_sub(&met->live, before);
    return taken(moved);
}

void *memalign(size_t edge, size_t size) { return grows() ? taken(__libc_memalign(edge, size)) : NULL; }

void *aligned_alloc(size_t edge, size_t size) { return memalign(edge, size); }

int posix_memalign(void **to, size_t edge, size_t size) {
    void *block = memalign(edge, size);
    if (!block)
        return ENOMEM;
    *to = block;
    return 0;
}

void free(void *block) {
    given(block);
    __libc_free(block);
}

/* Ends the program, if it is at the call at which it is to be killed: the same number is asked for before and after it. */
static void die_at(int64_t call, int after) {
    if (call && call == at.kill && after == (int)at.kill_after)
        kill(getpid(), SIGKILL);
}

/* The number of a call that changes files, or of a write. */
static int64_t next_kill(void) { return counts_calls ? atomic_fetch_add(&met->kills, 1) + 1 : 0; }

static int change_refused(enum Change kind) {
    if (!is_refused(&met->changes, &met->changes_refused, at.change, 0))
        return 0;
    atomic_store(&met->change_kind, kind);
    errno = (int)at.change_error;
    return 1;
}

static int is_folder(int file) {
    struct stat of;
    return fstat(file, &of) == 0 && S_ISDIR(of.st_mode);
}

/* A call that changes files: it fails, or the program is killed before it or after it, if the case says so. */
#define CHANGES(name, kind, list, call)         \
    int name list {                             \
        int64_t number = next_kill();           \
        die_at(number, 0);                      \
        if (change_refused(kind))               \
            return -1;                          \
        int done = (int)(call);                 \
        die_at(number, 1);                      \
        return done;                            \
    }
CHANGES(fsync, is_folder(file) ? SYNC_FOLDER : SYNC, (int file), syscall(SYS_fsync, file))
CHANGES(fdatasync, is_folder(file) ? SYNC_FOLDER : SYNC, (int file), syscall(SYS_fdatasync, file))
CHANGES(flock, is_folder(file) ? LOCK_FOLDER : LOCK, (int file, int how), syscall(SYS_flock, file, how))
CHANGES(rename, RENAME, (const char *from, const char *to), syscall(SYS_rename, from, to))
CHANGES(unlink, UNLINK, (const char *path), syscall(SYS_unlink, path))
CHANGES(unlinkat, UNLINK, (int folder, const char *path, int how), syscall(SYS_unlinkat, folder, path, how))
CHANGES(mkdir, MKDIR, (const char *path, mode_t mode), syscall(SYS_mkdir, path, mode))
CHANGES(chmod, MODE, (const char *path, mode_t mode), syscall(SYS_chmod, path, mode))
CHANGES(fchmod, MODE, (int file, mode_t mode), syscall(SYS_fchmod, file, mode))
CHANGES(chown, OWNER, (const char *path, uid_t user, gid_t group), syscall(SYS_chown, path, user, group))

/* Whether a read is refused; if not, how many bytes it gives at most. */
static bool refuses_read(size_t *size) {
    if (is_refused(&met->reads, &met->reads_refused, at.read, 0)) {
        errno = (int)at.read_error;
        return true;
    }
    if (counts_calls && at.read_size && *size > (size_t)at.read_size)
        *size = (size_t)at.read_size;
    return false;
}

ssize_t read(int file, void *to, size_t size) {
    return refuses_read(&size) ? -1 : syscall(SYS_read, file, to, size);
}

ssize_t pread(int file, void *to, size_t size, off_t from) {
    return refuses_read(&size) ? -1 : syscall(SYS_pread64, file, to, size, from);
}

static int write_refused(void) {
    if (!is_refused(&met->writes, &met->writes_refused, at.write, 0))
        return 0;
    errno = (int)at.write_error;
    return 1;
}

static ssize_t write_some(int file, const void *from, size_t size) {
    if (write_refused())
        return -1;
    if (counts_calls && at.write_size && size > (size_t)at.write_size)
        size = (size_t)at.write_size;
    return syscall(SYS_write, file, from, size);
}

ssize_t write(int file, const void *from, size_t size) {
    int64_t number = next_kill();
    die_at(number, 0);
    ssize_t done = write_some(file, from, size);
    die_at(number, 1);
    return done;
}

static ssize_t write_parts(int file, const struct iovec *parts, int count) {
    if (write_refused())
        return -1;
    if (counts_calls && at.write_size) {
        for (int i = 0; i < count; i++)
            if (parts[i].iov_len) {
                size_t size = parts[i].iov_len;
                size = size > (size_t)at.write_size ? (size_t)at.write_size : size;
                return syscall(SYS_write, file, parts[i].iov_base, size);
            }
    }
    return syscall(SYS_writev, file, parts, count);
}

ssize_t writev(int file, const struct iovec *parts, int count) {
    int64_t number = next_kill();
    die_at(number, 0);
    ssize_t done = write_parts(file, parts, count);
    die_at(number, 1);
    return done;
}

/* Cuts or changes the file that is about to be opened, as another program might. */
static void meddle(int folder, const char *path) {
    int file = (int)syscall(SYS_openat, folder, path, O_RDWR | O_CLOEXEC, 0);
    if (file < 0)
        return;
    char byte = (char)at.meddle_to;
    if (at.meddle_to < 0)
        (void)!ftruncate(file, at.meddle_at);
    else
        (void)!pwrite(file, &byte, 1, at.meddle_at);
    syscall(SYS_close, file);
}

static int open_at(int folder, const char *path, int flags, mode_t mode) {
    if (is_refused(&met->opens, &met->opens_refused, at.open, 0)) {
        errno = (int)at.open_error;
        return -1;
    }
    if (counts_calls && at.meddle && met->opens == at.meddle)
        meddle(folder, path);
    int64_t number = flags & (O_CREAT | O_TRUNC) ? next_kill() : 0;
    die_at(number, 0);
    if (number && change_refused(CREATE))
        return -1;
    int file = (int)syscall(SYS_openat, folder, path, flags, mode);
    die_at(number, 1);
    return file;
}

static mode_t mode_of(int flags, va_list more) { return flags & (O_CREAT | O_TMPFILE) ? va_arg(more, mode_t) : 0; }

#define OPENS(name)                                        \
    int name(const char *path, int flags, ...) {           \
        va_list more;                                      \
        va_start(more, flags);                             \
        mode_t mode = mode_of(flags, more);                \
        va_end(more);                                      \
        return open_at(AT_FDCWD, path, flags, mode);       \
    }
#define OPENS_AT(name)                                     \
    int name(int folder, const char *path, int flags, ...) { \
        va_list more;                                      \
        va_start(more, flags);                             \
        mode_t mode = mode_of(flags, more);                \
        va_end(more);                                      \
        return open_at(folder, path, flags, mode);         \
    }
OPENS(open)
OPENS(open64)
OPENS_AT(openat)
OPENS_AT(openat64)

typedef int Create(pthread_t *, const pthread_attr_t *, void *(*)(void *), void *);
static Create *create;

int pthread_create(pthread_t *thread, const pthread_attr_t *how, void *(*work)(void *), void *with) {
    if (is_refused(&met->starts, &met->starts_refused, at.start, 0))
        return (int)at.start_error;
    return create(thread, how, work, with);
}

static int counted(int count, char **words, char **environment) {
    counts_calls = 1;
    return program(count, words, environment);
}

static int read_whole(void *to, size_t size) {
    for (char *next = to; size;) {
        ssize_t got = syscall(SYS_read, 0, next, size);
        if (got <= 0)
            return 0;
        next += got;
        size -= (size_t)got;
    }
    return 1;
}

#include <dlfcn.h>

typedef int Start(int (*)(int, char **, char **), int, char **, void (*)(void), void (*)(void), void (*)(void), void *);

static int begin(Start *start, int count, char **words, void (*end)(void), void *stack) {
    return start(counted, count, words, NULL, NULL, end, stack);
}

/* The words of a case: the first is the file that is its standard input, the next the folder in which it runs, and the
 * others are the program's, its name first. */
static char text[1 << 20];
static char *words[1 << 12];

static void enter(int output, int errors) {
    struct rlimit none = {0, 0};
    setrlimit(RLIMIT_CORE, &none);
    int input = (int)syscall(SYS_openat, AT_FDCWD, words[0], O_RDONLY, 0);
    if (input < 0 || chdir(words[1]))
        _exit(97);
    dup2(input, 0);
    dup2(output, 1);
    dup2(errors, 2);
    syscall(SYS_close, input);
    syscall(SYS_close, output);
    syscall(SYS_close, errors);
    signal(SIGPIPE, SIG_DFL);
    alarm((unsigned)at.seconds);
}

int __libc_start_main(int (*main)(int, char **, char **), int count, char **own, void (*init)(void), void (*fini)(void),
                      void (*end)(void), void *stack) {
    (void)init, (void)fini;
    Start *start = (Start *)dlsym(RTLD_NEXT, "__libc_start_main");
    create = (Create *)dlsym(RTLD_NEXT, "pthread_create");
    program = main;
    const char *files = getenv("IX_FAULTS");
    if (!files)
        return begin(start, count, own, end, stack);
    int output = (int)strtol(files, (char **)&files, 10), errors = (int)strtol(files + 1, NULL, 10);
    unsetenv("IX_FAULTS");
    unsetenv("LD_PRELOAD");
    met = mmap(NULL, sizeof *met, PROT_READ | PROT_WRITE, MAP_SHARED | MAP_ANONYMOUS, -1, 0);
    while (read_whole(&at, sizeof at)) {
        if (at.words < 3 || at.words >= (1 << 12) || at.bytes > (int64_t)sizeof text || !read_whole(text, (size_t)at.bytes))
            _exit(98);
        char *next = text;
        for (int64_t i = 0; i < at.words; i++, next += strlen(next) + 1)
            words[i] = next;
        words[at.words] = NULL;
        memset(met, 0, sizeof *met);
        (void)!ftruncate(output, 0), (void)!ftruncate(errors, 0);
        lseek(output, 0, SEEK_SET), lseek(errors, 0, SEEK_SET);
        pid_t child = fork();
        if (child == 0) {
            enter(output, errors);
            return begin(start, (int)at.words - 2, words + 2, end, stack);
        }
        int status;
        struct rusage used;
        if (child < 0 || wait4(child, &status, 0, &used) < 0)
            _exit(99);
        struct Answer answer = {status, used.ru_utime.tv_sec * 1000000 + used.ru_utime.tv_usec, used.ru_maxrss, {0}};
        memcpy(&answer.counts, met, sizeof answer.counts);
        if (syscall(SYS_write, 1, &answer, sizeof answer) != sizeof answer)
            _exit(96);
    }
    _exit(0);
}
