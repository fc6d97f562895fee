// Stands between a program and the C library (LD_PRELOAD): refuses requests for memory, and fails, shortens or stops calls to the outside.
//
//   HOSTILE_REFUSE=N       the Nth request for memory gets none
//   HOSTILE_REFUSE_FROM=N  nor do the Nth and all later ones
//   HOSTILE_FAIL=N         the Nth call to the outside fails, with the error HOSTILE_ERRNO (5, EIO, if that is not given)
//   HOSTILE_FAIL_FROM=N    so do the Nth and all later ones
//   HOSTILE_SHORT=N        the Nth call to the outside, if it reads or writes, moves one byte
//   HOSTILE_STOP=N         the process is killed before its Nth call to the outside
//   HOSTILE_TEAR=SEED      and what it wrote since the last sync of a file is left as a lost page leaves it: kept, lost, cut or noise
//   HOSTILE_LIES=1         a sync does nothing, so that a tear takes all that was ever written
//   HOSTILE_TELL=FILE      at the end the numbers of requests and of calls are written to FILE
//   HOSTILE_ONLY=WORD      all this in a process whose first word is WORD, and not in those that it starts or that started it
//
// Calls to the outside are open, read, pread, write, pwrite, lseek, fsync, fdatasync, ftruncate, statx and close; those of a socket: socket,
// bind, listen, accept, getsockname, connect, send and recv; and those of a process: pipe, posix_spawn, kill, waitid and waitpid. They are
// counted together from 1.
#define _GNU_SOURCE
#include <dlfcn.h>
#include <errno.h>
#include <fcntl.h>
#include <signal.h>
#include <spawn.h>
#include <stdarg.h>
#include <stdio.h>
#include <stdlib.h>
#include <string.h>
#include <sys/socket.h>
#include <sys/stat.h>
#include <sys/syscall.h>
#include <sys/wait.h>
#include <unistd.h>

#define FILES 256
#define KEPT 64

// A write to a file that no sync followed: where, how much, the length of the file before it, and the first bytes that it covered.
static struct {
    int held;
    off_t at, before;
    size_t count;
    unsigned char was[KEPT];
} unsynced[FILES];

static char writable[FILES];
static long requests, calls, refuse, refuse_from, failing, failing_from, shortened, stopping, seed, lies;
static int is_set, is_asleep, error_number;

// The function of the C library, looked up once.
#define REAL(name) \
    ({ \
        static __typeof__(&name) found_##name; \
        found_##name = found_##name ? found_##name : (__typeof__(&name))dlsym(RTLD_NEXT, #name); \
        found_##name; \
    })

static long number(const char *name) {
    const char *text = getenv(name);
    return text ? atol(text) : 0;
}

// Whether the first word of this process is another than the one that is asked for.
static int is_other(const char *word) {
    char words[4096] = {0};
    long file = syscall(SYS_openat, AT_FDCWD, "/proc/self/cmdline", O_RDONLY | O_CLOEXEC);
    long count = syscall(SYS_read, file, words, sizeof words - 1);
    syscall(SYS_close, file);
    size_t first = strlen(words) + 1;
    return count <= (long)first || strcmp(words + first, word);
}

static void set_up(void) {
    if (is_set)
        return;
    is_set = 1;
    is_asleep = getenv("HOSTILE_ONLY") && is_other(getenv("HOSTILE_ONLY"));
    if (is_asleep)
        return;
    refuse = number("HOSTILE_REFUSE");
    refuse_from = number("HOSTILE_REFUSE_FROM");
    failing = number("HOSTILE_FAIL");
    failing_from = number("HOSTILE_FAIL_FROM");
    shortened = number("HOSTILE_SHORT");
    stopping = number("HOSTILE_STOP");
    seed = number("HOSTILE_TEAR");
    lies = number("HOSTILE_LIES");
    error_number = number("HOSTILE_ERRNO") ? (int)number("HOSTILE_ERRNO") : EIO;
}

// Counts a request for memory; answers whether it gets none, and sets the error.
static int is_refused(void) {
    set_up();
    if (is_asleep)
        return 0;
    ++requests;
    if (requests != refuse && !(refuse_from && requests >= refuse_from))
        return 0;
    errno = ENOMEM;
    return 1;
}

static unsigned draw(void) {
    seed = seed * 6364136223846793005L + 1442695040888963407L;
    return (unsigned)(seed >> 33);
}

// Leaves of the bytes that were written what a crash may leave of them: the choice is 0 all, 1 none, 2 the front, 3 noise.
static void tear(int file) {
    off_t at = unsynced[file].at, before = unsynced[file].before, end = at + (off_t)unsynced[file].count;
    unsigned choice = draw() % 4;
    if (choice == 0)
        return;
    if (choice == 1 && at < before)
        REAL(pwrite)(file, unsynced[file].was, unsynced[file].count < KEPT ? unsynced[file].count : KEPT, at);
    for (off_t place = at; choice == 3 && place < end; place++) {
        unsigned char byte = (unsigned char)draw();
        REAL(pwrite)(file, &byte, 1, place);
    }
    if (end > before)
        REAL(ftruncate)(file, choice == 1 ? before : before + (off_t)(draw() % (unsigned)(end - before + 1)));
}

static void stop(void) {
    for (int file = 0; seed && file < FILES; file++)
        if (unsynced[file].held)
            tear(file);
    REAL(kill)(getpid(), SIGKILL);
}

// Counts a call; answers whether it is to fail.
static int fails(void) {
    set_up();
    if (is_asleep)
        return 0;
    ++calls;
    if (calls == stopping)
        stop();
    if (calls != failing && !(failing_from && calls >= failing_from))
        return 0;
    errno = error_number;
    return 1;
}

static size_t moved(size_t count) { return calls == shortened && count > 1 ? 1 : count; }

// Whether the program opened it to write.
static int is_ours(int file) { return file >= 0 && file < FILES && writable[file]; }

static void note(int file, size_t count, off_t at) {
    struct stat told;
    if (!is_ours(file) || fstat(file, &told))
        return;
    unsynced[file].held = 1;
    unsynced[file].at = at;
    unsynced[file].before = told.st_size;
    unsynced[file].count = count;
    REAL(pread)(file, unsynced[file].was, KEPT, at);
}

static void forget(int file) {
    if (is_ours(file) && !lies)
        unsynced[file].held = 0;
}

void *malloc(size_t size) {
    __typeof__(&malloc) real = REAL(malloc);
    return is_refused() ? 0 : real(size);
}

void *realloc(void *old, size_t size) {
    __typeof__(&realloc) real = REAL(realloc);
    return is_refused() ? 0 : real(old, size);
}

int posix_memalign(void **found, size_t align, size_t size) {
    __typeof__(&posix_memalign) real = REAL(posix_memalign);
    return is_refused() ? ENOMEM : real(found, align, size);
}

void *aligned_alloc(size_t align, size_t size) {
    __typeof__(&aligned_alloc) real = REAL(aligned_alloc);
    return is_refused() ? 0 : real(align, size);
}

int open(const char *name, int flags, ...) {
    va_list rest;
    va_start(rest, flags);
    mode_t mode = flags & O_CREAT ? va_arg(rest, mode_t) : 0;
    va_end(rest);
    if (fails())
        return -1;
    int file = REAL(open)(name, flags, mode);
    if (file >= 0 && file < FILES) {
        writable[file] = (flags & O_ACCMODE) != O_RDONLY;
        unsynced[file].held = 0;
    }
    return file;
}

ssize_t read(int file, void *into, size_t count) { return fails() ? -1 : REAL(read)(file, into, moved(count)); }

ssize_t write(int file, const void *bytes, size_t count) {
    if (fails())
        return -1;
    if (seed)
        note(file, moved(count), REAL(lseek)(file, 0, SEEK_CUR));
    return REAL(write)(file, bytes, moved(count));
}

ssize_t pread(int file, void *into, size_t count, off_t at) { return fails() ? -1 : REAL(pread)(file, into, moved(count), at); }

ssize_t pwrite(int file, const void *bytes, size_t count, off_t at) {
    if (fails())
        return -1;
    if (seed)
        note(file, moved(count), at);
    return REAL(pwrite)(file, bytes, moved(count), at);
}

off_t lseek(int file, off_t at, int whence) { return fails() ? -1 : REAL(lseek)(file, at, whence); }

int fsync(int file) {
    if (fails())
        return -1;
    forget(file);
    return REAL(fsync)(file);
}

int fdatasync(int file) {
    if (fails())
        return -1;
    forget(file);
    return REAL(fdatasync)(file);
}

int ftruncate(int file, off_t length) { return fails() ? -1 : REAL(ftruncate)(file, length); }

int statx(int folder, const char *restrict name, int flags, unsigned mask, struct statx *restrict into) {
    return fails() ? -1 : REAL(statx)(folder, name, flags, mask, into);
}

// A close that fails closes nevertheless. A file that is to be torn later stays open.
int close(int file) {
    int fault = fails(), code = errno, answer = lies && is_ours(file) ? 0 : REAL(close)(file);
    if (!fault)
        return answer;
    errno = code;
    return -1;
}

int socket(int family, int kind, int protocol) { return fails() ? -1 : REAL(socket)(family, kind, protocol); }

int bind(int file, const struct sockaddr *at, socklen_t size) { return fails() ? -1 : REAL(bind)(file, at, size); }

int listen(int file, int most) { return fails() ? -1 : REAL(listen)(file, most); }

int accept4(int file, struct sockaddr *from, socklen_t *size, int flags) { return fails() ? -1 : REAL(accept4)(file, from, size, flags); }

int accept(int file, struct sockaddr *from, socklen_t *size) { return fails() ? -1 : REAL(accept)(file, from, size); }

int getsockname(int file, struct sockaddr *at, socklen_t *size) { return fails() ? -1 : REAL(getsockname)(file, at, size); }

int connect(int file, const struct sockaddr *to, socklen_t size) { return fails() ? -1 : REAL(connect)(file, to, size); }

ssize_t send(int file, const void *bytes, size_t count, int flags) { return fails() ? -1 : REAL(send)(file, bytes, moved(count), flags); }

ssize_t recv(int file, void *into, size_t count, int flags) { return fails() ? -1 : REAL(recv)(file, into, moved(count), flags); }

int pipe2(int files[2], int flags) { return fails() ? -1 : REAL(pipe2)(files, flags); }

int posix_spawn(pid_t *pid, const char *name, const posix_spawn_file_actions_t *actions, const posix_spawnattr_t *how, char *const words[], char *const set[]) {
    return fails() ? errno : REAL(posix_spawn)(pid, name, actions, how, words, set);
}

int kill(pid_t pid, int number) { return fails() ? -1 : REAL(kill)(pid, number); }

int waitid(idtype_t kind, id_t number, siginfo_t *told, int options) { return fails() ? -1 : REAL(waitid)(kind, number, told, options); }

pid_t waitpid(pid_t pid, int *status, int options) { return fails() ? -1 : REAL(waitpid)(pid, status, options); }

__attribute__((destructor)) static void tell(void) {
    const char *name = getenv("HOSTILE_TELL");
    char text[64];
    set_up();
    if (!name || is_asleep)
        return;
    int file = REAL(open)(name, O_WRONLY | O_CREAT | O_TRUNC, 0666);
    REAL(write)(file, text, (size_t)snprintf(text, sizeof text, "%ld %ld\n", requests, calls));
}
