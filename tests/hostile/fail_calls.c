/* Loaded before the C library, brings trouble to the program's calls on the system. The environment says which:

   FAILED=n         the n-th call fails, counted from 1
   KILLED=n         the program is killed before its n-th call

   ON=name          what follows is of reads and writes of the file whose path ends so, or of the standard stream of this
                    number:
   AFTER=n          only once n bytes have moved,
   INTERRUPTED=n    so many calls are interrupted
   PIECE=n          a call moves n bytes at most
   ROOM=n           once n bytes have moved, each call fails
   FULL=n           once n bytes have moved, each write takes none

   A call that meets its trouble puts a byte into the descriptor that MARK names; a small PIECE is no trouble. No header is
   used, so that a compiler without a C library will do. */

#define NEXT ((void *)-1L)
#define INTERRUPTION 4
#define INPUT_OUTPUT_ERROR 5
#define KILL 9

typedef unsigned long size_t;
typedef long ssize_t;

extern void *dlsym(void *library, const char *name);
extern char *getenv(const char *name);
extern long atol(const char *text);
extern size_t strlen(const char *text);
extern int strcmp(const char *one, const char *other);
extern int *__errno_location(void);
extern int getpid(void);
extern int kill(int process, int signal);

ssize_t write(int descriptor, const void *bytes, size_t count);

/* The C library's own function of this name. */
#define REAL(name) ((__typeof__(name) *)dlsym(NEXT, #name))

/* The number that the environment has under this name, or -1. */
static long number(const char *name) {
    const char *text = getenv(name);
    return text ? atol(text) : -1;
}

static void mark(void) {
    long descriptor = number("MARK");
    if (descriptor >= 0) REAL(write)((int)descriptor, "x", 1);
}

static int fail(int error) {
    mark();
    *__errno_location() = error;
    return -1;
}

/* Counts a call, and says whether it fails. */
static int fails(void) {
    static long calls = 0;
    calls += 1;
    if (calls == number("KILLED")) {
        mark();
        kill(getpid(), KILL);
    }
    return calls == number("FAILED") && fail(INPUT_OUTPUT_ERROR);
}

/* The descriptor of the file that ON names, while it is open, and else -1. */
static int followed = -1;

static void follow(const char *path, int descriptor) {
    const char *name = getenv("ON");
    size_t ending = name ? strlen(name) : 0, len = strlen(path);
    if (ending > 0 && ending <= len && strcmp(path + len - ending, name) == 0) followed = descriptor;
}

static int is_followed(int descriptor) {
    const char *name = getenv("ON");
    if (name && name[0] >= '0' && name[0] <= '9') return descriptor == atol(name);
    return descriptor == followed;
}

/* How many bytes of that file have moved. */
static long moved = 0;

static ssize_t noted(ssize_t count) {
    if (count > 0) moved += count;
    return count;
}

/* Whether a call on that file fails. */
static int is_in_trouble(void) {
    static long interruptions = 0;
    long room = number("ROOM");
    if (moved >= number("AFTER") && interruptions < number("INTERRUPTED")) {
        interruptions += 1;
        return fail(INTERRUPTION);
    }
    return room >= 0 && moved >= room && fail(INPUT_OUTPUT_ERROR);
}

static size_t less(size_t count, long most) {
    return most >= 0 && count > (size_t)most ? (size_t)most : count;
}

/* How many bytes a call on that file moves, of so many that it is asked for. */
static size_t share(size_t asked) {
    long room = number("ROOM");
    return less(less(asked, number("PIECE")), room < 0 ? -1 : room - moved);
}

ssize_t read(int descriptor, void *bytes, size_t count) {
    if (fails()) return -1;
    if (!is_followed(descriptor)) return REAL(read)(descriptor, bytes, count);
    if (is_in_trouble()) return -1;
    return noted(REAL(read)(descriptor, bytes, share(count)));
}

ssize_t write(int descriptor, const void *bytes, size_t count) {
    if (fails()) return -1;
    if (!is_followed(descriptor)) return REAL(write)(descriptor, bytes, count);
    if (is_in_trouble()) return -1;
    long limit = number("FULL");
    count = less(share(count), limit < 0 ? -1 : limit - moved);
    if (count == 0) mark();
    return count == 0 ? 0 : noted(REAL(write)(descriptor, bytes, count));
}

ssize_t __write(int descriptor, const void *bytes, size_t count) { return write(descriptor, bytes, count); }

int open(const char *path, int how, ...) {
    __builtin_va_list rest;
    __builtin_va_start(rest, how);
    int permissions = __builtin_va_arg(rest, int);
    __builtin_va_end(rest);
    if (fails()) return -1;
    int descriptor = REAL(open)(path, how, permissions);
    if (descriptor >= 0) follow(path, descriptor);
    return descriptor;
}

int close(int descriptor) {
    int is_failing = fails();
    if (descriptor == followed) followed = -1;
    int result = REAL(close)(descriptor);
    return is_failing ? -1 : result;
}

int rename(const char *old, const char *new) {
    return fails() ? -1 : REAL(rename)(old, new);
}

int unlink(const char *path) { return fails() ? -1 : REAL(unlink)(path); }

int fchmod(int descriptor, unsigned mode) {
    return fails() ? -1 : REAL(fchmod)(descriptor, mode);
}

int fsync(int descriptor) { return fails() ? -1 : REAL(fsync)(descriptor); }

int flock(int descriptor, int how) { return fails() ? -1 : REAL(flock)(descriptor, how); }

int statx(int folder, const char *path, int how, unsigned mask, void *result) {
    return fails() ? -1 : REAL(statx)(folder, path, how, mask, result);
}

char *realpath(const char *path, char *result) {
    return fails() ? 0 : REAL(realpath)(path, result);
}
