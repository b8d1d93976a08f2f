/* What the compiled program calls and musl 1.2.3 lacks: the toolchain's own functions in C, which it has for the GNU C library on
   x86-64 alone, and some of that library's. `static` links it with the program; the functions for memory are in `heap.c`. */

#include <errno.h>
#include <stddef.h>
#include <stdint.h>
#include <string.h>
#include <sys/stat.h>
#include <sys/sysmacros.h>
#include <unistd.h>

/* ---- errors */

/* `errno` is a macro, whose function each C library names as it likes. */
int rattle_errno(void) { return errno; }

void rattle_set_errno(int error) { errno = error; }

/* ---- the arguments */

static size_t count;
static char **arguments;

/* The toolchain keeps the arguments in a function that the GNU C library calls with them before `main`; musl calls it without. The
   linker's option --wrap=main has the start files call this one in its place. */
int __real_main(void);

int __wrap_main(int given_count, char **given) {
    count = (size_t)given_count;
    arguments = given;
    return __real_main();
}

size_t rattle_arg_count(void) { return count; }

/* Puts an argument at the start of the room and returns its length; -1 if there is none, and -2 if it does not fit. */
ptrdiff_t rattle_arg(size_t number, char *room, size_t size) {
    if (number >= count) return -1;
    size_t length = strlen(arguments[number]);
    if (length > size) return -2;
    memcpy(room, arguments[number], length);
    return (ptrdiff_t)length;
}

/* ---- files */

/* Linux's struct statx, which musl has since 1.2.4. */
struct statx_time {
    int64_t seconds;
    uint32_t nanoseconds, unused;
};

struct statx {
    uint32_t known, block_size;
    uint64_t attributes;
    uint32_t links, user, group;
    uint16_t mode, unused;
    uint64_t inode, size, blocks, known_attributes;
    struct statx_time accessed, born, changed, modified;
    uint32_t of_device[2], on_device[2];
    uint64_t more[14];
};

_Static_assert(sizeof(struct statx) == 256, "the size of Linux's struct statx");

/* The fields that stat has too. */
#define OF_STAT 0x7ff

static struct statx_time time_of(struct timespec it) { return (struct statx_time){it.tv_sec, (uint32_t)it.tv_nsec, 0}; }

/* Answers by fstatat, which has all that the program reads and is older than Linux's statx, of 4.11. The flags are the same. */
int statx(int folder, const char *path, int flags, unsigned wanted, struct statx *found) {
    (void)wanted;
    struct stat it;
    if (fstatat(folder, path, &it, flags) != 0) return -1;
    *found = (struct statx){
        .known = OF_STAT,
        .block_size = (uint32_t)it.st_blksize,
        .links = (uint32_t)it.st_nlink,
        .user = it.st_uid,
        .group = it.st_gid,
        .mode = (uint16_t)it.st_mode,
        .inode = it.st_ino,
        .size = (uint64_t)it.st_size,
        .blocks = (uint64_t)it.st_blocks,
        .accessed = time_of(it.st_atim),
        .changed = time_of(it.st_ctim),
        .modified = time_of(it.st_mtim),
        .of_device = {major(it.st_rdev), minor(it.st_rdev)},
        .on_device = {major(it.st_dev), minor(it.st_dev)},
    };
    return 0;
}

/* ---- moving bytes, for which musl's code is slow: for few bytes on x86-64, and backwards */

typedef char Sixteen __attribute__((vector_size(16)));

/* Bytes of a type's size are read, and then written, by one instruction each. */
#define MOVE(Type, to, from) \
    do { \
        Type moved; \
        __builtin_memcpy(&moved, from, sizeof moved); \
        __builtin_memcpy(to, &moved, sizeof moved); \
    } while (0)

/* Moves the first bytes and the last, which together are all. */
#define MOVE_ENDS(Type) \
    do { \
        Type last; \
        __builtin_memcpy(&last, from + size - sizeof last, sizeof last); \
        MOVE(Type, to, from); \
        __builtin_memcpy(to + size - sizeof last, &last, sizeof last); \
    } while (0)

/* More than 32 bytes, from the side on which what is written was read before. */
static void move_many(char *to, const char *from, size_t size) {
    Sixteen end;
    if ((uintptr_t)to - (uintptr_t)from >= size) {
        __builtin_memcpy(&end, from + size - 16, 16);
        for (size_t at = 0; at + 16 < size; at += 16) MOVE(Sixteen, to + at, from + at);
        __builtin_memcpy(to + size - 16, &end, 16);
    } else {
        __builtin_memcpy(&end, from, 16);
        for (size_t at = size; at > 16; at -= 16) MOVE(Sixteen, to + at - 16, from + at - 16);
        __builtin_memcpy(to, &end, 16);
    }
}

void *memmove(void *target, const void *source, size_t size) {
    char *to = target;
    const char *from = source;
    if (size > 32) {
        move_many(to, from, size);
    } else if (size >= 16) {
        MOVE_ENDS(Sixteen);
    } else if (size >= 8) {
        MOVE_ENDS(uint64_t);
    } else if (size >= 4) {
        MOVE_ENDS(uint32_t);
    } else if (size >= 2) {
        MOVE_ENDS(uint16_t);
    } else if (size == 1) {
        *to = *from;
    }
    return target;
}

#ifdef __x86_64__

/* musl has a fast one for 64-bit ARM. */
void *memcpy(void *restrict to, const void *restrict from, size_t size) { return memmove(to, from, size); }

/* ---- the processor */

/* The program asks for these at its start, which ends it with a line if the processor lacks an instruction of x86-64-v2. */
struct leaf {
    uint32_t had[4], usable[4];
};

const struct leaf *__x86_get_cpuid_feature_leaf(unsigned number) {
    static struct leaf found;
    uint32_t *it = found.had;
    __asm__("cpuid" : "=a"(it[0]), "=b"(it[1]), "=c"(it[2]), "=d"(it[3]) : "0"(number == 0 ? 1 : 0x80000001), "2"(0));
    memcpy(found.usable, found.had, sizeof found.had);
    return &found;
}

/* With it the program writes that line. */
ssize_t __write(int file, const void *bytes, size_t size) { return write(file, bytes, size); }

#endif
