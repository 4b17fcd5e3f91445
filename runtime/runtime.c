/* What the program stands on in place of a C library: its start, its calls of the system, and its memory. Each call of the system
   has its page of Linux's manual beside it. There is one thread. Nothing here is proved: it is trusted. */
typedef unsigned long size_t;
typedef unsigned char byte;
int main(int count, char **words);

/* What differs between processors: numbers of calls, syscall(2), how one is made, and where a program starts. */
#if defined(__x86_64__)
enum { READ = 0, WRITE = 1, CLOSE = 3, MMAP = 9, MPROTECT = 10, MUNMAP = 11, SIGACTION = 13, IOCTL = 16, MREMAP = 25 };
enum { EXIT_GROUP = 231, OPENAT = 257, FSTATAT = 262, STATX = 332, RELATIVE = 8, MODE_IN_STAT = 24, PAGE = 4096 };
static long call(long number, long a, long b, long c, long d, long e) {
    register long fourth __asm__("r10") = d, fifth __asm__("r8") = e, sixth __asm__("r9") = 0;
    __asm__ volatile("syscall" : "+a"(number) : "D"(a), "S"(b), "d"(c), "r"(fourth), "r"(fifth), "r"(sixth) : "rcx", "r11", "memory");
    return number;
}

__asm__(".text\n.globl _start\n.type _start, %function\n_start: xor %ebp, %ebp\nmov %rsp, %rdi\n"
        ".hidden __ehdr_start\nlea __ehdr_start(%rip), %rsi\nand $-16, %rsp\ncall begin\n");

/* What glibc answers of a processor's features, by CPUID: the program asks for those of x86-64-v2 as it starts. */
const void *__x86_get_cpuid_feature_leaf(unsigned leaf) {
    static unsigned found[8];
    unsigned *active = found + 4, number = leaf == 2 ? 0x80000001 : 1;
    __asm__ volatile("cpuid" : "=a"(active[0]), "=b"(active[1]), "=c"(active[2]), "=d"(active[3]) : "0"(number), "2"(0));
    return found;
}
#elif defined(__aarch64__)
enum { IOCTL = 29, OPENAT = 56, CLOSE = 57, READ = 63, WRITE = 64, FSTATAT = 79, EXIT_GROUP = 94, SIGACTION = 134 };
enum { MUNMAP = 215, MREMAP = 216, MMAP = 222, MPROTECT = 226, STATX = 291, RELATIVE = 1027, MODE_IN_STAT = 16, PAGE = 65536 };
static long call(long number, long a, long b, long c, long d, long e) {
    register long eighth __asm__("x8") = number, first __asm__("x0") = a, second __asm__("x1") = b, third __asm__("x2") = c;
    register long fourth __asm__("x3") = d, fifth __asm__("x4") = e, sixth __asm__("x5") = 0;
    __asm__ volatile("svc 0" : "+r"(first) : "r"(eighth), "r"(second), "r"(third), "r"(fourth), "r"(fifth), "r"(sixth) : "memory");
    return first;
}

__asm__(".text\n.globl _start\n.type _start, %function\n_start: mov x29, xzr\nmov x30, xzr\nmov x0, sp\nand sp, x0, #-16\n"
        ".hidden __ehdr_start\nadrp x1, __ehdr_start\nadd x1, x1, :lo12:__ehdr_start\nb begin\n");
#endif

/* Bytes, string(3). The compiler calls these by itself. Words have no alignment; those of more than 16 bytes are moved by parts. */
#define WORD(size) __attribute__((vector_size(size), aligned(1), may_alias))
typedef byte word64 WORD(64), word32 WORD(32), word16 WORD(16);
typedef unsigned long word8 __attribute__((aligned(1), may_alias));
typedef unsigned word4 __attribute__((aligned(1), may_alias));
typedef unsigned short word2 __attribute__((aligned(1), may_alias));

/* Moves what fills one word of a type and at most two: as two, which may overlap. Both are read before one is written. */
#define MOVE_TWO(type)                                                                                                                \
    if (size >= sizeof(type)) {                                                                                                       \
        type first = *(const type *)from, last = *(const type *)(from + size - sizeof(type));                                         \
        *(type *)to = first, *(type *)(to + size - sizeof(type)) = last;                                                              \
        return into;                                                                                                                  \
    }

/* Moves more than 64 bytes, from that end on where nothing is overwritten before it is read. */
static void move_many(byte *to, const byte *from, size_t size) {
    word64 first = *(const word64 *)from, last = *(const word64 *)(from + size - 64);
    if ((size_t)(to - from) >= size) {
        byte *end = to + size - 64;
        for (; to < end; to += 64, from += 64) {
            *(word64 *)to = *(const word64 *)from;
        }
        *(word64 *)end = last;
    } else {
        for (; size > 64; size -= 64) {
            *(word64 *)(to + size - 64) = *(const word64 *)(from + size - 64);
        }
        *(word64 *)to = first;
    }
}

void *memmove(void *into, const void *of, size_t size) {
    byte *to = into;
    const byte *from = of;
    if (size > 64) {
        move_many(to, from, size);
        return into;
    }
    MOVE_TWO(word32) MOVE_TWO(word16) MOVE_TWO(word8) MOVE_TWO(word4) MOVE_TWO(word2) MOVE_TWO(byte)
    return into;
}
void *memcpy(void *into, const void *of, size_t size) __attribute__((alias("memmove")));

void *memset(void *into, int value, size_t size) {
    byte *to = into, *end = to + size;
    word16 all = (word16){0} + (byte)value;
    for (; end - to >= 16; to += 16) {
        *(word16 *)to = all;
    }
    while (to < end) {
        *to++ = (byte)value;
    }
    return into;
}

/* Calls of the system. From -4095 to -1 what one gives is an error, intro(2), whose number is kept as errno(3). */
static int error;
int rattle_errno(void) { return error; }
void rattle_set_errno(int number) { error = number; }
static int is_error(long given) { return (size_t)given > -4096UL; }
static long result(long given) {
    error = is_error(given) ? (int)-given : error;
    return is_error(given) ? -1 : given;
}

/* read(2), write(2), close(2) */
long read(int file, void *into, size_t size) { return result(call(READ, file, (long)into, (long)size, 0, 0)); }
long write(int file, const void *from, size_t size) { return result(call(WRITE, file, (long)from, (long)size, 0, 0)); }
long __write(int file, const void *from, size_t size) __attribute__((alias("write")));
int close(int file) { return (int)result(call(CLOSE, file, 0, 0, 0, 0)); }

/* open(2), of what is there, so that no mode is read; from the working directory, AT_FDCWD */
int open(const char *path, int flags, ...) { return (int)result(call(OPENAT, -100, (long)path, flags, 0, 0)); }

/* isatty(3), ioctl_tty(2): only a terminal has settings, which TCGETS gives */
int isatty(int file) {
    byte settings[256];
    return result(call(IOCTL, file, 0x5401, (long)settings, 0, 0)) == 0;
}

/* statx(2), which is there since Linux 4.11; an older one answers ENOSYS, and is asked for type and mode alone by stat(2) */
int statx(int folder, const char *path, int flags, unsigned mask, byte *found) {
    long given = call(STATX, folder, (long)path, flags, mask, (long)found);
    if (given == -38) {
        byte old[256];
        given = call(FSTATAT, folder, (long)path, (long)old, flags, 0);
        memset(found, 0, 256);
        *(word4 *)found = 3;
        *(word2 *)(found + 28) = (word2) * (word4 *)(old + MODE_IN_STAT);
    }
    return (int)result(given);
}

/* sysv_signal(3), sigaction(2): the program ignores SIGPIPE. A handler of its own would want a restorer, and there is none. */
void (*__sysv_signal(int number, void (*handler)(int)))(int) {
    /* a handler, SA_RESETHAND and SA_NODEFER, a restorer, and what is blocked meanwhile */
    size_t now[4] = {(size_t)handler, 0xc0000000}, before[4] = {0};
    long given = result(call(SIGACTION, number, (long)now, (long)before, sizeof(now[3]), 0));
    return (void (*)(int))(given == 0 ? before[0] : -1UL);
}

#include "errors.h"
/* strerror(3), of numbers from 0 on. It gives 0, EINVAL of one without a name, or ERANGE where there is no room. */
int __xpg_strerror_r(int number, char *into, size_t room) {
    char made[28] = "Unknown error ", *at = made + 14;
    const char *name = names;
    size_t length = 0;
    for (int i = 0; i < number && name < names + sizeof(names) - 1; i++) {
        while (*name++) {
        }
    }
    if (!*name) {
        for (int scale = 1000000000; scale > 0; scale /= 10) {
            *at = (char)('0' + number / scale % 10);
            at += number >= scale;
        }
        name = made;
    }
    while (name[length]) {
        length++;
    }
    if (length >= room) {
        return 34;
    }
    memcpy(into, name, length + 1);
    return name == made ? 22 : 0;
}

/* Memory, malloc(3). Blocks of up to 32 KiB are cut from spans, each of blocks of one size; a larger one is mapped by itself. A span
   stands at a multiple of its size and begins with what is known of it, so a block's span is found by its address. */
enum { SPAN = 1 << 16, SPANS_AT_ONCE = 16, MOST_EMPTY = 64, HEAD = 64, LARGE_HEAD = 16, EXACT = 1024, MOST = 1 << 15, CLASSES = 105 };

struct span {
    /* the next one in a list, and what leads to this one */
    struct span *next, **at;
    /* blocks that were given back, each of which has the next */
    void *freed;
    /* how far the span was cut into blocks, their size, its class, and how many are in use */
    unsigned cut, size, class, used;
};
struct tried {
    _Bool ok;
    void *block;
};

/* spans that have room, by class, spans without blocks, and what was mapped and is no span yet */
static struct span *with_room[CLASSES], *empty;
static unsigned empty_count;
static byte *unused, *unused_end;

/* Sizes go by 16 bytes up to 1 KiB, and then by eighths of a power of two. */
static unsigned class_of(size_t size) {
    unsigned top = 63 - (unsigned)__builtin_clzl((size - 1) | 1);
    return size <= EXACT ? (unsigned)(size + 15) / 16 : 65 + 8 * (top - 10) + (unsigned)((size - 1) >> (top - 3)) % 8;
}
static unsigned size_of(unsigned class) { return class <= 64 ? 16 * class : ((class - 65) % 8 + 9) << ((class - 65) / 8 + 7); }
static int has_room(const struct span *it) { return it->freed || it->cut + it->size <= SPAN; }
static struct span *span_of(void *it) { return (struct span *)((size_t)it & -(size_t)SPAN); }
static int is_large(void *it) { return (size_t)it % SPAN == LARGE_HEAD; }

/* mmap(2), munmap(2): new memory of some spans at a multiple of a span's size, or nothing. To give no bytes back does nothing. */
static byte *map(size_t size) {
    long at = call(MMAP, 0, (long)(size + SPAN), 3, 0x22, -1);
    if (is_error(at)) {
        return 0;
    }
    long over = (long)(-(size_t)at % SPAN);
    call(MUNMAP, at, over, 0, 0, 0);
    call(MUNMAP, at + over + (long)size, SPAN - over, 0, 0, 0);
    return (byte *)(at + over);
}

static void link(struct span *it) {
    it->at = &with_room[it->class];
    it->next = *it->at;
    if (it->next) {
        it->next->at = &it->next;
    }
    *it->at = it;
}

static void unlink(struct span *it) {
    *it->at = it->next;
    if (it->next) {
        it->next->at = it->at;
    }
}

/* A span of new memory, or nothing; where there is little memory spans are mapped one by one. */
static struct span *new_span(void) {
    if (unused == unused_end) {
        size_t size = SPANS_AT_ONCE * SPAN;
        unused = map(size);
        unused = unused ? unused : map(size = SPAN);
        unused_end = unused ? unused + size : 0;
    }
    struct span *it = (struct span *)unused;
    unused += it ? SPAN : 0;
    return it;
}

static struct span *span_for(unsigned class) {
    struct span *it = empty ? empty : new_span();
    if (it) {
        empty_count -= it == empty;
        empty = it == empty ? it->next : empty;
        *it = (struct span){.class = class, .size = size_of(class), .cut = HEAD};
        link(it);
    }
    return it;
}

/* A span without blocks serves any class. Where there are many it goes back to the system, munmap(2). */
static void give_back(struct span *it) {
    unlink(it);
    if (empty_count == MOST_EMPTY) {
        call(MUNMAP, (long)it, SPAN, 0, 0, 0);
        return;
    }
    it->next = empty, empty = it, empty_count++;
}

static size_t mapped_for(size_t size) { return (size + LARGE_HEAD + SPAN - 1) & -(size_t)SPAN; }
static void *large(byte *at, size_t size) {
    if (at) {
        *(size_t *)at = mapped_for(size);
    }
    return at ? at + LARGE_HEAD : at;
}

static void *block(size_t size) {
    if (size > MOST) {
        return large(map(mapped_for(size)), size);
    }
    unsigned class = class_of(size);
    struct span *it = with_room[class] ? with_room[class] : span_for(class);
    if (!it) {
        return 0;
    }
    void *found = it->freed;
    if (found) {
        it->freed = *(void **)found;
    } else {
        found = (byte *)it + it->cut;
        it->cut += it->size;
    }
    it->used++;
    if (!has_room(it)) {
        unlink(it);
    }
    return found;
}

static struct tried tried(void *found) {
    static byte nothing;
    return (struct tried){found != 0, found ? found : &nothing};
}
struct tried rattle_alloc(size_t size, size_t alignment) { return tried(block(size ? size : alignment)); }

void rattle_dealloc(void *it) {
    struct span *span = span_of(it);
    if (is_large(it)) {
        call(MUNMAP, (long)span, (long)*(size_t *)span, 0, 0, 0);
        return;
    }
    if (!has_room(span)) {
        link(span);
    }
    *(void **)it = span->freed;
    span->freed = it;
    if (--span->used == 0) {
        give_back(span);
    }
}

/* mremap(2), MREMAP_MAYMOVE, MREMAP_FIXED: a large block where it stands, or else elsewhere at a multiple of a span's size */
static void *remapped(void *it, size_t size) {
    byte *at = (byte *)span_of(it), *to = at;
    size_t before = *(size_t *)at, mapped = mapped_for(size);
    if (mapped != before && is_error(call(MREMAP, (long)at, (long)before, (long)mapped, 0, 0))) {
        to = map(mapped);
        if (to && is_error(call(MREMAP, (long)at, (long)before, (long)mapped, 3, (long)to))) {
            call(MUNMAP, (long)to, (long)mapped, 0, 0, 0);
            to = 0;
        }
    }
    return large(to, size);
}

/* Keeps the first bytes of a block, as many as are said to be wanted. */
struct tried rattle_realloc(void *it, size_t kept, size_t size, size_t alignment) {
    size = size ? size : alignment;
    if (is_large(it) ? size > MOST : size <= MOST && class_of(size) == span_of(it)->class) {
        return tried(is_large(it) ? remapped(it, size) : it);
    }
    void *found = block(size);
    if (found) {
        memmove(found, it, kept < size ? kept : size);
        rattle_dealloc(it);
    }
    return tried(found);
}

/* The start, and the command line: the count of its words, and these. */
static size_t *line;

/* Puts a word where there is room for it, and gives its length, -1 where there is none, or -2 where it has no room. */
long rattle_arg(size_t number, byte *into, size_t room) {
    if (number >= line[0]) {
        return -1;
    }
    size_t length = 0;
    for (const char *at = (const char *)line[1 + number]; *at; at++) {
        if (length == room) {
            return -2;
        }
        into[length++] = (byte)*at;
    }
    return (long)length;
}

/* elf(5): adds where the program stands to each address of its own that it has, by the table that its dynamic entries name: pairs
   of a tag and a value, of which DT_RELA and DT_RELASZ are read. The linker leaves relocations of no other kind. */
static void relocate(byte *base, const size_t *entry) {
    const size_t *at = 0, *end = 0;
    size_t size = 0;
    for (; entry[0]; entry += 2) {
        at = entry[0] == 7 ? (const size_t *)(base + entry[1]) : at;
        size = entry[0] == 8 ? entry[1] : size;
    }
    for (end = at + size / sizeof(*at); at < end; at += 3) {
        if (at[1] != RELATIVE) {
            __builtin_trap();
        }
        *(size_t *)(base + at[0]) = (size_t)base + at[2];
    }
}

/* execve(2): the stack begins with the count of words, and then has them. elf(5): the header, at the base, has the place and the count
   of the program's parts, of 7 numbers each: one has the dynamic entries, PT_DYNAMIC, and a later one, PT_GNU_RELRO, is only read from
   then on, mprotect(2): its pages are its own, of the size that Linux has here, the least that it takes. The end is exit_group(2). */
__attribute__((visibility("hidden"), noreturn)) void begin(size_t *stack, byte *base) {
    const size_t *part = (const size_t *)(base + *(const size_t *)(base + 32));
    const size_t *end = part + 7 * *(const unsigned short *)(base + 56);
    for (; part < end; part += 7) {
        if ((unsigned)part[0] == 2) {
            relocate(base, (const size_t *)(base + part[2]));
        }
        long given = (unsigned)part[0] == 0x6474e552 ? -1 : 0;
        for (size_t page = 4096; given && page <= PAGE; page *= 4) {
            size_t from = part[2] & -page;
            given = call(MPROTECT, (long)(base + from), (long)(part[2] + part[5] - from), 1, 0, 0);
        }
    }
    line = stack;
    for (int status = main((int)line[0], (char **)(line + 1));;) {
        call(EXIT_GROUP, status, 0, 0, 0, 0);
    }
}
