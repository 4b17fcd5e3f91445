/* Makes one call of a program fail, for tests/program/devices.py: linked with the program's object and runtime/, it stands between these
   two, before memory, reads and writes.

   FAILING_CALL    alloc, read or write
   FAILING_AT      which of these calls fails, counted from 1; 0 where none does
   FAILING_HOW     refused, none (a write that takes nothing), short (one byte of several is moved) or interrupted
   FAILING_TOLD    the number of an open file, to which a byte goes once the call has failed, so that it is known that it came, or
                   where none does, at the end, how many calls there were

   A short call of one byte isn't counted: it can't be shorter. */
typedef unsigned long size_t;

enum call { NO_CALL, ALLOC, READ, WRITE };
enum how { REFUSED, NONE, SHORT, INTERRUPTED };
/* errno(3) */
enum { EINTR = 4, EIO = 5 };

struct tried {
    _Bool ok;
    void *block;
};

int __real_main(int count, char **words);
long __real_read(int file, void *into, size_t size);
long __real_write(int file, const void *from, size_t size);
struct tried __real_rattle_alloc(size_t size, size_t alignment);
struct tried __real_rattle_realloc(void *it, size_t kept, size_t size, size_t alignment);
void rattle_set_errno(int number);

static enum call failing;
static enum how how;
static long at, counted;
static int told;

/* What the environment has behind a name with its equals sign, or nothing. */
static const char *set(char **environment, const char *name) {
    for (; *environment; environment++) {
        int i = 0;
        while (name[i] && (*environment)[i] == name[i]) {
            i++;
        }
        if (!name[i]) {
            return *environment + i;
        }
    }
    return "";
}

static long number(const char *digits) {
    long found = 0;
    for (; *digits; digits++) {
        found = 10 * found + *digits - '0';
    }
    return found;
}

static void tell_count(void) {
    char digits[20];
    int from = 20;
    do {
        digits[--from] = (char)('0' + counted % 10);
        counted /= 10;
    } while (counted > 0);
    __real_write(told, digits + from, (size_t)(20 - from));
}

int __wrap_main(int count, char **words) {
    char **environment = words + count + 1;
    char asked = *set(environment, "FAILING_CALL="), by = *set(environment, "FAILING_HOW=");
    how = by == 'n' ? NONE : by == 's' ? SHORT : by == 'i' ? INTERRUPTED : REFUSED;
    at = number(set(environment, "FAILING_AT="));
    told = (int)number(set(environment, "FAILING_TOLD="));
    failing = asked == 'a' ? ALLOC : asked == 'r' ? READ : asked == 'w' ? WRITE : NO_CALL;
    int status = __real_main(count, words);
    if (failing != NO_CALL && at == 0) {
        tell_count();
    }
    return status;
}

/* Whether this call is the one that fails. */
static int fails(enum call call) {
    if (call != failing || ++counted != at) {
        return 0;
    }
    __real_write(told, "x", 1);
    return 1;
}

static struct tried refused(void) {
    static char nothing;
    return (struct tried){0, &nothing};
}

struct tried __wrap_rattle_alloc(size_t size, size_t alignment) {
    return fails(ALLOC) ? refused() : __real_rattle_alloc(size, alignment);
}

struct tried __wrap_rattle_realloc(void *it, size_t kept, size_t size, size_t alignment) {
    return fails(ALLOC) ? refused() : __real_rattle_realloc(it, kept, size, alignment);
}

/* What a call that fails answers at once. */
static long refusal(void) {
    if (how == NONE) {
        return 0;
    }
    rattle_set_errno(how == INTERRUPTED ? EINTR : EIO);
    return -1;
}

long __wrap_read(int file, void *into, size_t size) {
    if ((how == SHORT && size < 2) || !fails(READ)) {
        return __real_read(file, into, size);
    }
    return how == SHORT ? __real_read(file, into, 1) : refusal();
}

long __wrap_write(int file, const void *from, size_t size) {
    if ((how == SHORT && size < 2) || !fails(WRITE)) {
        return __real_write(file, from, size);
    }
    return how == SHORT ? __real_write(file, from, 1) : refusal();
}
