/* Calls the library as a program would be called: by_library OTHER WORD .. has the tree on standard input and the other text in the file
   OTHER, writes the report to standard output, or where the status is 3 to standard error, and ends with the status.
   by_library --all OTHER WORD .. asks with rooms from 0 to the whole report, and looks at what is written where.
   by_library --threads N OTHER WORD .. asks in N threads of a stack of ZIROFEN_STACK, each 20 times, and looks whether all say the same.
   by_library --refused OTHER WORD .. asks with each call of malloc or realloc refused in turn, and with all behind it. */
#include <limits.h>
#include <pthread.h>
#include <stdio.h>
#include <stdlib.h>
#include <string.h>

#include "zirofen.h"

struct text {
    char *bytes;
    size_t length;
};
struct question {
    struct text words, tree, other;
};
static const struct text nothing;
struct answer {
    int status;
    struct text report;
};

static void fail(const char *why) {
    fprintf(stderr, "by_library: FAILED: %s\n", why);
    exit(100);
}

static struct text read_all(FILE *from) {
    struct text found = {malloc(1), 0};
    size_t room = 1, count;
    while ((count = fread(found.bytes + found.length, 1, room - found.length, from)) > 0) {
        found.length += count;
        if (found.length == room) {
            found.bytes = realloc(found.bytes, room *= 2);
        }
    }
    return found;
}

static struct text read_file(const char *name) {
    FILE *from = fopen(name, "rb");
    if (!from) {
        fail("the other text can't be read");
    }
    struct text found = read_all(from);
    fclose(from);
    return found;
}

static struct text lines_of(char **words) {
    struct text lines = {calloc(1, 1), 0};
    for (char **it = words; *it; it++) {
        size_t length = strlen(*it);
        lines.bytes = realloc(lines.bytes, lines.length + length + 2);
        if (it != words) {
            lines.bytes[lines.length++] = '\n';
        }
        memcpy(lines.bytes + lines.length, *it, length);
        lines.length += length;
    }
    return lines;
}

static int run(const struct question *asked, char *report, size_t room, size_t *wanted) {
    return zirofen_run(asked->words.bytes, asked->words.length, asked->tree.bytes, asked->tree.length, asked->other.bytes,
                       asked->other.length, report, room, wanted);
}

/* As a caller would: once to learn how long the report is, and once for all of it. */
static struct answer ask(const struct question *asked) {
    struct answer found;
    size_t wanted, again;
    found.status = run(asked, NULL, 0, &wanted);
    found.report = (struct text){malloc(wanted + 1), wanted};
    found.report.bytes[wanted] = 0;
    if (run(asked, found.report.bytes, wanted, &again) != found.status || again != wanted) {
        fail("the second call answers otherwise");
    }
    return found;
}

/* Of a long report not each room is tried, but the first and the last. */
static size_t next_room(size_t room, size_t length) { return room + (length < 600 || room < 64 || room + 70 > length ? 1 : 67); }

static void ask_with_each_room(const struct question *asked, const struct answer *whole) {
    for (size_t room = 0; room <= whole->report.length + 2; room = next_room(room, whole->report.length)) {
        /* a block of just that size: what is written behind it, ASan and valgrind see */
        char *report = malloc(room ? room : 1);
        size_t wanted = 12345, front = room < whole->report.length ? room : whole->report.length;
        memset(report, 0x55, room ? room : 1);
        if (run(asked, report, room, &wanted) != whole->status || wanted != whole->report.length) {
            fail("status or length go by the room");
        }
        if (memcmp(report, whole->report.bytes, front) || (room > front && report[front] != 0x55)) {
            fail("what is written isn't the front of the report");
        }
        free(report);
    }
    if (run(asked, whole->report.bytes, whole->report.length, NULL) != whole->status) {
        fail("without a place for the length it answers otherwise");
    }
    struct question without = {asked->words, asked->tree.length ? asked->tree : nothing, asked->other.length ? asked->other : nothing};
    if (run(&without, NULL, 0, NULL) != whole->status) {
        fail("of null pointers in place of texts of no bytes it answers otherwise");
    }
}

static const struct question *of_all;
static const struct answer *expected;

static void *ask_often(void *unused) {
    (void)unused;
    for (int i = 0; i < 20; i++) {
        struct answer found = ask(of_all);
        if (found.status != expected->status || found.report.length != expected->report.length
            || memcmp(found.report.bytes, expected->report.bytes, found.report.length)) {
            fail("a thread was answered otherwise");
        }
        free(found.report.bytes);
    }
    return NULL;
}

static void ask_in_threads(const struct question *asked, const struct answer *whole, int count) {
    pthread_t threads[64];
    pthread_attr_t attributes;
    of_all = asked, expected = whole;
    pthread_attr_init(&attributes);
    pthread_attr_setstacksize(&attributes, ZIROFEN_STACK);
    for (int i = 0; i < count && i < 64; i++) {
        if (pthread_create(&threads[i], &attributes, ask_often, NULL)) {
            fail("a thread doesn't start");
        }
    }
    for (int i = 0; i < count && i < 64; i++) {
        pthread_join(threads[i], NULL);
    }
}

#ifdef REFUSING
/* linked with --wrap=malloc and --wrap=realloc: of the calls since `made` was 0 those from the one number to the other are refused */
static long made, first_refused = LONG_MAX, last_refused;
static int is_refused(void) {
    made++;
    return first_refused <= made && made <= last_refused;
}
void *__real_malloc(size_t size);
void *__real_realloc(void *block, size_t size);
void *__wrap_malloc(size_t size) { return is_refused() ? NULL : __real_malloc(size); }
void *__wrap_realloc(void *block, size_t size) { return is_refused() ? NULL : __real_realloc(block, size); }

/* Whether an answer is that memory was refused, or the whole one, of a fault at least its line. */
static int is_honest(const struct answer *whole, int status, const char *report, size_t length) {
    static const char why[] = "fault: memory\n";
    size_t line = whole->status == ZIROFEN_FAULT ? strcspn(whole->report.bytes, "\n") : whole->report.length;
    int is_told = status == ZIROFEN_FAULT && length == sizeof(why) - 1 && !memcmp(report, why, length);
    return is_told || (status == whole->status && length >= line && !memcmp(report, whole->report.bytes, line));
}

/* Each call in turn is refused, and then each and all behind it. */
static void ask_refused(const struct question *asked, const struct answer *whole) {
    size_t room = whole->report.length + 64, wanted;
    char *report = malloc(room);
    for (int all = 0; all < 2; all++) {
        for (long number = 1;; number++) {
            made = 0, first_refused = number, last_refused = all ? LONG_MAX : number;
            int status = run(asked, report, room, &wanted);
            first_refused = LONG_MAX;
            if (made < number) {
                fprintf(stderr, "  %ld calls refused\n", number - 1);
                break;
            }
            if (wanted > room || !is_honest(whole, status, report, wanted)) {
                fail("where memory is refused it answers otherwise");
            }
        }
    }
    free(report);
}
#endif

int main(int count, char **words) {
    const char *how = count > 1 && !strncmp(words[1], "--", 2) ? words[1] : "";
    int begin = !*how ? 1 : !strcmp(how, "--threads") ? 3 : 2;
    if (count <= begin) {
        fail("no other text is named");
    }
    struct question asked = {lines_of(words + begin + 1), read_all(stdin), read_file(words[begin])};
    struct answer whole = ask(&asked);
    if (!strcmp(how, "--all")) {
        ask_with_each_room(&asked, &whole);
    } else if (!strcmp(how, "--threads")) {
        ask_in_threads(&asked, &whole, atoi(words[2]));
#ifdef REFUSING
    } else if (!strcmp(how, "--refused")) {
        ask_refused(&asked, &whole);
#endif
    }
    fwrite(whole.report.bytes, 1, whole.report.length, whole.status == ZIROFEN_FAULT ? stderr : stdout);
    free(whole.report.bytes);
    free(asked.words.bytes);
    free(asked.tree.bytes);
    free(asked.other.bytes);
    return whole.status;
}
