/* libzirofen: the program zirofen as a call. It checks cgroup v2 delegation on Linux.
 *
 * Compile with what `pkg-config --cflags --libs zirofen` says. examples/before.c is a whole program.
 *
 * What is proved of the call, and what isn't, docs/THEOREMS.md has ("The call for C", "Trusted"). docs/PROGRAMS.md says when to use it.
 *
 * ABI. This is version 0: libzirofen.so.0, in which each name has the version ZIROFEN_0. As long as the file is named so, the call keeps
 * its arguments and the order of its statuses. It may gain functions, and words gain commands and options, as the program does; lines
 * change as those of the program, docs/REPORTS.md ("What is stable"). Whatever breaks a caller makes a libzirofen.so.1.
 */
#ifndef ZIROFEN_H
#define ZIROFEN_H

#include <stddef.h>

#ifdef __cplusplus
extern "C" {
#endif

/* What zirofen_run gives: the status with which the program ends. */
enum {
    /* `contained`, `granted`, `kept`, or done: what was asked is shown. */
    ZIROFEN_YES = 0,
    /* `escapes`, `refused`, `broken`, or of `advise` what to change. */
    ZIROFEN_NO = 1,
    /* `unsettled`: nothing is shown either way. It is no yes. */
    ZIROFEN_UNSETTLED = 2,
    /* The words, the tree or the other text have a fault, or memory was refused. The report is why. It is no yes. */
    ZIROFEN_FAULT = 3
};

/* Runs the program.
 *
 * words   The words of its command line, one a line, without a newline behind the last: "check\n--uid\n1000\n--subtree\n/c0". A name of a
 *         file stands for `other`, whatever it is. No word has a newline.
 * tree    The text of a tree (docs/FORMATS.md), which the program reads from standard input: leave `--tree` out of the words.
 * other   The text of each file that the words name, such as the operations of `replay --ops FILE` or the pairs of `audit --pairs FILE`.
 * report  Where the report goes: what the program writes to standard output, or where the status is 3 to standard error. At most `room`
 *         bytes of it are written there, from its beginning on. No zero is written behind it.
 * wanted  How long the whole report is, in any case, also where there is no room for it. Call again with as much room to have all.
 *
 * Ownership. All memory stays the caller's; the library keeps nothing, and frees all that it allocates before it returns. Texts are read
 * alone, and are bytes with a length: none needs a zero behind it, and one of length 0 may be a null pointer, as `report` may where
 * `room` is 0. `wanted` may be null. `report` and `wanted` overlap nothing else that is passed.
 *
 * Lengths. A tree's text has at most 67108864 bytes. `report` is touched in its first min(room, *wanted) bytes alone.
 *
 * Threads. It may be called from any thread, and from several at once, each with its own `report` and `wanted`: there is no global state.
 * It opens no file, prints nothing, starts no thread and changes no signal. It allocates by malloc, realloc and free, so it isn't to be
 * called from a signal handler, nor in a forked child of a process that had several threads, before that executes a program. A thread
 * needs a stack of ZIROFEN_STACK bytes.
 *
 * Time. It ends by itself. Of a hostile tree it may take as long as the program does: give a tree of somebody else's to a process that can
 * be ended.
 *
 * Memory. Reading takes some tens of bytes for each of an ordinary tree's text, and up to 605 of one made to harm. Where memory is refused
 * the status is 3, and the report the line `fault: memory`. */
int zirofen_run(const char *words, size_t words_length, const char *tree, size_t tree_length, const char *other, size_t other_length,
                char *report, size_t room, size_t *wanted);

/* How many bytes of stack a call has room in. */
#define ZIROFEN_STACK ((size_t)1 << 20)

#ifdef __cplusplus
}
#endif

#endif
