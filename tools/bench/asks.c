/* Asks many questions of one tree: asks PROGRAM TREE WORDS ANSWERS has a question a line in the file WORDS, its words with blanks between
   them. By the library, or where PROGRAM isn't `-` by a run of that program for each; the answers go into the file ANSWERS. It writes the
   seconds of processors and by the clock that the questions took. */
#include <fcntl.h>
#include <spawn.h>
#include <stdio.h>
#include <stdlib.h>
#include <string.h>
#include <sys/resource.h>
#include <sys/wait.h>
#include <time.h>
#include <unistd.h>

#include "zirofen.h"

extern char **environ;
static char tree[1 << 24], words[1 << 16], report[1 << 24];

static double seconds(int who) {
    struct rusage used;
    getrusage(who, &used);
    return (double)(used.ru_utime.tv_sec + used.ru_stime.tv_sec) + (double)(used.ru_utime.tv_usec + used.ru_stime.tv_usec) / 1e6;
}

static double now(void) {
    struct timespec at;
    clock_gettime(CLOCK_MONOTONIC, &at);
    return (double)at.tv_sec + (double)at.tv_nsec / 1e9;
}

static void fail(const char *why) {
    perror(why);
    exit(2);
}

static void ask_library(size_t tree_length, size_t length, FILE *answers) {
    size_t wanted;
    for (size_t at = 0; at < length; at++) {
        words[at] = words[at] == ' ' ? '\n' : words[at];
    }
    int status = zirofen_run(words, length, tree, tree_length, NULL, 0, report, sizeof(report), &wanted);
    if (status == ZIROFEN_FAULT || wanted > sizeof(report)) {
        fail("a fault");
    }
    fwrite(report, 1, wanted, answers);
}

static void ask_program(char *program, const char *file, FILE *answers) {
    char *given[4096] = {program};
    size_t count = 1;
    for (char *word = strtok(words, " "); word && count < 4095; word = strtok(NULL, " ")) {
        given[count++] = word;
    }
    posix_spawn_file_actions_t actions;
    pid_t child;
    int status;
    posix_spawn_file_actions_init(&actions);
    posix_spawn_file_actions_addopen(&actions, 0, file, O_RDONLY, 0);
    posix_spawn_file_actions_adddup2(&actions, fileno(answers), 1);
    fflush(answers);
    if (posix_spawn(&child, program, &actions, NULL, given, environ) || waitpid(child, &status, 0) < 0 || !WIFEXITED(status)
        || WEXITSTATUS(status) == ZIROFEN_FAULT) {
        fail("a run");
    }
    posix_spawn_file_actions_destroy(&actions);
}

int main(int count, char **given) {
    if (count != 5) {
        return 2;
    }
    FILE *from = fopen(given[2], "rb"), *lines = fopen(given[3], "rb"), *answers = fopen(given[4], "wb");
    if (!from || !lines || !answers) {
        fail("a file");
    }
    size_t tree_length = fread(tree, 1, sizeof(tree), from);
    double used = seconds(RUSAGE_SELF) + seconds(RUSAGE_CHILDREN), began = now();
    while (fgets(words, sizeof(words), lines)) {
        words[strcspn(words, "\n")] = 0;
        if (strcmp(given[1], "-")) {
            ask_program(given[1], given[2], answers);
        } else {
            ask_library(tree_length, strlen(words), answers);
        }
    }
    printf("%.4f %.4f\n", seconds(RUSAGE_SELF) + seconds(RUSAGE_CHILDREN) - used, now() - began);
    return fclose(answers) ? 2 : 0;
}
