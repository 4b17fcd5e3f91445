/* Before a subtree is handed out, does it hold? before UID SUBTREE <TREE ends with 0 where it does, and else with 1, or 2 for a fault. */
#include <stdio.h>
#include <stdlib.h>
#include <zirofen.h>

static char tree[1 << 20], words[8192], *report;

int main(int count, char **given) {
    if (count != 3) {
        return 2;
    }
    /* a word a line, as on the command line: check --uid UID --subtree=SUBTREE */
    size_t length = (size_t)snprintf(words, sizeof(words), "check\n--uid\n%s\n--subtree=%s", given[1], given[2]);
    size_t tree_length = fread(tree, 1, sizeof(tree), stdin);
    if (length >= sizeof(words) || tree_length == sizeof(tree)) {
        return 2;
    }

    /* once for the length of the report, and once for the report */
    size_t wanted;
    zirofen_run(words, length, tree, tree_length, NULL, 0, NULL, 0, &wanted);
    report = malloc(wanted + 1);
    if (!report) {
        return 2;
    }
    int status = zirofen_run(words, length, tree, tree_length, NULL, 0, report, wanted, &wanted);
    report[wanted] = 0;

    switch (status) {
    case ZIROFEN_YES:
        puts("hand it out");
        return 0;
    case ZIROFEN_FAULT:
        fputs(report, stderr);
        return 2;
    default: /* escapes, unsettled, or what a later version says: none of them is a yes */
        printf("keep it:\n%s", report);
        return 1;
    }
}
