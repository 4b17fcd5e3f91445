/* The init of a small machine: it builds trees of cgroups, carries out operations as the users that are named, and tells what
   became of each. Lines of /cases go in, lines of tests/kernel/trial/script.py come out on the second serial port. It knows no rule:
   what should have become of an operation is told by the program, outside. */
#define _GNU_SOURCE
#include <dirent.h>
#include <errno.h>
#include <fcntl.h>
#include <grp.h>
#include <linux/sched.h>
#include <poll.h>
#include <signal.h>
#include <stdio.h>
#include <stdlib.h>
#include <string.h>
#include <sys/mount.h>
#include <sys/reboot.h>
#include <sys/stat.h>
#include <sys/syscall.h>
#include <sys/wait.h>
#include <sys/xattr.h>
#include <termios.h>
#include <unistd.h>
#include "ways.h"

#define TOP "/sys/fs/cgroup"
#define PROCS "cgroup.procs"
#define CONTROL "cgroup.subtree_control"
#define LONGEST 8192
#define MOST_BYTES 256
#define MOST_WORDS 64
#define MOST_PROCESSES 256
#define MOST_LINES 1024
#define NOBODY 4194303
#define NO_ANSWER 255

struct process {
    int id;
    pid_t pid;
};

struct birth {
    pid_t parent;
    int child;
};

struct user {
    uid_t uid;
    gid_t gids[MOST_WORDS];
    int count;
};

static struct process processes[MOST_PROCESSES];
static int process_count;
static int births[2];
/* those that are told of in each case, and behind them those of one case */
static char *files[2 * MOST_WORDS];
static int file_count, lasting_count;
static char *others[MOST_WORDS];
static int other_count;
static char *before[MOST_LINES];
static int before_count;
static struct user user;
static FILE *out;

/* The place of a cgroup's entry below the mount; `dir` is the directory itself. */
static void place_of(char *place, const char *path, const char *entry)
{
    int length = snprintf(place, LONGEST, "%s%s", TOP, strcmp(path, "/") == 0 ? "" : path);

    if (entry && strcmp(entry, "dir") != 0)
        snprintf(place + length, LONGEST - length, "/%s", entry);
}

static int write_text(const char *path, const char *entry, const char *text)
{
    char place[LONGEST];
    int file, wrong;
    size_t length = strlen(text);

    place_of(place, path, entry);
    file = open(place, O_WRONLY | O_CLOEXEC);
    if (file < 0)
        return errno;
    wrong = write(file, text, length) == (ssize_t)length ? 0 : errno;
    close(file);
    return wrong;
}

static int write_number(const char *path, const char *entry, int number)
{
    char text[32];

    snprintf(text, sizeof text, "%d", number);
    return write_text(path, entry, text);
}

static pid_t pid_of(int id)
{
    for (int at = 0; at < process_count; at++)
        if (processes[at].id == id)
            return processes[at].pid;
    return NOBODY;
}

static void remember(int id, pid_t pid)
{
    if (process_count < MOST_PROCESSES)
        processes[process_count++] = (struct process){id, pid};
}

/* A process that is asked to fork does so, and tells init of its child. */
static void asked_to_fork(int number)
{
    struct birth birth = {getpid(), fork()};

    (void)number;
    if (birth.child == 0)
        return;
    if (birth.child < 0)
        birth.child = -errno;
    if (write(births[1], &birth, sizeof birth) < 0)
        _exit(1);
}

static void sleep_for_ever(void)
{
    signal(SIGCHLD, SIG_IGN);
    signal(SIGUSR1, asked_to_fork);
    for (;;)
        pause();
}

static int become(const struct user *who)
{
    if (setgroups(who->count, who->gids) < 0 || setresgid(who->gids[0], who->gids[0], who->gids[0]) < 0)
        return errno;
    return setresuid(who->uid, who->uid, who->uid) < 0 ? errno : 0;
}

/* The child of a process that was asked for one, or an error number below zero. It waits for so many turns, and not so long,
   since a machine on a busy host may stand still for seconds. */
static int next_birth(pid_t parent)
{
    struct pollfd waiting = {births[0], POLLIN, 0};
    struct birth birth;

    for (int turn = 0; turn < 1000; turn++)
        while (poll(&waiting, 1, 1) == 1 && read(births[0], &birth, sizeof birth) == sizeof birth)
            if (parent == 0 || birth.parent == parent)
                return birth.child;
    return -NO_ANSWER;
}

static void reap(void)
{
    while (waitpid(-1, NULL, WNOHANG) > 0)
        ;
}

static void wait_for_end(pid_t pid)
{
    for (int turn = 0; turn < 2000 && kill(pid, 0) == 0; turn++) {
        reap();
        usleep(500);
    }
}

/* process ID UID PATH: a sleeping process of a user */
static int start_process(char **words)
{
    struct user who = {(uid_t)strtoul(words[2], NULL, 10), {0}, 1};
    struct birth birth = {0, 0};
    pid_t pid;

    who.gids[0] = who.uid;
    pid = fork();
    if (pid == 0) {
        birth.child = become(&who) ? -1 : (int)getpid();
        signal(SIGUSR1, asked_to_fork);
        if (write(births[1], &birth, sizeof birth) < 0)
            _exit(1);
        sleep_for_ever();
    }
    if (pid < 0 || next_birth(0) != pid)
        return ECHILD;
    remember(atoi(words[1]), pid);
    return write_number(words[3], PROCS, pid);
}

/* own PATH ENTRY UID GID MODE */
static int own(char **words)
{
    char place[LONGEST];

    place_of(place, words[1], words[2]);
    if (chown(place, (uid_t)strtoul(words[3], NULL, 10), (gid_t)strtoul(words[4], NULL, 10)) < 0)
        return errno;
    return chmod(place, strtoul(words[5], NULL, 8)) < 0 ? errno : 0;
}

static int make(char **words)
{
    char place[LONGEST];

    place_of(place, words[1], NULL);
    return mkdir(place, 0755) < 0 ? errno : 0;
}

static int unmake(char **words)
{
    char place[LONGEST];

    place_of(place, words[1], NULL);
    return rmdir(place) < 0 ? errno : 0;
}

static int move(char **words)
{
    return write_number(words[2], PROCS, pid_of(atoi(words[1])));
}

static int move_thread(char **words)
{
    return write_number(words[2], "cgroup.threads", pid_of(atoi(words[1])));
}

static int control(char **words)
{
    char text[LONGEST] = "";

    for (int at = 2; words[at]; at++) {
        strcat(text, words[at]);
        strcat(text, " ");
    }
    return write_text(words[1], CONTROL, strcat(text, "\n"));
}

/* set PATH FILE VALUE, of one word or several */
static int set(char **words)
{
    char text[LONGEST] = "";

    for (int at = 3; words[at]; at++)
        strcat(strcat(text, at > 3 ? " " : ""), words[at]);
    return write_text(words[1], words[2], text);
}

static int change_mode(char **words)
{
    char place[LONGEST];

    place_of(place, words[1], words[2]);
    return chmod(place, strtoul(words[3], NULL, 8)) < 0 ? errno : 0;
}

/* chown PATH ENTRY UID or UID:GID */
static int change_owner(char **words)
{
    char place[LONGEST], *rest;
    uid_t uid = (uid_t)strtoul(words[3], &rest, 10);
    gid_t gid = *rest == ':' ? (gid_t)strtoul(rest + 1, NULL, 10) : (gid_t)-1;

    place_of(place, words[1], words[2]);
    return chown(place, uid, gid) < 0 ? errno : 0;
}

static int change_name(char **words)
{
    char from[LONGEST], to[LONGEST];

    place_of(from, words[1], NULL);
    place_of(to, words[2], NULL);
    return rename(from, to) < 0 ? errno : 0;
}

static int set_attribute(char **words)
{
    char place[LONGEST];

    place_of(place, words[1], words[2]);
    return setxattr(place, "user.zirofen", "1", 1, 0) < 0 ? errno : 0;
}

static int ask_to_fork(char **words)
{
    return kill(pid_of(atoi(words[1])), SIGUSR1) < 0 ? errno : 0;
}

static int end_process(char **words)
{
    return kill(pid_of(atoi(words[1])), SIGKILL) < 0 ? errno : 0;
}

/* born PATH ID: a process that is made in a cgroup */
static int born(char **words)
{
    char place[LONGEST];
    struct clone_args how = {.flags = CLONE_INTO_CGROUP, .exit_signal = SIGCHLD};
    struct birth birth = {1, 0};
    int folder;

    place_of(place, words[1], NULL);
    folder = open(place, O_PATH | O_DIRECTORY);
    if (folder < 0)
        return errno;
    how.cgroup = (unsigned long long)folder;
    birth.child = (int)syscall(SYS_clone3, &how, sizeof how);
    if (birth.child < 0)
        return errno;
    if (birth.child == 0)
        sleep_for_ever();
    return write(births[1], &birth, sizeof birth) < 0 ? errno : 0;
}

struct word {
    const char *name;
    int count;
    int (*does)(char **words);
};

static const struct word building[] = {
    {"mkdir", 2, make}, {"control", 2, control}, {"set", 4, set}, {"own", 6, own}, {"process", 4, start_process}, {NULL, 0, NULL}};
static const struct word operations[] = {
    {"move", 3, move}, {"control", 2, control}, {"mkdir", 2, make}, {"rmdir", 2, unmake}, {"set", 4, set},
    {"fork", 3, ask_to_fork}, {"exit", 2, end_process}, {"chmod", 4, change_mode}, {"threads", 3, move_thread},
    {"rename", 3, change_name}, {"xattr", 3, set_attribute}, {"chown", 4, change_owner}, {"born", 3, born}, {"write", 4, set},
    {NULL, 0, NULL}};

static int do_word(const struct word *able, char **words, int count)
{
    for (; able->name; able++)
        if (strcmp(able->name, words[0]) == 0)
            return count >= able->count ? able->does(words) : EBADMSG;
    return EBADMSG;
}

/* An operation is carried out by a process of the user, with their groups and without capabilities. */
static int operate(char **words, int count)
{
    int status, wrong;
    pid_t helper = fork();

    if (helper == 0) {
        alarm(30);
        umask(022);
        wrong = become(&user);
        _exit(wrong ? NO_ANSWER - 1 : do_word(operations, words, count));
    }
    if (helper < 0 || waitpid(helper, &status, 0) != helper || !WIFEXITED(status))
        return NO_ANSWER;
    return WEXITSTATUS(status);
}

/* What follows an operation that was let through: a child is remembered, an end is waited for. */
static int follow(char **words)
{
    int child;

    if (strcmp(words[0], "exit") == 0)
        wait_for_end(pid_of(atoi(words[1])));
    if (strcmp(words[0], "fork") != 0 && strcmp(words[0], "born") != 0)
        return 0;
    child = next_birth(strcmp(words[0], "born") == 0 ? 1 : pid_of(atoi(words[1])));
    if (child < 0)
        return -child;
    remember(atoi(words[2]), child);
    return 0;
}

/* Adds UID:GID:MODE of an entry that stands in a folder, and tells whether it does. */
static int add_entry(char *line, int folder, const char *entry, const char *before_it)
{
    struct stat found;
    int length = strlen(line);

    if (fstatat(folder, entry, &found, 0) < 0)
        return 0;
    snprintf(line + length, LONGEST - length, " %s%u:%u:%o", before_it, found.st_uid, found.st_gid, found.st_mode & 07777);
    return 1;
}

/* The first line of a file. */
static void read_text(char *text, size_t most, int folder, const char *name)
{
    int file = openat(folder, name, O_RDONLY | O_CLOEXEC);
    ssize_t length = file < 0 ? 0 : read(file, text, most - 1);

    text[length > 0 ? length : 0] = 0;
    text[strcspn(text, "\n")] = 0;
    if (file >= 0)
        close(file);
}

/* Adds what a file shows, without the newline at its end, and as one word: a space, a newline and a percent sign as %XX. */
static void add_value(char *line, int folder, const char *name)
{
    char value[MOST_BYTES];
    int file = openat(folder, name, O_RDONLY | O_CLOEXEC), length = strlen(line);
    ssize_t count = file < 0 ? 0 : read(file, value, sizeof value);

    if (file >= 0)
        close(file);
    if (count > 0 && value[count - 1] == '\n')
        count--;
    for (ssize_t at = 0; at < count; at++)
        length += sprintf(line + length, strchr(" \n%", value[at]) ? "%%%02X" : "%c", value[at]);
}

static void add_file(char *line, int folder, const char *name)
{
    char before_it[64];

    snprintf(before_it, sizeof before_it, "%s=", name);
    if (strlen(line) > LONGEST - 4 * MOST_BYTES || !add_entry(line, folder, name, before_it))
        return;
    strcat(line, ":");
    add_value(line, folder, name);
}

/* Adds NAME of a file, and of no directory, that stands in a folder. */
static void add_other(char *line, int folder, const char *name)
{
    struct stat found;

    if (fstatat(folder, name, &found, 0) == 0 && S_ISREG(found.st_mode))
        strcat(strcat(line, " "), name);
}

/* c PATH ENABLED DIR PROCS CONTROL FILE=UID:GID:MODE:VALUE .. OTHER .. */
static char *line_of_cgroup(const char *path, int folder)
{
    char line[LONGEST], enabled[256];

    read_text(enabled, sizeof enabled, folder, CONTROL);
    for (char *at = enabled; *at; at++)
        if (*at == ' ')
            *at = ',';
    snprintf(line, sizeof line, "c %s %s", path, *enabled ? enabled : "-");
    add_entry(line, folder, ".", "");
    add_entry(line, folder, PROCS, "");
    add_entry(line, folder, CONTROL, "");
    for (int at = 0; at < file_count; at++)
        add_file(line, folder, files[at]);
    for (int at = 0; at < other_count; at++)
        add_other(line, folder, others[at]);
    return strdup(line);
}

static int lines_of_tree(char **lines, int count, const char *path)
{
    char place[LONGEST], below[LONGEST];
    struct dirent *found;
    DIR *folder;

    place_of(place, path, NULL);
    folder = opendir(place);
    if (!folder || count >= MOST_LINES)
        return count;
    lines[count++] = line_of_cgroup(path, dirfd(folder));
    while ((found = readdir(folder)))
        if (found->d_type == DT_DIR && strcmp(found->d_name, ".") != 0 && strcmp(found->d_name, "..") != 0) {
            snprintf(below, sizeof below, "%.4096s/%s", strcmp(path, "/") == 0 ? "" : path, found->d_name);
            count = lines_of_tree(lines, count, below);
        }
    closedir(folder);
    return count;
}

/* p ID UID PATH */
static int lines_of_processes(char **lines, int count)
{
    char line[LONGEST], place[64], text[LONGEST - 64];
    struct stat found;

    for (int at = 0; at < process_count && count < MOST_LINES; at++) {
        snprintf(place, sizeof place, "/proc/%d", processes[at].pid);
        if (stat(place, &found) < 0)
            continue;
        strcat(place, "/cgroup");
        read_text(text, sizeof text, AT_FDCWD, place);
        if (strncmp(text, "0::", 3) != 0)
            continue;
        snprintf(line, sizeof line, "p %d %u %s", processes[at].id, found.st_uid, text + 3);
        lines[count++] = strdup(line);
    }
    return count;
}

static void tell_missing(char **lines, int count, char **from, int from_count, char sign)
{
    for (int at = 0; at < count; at++) {
        int other = 0;

        while (other < from_count && strcmp(lines[at], from[other]) != 0)
            other++;
        if (other == from_count)
            fprintf(out, "%c%s\n", sign, lines[at]);
    }
}

/* What changed since the state was told last. */
static void tell_state(void)
{
    static char *now[MOST_LINES];
    int count;

    reap();
    count = lines_of_processes(now, lines_of_tree(now, 0, "/"));
    tell_missing(before, before_count, now, count, '-');
    tell_missing(now, count, before, before_count, '+');
    while (before_count > 0)
        free(before[--before_count]);
    memcpy(before, now, sizeof before);
    before_count = count;
    fputs(".\n", out);
    fflush(out);
}

static void remove_below(const char *path)
{
    char place[LONGEST], below[LONGEST];
    struct dirent *found;
    DIR *folder;

    place_of(place, path, NULL);
    folder = opendir(place);
    while (folder && (found = readdir(folder)))
        if (found->d_type == DT_DIR && strcmp(found->d_name, ".") != 0 && strcmp(found->d_name, "..") != 0) {
            snprintf(below, sizeof below, "%.4096s/%s", strcmp(path, "/") == 0 ? "" : path, found->d_name);
            remove_below(below);
            place_of(place, below, NULL);
            for (int turn = 0; turn < 2000 && rmdir(place) < 0 && errno == EBUSY; turn++) {
                reap();
                usleep(500);
            }
        }
    if (folder)
        closedir(folder);
}

/* Takes away all that the root enables. */
static void disable_all(void)
{
    char enabled[256], text[LONGEST] = "";

    read_text(enabled, sizeof enabled, AT_FDCWD, TOP "/" CONTROL);
    for (char *word = strtok(enabled, " "); word; word = strtok(NULL, " "))
        strcat(strcat(strcat(text, "-"), word), " ");
    write_text("/", CONTROL, strcat(text, "\n"));
}

/* Ends every process, and takes the tree back to its bare root. */
static void clear(void)
{
    struct birth birth;

    kill(-1, SIGKILL);
    while (waitpid(-1, NULL, 0) > 0)
        ;
    while (read(births[0], &birth, sizeof birth) == sizeof birth)
        ;
    process_count = 0;
    remove_below("/");
    disable_all();
    for (int at = 0; at < file_count; at++) {
        char *words[] = {"own", "/", files[at], "0", "0", "644", NULL};

        own(words);
        write_text("/", files[at], "max");
    }
    own((char *[]){"own", "/", PROCS, "0", "0", "644", NULL});
    own((char *[]){"own", "/", CONTROL, "0", "0", "644", NULL});
    own((char *[]){"own", "/", "dir", "0", "0", "755", NULL});
    while (before_count > 0)
        free(before[--before_count]);
}

static void name_user(char **words, int count)
{
    user.uid = (uid_t)strtoul(words[1], NULL, 10);
    user.count = count - 2;
    for (int at = 2; at < count; at++)
        user.gids[at - 2] = (gid_t)strtoul(words[at], NULL, 10);
}

/* mend OPERATION, which init carries out itself, as root; do OPERATION; try OPERATION. The state is told after what is done,
   and after what was tried where it was let through. */
static int carry_out(char **words, int count)
{
    int wrong, is_mend = strcmp(words[0], "mend") == 0;

    if (count < 2 || (!is_mend && strcmp(words[0], "do") != 0 && strcmp(words[0], "try") != 0))
        return 0;
    wrong = is_mend ? do_word(operations, words + 1, count - 1) : operate(words + 1, count - 1);
    if (wrong == 0)
        wrong = follow(words + 1);
    fprintf(out, "o %d\n", wrong);
    if (wrong == 0 || strcmp(words[0], "try") != 0)
        tell_state();
    else
        fputs(".\n", out);
    return 1;
}

static int keep_words(char **kept, char **words, int count)
{
    for (int at = 1; at < count; at++)
        kept[at - 1] = strdup(words[at]);
    return count - 1;
}

/* Runs a program with the words behind its name, and tells its lines, each behind a sign. */
static void run_program(const char *program, char sign, char **words)
{
    char line[LONGEST];
    int ends[2];
    pid_t pid;
    FILE *said;

    if (pipe2(ends, O_CLOEXEC) < 0 || (pid = fork()) < 0) {
        fprintf(out, "! %d %s\n", errno, words[0]);
        return;
    }
    if (pid == 0) {
        dup2(ends[1], STDOUT_FILENO);
        execv(program, words);
        _exit(127);
    }
    close(ends[1]);
    said = fdopen(ends[0], "r");
    while (said && fgets(line, sizeof line, said))
        fprintf(out, "%c %s", sign, line);
    if (said)
        fclose(said);
    waitpid(pid, NULL, 0);
}

/* The kernel's own test skips a case where the mount doesn't hold processes within their cgroup namespace. */
static void run_selftests(char **words)
{
    if (mount(NULL, TOP, NULL, MS_REMOUNT, "nsdelegate") < 0)
        fprintf(out, "! %d %s\n", errno, words[0]);
    run_program("/test_core", 's', words);
}

/* case NUMBER | state | files NAME .. | watch NAME .. | others NAME .. | user UID GID .. | refusals [--opened] | selftests |
   way NAME | an operation | a line of building */
static void take(char **words, int count)
{
    int wrong;

    if (strcmp(words[0], "case") == 0) {
        while (file_count > lasting_count)
            free(files[--file_count]);
        clear();
        fprintf(out, "case %s\n", words[1]);
    } else if (strcmp(words[0], "state") == 0) {
        tell_state();
    } else if (strcmp(words[0], "files") == 0) {
        file_count = lasting_count = keep_words(files, words, count);
    } else if (strcmp(words[0], "watch") == 0) {
        file_count = lasting_count + keep_words(files + lasting_count, words, count);
    } else if (strcmp(words[0], "others") == 0) {
        other_count = keep_words(others, words, count);
    } else if (strcmp(words[0], "user") == 0) {
        name_user(words, count);
    } else if (strcmp(words[0], "refusals") == 0) {
        run_program("/refusals", 't', words);
    } else if (strcmp(words[0], "selftests") == 0) {
        run_selftests(words);
    } else if (strcmp(words[0], "way") == 0 && count > 1) {
        carry_out_way(out, TOP, words[1]);
    } else if (!carry_out(words, count) && (wrong = do_word(building, words, count)) != 0) {
        fprintf(out, "! %d %s %s\n", wrong, words[0], count > 1 ? words[1] : "");
    }
}

static void open_all(void)
{
    struct termios plain;

    mount("dev", "/dev", "devtmpfs", 0, NULL);
    mount("proc", "/proc", "proc", 0, NULL);
    mount("sys", "/sys", "sysfs", 0, NULL);
    out = fopen("/dev/ttyS1", "w");
    if (!out)
        reboot(RB_AUTOBOOT);
    tcgetattr(fileno(out), &plain);
    cfmakeraw(&plain);
    tcsetattr(fileno(out), TCSANOW, &plain);
    if (mount("cgroup2", TOP, "cgroup2", 0, NULL) < 0)
        fprintf(out, "! %d mount cgroup2\n", errno);
    if (pipe2(births, O_CLOEXEC) < 0 || fcntl(births[0], F_SETFL, O_NONBLOCK) < 0)
        fprintf(out, "! %d pipe\n", errno);
}

/* controllers NAME .. */
static void tell_controllers(void)
{
    char text[LONGEST];

    read_text(text, sizeof text, AT_FDCWD, TOP "/cgroup.controllers");
    fprintf(out, "controllers %s\n", text);
}

int main(int given_count, char **given)
{
    char line[LONGEST], *words[MOST_WORDS + 1];
    FILE *cases;

    if (given_count == 2 && strcmp(given[1], WAITS) == 0)
        for (;;)
            pause();
    umask(022);
    open_all();
    tell_controllers();
    cases = fopen("/cases", "r");
    while (cases && fgets(line, sizeof line, cases)) {
        int count = 0;

        for (char *word = strtok(line, " \n"); word && count < MOST_WORDS; word = strtok(NULL, " \n"))
            words[count++] = word;
        words[count] = NULL;
        if (count > 0)
            take(words, count);
    }
    fputs("end\n", out);
    fflush(out);
    tcdrain(fileno(out));
    reboot(RB_AUTOBOOT);
    return 0;
}
