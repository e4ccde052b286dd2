/* Time of program flowload beside the same program in plain C, in one run: rounds that alternate, in each of which every program writes the
 * same load to /dev/null, and the median round. The time is from the start of a program to its end.
 *
 *     load ROWS FLOWLOAD PLAIN-BY-GCC [PLAIN-BY-CLANG]
 */
#define _POSIX_C_SOURCE 200809L
#include "results.h"
#include "timing.h"
#include <fcntl.h>
#include <spawn.h>
#include <stdint.h>
#include <stdio.h>
#include <stdlib.h>
#include <string.h>
#include <sys/wait.h>
#include <unistd.h>

enum { CALLS = 10000000, CALLS_COMPARED = 100000, FLOWS = 1000, ROUNDS = 21, INPUT = 32, CALL = 18 };

enum { FLOWLOAD, PLAIN_GCC, PLAIN_CLANG, CONTESTANTS };
static const char *const names[] = {"flowload", "plain C by gcc", "plain C by clang"};
static char *paths[CONTESTANTS]; /* NULL where a program is not there */
static struct column columns[1] = {{.rounds = ROUNDS}};

extern char **environ;

static _Noreturn void fail(const char *what)
{
    printf("%s: cannot be opened or started, or ends badly\n", what);
    exit(1);
}

/* A pipe that holds the 32 bytes of a load, and then ends. */
static int load_of(uint64_t calls)
{
    const uint64_t numbers[INPUT / 8] = {88172645463325252, 0, FLOWS, calls};
    uint8_t bytes[INPUT];
    int ends[2];
    for (int i = 0; i < INPUT; i++) {
        bytes[i] = (uint8_t)(numbers[i / 8] >> 8 * (7 - i % 8));
    }
    if (pipe(ends) != 0 || write(ends[1], bytes, INPUT) != INPUT || close(ends[1]) != 0) {
        fail("a pipe");
    }
    return ends[0];
}

/* A contestant with these two files as standard input and output. They are closed here, so that a pipe ends with the program. */
static pid_t start(int c, int input, int output)
{
    posix_spawn_file_actions_t actions;
    pid_t child;
    if (posix_spawn_file_actions_init(&actions) != 0 || posix_spawn_file_actions_adddup2(&actions, input, STDIN_FILENO) != 0 ||
        posix_spawn_file_actions_adddup2(&actions, output, STDOUT_FILENO) != 0 ||
        posix_spawn(&child, paths[c], &actions, NULL, (char *[]){paths[c], NULL}, environ) != 0) {
        fail(paths[c]);
    }
    posix_spawn_file_actions_destroy(&actions);
    close(input);
    close(output);
    return child;
}

static void await(int c, pid_t child)
{
    int status;
    if (waitpid(child, &status, 0) != child || !WIFEXITED(status) || WEXITSTATUS(status) != 0) {
        fail(paths[c]);
    }
}

/* One round: nanoseconds a call. */
static double round_of(int c)
{
    int input = load_of(CALLS), output = open("/dev/null", O_WRONLY);
    if (output < 0) {
        fail("/dev/null");
    }
    double before = now();
    await(c, start(c, input, output));
    return (now() - before) / CALLS;
}

/* All that a contestant writes, into room for one byte more than it should; how many bytes these are. */
static size_t written_by(int c, uint8_t *to)
{
    size_t got = 0, room = (size_t)CALL * CALLS_COMPARED + 1;
    int ends[2];
    if (pipe(ends) != 0 || fcntl(ends[0], F_SETFD, FD_CLOEXEC) != 0) {
        fail("a pipe");
    }
    pid_t child = start(c, load_of(CALLS_COMPARED), ends[1]);
    for (ssize_t more = 1; more > 0 && got < room; got += (size_t)more) {
        more = read(ends[0], to + got, room - got);
        if (more < 0) {
            fail(paths[c]);
        }
    }
    close(ends[0]);
    await(c, child);
    return got;
}

/* 0 where all write the same. */
static int compare(const int *contestants, int count)
{
    static uint8_t first[CALL * CALLS_COMPARED + 1], other[CALL * CALLS_COMPARED + 1];
    for (int i = 0; i < count; i++) {
        if (written_by(contestants[i], i == 0 ? first : other) != (size_t)CALL * CALLS_COMPARED ||
            (i > 0 && memcmp(first, other, (size_t)CALL * CALLS_COMPARED) != 0)) {
            printf("%s: writes something else\n", names[contestants[i]]);
            return 1;
        }
    }
    return 0;
}

/* The aim is beside the faster of the compilers that are there. */
static void print_aim_of_load(FILE *to)
{
    int clang = paths[PLAIN_CLANG] != NULL && time_of(columns, PLAIN_CLANG) < time_of(columns, PLAIN_GCC);
    print_aim(to,
              &(struct aim){"flowload to plain C by the faster of gcc and clang, 1,000 flows", FLOWLOAD, clang ? PLAIN_CLANG : PLAIN_GCC,
                            columns, 1, {1.50}},
              paths[PLAIN_CLANG] != NULL);
}

int main(int words, char **word)
{
    FILE *aims = open_aims(words, word);
    int order[CONTESTANTS], count = 0;
    if (aims == NULL || words < 4 || words > 2 + CONTESTANTS) {
        return 1;
    }
    while (count < words - 2) {
        order[count] = count;
        paths[count] = word[2 + count];
        count++;
    }
    if (compare(order, count) != 0) {
        return 1;
    }
    for (int round = 0; round < ROUNDS; round++) {
        shuffle(order, count);
        for (int i = 0; i < count; i++) {
            columns[0].times[order[i]][round] = round_of(order[i]);
        }
    }
    printf("\n| load over 1,000 flows, to /dev/null | million calls a second | ns a call | flowload's time to it |\n|---|---|---|---|\n");
    for (int c = 0; c < count; c++) {
        double time = time_of(columns, c);
        printf("| %s | %.0f | %.2f | %.2f |\n", names[c], 1e3 / time, time, ratio_of(columns, FLOWLOAD, c));
    }
    print_aim_of_load(aims);
    return fclose(aims) != 0;
}
