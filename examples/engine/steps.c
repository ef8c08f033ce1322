/* 3,000 steps of a machine, asked one by one through steps.h: 300 transactions one after another, each of which reads a row, finds what the
 * one before it wrote, writes it anew, and sets the times of both versions. Prints how long that took.
 *
 *     steps [HEK]     the program hek; bin/hek if not given
 *
 * The status is 0 if each answer is the right one. */
#define _GNU_SOURCE
#include "steps.h"

#include <stdio.h>
#include <stdlib.h>
#include <time.h>

#define TXNS 300
#define STEPS 10

static double now(void) {
    struct timespec at;
    clock_gettime(CLOCK_MONOTONIC, &at);
    return (double)at.tv_sec + (double)at.tv_nsec * 1e-9;
}

/* A file of one row and the transactions; its name is in `path`. */
static bool made(char *path) {
    int number = mkstemps(path, 4);
    FILE *file = number < 0 ? NULL : fdopen(number, "w");
    if (file == NULL) return false;
    fprintf(file, "buckets 1\nrow 10 0\n");
    for (int txn = 1; txn <= TXNS; txn++) fprintf(file, "txn t%d repeatable\n", txn);
    return fclose(file) == 0;
}

int main(int count, char **words) {
    const char *hek = count > 1 ? words[1] : "bin/hek";
    char path[] = "/tmp/stepsXXXXXX.hek", event[80], answer[DRIVE_ANSWER], wanted[160];
    struct drive drive;
    int wrong = 0, number = 0;
    if (!made(path) || !drive_start(&drive, hek, path)) {
        perror("steps");
        return 1;
    }
    double began = now();
    for (int txn = 1; txn <= TXNS; txn++) {
        /* Its begin and its end take a time each. Version 0 is the row that was loaded, version N that of the N-th transaction. */
        const struct {
            const char *event, *reply;
            int operand, number;
        } rows[STEPS] = {
            {"begin", "began", -1, 2 * txn - 1},  {"read 10", "found", -1, txn - 1},
            {"update 10", "done", txn, -1},       {"read 10", "found", -1, txn},
            {"finish", "ready", -1, -1},          {"precommit", "precommitted", -1, 2 * txn},
            {"commit", "committed", -1, -1},      {"stamp", "stamped end", -1, txn - 1},
            {"stamp", "stamped begin", -1, txn},  {"end", "over", -1, -1},
        };
        for (int step = 0; step < STEPS; step++) {
            int length = snprintf(event, sizeof event, "t%d %s", txn, rows[step].event);
            if (rows[step].operand >= 0) snprintf(event + length, sizeof event - (size_t)length, " %d", rows[step].operand);
            length = snprintf(wanted, sizeof wanted, "%d %s -> %s", ++number, event, rows[step].reply);
            if (rows[step].number >= 0) snprintf(wanted + length, sizeof wanted - (size_t)length, " %d", rows[step].number);
            long came = drive_ask(&drive, event, answer, sizeof answer);
            if ((came < 0 || strcmp(answer, wanted) != 0) && wrong++ < 5) printf("%s: %ld, %s, and not %s\n", event, came, answer, wanted);
        }
    }
    double seconds = now() - began;
    int status = drive_close(&drive);
    unlink(path);
    printf("%d steps in %.3f seconds, %d wrong\n", number, seconds, wrong);
    return wrong == 0 && status == 0 ? 0 : 1;
}
