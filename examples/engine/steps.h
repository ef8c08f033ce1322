/* The machine of Hek in a program in C: a process `hek drive` behind a handle. The machine keeps its state between two steps, so each
 * step costs what the step costs, however many came before it. For Linux; in C or C++.
 *
 *     struct drive drive;
 *     char answer[DRIVE_ANSWER];
 *     if (!drive_start(&drive, "bin/hek", "rows.hek")) ..
 *     if (drive_ask(&drive, "a read 10", answer, sizeof answer) >= 0) puts(answer);     // 3 a read 10 -> found 100
 *     drive_close(&drive);
 *
 * The caller gives the room of a handle and of each answer. A handle is of one thread at a time. It runs one machine: that of the rows and
 * transactions of the schedule text FILE, after the steps that were asked of it and answered without a fault. */
#ifndef HEK_STEPS_H
#define HEK_STEPS_H

#include <errno.h>
#include <spawn.h>
#include <stdbool.h>
#include <string.h>
#include <sys/socket.h>
#include <sys/wait.h>
#include <unistd.h>

/* Room enough for the answer to an event, unless it lists more than a hundred rows. */
#define DRIVE_ANSWER 4096

/* The greatest length of an event. */
#define DRIVE_EVENT 1024

#define DRIVE_ENDED (-1)   /* the process has ended, or can't be reached: close the handle */
#define DRIVE_NO_ROOM (-2) /* the answer has more bytes than there is room for: the step is done, and `answer` has its front */
#define DRIVE_NO_LINE (-3) /* the event has an end of line in it, or more than DRIVE_EVENT bytes: nothing was asked */

struct drive {
    pid_t process;
    int line;          /* both ways, to the process and back; -1: closed */
    size_t from, to;   /* the bytes of `got` that no answer has taken yet */
    char got[DRIVE_ANSWER];
};

extern char **environ;

/* Starts `HEK drive --text --ends FILE`; HEK is the path of the program. False, with errno, if that fails. That the process can't read
 * FILE shows at the first step, which is answered by DRIVE_ENDED. */
static inline bool drive_start(struct drive *drive, const char *hek, const char *file) {
    int ends[2];
    char command[] = "drive", text[] = "--text", with_ends[] = "--ends";
    char *words[] = {(char *)hek, command, text, with_ends, (char *)file, NULL};
    drive->line = -1;
    drive->from = drive->to = 0;
    if (socketpair(AF_UNIX, SOCK_STREAM | SOCK_CLOEXEC, 0, ends) != 0) return false;
    posix_spawn_file_actions_t actions;
    int failed = posix_spawn_file_actions_init(&actions);
    if (failed == 0) {
        failed = posix_spawn_file_actions_adddup2(&actions, ends[1], STDIN_FILENO);
        if (failed == 0) failed = posix_spawn_file_actions_adddup2(&actions, ends[1], STDOUT_FILENO);
        if (failed == 0) failed = posix_spawn(&drive->process, hek, &actions, NULL, words, environ);
        posix_spawn_file_actions_destroy(&actions);
    }
    close(ends[1]);
    if (failed != 0) {
        close(ends[0]);
        errno = failed;
        return false;
    }
    drive->line = ends[0];
    return true;
}

/* The next byte that the process prints; -1 if it prints no more. */
static inline int drive_next(struct drive *drive) {
    while (drive->from == drive->to) {
        ssize_t count = recv(drive->line, drive->got, sizeof drive->got, 0);
        if (count < 0 && errno == EINTR) continue;
        if (count <= 0) return -1;
        drive->from = 0;
        drive->to = (size_t)count;
    }
    return (unsigned char)drive->got[drive->from++];
}

/* Asks one event, and waits for its answer: the line of the trace, as `3 a read 10 -> found 100`, or `? line 3: ..` of an event at fault,
 * which changes nothing. The answer is ended by a 0, without an end of line; the number of its bytes is returned, or one of the three
 * numbers above. */
static inline long drive_ask(struct drive *drive, const char *event, char *answer, size_t room) {
    char line[DRIVE_EVENT + 1];
    size_t length = strlen(event), sent = 0, count = 0;
    if (room > 0) answer[0] = 0;
    if (length > DRIVE_EVENT || memchr(event, '\n', length) != NULL) return DRIVE_NO_LINE;
    memcpy(line, event, length);
    line[length] = '\n';
    while (sent < length + 1) {
        ssize_t more = send(drive->line, line + sent, length + 1 - sent, MSG_NOSIGNAL);
        if (more < 0 && errno == EINTR) continue;
        if (more < 0) return DRIVE_ENDED;
        sent += (size_t)more;
    }
    /* An empty line ends what the process prints. */
    for (int byte, before = '\n'; (byte = drive_next(drive)) != '\n' || before != '\n'; before = byte) {
        if (byte < 0) return DRIVE_ENDED;
        if (count + 1 < room) answer[count] = (char)byte;
        count++;
    }
    /* The last end of line is no part of the answer. */
    if (count > 0) count--;
    if (count >= room) {
        if (room > 0) answer[room - 1] = 0;
        return DRIVE_NO_ROOM;
    }
    answer[count] = 0;
    return (long)count;
}

/* Ends the process, and answers its status: 0, or 1 if an event was at fault; -1 if it was killed, or the handle is closed. */
static inline int drive_close(struct drive *drive) {
    int status;
    if (drive->line < 0) return -1;
    close(drive->line);
    drive->line = -1;
    while (waitpid(drive->process, &status, 0) < 0)
        if (errno != EINTR) return -1;
    return WIFEXITED(status) ? WEXITSTATUS(status) : -1;
}

#endif
