/* Solves a position within a limit of time. Since a call can't be stopped, it is made in a process of its own, which a
   timer ends. A program that has threads must not fork like this: it runs a program such as this one instead.

       cc -o limited limited.c $(pkg-config --cflags --libs ffosolve)
       ./limited 10 fffffff7ffff7f7c 800008002

   These are the seconds, and the discs of the side to move and of the other side as hexadecimal masks. */
#define _POSIX_C_SOURCE 200809L
#include "ffosolve.h"

#include <inttypes.h>
#include <signal.h>
#include <stdio.h>
#include <stdlib.h>
#include <sys/wait.h>
#include <unistd.h>

/* What a call returned and wrote. */
struct result {
    int32_t status;
    ffosolve_answer answer;
};

/* Returns whether the call ended within `seconds`, which is more than 0, and then has set `result`. */
static int solve_within(unsigned seconds, ffosolve_position position, struct result *result) {
    int ends[2];
    ssize_t length;
    pid_t child;
    if (pipe(ends) != 0 || (child = fork()) < 0) {
        perror("limited");
        exit(3);
    }
    if (child == 0) {
        signal(SIGALRM, SIG_DFL); /* ends the process */
        alarm(seconds);
        result->status = ffosolve_solve(position, FFOSOLVE_WINNER, 65536, &result->answer);
        _exit(write(ends[1], result, sizeof *result) < 0);
    }
    close(ends[1]);
    length = read(ends[0], result, sizeof *result); /* 0 if the process was ended */
    close(ends[0]);
    waitpid(child, NULL, 0);
    return length == (ssize_t)sizeof *result;
}

int main(int count, char **words) {
    struct result result = {0, {0, 0, 0}};
    ffosolve_position position;
    unsigned seconds;
    if (count != 4 || sscanf(words[1], "%u", &seconds) != 1 || seconds == 0
        || sscanf(words[2], "%" SCNx64, &position.own) != 1 || sscanf(words[3], "%" SCNx64, &position.opp) != 1) {
        fprintf(stderr, "usage: limited SECONDS OWN OPP\n");
        return 2;
    }
    if (!solve_within(seconds, position, &result)) {
        printf("not solved in %u s\n", seconds);
        return 1;
    }
    if (result.status == FFOSOLVE_DONE) printf("%+03d\n", (int)result.answer.score);
    else puts(ffosolve_status_text(result.status));
    return result.status != FFOSOLVE_DONE;
}
