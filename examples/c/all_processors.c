/* Solves a position. From 15 empty squares on, the program ffosolve does it, which has to be on the path: its threads
   use all processors that this process may use. It ends with this process.

       cc -o all_processors all_processors.c $(pkg-config --cflags --libs ffosolve)
       ./all_processors fffffff7ffff7f7c 800008002

   These are the discs of the side to move and of the other side as hexadecimal masks. */
#define _POSIX_C_SOURCE 200809L
#include "ffosolve.h"

#include <inttypes.h>
#include <stdio.h>

static int count_empties(ffosolve_position position) {
    int count = 0;
    for (uint64_t left = ~(position.own | position.opp); left; left &= left - 1) count++;
    return count;
}

/* Runs the program, which adds up to 64 threads to its first one. Returns whether it printed a score, and sets that. */
static int solve_by_program(ffosolve_position position, int32_t *score) {
    char squares[65] = "", command[256];
    int is_read;
    FILE *report;
    for (int square = 0; square < 64; square++)
        squares[square] = position.own >> square & 1 ? 'X' : position.opp >> square & 1 ? 'O' : '-';
    snprintf(command, sizeof command,
             "count=$(nproc); exec setpriv --pdeathsig KILL ffosolve --max-empties 60 "
             "--workers $((count > 64 ? 64 : count - 1)) <<'END'\n%s X;\nEND\n", squares);
    report = popen(command, "r");
    if (!report) return 0;
    is_read = fscanf(report, "[1] 1 %" SCNd32, score) == 1;
    while (fgetc(report) != EOF) continue;
    return pclose(report) == 0 && is_read;
}

int main(int count, char **words) {
    ffosolve_position position;
    ffosolve_answer answer = {0, 0, 0};
    uint64_t moves;
    int32_t status;
    if (count != 3 || sscanf(words[1], "%" SCNx64, &position.own) != 1
        || sscanf(words[2], "%" SCNx64, &position.opp) != 1) {
        fprintf(stderr, "usage: all_processors OWN OPP\n");
        return 2;
    }
    status = ffosolve_moves(position, &moves); /* refuses a shared square */
    if (status == FFOSOLVE_DONE && count_empties(position) < 15)
        status = ffosolve_solve(position, FFOSOLVE_WINNER, 4096, &answer);
    else if (status == FFOSOLVE_DONE && !solve_by_program(position, &answer.score))
        return 3;
    if (status == FFOSOLVE_DONE) printf("%+03d\n", (int)answer.score);
    else puts(ffosolve_status_text(status));
    return status != FFOSOLVE_DONE;
}
