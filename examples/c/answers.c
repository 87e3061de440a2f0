/* Reads positions: on each line two hexadecimal masks, the discs of the side to move and of the other side. Prints
   the answer for each: the score and the best moves, PS for a pass, or -- at the end of the game. Then plays the first
   position to its end, always with the first best move.

       cc -o answers answers.c $(pkg-config --cflags --libs ffosolve)
       ./answers <../masks.txt */
#include "ffosolve.h"

#include <inttypes.h>
#include <stdio.h>

enum { MOST_POSITIONS = 1000, ENTRIES = 65536 };

static ffosolve_position positions[MOST_POSITIONS + 1];
static ffosolve_answer answers[MOST_POSITIONS];

/* Reads positions, and sets how many; returns whether they end the input and are at most MOST_POSITIONS. */
static int read_positions(size_t *count) {
    for (*count = 0;; ++*count) {
        ffosolve_position *next = &positions[*count];
        char end = '\n';
        int read = scanf(" %16" SCNx64 "%*[ ]%16" SCNx64 "%c", &next->own, &next->opp, &end);
        if (read < 2 || end != '\n' || *count == MOST_POSITIONS) return read == EOF;
    }
}

static void print_squares(uint64_t mask) {
    const char *between = "";
    for (int square = 0; square < 64; square++) {
        if (!(mask >> square & 1)) continue;
        printf("%s%c%c", between, 'A' + square % 8, '1' + square / 8);
        between = ",";
    }
}

static void print_answer(ffosolve_answer answer) {
    printf("%+03d ", (int)answer.score);
    switch (answer.kind) {
    case FFOSOLVE_MOVES: print_squares(answer.best); break;
    case FFOSOLVE_PASS: printf("PS"); break;
    case FFOSOLVE_OVER: printf("--"); break;
    }
    printf("\n");
}

static int is_confirmed(ffosolve_position position, ffosolve_answer claim) {
    ffosolve_answer answer;
    return ffosolve_confirm(position, FFOSOLVE_WINNER, ENTRIES, claim, &answer) == FFOSOLVE_DONE
           && answer.score == claim.score && answer.kind == claim.kind && answer.best == claim.best;
}

/* Plays on to the end, and prints each move with all the legal ones. */
static int32_t play_on(ffosolve_position position) {
    for (;;) {
        ffosolve_answer answer;
        uint64_t moves;
        uint8_t square = 0;
        int32_t status = ffosolve_solve(position, FFOSOLVE_WINNER, 0, &answer);
        if (status == FFOSOLVE_DONE) status = ffosolve_moves(position, &moves);
        if (status != FFOSOLVE_DONE || answer.kind == FFOSOLVE_OVER) return status;
        if (answer.kind == FFOSOLVE_PASS) {
            ffosolve_position passed = {position.opp, position.own};
            position = passed;
            printf("PS\n");
            continue;
        }
        while (!(answer.best >> square & 1)) square++;
        print_squares(UINT64_C(1) << square);
        printf(" of ");
        print_squares(moves);
        printf("\n");
        status = ffosolve_play(position, square, &position);
        if (status != FFOSOLVE_DONE) return status;
    }
}

int main(void) {
    size_t count, at = 0;
    int32_t status;
    if (!read_positions(&count)) {
        fprintf(stderr, "position %zu: not two masks, or one position too many\n", count + 1);
        return 1;
    }
    status = ffosolve_solve_all(positions, count, FFOSOLVE_WINNER, ENTRIES, answers, count, &at);
    if (status != FFOSOLVE_DONE) {
        fprintf(stderr, "position %zu: %s\n", at + 1, ffosolve_status_text(status));
        return 1;
    }
    for (size_t i = 0; i < count; i++) {
        print_answer(answers[i]);
        if (!is_confirmed(positions[i], answers[i])) return 1;
    }
    return count > 0 && play_on(positions[0]) != FFOSOLVE_DONE;
}
