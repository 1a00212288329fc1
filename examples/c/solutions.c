/*
 * Steps through the solutions of a field as numbers, a few at a time, and prints each as the program lists it.
 *
 *     cc -std=c99 -o solutions solutions.c $(pkg-config --cflags --libs voidosier)
 */
#include <stdio.h>
#include <string.h>
#include <voidosier.h>

static const char words[] = "path\0--tetfu\0v115@9gD8DeF8CeG8BeH8CeC8JeAgH\0--patterns\0*p4";

/* Prints the placements of one solution, whose numbers take so many bytes. */
static void print(const uint8_t *solution, size_t size) {
    size_t at;

    for (at = 0; at < size; at += 4) {
        const uint8_t *placement = solution + at;

        printf("%s%c%c:%u,%u", at == 0 ? "" : " ", "?ILOZTJS"[placement[0]], "0R2L"[placement[1]],
               (unsigned)placement[2], (unsigned)placement[3]);
    }
    putchar('\n');
}

int main(void) {
    uint8_t placements[8 * VOIDOSIER_SOLUTION_ROOM], after[VOIDOSIER_SOLUTION_ROOM], ended = 0;
    char fault[VOIDOSIER_FAULT_ROOM];
    size_t length, fault_length, size = 0;
    uint32_t count, number;
    uint64_t floods;

    while (!ended) {
        int status = voidosier_solutions(words, sizeof words, "", 0, after, size,
                                         placements, sizeof placements, &length, &count, &ended,
                                         fault, sizeof fault, &fault_length, &floods);

        if (status != VOIDOSIER_DONE) {
            fwrite(fault, 1, fault_length, stderr);
            return status;
        }
        if (count == 0) break;
        size = length / count;
        for (number = 0; number < count; number++) print(placements + number * size, size);
        /* The next call goes on behind the last of these. */
        memcpy(after, placements + length - size, size);
    }
    return fflush(stdout) == 0 && !ferror(stdout) ? 0 : 1;
}
