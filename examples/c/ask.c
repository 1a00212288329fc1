/*
 * Asks the library five questions, and prints each answer.
 *
 *     cc -std=c99 -o ask ask.c $(pkg-config --cflags --libs voidosier)
 *
 * Before an answer stands a line with its status, the bytes of the answer and of the line of a fault, and the floods.
 */
#include <stdio.h>
#include <stdlib.h>
#include <voidosier.h>

#define OPENER "--tetfu\0v115@9gD8DeF8CeG8BeH8CeC8JeAgH"

struct question {
    const char *name, *words;
    size_t words_size;
    const char *input;
    size_t input_size;
};

/* The sizeof of a literal counts the NUL byte behind it: that of the last word, and one too many of an input. */
#define QUESTION(name, words, input) {name, words, sizeof words, input, sizeof input - 1}

static const struct question questions[] = {
    QUESTION("path", "path\0" OPENER "\0--patterns\0TOI\0--hold\0avoid\0--keys\0yes", ""),
    QUESTION("percent", "percent\0" OPENER "\0--patterns\0*p4\0--failed\0" "2", ""),
    QUESTION("decode", "decode", "v115@vhBVQJAAA\n"),
    QUESTION("wrong field", "path\0--rows\0XXX?XX____\0--patterns\0I", ""),
    QUESTION("long list", "path\0" OPENER "\0--patterns\0*p4", ""),
};

/* Asks with a buffer of so many bytes, and prints the answer; behind a front of one a newline. */
static int ask(const struct question *asked, size_t room) {
    char fault[VOIDOSIER_FAULT_ROOM];
    size_t length, fault_length;
    uint64_t floods;
    char *answer = malloc(room);
    int status;

    if (answer == NULL) return VOIDOSIER_NO_MEMORY;
    status = voidosier_run(asked->words, asked->words_size, asked->input, asked->input_size,
                           answer, room, &length, fault, sizeof fault, &fault_length, &floods);
    printf("%s: status %d, %zu bytes, fault of %zu bytes, floods %llu\n",
           asked->name, status, length, fault_length, (unsigned long long)floods);
    fwrite(answer, 1, length, stdout);
    fwrite(fault, 1, fault_length, stdout);
    if (status == VOIDOSIER_NO_ROOM) putchar('\n');
    free(answer);
    return status;
}

int main(void) {
    const size_t last = sizeof questions / sizeof *questions - 1;
    size_t i, room = 256;
    int status;

    for (i = 0; i < last; i++)
        if (ask(&questions[i], 4096) == VOIDOSIER_NO_MEMORY) return VOIDOSIER_NO_MEMORY;
    /* Where the answer doesn't fit, what is there is a front of it, and twice the room may do. */
    while ((status = ask(&questions[last], room)) == VOIDOSIER_NO_ROOM) room *= 2;
    if (status != VOIDOSIER_DONE) return status;
    return fflush(stdout) == 0 && !ferror(stdout) ? 0 : 1;
}
