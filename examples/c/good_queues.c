/*
 * Asks which queues of `*p4` have a perfect clear, and prints the failed ones and the numbers as `percent` does.
 *
 *     cc -std=c99 -o good_queues good_queues.c $(pkg-config --cflags --libs voidosier)
 */
#include <stdio.h>
#include <stdlib.h>
#include <voidosier.h>

static const char words[] = "percent\0--tetfu\0v115@9gD8DeF8CeG8BeH8CeC8JeAgH\0--patterns\0*p4";

/* One call, with room for so many bytes of bits. */
static int ask(uint8_t *bits, size_t room, uint32_t *queues, uint32_t *good) {
    char fault[VOIDOSIER_FAULT_ROOM];
    size_t length, fault_length;
    uint64_t floods;
    int status = voidosier_good_queues(words, sizeof words, "", 0, bits, room, &length, queues, good,
                                       fault, sizeof fault, &fault_length, &floods);

    fwrite(fault, 1, fault_length, stderr);
    return status;
}

/* The letters of a queue of `*p4`: a choice of four of the seven, in rising order by their places in this text. */
static void print_queue(uint32_t number) {
    char left[] = "ILOZTJS";
    uint32_t block = 840, size, place;

    for (size = 7; size > 3; size--) {
        block /= size;
        place = number / block;
        number %= block;
        putchar(left[place]);
        for (; left[place] != '\0'; place++) left[place] = left[place + 1];
    }
}

int main(void) {
    uint8_t none = 0, *bits;
    uint32_t queues, good, number;
    size_t room;
    int status = ask(&none, 0, &queues, &good);

    /* With no room, the call tells how many queues there are, and finds nothing. */
    if (status != VOIDOSIER_NO_ROOM) return status;
    room = (queues + 7) / 8;
    bits = malloc(room);
    if (bits == NULL) return VOIDOSIER_NO_MEMORY;
    status = ask(bits, room, &queues, &good);
    for (number = 0; status == VOIDOSIER_DONE && number < queues; number++) {
        if (bits[number / 8] >> number % 8 & 1) continue;
        printf("failed ");
        print_queue(number);
        printf("\n");
    }
    free(bits);
    if (status != VOIDOSIER_DONE) return status;
    printf("queues %lu\ngood %lu\n", (unsigned long)queues, (unsigned long)good);
    printf("rate %llu\n", 10000ULL * good / queues);
    return fflush(stdout) == 0 && !ferror(stdout) ? 0 : 1;
}
