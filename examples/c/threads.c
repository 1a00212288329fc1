/*
 * Asks from four threads at once, each with no more stack than a call needs and this program's own functions.
 *
 *     cc -std=c11 -pthread -o threads threads.c $(pkg-config --cflags --libs voidosier)
 *
 * Each thread asks its own question again and again, and looks whether the answer is the same each time. The answers
 * are printed in the order of the questions.
 */
#include <pthread.h>
#include <stdio.h>
#include <string.h>
#include <voidosier.h>

enum { THREADS = 4, TIMES = 100, ROOM = 4096, OWN_STACK = 65536 };

#define FIELD "\0--tetfu\0v115@9gD8DeF8CeG8BeH8CeC8JeAgH\0--patterns\0"

struct question {
    const char *words;
    size_t words_size;
    char answer[ROOM], other[ROOM];
    size_t length;
    uint64_t floods;
    int status, differ;
};

#define QUESTION(words) {words, sizeof words, "", "", 0, 0, 0, 0}

static struct question questions[THREADS] = {
    QUESTION("path" FIELD "*p4\0--limit\0" "20\0--keys\0yes"),
    QUESTION("percent" FIELD "*p4\0--failed\0" "9"),
    QUESTION("combo\0--rows\0XXXXXX____/XXXXXX____\0--patterns\0IIO"),
    QUESTION("selfrun\0--number\0" "0\0--pages\0" "9"),
};

static int ask(const struct question *asked, char *answer, size_t *length, uint64_t *floods) {
    char fault[VOIDOSIER_FAULT_ROOM];
    size_t fault_length;

    return voidosier_run(asked->words, asked->words_size, "", 0, answer, ROOM, length,
                         fault, sizeof fault, &fault_length, floods);
}

static void *ask_often(void *at) {
    struct question *asked = at;
    size_t length;
    uint64_t floods;
    int time;

    asked->status = ask(asked, asked->answer, &asked->length, &asked->floods);
    for (time = 1; time < TIMES; time++) {
        int status = ask(asked, asked->other, &length, &floods);
        int same = status == asked->status && length == asked->length && floods == asked->floods;
        if (!same || memcmp(asked->other, asked->answer, length) != 0) asked->differ++;
    }
    return NULL;
}

int main(void) {
    pthread_t threads[THREADS];
    pthread_attr_t small;
    int i, failed = 0;

    if (pthread_attr_init(&small) != 0 || pthread_attr_setstacksize(&small, VOIDOSIER_STACK + OWN_STACK) != 0) return 1;
    for (i = 0; i < THREADS; i++)
        if (pthread_create(&threads[i], &small, ask_often, &questions[i]) != 0) return 1;
    for (i = 0; i < THREADS; i++) {
        pthread_join(threads[i], NULL);
        printf("thread %d: status %d, %zu bytes\n", i, questions[i].status, questions[i].length);
        fwrite(questions[i].answer, 1, questions[i].length, stdout);
        failed += questions[i].differ;
    }
    if (failed != 0) fprintf(stderr, "threads: %d answers differ\n", failed);
    return fflush(stdout) != 0 || ferror(stdout) || failed != 0;
}
