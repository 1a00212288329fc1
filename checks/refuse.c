/* For checks/embed, which wraps malloc, realloc and free: asks the C library the words behind the first one, which is the
   input, with each allocation refused, one after the other, and prints how many there were. */
#include <stdio.h>
#include <stdlib.h>
#include <string.h>
#include <voidosier.h>
extern void *__real_malloc(size_t), *__real_realloc(void *, size_t), __real_free(void *);
static long live, count, refused;
static char words[4096], whole[65536], out[65536], err[VOIDOSIER_FAULT_ROOM];
static size_t size, length, whole_length, err_length;
static uint64_t floods;
void *__wrap_malloc(size_t size) {
    void *at = ++count == refused ? NULL : __real_malloc(size);
    live += at != NULL;
    return at;
}
void *__wrap_realloc(void *at, size_t size) { return ++count == refused ? NULL : __real_realloc(at, size); }
void __wrap_free(void *at) { live -= at != NULL; __real_free(at); }
static int run(const char *input, char *to, size_t *to_length) {
#ifdef GOOD_QUEUES
    uint32_t queues, good;
    return voidosier_good_queues(words, size, input, strlen(input), (uint8_t *)to, sizeof out, to_length,
                                 &queues, &good, err, sizeof err, &err_length, &floods);
#elif defined SOLUTIONS
    uint32_t count;
    uint8_t ended;
    return voidosier_solutions(words, size, input, strlen(input), (const uint8_t *)"", 0, (uint8_t *)to, sizeof out,
                               to_length, &count, &ended, err, sizeof err, &err_length, &floods);
#else
    return voidosier_run(words, size, input, strlen(input), to, sizeof out, to_length,
                         err, sizeof err, &err_length, &floods);
#endif
}
int main(int argc, char **argv) {
    int status;
    for (int i = 2; i < argc; i++) size += strlen(strcpy(words + size, argv[i])) + 1;
    if (run(argv[1], whole, &whole_length) != VOIDOSIER_DONE || live != 0) return 1;
    for (refused = 1; count = 0, refused < 400; refused++) {
        status = run(argv[1], out, &length);
        if (live != 0 || err_length != 0 || length > whole_length || memcmp(out, whole, length) != 0) return 2;
        if (status == VOIDOSIER_DONE ? length != whole_length : status != VOIDOSIER_NO_MEMORY) return 3;
        if (count < refused) break;
    }
    printf("%ld\n", refused - 1);
    return 0;
}
