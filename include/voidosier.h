/*
 * Voidosier, a proved perfect-clear finder in Tetris, as a library for C and C++.
 *
 * A call does what the program does with the same words and the same standard input, over memory of the caller's.
 * The commands, their options and their faults are those of the program: docs/COMMANDS.md.
 *
 * Memory. All that a call is given stays the caller's: the library keeps no pointer, and frees nothing but its own.
 * What it takes by malloc for an answer, it has freed when the call returns. No pointer may be null, also where its
 * size is 0 ("" serves there). What a call writes to may not overlap with anything else that the call is given. A
 * size is below 2^63.
 *
 * Threads. Nothing is global, and nothing is kept from call to call. So any number of threads may call at the same
 * time, each with memory of its own. Make no call in a signal handler, or in the forked child of a process with
 * threads.
 *
 * The library trusts its program for what C promises: malloc, realloc and free come from one allocator, which aligns
 * a block as C demands. It needs a processor of x86-64-v2.
 *
 * A later version may add calls, commands and options. A call that stands here keeps its arguments and its meaning.
 */
#ifndef VOIDOSIER_H
#define VOIDOSIER_H

#include <stddef.h>
#include <stdint.h>

#ifdef __cplusplus
extern "C" {
#endif

/* How a call ended. */
enum {
    /* Done: the whole answer is in the buffer. */
    VOIDOSIER_DONE = 0,
    /* The words or the input have a fault. */
    VOIDOSIER_FAULT = 2,
    /* The answer is longer than the buffer. More room helps. */
    VOIDOSIER_NO_ROOM = 4,
    /* malloc gave no memory. */
    VOIDOSIER_NO_MEMORY = 5,
    /* The words are no words: one is not in UTF-8, or the last one has no NUL byte behind it. */
    VOIDOSIER_NO_WORDS = 6,
    /* The words ask for another command than the call answers. voidosier_run answers all, and never ends so. */
    VOIDOSIER_OTHER_COMMAND = 7,
    /* The numbers that are given are those of no sequence of as many placements as a solution has. */
    VOIDOSIER_NO_SEQUENCE = 8
};

/* The bytes of stack that a call needs at most. A thread that calls has this much, and what its own functions need. */
#define VOIDOSIER_STACK 262144

/* The bytes that the line of each fault fits in. */
#define VOIDOSIER_FAULT_ROOM 128

/* The bytes that the numbers of each solution fit in: no solution has more than 20 placements. */
#define VOIDOSIER_SOLUTION_ROOM 80

/* ---- One call for each command line ---- */

/*
 * Answers a command line.
 *
 *   words       the words behind the program's name, each ended by a NUL byte, as in "path\0--limit\0" "9". A string
 *               literal has the last of these bytes of itself, so its sizeof is the size.
 *   input       what the program would read from standard input. Most commands read none of it.
 *   out         is given the answer, which the program writes to standard output. out_room is how many bytes it has.
 *   out_length  is given how many bytes of out were written. Those behind them are as they were.
 *   err         is given the line of a fault, which the program writes to standard error, or the first err_room bytes
 *               of it. VOIDOSIER_FAULT_ROOM bytes are enough for each line.
 *   err_length  is given how many bytes of err were written. Those behind them are as they were.
 *   floods      is given how many floods the call made, the number that the program tells by `path --stats yes`. A
 *               flood finds all places of one piece in one field, so their number measures the work.
 *
 * No text that is written ends with a NUL byte. The three numbers are written whatever the status. It is one of:
 *
 *   VOIDOSIER_DONE       out has exactly what the program writes, and err nothing.
 *   VOIDOSIER_FAULT      err has the line of the first fault, "input: ..\n", and out nothing. No flood was made.
 *   VOIDOSIER_NO_ROOM    out has the first out_room bytes of what the program writes, which are not all, and err
 *                        nothing. A call with more room begins anew, so ask for a long list in parts, by --limit and
 *                        --after.
 *   VOIDOSIER_NO_MEMORY  out has the first bytes of what the program writes, mostly none at all, and err nothing.
 *   VOIDOSIER_NO_WORDS   out and err have nothing. No flood was made.
 *
 * A call can take long, and can't be stopped. --limit bounds a list.
 */
uint8_t voidosier_run(const char *words, size_t words_size,
                      const char *input, size_t input_size,
                      char *out, size_t out_room, size_t *out_length,
                      char *err, size_t err_room, size_t *err_length,
                      uint64_t *floods);

/* ---- Which queues have a perfect clear, as bits ---- */

/*
 * Answers a command line of `percent` by one bit for each queue of its pattern.
 *
 *   words, input  as for voidosier_run. The command is "percent". --failed makes no difference.
 *   bits          is given the bits. bits_room is how many bytes it has. Queue i, counted from 0 in the rising order
 *                 of the pattern's queues, is bit i % 8 of byte i / 8, the lowest bit being bit 0. It is 1 if the
 *                 queue has a perfect clear. In the last byte, the bits behind the last queue are 0.
 *   bits_length   is given how many bytes of bits were written: (queues + 7) / 8. Those behind them are as they were.
 *   queues        is given how many queues the pattern stands for, at most 10,000,000.
 *   good          is given how many of them have a perfect clear.
 *   err, err_room, err_length, floods  as for voidosier_run.
 *
 * The five numbers are written whatever the status. It is one of:
 *
 *   VOIDOSIER_DONE           bits has the bits of all queues, and err nothing.
 *   VOIDOSIER_FAULT          err has the line that the program writes of the first fault, and bits nothing. The
 *                            numbers of queues are 0. No flood was made.
 *   VOIDOSIER_NO_ROOM        the bits take more bytes than bits_room. bits and err have nothing. No flood was made,
 *                            so a call with a room of 0 bytes tells by queues how much is needed, at little cost.
 *   VOIDOSIER_NO_MEMORY      bits and err have nothing. The numbers of queues are 0.
 *   VOIDOSIER_NO_WORDS       bits and err have nothing. The numbers of queues are 0. No flood was made.
 *   VOIDOSIER_OTHER_COMMAND  the words have no fault, and ask for another command. bits and err have nothing. The
 *                            numbers of queues are 0. No flood was made.
 *
 * good is 0 at each status but VOIDOSIER_DONE.
 */
uint8_t voidosier_good_queues(const char *words, size_t words_size,
                              const char *input, size_t input_size,
                              uint8_t *bits, size_t bits_room, size_t *bits_length,
                              uint32_t *queues, uint32_t *good,
                              char *err, size_t err_room, size_t *err_length,
                              uint64_t *floods);

/* ---- Solutions as numbers ---- */

/*
 * Answers a command line of `path` by the numbers of its solutions, in the order in which `path` lists them. Of each
 * placement there are four numbers, a byte each: the piece (1 to 7 in the order I, L, O, Z, T, J, S, as in fumen), the
 * rotation (0 to 3 in the order 0, R, 2, L), and the column and the row of the pivot, counted from 0 at the lower left.
 *
 *   words, input  as for voidosier_run. The command is "path". --keys, --format and --stats make no difference.
 *   after         the numbers of a sequence. The list begins after it, as with --after. If after_size is 0, the list
 *                 begins after the sequence of --after, or at its start where the words have none.
 *   placements    is given the numbers of the first solutions, one solution after the other: as many as there are, as
 *                 --limit allows, and as placements_room bytes hold whole.
 *   placements_length  is given how many bytes of placements were written: of each solution as many. Those behind them
 *                 are as they were.
 *   count         is given how many solutions were written.
 *   ended         is given 1 if no solution is left behind these, and 0 if that isn't known: as many were written as
 *                 --limit or the room allows.
 *   err, err_room, err_length, floods  as for voidosier_run.
 *
 * To step through a list, call again with the same words, and with the last solution that was written as after, until
 * ended is 1. A call looks for its way down to that sequence, and lists again nothing of what lies before it. So a room
 * for many solutions takes fewer floods than one for each.
 *
 * The five numbers are written whatever the status. It is one of:
 *
 *   VOIDOSIER_DONE           placements has the numbers of count solutions, and err nothing.
 *   VOIDOSIER_FAULT          err has the line that the program writes of the first fault. A fault of --after counts as
 *                            well where after is given.
 *   VOIDOSIER_NO_ROOM        placements is too small for one solution. VOIDOSIER_SOLUTION_ROOM bytes are enough.
 *   VOIDOSIER_NO_MEMORY      malloc gave no memory.
 *   VOIDOSIER_NO_WORDS       the words are no words.
 *   VOIDOSIER_OTHER_COMMAND  the words have no fault, and ask for another command.
 *   VOIDOSIER_NO_SEQUENCE    after has some bytes, and they are not the numbers of as many placements as a solution
 *                            has, each with a column from 0 to 9 and a row from 0 to 22.
 *
 * At each status but VOIDOSIER_DONE placements has nothing, placements_length, count, ended and floods are 0, and no
 * flood was made. err has something at VOIDOSIER_FAULT alone.
 */
uint8_t voidosier_solutions(const char *words, size_t words_size,
                            const char *input, size_t input_size,
                            const uint8_t *after, size_t after_size,
                            uint8_t *placements, size_t placements_room, size_t *placements_length,
                            uint32_t *count, uint8_t *ended,
                            char *err, size_t err_room, size_t *err_length,
                            uint64_t *floods);

#ifdef __cplusplus
}
#endif

#endif
