/* The finder for a loader that is written in C.

   Each call takes the bytes of a problem, does the whole work and keeps nothing: what it allocates, it frees before it returns, and
   nothing of one call is seen by another. So calls from several threads need no order, as long as no memory that is written is
   lent to two of them at once.

   Allocation. finder_check and finder_line allocate nothing. The others call malloc, realloc and free of the program that links the
   library, and answer FINDER_NO_MEMORY where these have no memory. c/lent.h has the three over memory that the program lends (for
   one thread). No call may be made from a signal handler.

   Stack. Judging recurses as the goals do, a step at most at a time. Measured, not proved: 384 KiB suffice for the examples with 512
   steps, and 3,000 KiB for the deepest recursions that 4,096 steps allow.

   Lent memory. A call reads and writes what is lent inside the lengths that are passed, and nothing else. Memory that is written must
   overlap nothing else that the same call is lent. No pointer may be null, for zero elements too.

   Refusals. A call that is refused leaves what it was lent for its answer as it was (`way` and `literals` alone are scratch). */
#ifndef FINDER_H
#define FINDER_H

#include <stddef.h>
#include <stdint.h>

#ifdef __cplusplus
extern "C" {
#endif

/* How a call ended. All zero: it was not refused. */
struct finder_status {
    uint8_t refusal; /* the number of the refusal, below */
    uint8_t inside;  /* with 50: the number of the model's own fault */
    size_t place;    /* with 1 to 8 and with 50: the place of the byte at fault */
};

/* Refusals. 1 to 8 are the faults of problem bytes, and those inside of 50 the faults of model bytes (docs/FORMAT.md). */
enum {
    FINDER_BAD_DEPTHS = 40,    /* not 1 <= first <= last <= 64 */
    FINDER_BAD_LIMITS = 41,    /* the rounds are not from 1 to 65,535, or the steps not from 1 to 4,096 */
    FINDER_SMALL_BUFFERS = 42, /* `way` or `literals` is shorter than FINDER_VARIABLES */
    FINDER_SMALL_OUTPUT = 46,  /* the text, the answers of all depths or FINDER_MODEL bytes do not fit */
    FINDER_BAD_MODEL = 50,     /* the bytes are no model of the problem */
    FINDER_SMALL_ANSWER = 53,  /* a replay's answer has fewer bytes than the problem has goals */
    FINDER_NO_ANSWER = 70,     /* what should be an answer of a search is none */
    FINDER_NO_MEMORY = 71      /* malloc or realloc answered null; nothing else is amiss */
};

/* What a chooser can have, and so the lengths of `way` and `literals`. */
#define FINDER_VARIABLES 4096

/* No model has more bytes; each of them makes at most five bytes of its text. No line of an answer has more than FINDER_LINE. */
#define FINDER_MODEL 1584
#define FINDER_MODEL_TEXT (5 * FINDER_MODEL)
#define FINDER_LINE 128

/* No problem has more goals, and no search goes deeper. */
#define FINDER_GOALS 32
#define FINDER_DEPTHS 64

/* What is searched: the depths from first to last, one after the other, each with so many rounds, and so many steps for each judging
   of a goal. The chooser is made with so many entries. */
struct finder_request {
    size_t first;
    size_t last;
    size_t rounds;
    size_t steps;
    uint16_t entries;
};

/* How the search at a depth ended. Zero is no outcome, so that blank memory is none. */
enum finder_outcome {
    FINDER_MODEL_FOUND = 1,    /* every goal is true under the model */
    FINDER_NONE = 2,           /* no assignment no deeper than the depth makes every goal true */
    FINDER_NEVER = 3,          /* none at any depth does */
    FINDER_FOREIGN = 4,        /* the chooser is not the session's own; never met here */
    FINDER_SPENT_ROUNDS = 5,
    FINDER_SPENT_STEPS = 6,    /* the steps do not suffice for `goal` */
    FINDER_SPENT_UNKNOWNS = 7,
    FINDER_SPENT_CHOOSER = 8   /* the chooser has too few variables or entries left */
};

struct finder_answer {
    uint8_t outcome;
    uint8_t goal; /* with FINDER_SPENT_STEPS, else 0 */
    size_t rounds;
    size_t opened;
    size_t recorded;
};

/* What a search wrote: so many answers, the first of them at the depth `first`, and so many bytes of a model, 0 where none was found. */
struct finder_found {
    size_t answers;
    size_t model;
};

/* Whether the bytes are a problem. */
struct finder_status finder_check(const uint8_t *problem, size_t problem_length);

/* Searches with all goals in force, at one depth after the other on one session, up to the first answer other than FINDER_NONE or
   through `last`. Tested in this order: the problem, the depths, the limits, `way` and `literals`, then the room for answers (one for
   each depth) and for a model (FINDER_MODEL bytes). */
struct finder_status finder_search_plain(
    const uint8_t *problem, size_t problem_length, const struct finder_request *request,
    uint8_t *way, size_t way_length, uint16_t *literals, size_t literals_length,
    struct finder_answer *answers, size_t answers_length, uint8_t *model, size_t model_length,
    struct finder_found *found);

/* The same with the learning chooser. */
struct finder_status finder_search_learning(
    const uint8_t *problem, size_t problem_length, const struct finder_request *request,
    uint8_t *way, size_t way_length, uint16_t *literals, size_t literals_length,
    struct finder_answer *answers, size_t answers_length, uint8_t *model, size_t model_length,
    struct finder_found *found);

/* What a replay says of a goal. */
enum finder_truth {
    FINDER_FALSE = 0,
    FINDER_TRUE = 1,
    FINDER_OUT = 2,    /* the steps do not suffice */
    FINDER_WAITING = 3 /* on a part of the model that is left open */
};

/* Judges each goal under a model, with so many steps, into a byte of `answer`, an enum finder_truth. `goals` is set to the number of
   goals; bytes behind them stay. */
struct finder_status finder_replay(
    const uint8_t *problem, size_t problem_length, const uint8_t *model, size_t model_length,
    size_t steps, uint8_t *answer, size_t answer_length, size_t *goals);

/* Writes the line of an answer, as `depth 3 MODEL rounds 2 opened 1 recorded 0` and a newline, without a zero byte behind it, and sets
   `length` to its bytes. */
struct finder_status finder_line(
    size_t depth, const struct finder_answer *answer, uint8_t *output, size_t output_length, size_t *length);

/* Writes a line for each unknown of the problem, as `unknown 0 = 1(1(0))`, `?` for an open part, and sets `length` to their bytes. */
struct finder_status finder_show(
    const uint8_t *problem, size_t problem_length, const uint8_t *model, size_t model_length,
    uint8_t *output, size_t output_length, size_t *length);

#ifdef __cplusplus
}
#endif

#endif
