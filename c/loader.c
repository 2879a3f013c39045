/* A loader: reads a problem from a file, searches one depth after the other and prints what it finds, as `seek` does.
   Usage: loader [--plain | --learning] [--depth N] [--rounds N] [--steps N] FILE
   The plain chooser, depths 1 to 8, 1,000 rounds and 512 steps are taken where nothing is said.

   Its exit status: 0 nothing was found (NONE through all depths, or NEVER), 1 a model was found, 2 a count stopped the search,
   3 the call was refused, 4 the file or the usage. */
#include <stdio.h>
#include <stdlib.h>
#include <string.h>

#include "finder.h"
#ifdef LENT
#include "lent.h"
#endif

enum { NOTHING_FOUND = 0, MODEL_FOUND = 1, STOPPED = 2, REFUSED = 3, NOT_READ = 4 };

enum { MOST_BYTES = 16384, ENTRIES = 32768 };

/* All memory that is lent. A longer problem is refused, so one byte more is room enough to tell. */
static uint8_t problem[MOST_BYTES + 1];
static uint8_t way[FINDER_VARIABLES];
static uint16_t literals[FINDER_VARIABLES];
static struct finder_answer answers[FINDER_DEPTHS];
static uint8_t model[FINDER_MODEL];
static uint8_t text[FINDER_MODEL_TEXT];
#ifdef LENT
static _Alignas(16) uint8_t heap[4 << 20];
#endif

struct options {
    const char *path;
    int learning;
    struct finder_request request;
};

/* Reads a whole number. What is beyond a limit is for the finder to refuse. */
static int read_number(const char *word, size_t *number)
{
    char *end = NULL;
    if (word == NULL || *word < '0' || *word > '9') {
        return 0;
    }
    *number = strtoul(word, &end, 10);
    return *end == '\0';
}

static int read_options(int count, char **words, struct options *options)
{
    for (int i = 1; i < count; i++) {
        const char *word = words[i];
        if (strcmp(word, "--plain") == 0 || strcmp(word, "--learning") == 0) {
            options->learning = word[2] == 'l';
        } else if (strcmp(word, "--depth") == 0) {
            if (!read_number(words[++i], &options->request.last)) {
                return 0;
            }
        } else if (strcmp(word, "--rounds") == 0) {
            if (!read_number(words[++i], &options->request.rounds)) {
                return 0;
            }
        } else if (strcmp(word, "--steps") == 0) {
            if (!read_number(words[++i], &options->request.steps)) {
                return 0;
            }
        } else if (options->path == NULL && word[0] != '-') {
            options->path = word;
        } else {
            return 0;
        }
    }
    return options->path != NULL;
}

static int read_file(const char *path, size_t *length)
{
    FILE *file = fopen(path, "rb");
    if (file == NULL) {
        return 0;
    }
    *length = fread(problem, 1, sizeof problem, file);
    int failed = ferror(file);
    return fclose(file) == 0 && !failed;
}

static int refused(struct finder_status status)
{
    if (status.refusal <= 8) {
        printf("refused %u at %zu\n", (unsigned)status.refusal, status.place);
    } else {
        printf("refused %u\n", (unsigned)status.refusal);
    }
    return REFUSED;
}

static int print_answers(size_t first, size_t count)
{
    uint8_t line[FINDER_LINE];
    for (size_t i = 0; i < count; i++) {
        size_t length = 0;
        struct finder_status status = finder_line(first + i, &answers[i], line, sizeof line, &length);
        if (status.refusal != 0) {
            return refused(status);
        }
        fwrite(line, 1, length, stdout);
    }
    return 0;
}

/* Every model is replayed before it is believed and shown. */
static int print_model(size_t problem_length, size_t model_length, size_t steps)
{
    uint8_t truth[FINDER_GOALS];
    size_t goals = 0;
    struct finder_status status =
        finder_replay(problem, problem_length, model, model_length, steps, truth, sizeof truth, &goals);
    if (status.refusal != 0) {
        return refused(status);
    }
    for (size_t g = 0; g < goals; g++) {
        if (truth[g] != FINDER_TRUE) {
            return STOPPED;
        }
    }
    size_t length = 0;
    status = finder_show(problem, problem_length, model, model_length, text, sizeof text, &length);
    if (status.refusal != 0) {
        return refused(status);
    }
    fwrite(text, 1, length, stdout);
    return MODEL_FOUND;
}

static int search(size_t problem_length, const struct options *options)
{
    const struct finder_request *request = &options->request;
    struct finder_found found = {0, 0};
    struct finder_status status = (options->learning ? finder_search_learning : finder_search_plain)(
        problem, problem_length, request, way, FINDER_VARIABLES, literals, FINDER_VARIABLES, answers, FINDER_DEPTHS,
        model, sizeof model, &found);
    if (status.refusal != 0) {
        return refused(status);
    }
    int printed = print_answers(request->first, found.answers);
    if (printed != 0) {
        return printed;
    }
    switch (answers[found.answers - 1].outcome) {
    case FINDER_MODEL_FOUND:
        return print_model(problem_length, found.model, request->steps);
    case FINDER_NONE:
    case FINDER_NEVER:
        return NOTHING_FOUND;
    default:
        return STOPPED;
    }
}

int main(int argc, char **argv)
{
    struct options options = {
        .request = {.first = 1, .last = 8, .rounds = 1000, .steps = 512, .entries = ENTRIES}};
    size_t length = 0;
#ifdef LENT
    lend(heap, sizeof heap);
#endif
    if (!read_options(argc, argv, &options) || !read_file(options.path, &length)) {
        fprintf(stderr, "usage: loader [--plain | --learning] [--depth N] [--rounds N] [--steps N] FILE\n");
        return NOT_READ;
    }
    struct finder_status status = finder_check(problem, length);
    return status.refusal != 0 ? refused(status) : search(length, &options);
}
