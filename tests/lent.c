/* A search with less and less lent memory: it finds what it found with enough, or it is refused for want of memory, leaves what it
   was lent for its answer as it was, and gives every block back. Usage: lent FILE */
#include <stdio.h>
#include <string.h>

#include "../c/lent.h"
#include "finder.h"

enum { HEAP = 4 << 20, DEPTHS = 8 };

static _Alignas(16) uint8_t heap[HEAP];
static uint8_t problem[16384];
static size_t problem_length;
static uint8_t way[FINDER_VARIABLES];
static uint16_t literals[FINDER_VARIABLES];

struct output {
    struct finder_answer answers[DEPTHS];
    uint8_t model[FINDER_MODEL];
    struct finder_found found;
};

static struct finder_status search(int learning, struct output *output)
{
    const struct finder_request request = {.first = 1, .last = DEPTHS, .rounds = 1000, .steps = 512, .entries = 4096};
    return (learning ? finder_search_learning : finder_search_plain)(
        problem, problem_length, &request, way, FINDER_VARIABLES, literals, FINDER_VARIABLES, output->answers, DEPTHS,
        output->model, FINDER_MODEL, &output->found);
}

/* How many of the calls with less memory were wrong. */
static int wrong_with_less(int learning)
{
    static struct output wanted, told, blank;
    memset(&blank, 0x5a, sizeof blank);
    wanted = blank;
    lend(heap, HEAP);
    if (search(learning, &wanted).refusal != 0 || lent_blocks() != 0) {
        return 1;
    }
    size_t enough = lent_most();
    int wrong = 0;
    for (size_t length = 0; length <= enough; length += length < 4096 ? 16 : 4096) {
        told = blank;
        lend(heap, length);
        struct finder_status status = search(learning, &told);
        int right = length < enough ? status.refusal == FINDER_NO_MEMORY && memcmp(&told, &blank, sizeof told) == 0
                                    : status.refusal == 0 && memcmp(&told, &wanted, sizeof told) == 0;
        wrong += !right || lent_blocks() != 0;
    }
    lend(heap, enough);
    told = blank;
    wrong += search(learning, &told).refusal != 0 || memcmp(&told, &wanted, sizeof told) != 0;
    printf("%s: %zu bytes suffice, %d wrong with less\n", learning ? "learning" : "plain", enough, wrong);
    return wrong;
}

int main(int argc, char **argv)
{
    FILE *file = argc == 2 ? fopen(argv[1], "rb") : NULL;
    if (file == NULL) {
        return 2;
    }
    problem_length = fread(problem, 1, sizeof problem, file);
    fclose(file);
    int wrong = wrong_with_less(0) + wrong_with_less(1);
    return wrong != 0;
}
