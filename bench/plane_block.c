// Reads graphs with their split components from standard input, one a line: a name, the number of vertices, how many numbers of
// ends follow, these, how many numbers of pieces follow, and these. Prints of each the name and the milliseconds, the best of five,
// for making graph and tree, and for embedding the block, its copies apart.
#include <stdint.h>
#include <stdio.h>
#include <stdlib.h>
#include <time.h>

uint32_t embedded_times(uint32_t vertices, const uint32_t *ends, size_t end_count, const uint32_t *pieces, size_t piece_count,
                        uint32_t copies, uint32_t planes);

static uint32_t *numbers(size_t *count)
{
    if (scanf("%zu", count) != 1)
        exit(2);
    uint32_t *list = malloc((*count + 1) * sizeof *list);
    for (size_t i = 0; i < *count; i++)
        if (scanf("%u", &list[i]) != 1)
            exit(2);
    return list;
}

static double now(void)
{
    struct timespec t;
    clock_gettime(CLOCK_MONOTONIC, &t);
    return t.tv_sec * 1e3 + t.tv_nsec / 1e6;
}

int main(void)
{
    char name[100];
    uint32_t vertices;
    while (scanf("%99s %u", name, &vertices) == 2) {
        size_t end_count, piece_count;
        uint32_t *ends = numbers(&end_count), *pieces = numbers(&piece_count);
        double best[3] = {1e9, 1e9, 1e9};
        int wrong = 0;
        for (int turn = 0; turn < 5; turn++)
            for (int part = 0; part < 3; part++) {
                double start = now();
                wrong += embedded_times(vertices, ends, end_count, pieces, piece_count, part == 1, part == 2) != (part > 0);
                double took = now() - start;
                if (took < best[part])
                    best[part] = took;
            }
        printf("%s %u %zu %.1f %.1f%s\n", name, vertices, end_count / 2, best[0], best[2] - best[1], wrong ? " WRONG" : "");
        fflush(stdout);
        free(ends);
        free(pieces);
    }
    return 0;
}
