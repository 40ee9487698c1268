// Reads graphs from standard input, one a line: a name, the number of vertices, how many numbers of ends follow, and these. Prints
// of each the name and the milliseconds, the best of five, for finding the split components alone; graphs of the name `same` are
// split by both splitters instead, and it is counted where these lead to the same nodes.
#include <stdint.h>
#include <stdio.h>
#include <stdlib.h>
#include <string.h>
#include <time.h>

uint32_t split_once(uint32_t vertices, const uint32_t *ends, size_t end_count, uint8_t splits, uint8_t compares);

static double now(void)
{
    struct timespec t;
    clock_gettime(CLOCK_MONOTONIC, &t);
    return t.tv_sec * 1e3 + t.tv_nsec / 1e6;
}

int main(void)
{
    char name[100];
    uint32_t vertices;
    size_t count;
    long compared = 0, same = 0, wrong = 0;
    while (scanf("%99s %u %zu", name, &vertices, &count) == 3) {
        uint32_t *ends = malloc((count + 1) * sizeof *ends);
        for (size_t i = 0; i < count; i++)
            if (scanf("%u", &ends[i]) != 1)
                exit(2);
        if (strcmp(name, "same") == 0) {
            compared++;
            same += split_once(vertices, ends, count, 0, 1);
        } else {
            double best[2] = {1e9, 1e9};
            for (int turn = 0; turn < 5; turn++)
                for (int splits = 0; splits < 2; splits++) {
                    double start = now();
                    wrong += split_once(vertices, ends, count, splits, 0) != 1;
                    double took = now() - start;
                    if (took < best[splits])
                        best[splits] = took;
                }
            printf("%s %u %zu %.2f\n", name, vertices, count / 2, best[1] - best[0]);
            fflush(stdout);
        }
        free(ends);
    }
    printf("both splitters: %ld of %ld blocks lead to the same nodes\n", same, compared);
    return wrong > 0 || same != compared;
}
