/* The program of docs/INTEGRATION.md for a line of axes, on a host: all C of its chapter "A line of axes" stands here, and tests/refused.sh builds and runs it.
 *
 *     axes FILE
 *
 * writes the figures of every image of a line, one a line. A refused image ends it; then it says which image that is, counted from 0, and where it begins. */
#include "hervantyu.h"

#include <stdio.h>
#include <stdlib.h>

/* How far a line was taken: how many images, and how many bytes they have together. */
struct taken {
    uint64_t images, bytes;
};

/* Writes the figures of the images of a line, one behind the other. Gives 0, or the number of the refusal that ended it, with its place and byte offset in
 * where: both count from the front of that image, which begins behind what was taken. */
static uint32_t print_figures(const uint8_t *line, uint64_t length, struct taken *taken, uint64_t where[2])
{
    static int64_t figures[HV_FIGURES_MOST];
    uint64_t count, used;
    taken->images = taken->bytes = 0;
    do {
        uint32_t number = hv_figures(line + taken->bytes, length - taken->bytes, figures, HV_FIGURES_MOST, where, &count, &used);
        if (number != 0)
            return number;
        for (uint64_t i = 0; i < count; i++)
            printf("%lld\n", (long long)figures[i]);
        taken->images++;
        taken->bytes += used;
    } while (taken->bytes < length);
    return 0;
}

enum { LONGEST = 1 << 20 };

int main(int count, char **arguments)
{
    static uint8_t line[LONGEST];
    FILE *file = count == 2 ? fopen(arguments[1], "rb") : NULL;
    struct taken taken;
    uint64_t where[2];
    uint32_t number;
    size_t length;
    if (file == NULL) {
        fprintf(stderr, "usage: axes FILE\n");
        return 2;
    }
    length = fread(line, 1, LONGEST, file);
    if (ferror(file) || fgetc(file) != EOF) {
        fprintf(stderr, "%s cannot be read, or is longer than %d bytes\n", arguments[1], LONGEST);
        return 2;
    }
    fclose(file);
    number = print_figures(line, length, &taken, where);
    if (number != 0)
        printf("image %llu, at byte %llu: refused %u %llu %llu\n", (unsigned long long)taken.images, (unsigned long long)taken.bytes, (unsigned)number,
               (unsigned long long)where[0], (unsigned long long)where[1]);
    return number != 0;
}
