/*
 * The season planner's use of Hipstern:
 *
 *     planner [FILE..]
 *
 * prints the cap and the floor of a crew's load for some sites, then the imbalance with which growth does not get stuck, then
 * for each link file `FILE ok` or `FILE refused N`.
 * The exit status is 1 if a file could not be read.
 */
#include "hipstern.h"

#include <inttypes.h>
#include <stdio.h>
#include <stdlib.h>

static void print_load(const char *name, uint64_t load)
{
    if (load == HIPSTERN_NO_LOAD)
        printf(" %s none", name);
    else
        printf(" %s %" PRIu64, name, load);
}

static void print_loads(uint64_t total, uint32_t ranks, uint32_t imbalance_per_mille)
{
    printf("load %" PRIu64 " crews %" PRIu32 " imbalance %" PRIu32 ":", total, ranks, imbalance_per_mille);
    print_load("cap", hipstern_load_cap(total, ranks, imbalance_per_mille));
    print_load("floor", hipstern_minimum_load(total, ranks, imbalance_per_mille));
    printf("\n");
}

/*
 * The least imbalance with which a division is not refused by 8, if every workload is 1 and no coarsening step is kept: with
 * it the crews may have all turbines between them. Above 500 there is none, and there must be fewer crews.
 */
static void print_imbalance(uint32_t turbines, uint32_t ranks)
{
    uint32_t t = 0;

    while (t <= 500 && ranks * hipstern_load_cap(turbines, ranks, t) < turbines)
        t++;
    printf("turbines %" PRIu32 " crews %" PRIu32 ": ", turbines, ranks);
    if (t <= 500)
        printf("imbalance %" PRIu32 " or more\n", t);
    else
        printf("fewer crews\n");
}

/* All bytes of a file, to be freed; NULL if it cannot be read. An empty file gives a pointer too. */
static uint8_t *read_all(const char *name, size_t *length)
{
    FILE *stream = fopen(name, "rb");
    uint8_t *bytes = NULL;
    size_t room = 0, got;
    int failed = 0;

    *length = 0;
    if (stream == NULL)
        return NULL;
    do {
        if (*length == room) {
            uint8_t *grown;

            room = 2 * room + 4096;
            grown = realloc(bytes, room);
            if (grown == NULL) {
                failed = 1;
                break;
            }
            bytes = grown;
        }
        got = fread(bytes + *length, 1, room - *length, stream);
        *length += got;
    } while (got > 0);
    failed = failed || ferror(stream);
    fclose(stream);
    if (failed) {
        free(bytes);
        return NULL;
    }
    return bytes;
}

/* Whether the file could be read. */
static int print_file(const char *name)
{
    size_t length;
    uint8_t *bytes = read_all(name, &length);
    uint32_t cause;

    if (bytes == NULL) {
        perror(name);
        return 0;
    }
    cause = hipstern_link_file_cause(bytes, length);
    if (cause == HIPSTERN_OK)
        printf("%s ok\n", name);
    else
        printf("%s refused %" PRIu32 "\n", name, cause);
    free(bytes);
    return 1;
}

int main(int count, char **words)
{
    int status = EXIT_SUCCESS;
    int i;

    print_loads(4, 2, 30);
    print_loads(5, 2, 199);
    print_loads(5, 2, 200);
    print_loads(64, 8, 0);
    print_loads(16384, 256, 500);
    print_loads(3, 7, 30);
    /* workloads: those of samples/workloads5.links, and the most that a site's can sum to */
    print_loads(22584, 3, 200);
    print_loads(163840000, 256, 500);
    print_loads(0, 2, 30);
    /* the product saturates */
    print_loads(UINT64_MAX, 1, 500);
    print_loads(UINT64_MAX, UINT32_MAX, 0);
    /* no crews, an imbalance out of range, both */
    print_loads(4, 0, 30);
    print_loads(4, 2, 501);
    print_loads(4, 2, UINT32_MAX);
    print_loads(4, 0, 501);
    /* 8 from numbers alone: the path of five, a site of thirteen, equal shares, the most imbalance, more than that, the limits */
    print_imbalance(5, 2);
    print_imbalance(13, 3);
    print_imbalance(12, 3);
    print_imbalance(4, 3);
    print_imbalance(9, 8);
    print_imbalance(16384, 255);
    for (i = 1; i < count; i++)
        if (!print_file(words[i]))
            status = EXIT_FAILURE;
    return status;
}
