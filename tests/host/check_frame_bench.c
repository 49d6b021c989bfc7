/*
 * Benchmark of folderpink_check_frame beside the reference: nanoseconds for one sound frame
 * of the shortest and of the longest length. The two are timed by turns in one run,
 * and the best round of each is printed. Fails where the shortest frame takes so long that the
 * check word's table must have been copied at each call, which no proof would see.
 */
#define _POSIX_C_SOURCE 199309L

#include <stdint.h>
#include <stdio.h>
#include <stdlib.h>
#include <string.h>
#include <time.h>

#include "folderpink.h"
#include "reference.h"
#include "subpdu.h"

/* With the table copied at each call the check took twice the reference's time; without, as long. */
#define SHORTEST_RATIO_MAX 1.5

/* Long enough to outlast a phase in which the core is shared with other work. */
#define NS_PER_LENGTH 2e9

#define PASSES_PER_ROUND 64
#define FRAMES 16
#define CALLS_PER_ROUND (PASSES_PER_ROUND * FRAMES)

typedef uint8_t check_function(const uint8_t *bytes, size_t length);

static uint8_t frames[FRAMES][FOLDERPINK_FRAME_MAX];

/* S-Refresh of the slave 1/3 to the master 1/2, in session 7. */
static void make_frame(uint8_t *frame, size_t length, uint32_t stamp)
{
    const size_t half = length / 2;

    put_word(frame, 0xFF050007u);
    put_word(frame + 4, 0x01020103u);
    put_word(frame + 8, stamp << 16);
    put_word(frame + 12, 1);
    put_word(frame + 16, 0);
    for (size_t i = 20; i < half - 4; i++) {
        frame[i] = (uint8_t)(37 * i + stamp);
    }
    put_word(frame + half - 4, reference_crc32c(frame, half - 4));
    memcpy(frame + half, frame, half);
}

static double now_ns(void)
{
    struct timespec now;

    clock_gettime(CLOCK_MONOTONIC, &now);
    return 1e9 * (double)now.tv_sec + (double)now.tv_nsec;
}

static double time_round(check_function *check, size_t length)
{
    unsigned sum = 0;
    const double start = now_ns();
    double end;

    for (unsigned pass = 0; pass < PASSES_PER_ROUND; pass++) {
        for (unsigned i = 0; i < FRAMES; i++) {
            sum += check(frames[i], length);
        }
    }
    end = now_ns();
    if (sum != FOLDERPINK_DONE) {
        fprintf(stderr, "check_frame_bench: a sound frame was refused\n");
        exit(EXIT_FAILURE);
    }
    return (end - start) / CALLS_PER_ROUND;
}

static double smaller(double a, double b)
{
    return a < b ? a : b;
}

/* Prints the two times; returns the product's in the reference's. */
static double bench(size_t length)
{
    const double start = now_ns();
    double product = NS_PER_LENGTH;
    double reference = NS_PER_LENGTH;

    for (uint32_t i = 0; i < FRAMES; i++) {
        make_frame(frames[i], length, 1000 + i);
    }
    while (now_ns() - start < NS_PER_LENGTH) {
        product = smaller(product, time_round(folderpink_check_frame, length));
        reference = smaller(reference, time_round(reference_check_frame, length));
    }
    printf("%zu bytes: product %.1f ns, C %.1f ns, ratio %.2f\n", length, product, reference,
           product / reference);
    return product / reference;
}

int main(void)
{
    double shortest;

    reference_init();
    shortest = bench(FOLDERPINK_FRAME_MIN);
    bench(FOLDERPINK_FRAME_MAX);
    if (shortest > SHORTEST_RATIO_MAX) {
        fprintf(stderr, "check_frame_bench: ratio above %.1f: is the check word's table copied?\n",
                SHORTEST_RATIO_MAX);
        return EXIT_FAILURE;
    }
    return EXIT_SUCCESS;
}
