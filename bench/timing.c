#define _POSIX_C_SOURCE 200809L

#include "timing.h"

#include <stdio.h>
#include <stdlib.h>
#include <time.h>

static int ok, missed;

_Noreturn void stop(const char *why)
{
    fprintf(stderr, "speed: %s\n", why);
    exit(1);
}

double now(void)
{
    struct timespec t;
    clock_gettime(CLOCK_MONOTONIC, &t);
    return (double)t.tv_sec * 1e9 + (double)t.tv_nsec;
}

double timed(uint64_t (*call)(void), uint64_t wanted)
{
    double start = now();
    uint64_t answer = call();
    double end = now();
    if (answer != wanted)
        stop("an answer differs: a refusal, or a wrong lookup");
    return end - start;
}

static int rising(const void *a, const void *b)
{
    double left = *(const double *)a, right = *(const double *)b;
    return (left > right) - (left < right);
}

double median(double *times, size_t count)
{
    qsort(times, count, sizeof times[0], rising);
    return times[count / 2];
}

const char *verdict(double ratio, double wanted)
{
    *(ratio <= wanted ? &ok : &missed) += 1;
    return ratio <= wanted ? "ok" : "missed";
}

void print_verdicts(void)
{
    printf("\nwanted figures: %d ok, %d missed\n", ok, missed);
}
