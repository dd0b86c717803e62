/* Times of calls, in nanoseconds, and the verdicts on their ratios. */
#ifndef TIMING_H
#define TIMING_H

#include <stddef.h>
#include <stdint.h>

_Noreturn void stop(const char *why);

double now(void);

/* The time of one call, which has to give the answer wanted. */
double timed(uint64_t (*call)(void), uint64_t wanted);

/* Sorts the times. */
double median(double *times, size_t count);

/* "ok" or "missed"; each is counted. */
const char *verdict(double ratio, double wanted);
void print_verdicts(void);

#endif
