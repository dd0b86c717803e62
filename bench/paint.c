/* Measures the stack that a build of the largest list takes: it runs on a stack painted with one word, and the lowest word that was
 * changed says how deep it went. The cells are lent write-protected: the first write to one is the start of the placing, and there what
 * lies below is painted again, so that the placing has a figure of its own. */
#define _GNU_SOURCE
#include "igu.h"
#include "random.h"

#include <signal.h>
#include <stdio.h>
#include <stdlib.h>
#include <sys/mman.h>
#include <ucontext.h>

#define N 64
#define K 1023
#define DEGREE 2
#define ROWS 4096
#define CELLS 8192
#define SEEDS_TRIED 50

/* Bytes: of the whole call, as include/igu.h says, and from the entry down while rows are placed. */
#define BUILD_LIMIT (80 * 1024)
#define GIVEN_LIMIT (20 * 1024)
#define PLACING_LIMIT 4096

#define STACK_WORDS (1 << 15)
#define PAINT 0x5A17C0DE5A17C0DEu
#define RED_ZONE 128 /* bytes below the stack pointer that a function may use */

static uint64_t vectors[K], aux[K + 1], record[IGU_RECORD_WORDS], variables[IGU_VARIABLES];
static uint16_t h[ROWS], *g;
static size_t p, n1;
static uint64_t stack[STACK_WORDS], *placing_from, answer;
static ucontext_t caller, callee;

static _Noreturn void stop(const char *why)
{
    fprintf(stderr, "paint: %s\n", why);
    exit(1);
}

static void paint(uint64_t *end)
{
    for (uint64_t *word = stack; word < end; word++)
        *(volatile uint64_t *)word = PAINT;
}

static size_t depth(void)
{
    size_t i = 0;
    while (i < STACK_WORDS && stack[i] == PAINT)
        i++;
    return sizeof stack - i * sizeof stack[0];
}

static void first_write(int signal, siginfo_t *info, void *context)
{
    (void)signal;
    uint64_t *low = (uint64_t *)(uintptr_t)((ucontext_t *)context)->uc_mcontext.gregs[REG_RSP];
    if ((uint16_t *)info->si_addr < g || g + CELLS <= (uint16_t *)info->si_addr || low < stack || stack + STACK_WORDS < low)
        _Exit(2);
    placing_from = low;
    paint(low - RED_ZONE / sizeof *low);
    mprotect(g, CELLS * sizeof *g, PROT_READ | PROT_WRITE);
}

static void chosen(void)
{
    answer = igu_build(N, DEGREE, CELLS, UINT64_MAX, vectors, K, h, ROWS, g, CELLS, aux, K + 1, record);
}

static void given(void)
{
    answer = igu_build_given(N, p, n1, CELLS, UINT64_MAX, variables, vectors, K, h, ROWS, g, CELLS, aux, K + 1, record);
}

static size_t run(void (*build)(void))
{
    paint(stack + STACK_WORDS);
    getcontext(&callee);
    callee.uc_stack.ss_sp = stack;
    callee.uc_stack.ss_size = sizeof stack;
    callee.uc_link = &caller;
    makecontext(&callee, build, 0);
    swapcontext(&caller, &callee);
    return depth();
}

/* One row of the table; whether both figures are within their limits. */
static bool measure(const char *name, void (*build)(void), size_t limit)
{
    size_t whole = run(build);
    if (answer != 0)
        stop("a build was refused");
    placing_from = NULL;
    mprotect(g, CELLS * sizeof *g, PROT_READ);
    size_t placing = run(build);
    if (answer != 0 || placing_from == NULL)
        stop("no cell was written");
    size_t held = (size_t)(stack + STACK_WORDS - placing_from) * sizeof *stack;
    if (placing < held)
        placing = held;
    printf("| `%s` | %zu | %zu | %zu | %d |\n", name, whole, limit, placing, PLACING_LIMIT);
    return whole <= limit && placing <= PLACING_LIMIT;
}

static void draw_list(uint64_t seed)
{
    struct random r = {seed};
    for (size_t i = 0; i < K; i++)
        vectors[i] = random_word(&r);
}

int main(void)
{
    static uint64_t signal_stack[STACK_WORDS];
    stack_t alternate = {.ss_sp = signal_stack, .ss_size = sizeof signal_stack};
    struct sigaction action = {.sa_sigaction = first_write, .sa_flags = SA_SIGINFO | SA_ONSTACK};
    g = mmap(NULL, CELLS * sizeof *g, PROT_READ | PROT_WRITE, MAP_PRIVATE | MAP_ANONYMOUS, -1, 0);
    if (g == MAP_FAILED || sigaltstack(&alternate, NULL) != 0 || sigaction(SIGSEGV, &action, NULL) != 0)
        stop("no memory, or no signals");
    uint64_t seed = 1;
    do
        draw_list(seed), chosen();
    while (answer != 0 && ++seed <= SEEDS_TRIED);
    if (answer != 0)
        stop("no accepted list within the seeds tried");
    p = record[1];
    n1 = record[2];
    for (size_t i = 0; i < IGU_VARIABLES; i++)
        variables[i] = record[8 + i];
    printf("\nn %d, k %d, degree %d, L %d; p %zu, n1 %zu\n\n", N, K, DEGREE, CELLS, p, n1);
    printf("| Call | Bytes of stack | Limit | While rows are placed | Limit |\n|---|---|---|---|---|\n");
    bool build = measure("igu_build", chosen, BUILD_LIMIT), rest = measure("igu_build_given", given, GIVEN_LIMIT);
    printf("\n");
    return !(build && rest);
}
