#include "cases.h"
#include "draw.h"
#include "expect.h"

/* A number outside low to high: just outside, or right again when cut to 16 or 32 bits, or huge. */
static size_t outside(struct random *r, size_t low, size_t high)
{
    size_t within = random_between(r, low, high);
    switch (random_below(r, 6)) {
    case 0: return low > 0 ? low - 1 : high + 1;
    case 1: return high + 1;
    case 2: return high + 1 + random_below(r, 200);
    case 3: return within + ((size_t)1 << 16);
    case 4: return within + ((size_t)1 << 32);
    default: return one_in(r, 4) ? SIZE_MAX : within + ((size_t)1 << 63);
    }
}

static size_t any_side(struct random *r)
{
    return one_in(r, 3) ? outside(r, 0, VARIABLES) : random_below(r, 30);
}

static void fault_sides(struct random *r, struct call *c)
{
    do {
        c->p = any_side(r);
        c->n1 = any_side(r);
    } while (sides_in_bounds(c->p, c->n1));
}

/* No vectors, or more than may be; memory has to stand behind each of them. */
static void fault_count(struct random *r, struct call *c)
{
    size_t listed = c->k;
    c->k = one_in(r, 2) ? 0 : one_in(r, 2) ? VECTORS_AT_MOST + 1 : random_between(r, VECTORS_AT_MOST + 1, VECTOR_ROOM);
    for (size_t i = listed; i < c->k; i++)
        c->vectors[i] = random_word(r);
}

void fault_number(struct random *r, struct call *c)
{
    switch (random_below(r, 4)) {
    case 0:
        c->n = outside(r, 1, 64);
        break;
    case 1:
        if (c->given)
            fault_sides(r, c);
        else
            c->degree = outside(r, 1, 2);
        break;
    case 2:
        fault_count(r, c);
        break;
    default:
        c->L = outside(r, 1, CELLS_AT_MOST);
    }
}

static size_t shorter(struct random *r, size_t length)
{
    return length == 0 ? 0 : one_in(r, 2) ? length - 1 : random_below(r, length);
}

static void shorten(struct random *r, struct lengths *length)
{
    size_t *const slices[] = {&length->h, &length->g, &length->aux};
    size_t *slice = slices[random_below(r, 3)];
    *slice = shorter(r, *slice);
}

void fault_slice(struct random *r, struct call *c)
{
    shorten(r, &c->length);
    if (one_in(r, 2))
        shorten(r, &c->length);
}

static void repeat_vector(struct random *r, struct call *c)
{
    uint64_t vector = c->vectors[random_below(r, c->k)];
    c->vectors[random_below(r, c->k)] = vector;
}

static void add_bit_beyond(struct random *r, struct call *c)
{
    uint64_t *vector = &c->vectors[random_below(r, c->k)];
    if (c->n < 64)
        *vector |= (uint64_t)1 << random_between(r, c->n, 63);
}

void fault_list(struct random *r, struct call *c)
{
    if (c->k == 0)
        return;
    for (size_t times = random_between(r, 1, 3); times > 0; times--) {
        if (one_in(r, 2))
            repeat_vector(r, c);
        else
            add_bit_beyond(r, c);
    }
}

/* Position 0, above n, above 64, not rising; or a word with a part or a position that no variable has. */
static uint64_t faulty_variable(struct random *r, size_t n)
{
    uint64_t i = random_between(r, 1, n), part = 65536 * random_below(r, 2);
    switch (random_below(r, 8)) {
    case 0: return part;
    case 1: return part + n + 1;
    case 2: return part + random_between(r, n + 1, 255);
    case 3: return part + i + 256 * random_between(r, n + 1, 255);
    case 4: return part + i + 256 * random_between(r, 1, i);
    case 5: return part + 256 * i;
    case 6: return i + ((uint64_t)1 << random_between(r, 17, 63));
    default: return random_word(r);
    }
}

void fault_variable(struct random *r, struct call *c)
{
    size_t n = c->n >= 1 && c->n <= 64 ? c->n : 64;
    size_t p = c->p >= 1 && c->p <= VARIABLES ? c->p : VARIABLES;
    for (size_t times = random_between(r, 1, 2); times > 0; times--) {
        uint64_t *word = &c->variables[random_below(r, p)];
        *word = one_in(r, 4) ? random_variable(r, n) : faulty_variable(r, n);
    }
}

void fault_any(struct random *r, struct call *c)
{
    void (*const faults[])(struct random *, struct call *) = {fault_number, fault_slice, fault_list, fault_variable};
    faults[random_below(r, 4)](r, c);
}
