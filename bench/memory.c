#include "memory.h"

#include <string.h>

struct span {
    const char *name;
    size_t width;
    size_t offset;
};

#define SPAN(text, field) {text, sizeof ((struct memory *)0)->field[0], offsetof(struct memory, field)}

static const struct span spans[PARTS] = {
    [VECTORS] = SPAN("vectors", vectors), [GIVEN] = SPAN("variables", given), [AUX] = SPAN("aux", aux), [RECORD] = SPAN("record", record),
    [VECTOR] = SPAN("vector", vector),    [H] = SPAN("h", h),                 [G] = SPAN("g", g),       [FILE_BYTES] = SPAN("file", file),
};

static const unsigned char *start_of(const struct memory *m, enum part part)
{
    return (const unsigned char *)m + spans[part].offset;
}

static unsigned char *start_in(struct memory *m, enum part part)
{
    return (unsigned char *)m + spans[part].offset;
}

static size_t bytes(enum part part, size_t words)
{
    return words * spans[part].width;
}

static void junk(struct random *r, unsigned char *to, size_t count)
{
    for (size_t at = 0; at < count; at += sizeof(uint64_t)) {
        uint64_t word = random_word(r);
        memcpy(to + at, &word, count - at < sizeof word ? count - at : sizeof word);
    }
}

static void set_lengths(struct memory *m, const struct call *c)
{
    const size_t length[PARTS] = {
        [VECTORS] = c->k,   [GIVEN] = IGU_VARIABLES, [AUX] = c->length.aux, [RECORD] = IGU_RECORD_WORDS,
        [VECTOR] = 1,       [H] = c->length.h,       [G] = c->length.g,     [FILE_BYTES] = 0,
    };
    memcpy(m->length, length, sizeof length);
}

struct tables tables_of(struct memory *m)
{
    return (struct tables){.record = m->record + GUARD, .h = m->h + GUARD, .g = m->g + GUARD, .aux = m->aux + GUARD};
}

void memory_fill(struct memory *m, const struct call *c, struct random *r)
{
    set_lengths(m, c);
    for (int part = 0; part < PARTS; part++)
        junk(r, start_in(m, part), bytes(part, m->length[part] + 2 * GUARD));
    memcpy(m->vectors + GUARD, c->vectors, c->k * sizeof c->vectors[0]);
    memcpy(m->given + GUARD, c->variables, sizeof c->variables);
}

void memory_twin(struct memory *to, const struct memory *from, const struct call *c, struct random *r)
{
    memory_copy(to, from);
    for (int part = 0; part < PARTS; part++) {
        junk(r, start_in(to, part), bytes(part, GUARD));
        junk(r, start_in(to, part) + bytes(part, GUARD + to->length[part]), bytes(part, GUARD));
    }
    for (size_t v = c->p; v < IGU_VARIABLES; v++)
        to->given[GUARD + v] = random_word(r);
}

void memory_lend_file(struct memory *m, struct random *r, size_t length)
{
    m->length[FILE_BYTES] = length;
    junk(r, m->file, length + 2 * GUARD);
}

void memory_put_file(struct memory *m, struct random *r, const uint8_t *bytes, size_t length)
{
    memory_lend_file(m, r, length);
    memcpy(m->file + GUARD, bytes, length);
}

void memory_copy(struct memory *to, const struct memory *from)
{
    memcpy(to->length, from->length, sizeof to->length);
    for (int part = 0; part < PARTS; part++)
        memcpy(start_in(to, part), start_of(from, part), bytes(part, from->length[part] + 2 * GUARD));
}

void part_copy(struct memory *to, const struct memory *from, enum part part)
{
    size_t guard = bytes(part, GUARD);
    memcpy(start_in(to, part) + guard, start_of(from, part) + guard, bytes(part, from->length[part]));
}

bool part_equal(const struct memory *a, const struct memory *b, enum part part)
{
    size_t guard = bytes(part, GUARD);
    return memcmp(start_of(a, part) + guard, start_of(b, part) + guard, bytes(part, a->length[part])) == 0;
}

static bool part_kept(const struct memory *after, const struct memory *before, enum part part, size_t written)
{
    const unsigned char *now = start_of(after, part), *then = start_of(before, part);
    size_t rest = bytes(part, GUARD + written), end = bytes(part, after->length[part] + 2 * GUARD);
    return memcmp(now, then, bytes(part, GUARD)) == 0 && memcmp(now + rest, then + rest, end - rest) == 0;
}

bool memory_kept(const struct memory *after, const struct memory *before, const size_t written[PARTS])
{
    for (int part = 0; part < PARTS; part++)
        if (!part_kept(after, before, part, written[part]))
            return false;
    return true;
}

const char *part_name(enum part part)
{
    return spans[part].name;
}

uint64_t part_word(const struct memory *m, enum part part, size_t i)
{
    const unsigned char *at = start_of(m, part) + bytes(part, GUARD + i);
    uint16_t half;
    uint64_t word;
    switch (spans[part].width) {
    case 1: return *at;
    case sizeof half: memcpy(&half, at, sizeof half); return half;
    default: memcpy(&word, at, sizeof word); return word;
    }
}
