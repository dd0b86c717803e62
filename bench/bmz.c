#include "bmz.h"
#include "rivals.h"

#ifdef WITH_CMPH
#include <cmph.h>

static cmph_t *function;
static size_t size;
static struct numbered places[RIVAL_KEYS];

static size_t place_of(uint64_t key)
{
    return cmph_search(function, (const char *)&key, sizeof key);
}

bool bmz_build(uint64_t *vectors, size_t k)
{
    cmph_io_adapter_t *source = cmph_io_struct_vector_adapter(vectors, sizeof vectors[0], 0, sizeof vectors[0], (cmph_uint32)k);
    cmph_config_t *config = cmph_config_new(source);
    cmph_config_set_algo(config, CMPH_BMZ);
    function = cmph_new(config);
    cmph_config_destroy(config);
    cmph_io_struct_vector_adapter_destroy(source);
    if (function == NULL)
        return false;
    size = k;
    for (size_t i = 0; i < k; i++)
        places[place_of(vectors[i])] = (struct numbered){vectors[i], i + 1};
    return true;
}

/* A key that is not of the list can have a place past it. */
uint64_t bmz_lookup(uint64_t x)
{
    size_t place = place_of(x);
    return place < size && places[place].key == x ? places[place].number : 0;
}
#else
bool bmz_build(uint64_t *vectors, size_t k)
{
    (void)vectors;
    (void)k;
    return false;
}

uint64_t bmz_lookup(uint64_t x)
{
    (void)x;
    return 0;
}
#endif
