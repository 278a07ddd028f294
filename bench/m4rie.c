/* M4RIE behind the names of solves.h. The program that this is linked into is never
 * started and has no C library: the memory that M4RIE asks for comes from an array,
 * and what would run before and after main is called by name. */
#define _POSIX_C_SOURCE 200112L /* posix_memalign */
#include "solves.h"

#include <errno.h>
#include <m4rie/m4rie.h>

/* Some 1.8 million bytes are taken for one system, most of them for M4RIE's own
 * tables. Nothing is given back before m4rie_close, and then everything. */
static _Alignas(64) char memory[0x200000];
static size_t taken;

int posix_memalign(void **block, size_t alignment, size_t len)
{
    size_t first = (taken + alignment - 1) / alignment * alignment;
    if (len > sizeof memory - first)
        return ENOMEM;
    *block = memory + first;
    taken = first + len;
    return 0;
}

void *malloc(size_t len)
{
    void *block;
    return posix_memalign(&block, 16, len) == 0 ? block : NULL;
}

void *calloc(size_t count, size_t len)
{
    void *block;
    return posix_memalign(&block, 16, count * len) == 0 ? memset(block, 0, count * len) : NULL;
}

void free(void *block)
{
    (void)block;
}

static gf2e *field_of;
static mzed_t *matrix;

void m4rie_open(uint64_t field)
{
    m4ri_init();
    field_of = gf2e_init(field == 16 ? 0x13 : 0x11b);
}

void m4rie_fill(uint64_t size, const uint8_t *values)
{
    matrix = mzed_init(field_of, (rci_t)size, (rci_t)size + 1);
    for (rci_t r = 0; r < matrix->nrows; r++)
        for (rci_t c = 0; c < matrix->ncols; c++)
            mzed_write_elem(matrix, r, c, *values++);
}

uint64_t m4rie_reduce(void)
{
    return (uint64_t)mzed_echelonize(matrix, 1);
}

void m4rie_take(uint8_t *solution)
{
    for (rci_t r = 0; r < matrix->nrows; r++)
        solution[r] = (uint8_t)mzed_read_elem(matrix, r, matrix->nrows);
    mzed_free(matrix);
}

void m4rie_close(void)
{
    gf2e_free(field_of);
    m4ri_fini();
    taken = 0;
}
