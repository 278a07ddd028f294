#include "trace.h"

#include <stdio.h>
#include <stdlib.h>
#include <string.h>

/* ---- The listing ---- */

static char *text[CODE_END - CODE];

static void read_listing(const char *file)
{
    char line[512], *end;
    FILE *f = fopen(file, "r");
    if (f == NULL) {
        fprintf(stderr, "listing: no file %s\n", file);
        exit(2);
    }
    while (fgets(line, sizeof line, f) != NULL) {
        uint64_t address = strtoull(line, &end, 16);
        if (line[0] != ' ' || *end != ':' || address - CODE >= CODE_END - CODE)
            continue;
        line[strcspn(line, "\n")] = 0;
        text[address - CODE] = strdup(end + 1 + strspn(end + 1, " \t"));
    }
    fclose(f);
}

const char *trace_text(uint32_t pc)
{
    pc &= ~NOT_DONE;
    return text[pc - CODE] == NULL ? "not in the listing" : text[pc - CODE];
}

/* How many instructions an instruction puts under a condition: as many as Thumb's IT has letters after its I. */
static size_t conditional_after(uint32_t pc)
{
    const char *p = text[pc - CODE];
    if (p == NULL || strncmp(p, "it", 2) != 0)
        return 0;
    size_t letters = strspn(p + 1, "te");
    return p[1 + letters] == '\t' ? letters : 0;
}

static uint32_t next_in_listing(uint32_t pc)
{
    do
        pc += 2;
    while (text[pc - CODE] == NULL);
    return pc;
}

/* ---- The trace ---- */

typedef struct {
    emulator *e;
    trace *t;
    bool values;
    uint64_t before[MAX_REGISTERS][2];
    uint32_t conditional; /* the next instruction that is under a condition, */
    size_t left;          /* and how many are */
} tracer;

static tracer tracing; /* the call that is traced */

#define GROW(list, count, room) \
    if ((count) == (room)) { \
        (room) = (room) ? 2 * (room) : 4096; \
        (list) = realloc((list), (room) * sizeof *(list)); \
    }

static void new_change(trace *t, uint32_t at, uint8_t where, uint8_t len, const void *bytes)
{
    GROW(t->changes, t->change_count, t->change_room)
    change *c = &t->changes[t->change_count++];
    c->at = at;
    c->where = where;
    c->len = len;
    memcpy(c->bytes, bytes, len);
}

/* Notes the registers that the instruction before has changed. */
static void note_registers(uc_engine *uc, tracer *r)
{
    uint64_t now[MAX_REGISTERS][2] = {{0}};
    void *to[MAX_REGISTERS];
    for (size_t i = 0; i < r->e->registers; i++)
        to[i] = now[i];
    uc_reg_read_batch(uc, r->e->number, to, (int)r->e->registers);
    for (size_t i = 0; i < r->e->registers; i++)
        if (now[i][0] != r->before[i][0] || now[i][1] != r->before[i][1]) {
            memcpy(r->before[i], now[i], 16);
            if (r->t->length > 0)
                new_change(r->t, (uint32_t)r->t->length - 1, (uint8_t)i, r->e->len[i], now[i]);
        }
}

static void new_instruction(trace *t, uint32_t pc)
{
    GROW(t->pc, t->length, t->pc_room)
    t->pc[t->length++] = pc;
}

/* The emulator does not tell of an instruction whose condition does not hold; the machine goes over it all the same. */
static void on_instruction(uc_engine *uc, uint64_t address, uint32_t size, void *the_tracer)
{
    (void)size;
    tracer *r = the_tracer;
    if (r->values)
        note_registers(uc, r);
    for (; r->left > 0 && r->conditional != address; r->left--) {
        new_instruction(r->t, r->conditional | NOT_DONE);
        r->conditional = next_in_listing(r->conditional);
    }
    new_instruction(r->t, (uint32_t)address);
    if (r->left > 0) {
        r->left--;
        r->conditional = next_in_listing(r->conditional);
    } else if ((r->left = conditional_after((uint32_t)address)) > 0)
        r->conditional = next_in_listing((uint32_t)address);
}

static void on_touch(uc_engine *uc, uc_mem_type type, uint64_t address, int size, int64_t value, void *the_tracer)
{
    (void)uc;
    tracer *r = the_tracer;
    trace *t = r->t;
    uint32_t at = (uint32_t)t->length - 1;
    GROW(t->touches, t->touch_count, t->touch_room)
    t->touches[t->touch_count++] = (touch){at, type == UC_MEM_WRITE, address};
    if (r->values && type == UC_MEM_WRITE)
        new_change(t, at, STORE, (uint8_t)size, &value);
}

void trace_open(emulator *e, const char *listing)
{
    uc_hook hook;
    read_listing(listing);
    tracing.e = e;
    uc_hook_add(e->uc, &hook, UC_HOOK_CODE, (void *)on_instruction, &tracing, 1, 0);
    uc_hook_add(e->uc, &hook, UC_HOOK_MEM_READ | UC_HOOK_MEM_WRITE, (void *)on_touch, &tracing, 1, 0);
}

uint64_t trace_call(emulator *e, const char *function, size_t numbers, const uint64_t *arguments, size_t count,
                    bool values, trace *t)
{
    tracing = (tracer){.e = e, .t = t, .values = values};
    t->length = t->touch_count = t->change_count = 0;
    return emulator_call(e, function, numbers, arguments, count);
}
