#include "emulator.h"

#include <elf.h>
#include <stdio.h>
#include <stdlib.h>
#include <string.h>

#define DATA 0x10000000u
#define DATA_SIZE 0x1000000u
#define STACK 0x20000000u
#define STACK_SIZE 0x40000u
#define HOME 0x30000000u /* where calls return to */
#define FRAME 128        /* bytes at the top of the stack, for arguments */

static void fault(const char *what, const char *which)
{
    fprintf(stderr, "emulator: %s %s\n", what, which);
    exit(2);
}

static void must(uc_err e, const char *doing)
{
    if (e != UC_ERR_OK)
        fault(doing, uc_strerror(e));
}

/* ---- The machines ---- */

/* Where a call begins: what the caller leaves in registers and on the stack. */
typedef struct {
    size_t numbers, count;
    const uint64_t *arguments;
    uint8_t frame[FRAME]; /* the stack pointer is at its first byte */
} start;

struct kind_of_machine {
    uint16_t elf;
    uc_arch arch;
    uc_mode mode;
    int model, stack_pointer, result[2]; /* the result's low half, and its high half where it is apart */
    uint64_t thumb;                      /* 1 where addresses of code are odd */
    void (*add_registers)(emulator *e);
    void (*begin)(emulator *e, start *s);
};

static void add_register(emulator *e, int number, uint8_t len)
{
    e->number[e->registers] = number;
    e->len[e->registers++] = len;
}

static void set(emulator *e, int number, uint64_t value)
{
    must(uc_reg_write(e->uc, number, &value), "set a register");
}

static void x86_registers(emulator *e)
{
    static const int general[16] = {UC_X86_REG_RAX, UC_X86_REG_RBX, UC_X86_REG_RCX, UC_X86_REG_RDX,
                                    UC_X86_REG_RSI, UC_X86_REG_RDI, UC_X86_REG_RBP, UC_X86_REG_RSP,
                                    UC_X86_REG_R8,  UC_X86_REG_R9,  UC_X86_REG_R10, UC_X86_REG_R11,
                                    UC_X86_REG_R12, UC_X86_REG_R13, UC_X86_REG_R14, UC_X86_REG_R15};
    for (int i = 0; i < 16; i++)
        add_register(e, general[i], 8);
    for (int i = 0; i < 16; i++)
        add_register(e, UC_X86_REG_XMM0 + i, 16);
}

static void x86_begin(emulator *e, start *s)
{
    static const int in_register[6] = {UC_X86_REG_RDI, UC_X86_REG_RSI, UC_X86_REG_RDX,
                                       UC_X86_REG_RCX, UC_X86_REG_R8,  UC_X86_REG_R9};
    uint64_t home = HOME;
    memcpy(s->frame, &home, 8);
    for (size_t i = 0; i < s->count; i++)
        if (i < 6)
            set(e, in_register[i], s->arguments[i]);
        else
            memcpy(s->frame + 8 * (i - 5), &s->arguments[i], 8);
}

static void aarch64_registers(emulator *e)
{
    for (int i = 0; i < 29; i++)
        add_register(e, UC_ARM64_REG_X0 + i, 8);
    add_register(e, UC_ARM64_REG_X29, 8);
    add_register(e, UC_ARM64_REG_X30, 8);
    add_register(e, UC_ARM64_REG_SP, 8);
    for (int i = 0; i < 32; i++)
        add_register(e, UC_ARM64_REG_Q0 + i, 16);
}

static void aarch64_begin(emulator *e, start *s)
{
    int64_t vectors = 3 << 20; /* CPACR_EL1: they are there */
    must(uc_reg_write(e->uc, UC_ARM64_REG_CPACR_EL1, &vectors), "vectors");
    set(e, UC_ARM64_REG_X30, HOME);
    for (size_t i = 0; i < s->count; i++)
        if (i < 8)
            set(e, UC_ARM64_REG_X0 + (int)i, s->arguments[i]);
        else
            memcpy(s->frame + 8 * (i - 8), &s->arguments[i], 8);
}

static void m4_registers(emulator *e)
{
    for (int i = 0; i < 13; i++)
        add_register(e, UC_ARM_REG_R0 + i, 4);
    add_register(e, UC_ARM_REG_SP, 4);
    add_register(e, UC_ARM_REG_LR, 4);
}

/* The four registers and then the stack are one row of words; a number of 64 bits takes
 * two of them, the first an even one. */
static void m4_begin(emulator *e, start *s)
{
    uint32_t words[4 + FRAME / 4] = {0};
    size_t used = 0;
    for (size_t i = 0; i < s->count; i++) {
        used += i < s->numbers && used % 2;
        words[used++] = (uint32_t)s->arguments[i];
        if (i < s->numbers)
            words[used++] = (uint32_t)(s->arguments[i] >> 32);
    }
    for (int i = 0; i < 4; i++)
        set(e, UC_ARM_REG_R0 + i, words[i]);
    set(e, UC_ARM_REG_LR, HOME | 1);
    memcpy(s->frame, words + 4, FRAME);
}

static const kind_of_machine kinds[] = {
    {EM_X86_64, UC_ARCH_X86, UC_MODE_64, 0, UC_X86_REG_RSP, {UC_X86_REG_RAX, 0}, 0, x86_registers, x86_begin},
    {EM_AARCH64, UC_ARCH_ARM64, UC_MODE_ARM, UC_CPU_ARM64_A57, UC_ARM64_REG_SP, {UC_ARM64_REG_X0, 0}, 0,
     aarch64_registers, aarch64_begin},
    {EM_ARM, UC_ARCH_ARM, UC_MODE_THUMB | UC_MODE_MCLASS, UC_CPU_ARM_CORTEX_M4, UC_ARM_REG_SP,
     {UC_ARM_REG_R0, UC_ARM_REG_R1}, 1, m4_registers, m4_begin},
};

/* ---- The program ---- */

static char *read_file(const char *name)
{
    FILE *f = fopen(name, "rb");
    if (f == NULL)
        fault("no file", name);
    fseek(f, 0, SEEK_END);
    size_t len = (size_t)ftell(f);
    rewind(f);
    char *bytes = malloc(len);
    if (bytes == NULL || fread(bytes, 1, len, f) != len)
        fault("cannot read", name);
    fclose(f);
    return bytes;
}

static void add_symbol(emulator *e, uint64_t address, unsigned type, const char *name)
{
    if (type == STT_FUNC)
        e->symbols[e->symbol_count++] = (symbol){address & ~e->kind->thumb, name};
}

/* The parts that are in memory, and the functions. */
#define LOAD(bits)                                                                                                 \
    static void load_##bits(emulator *e)                                                                           \
    {                                                                                                              \
        const Elf##bits##_Ehdr *head = (const Elf##bits##_Ehdr *)e->file;                                          \
        const Elf##bits##_Phdr *part = (const Elf##bits##_Phdr *)(e->file + head->e_phoff);                        \
        const Elf##bits##_Shdr *section = (const Elf##bits##_Shdr *)(e->file + head->e_shoff);                     \
        for (int i = 0; i < head->e_phnum; i++)                                                                    \
            if (part[i].p_type == PT_LOAD)                                                                         \
                must(uc_mem_write(e->uc, part[i].p_vaddr, e->file + part[i].p_offset, part[i].p_filesz), "load");  \
        for (int i = 0; i < head->e_shnum; i++) {                                                                  \
            if (section[i].sh_type != SHT_SYMTAB)                                                                  \
                continue;                                                                                          \
            const Elf##bits##_Sym *all = (const Elf##bits##_Sym *)(e->file + section[i].sh_offset);                \
            size_t count = section[i].sh_size / sizeof *all;                                                       \
            e->symbols = calloc(count, sizeof *e->symbols);                                                        \
            for (size_t k = 0; k < count; k++)                                                                     \
                add_symbol(e, all[k].st_value, ELF##bits##_ST_TYPE(all[k].st_info),                                \
                           e->file + section[section[i].sh_link].sh_offset + all[k].st_name);                      \
        }                                                                                                          \
    }

LOAD(32)
LOAD(64)

/* A repeated string instruction comes here at each turn; it is one instruction. */
static void count(uc_engine *uc, uint64_t address, uint32_t size, void *machine)
{
    (void)uc, (void)size;
    emulator *e = machine;
    e->counted += address != e->last;
    e->last = address;
}

emulator *emulator_open(const char *program)
{
    emulator *e = calloc(1, sizeof *e);
    uc_hook hook;
    e->file = read_file(program);
    uint16_t elf = ((const Elf64_Ehdr *)e->file)->e_machine; /* at the same place in every file */
    for (size_t i = 0; i < sizeof kinds / sizeof *kinds; i++)
        if (kinds[i].elf == elf)
            e->kind = &kinds[i];
    if (e->kind == NULL)
        fault("no such machine for", program);
    must(uc_open(e->kind->arch, e->kind->mode, &e->uc), "open");
    if (elf != EM_X86_64)
        must(uc_ctl_set_cpu_model(e->uc, e->kind->model), "model");
    e->kind->add_registers(e);
    must(uc_mem_map(e->uc, CODE, CODE_END - CODE, UC_PROT_ALL), "map code");
    must(uc_mem_map(e->uc, DATA, DATA_SIZE, UC_PROT_READ | UC_PROT_WRITE), "map data");
    must(uc_mem_map(e->uc, STACK, STACK_SIZE, UC_PROT_READ | UC_PROT_WRITE), "map stack");
    must(uc_mem_map(e->uc, HOME, 0x1000, UC_PROT_ALL), "map home");
    must(uc_hook_add(e->uc, &hook, UC_HOOK_CODE, (void *)count, e, 1, 0), "hook");
    if (e->file[EI_CLASS] == ELFCLASS32)
        load_32(e);
    else
        load_64(e);
    emulator_reset(e);
    return e;
}

/* ---- Calls ---- */

void emulator_reset(emulator *e)
{
    e->lent = DATA;
}

uint64_t emulator_lend(emulator *e, const void *bytes, size_t len)
{
    uint64_t address = e->lent;
    must(uc_mem_write(e->uc, address, bytes, len), "lend");
    e->lent += (len / 64 + 2) * 64;
    return address;
}

void emulator_take(emulator *e, uint64_t address, void *bytes, size_t len)
{
    must(uc_mem_read(e->uc, address, bytes, len), "take");
}

static uint64_t address_of(const emulator *e, const char *name)
{
    for (size_t i = 0; i < e->symbol_count; i++)
        if (strcmp(e->symbols[i].name, name) == 0)
            return e->symbols[i].address;
    fault("no function", name);
    return 0;
}

const symbol *emulator_function(const emulator *e, uint64_t address)
{
    const symbol *found = NULL;
    for (size_t i = 0; i < e->symbol_count; i++)
        if (e->symbols[i].address <= address && (found == NULL || found->address < e->symbols[i].address))
            found = &e->symbols[i];
    return found;
}

uint64_t emulator_call(emulator *e, const char *name, size_t numbers, const uint64_t *arguments, size_t count)
{
    static const uint8_t zeros[STACK_SIZE];
    start s = {numbers, count, arguments, {0}};
    uint64_t result = 0, high = 0;
    /* x86-64 has the stack pointer 8 below a multiple of 16 at entry, the others at one */
    uint64_t top = STACK + STACK_SIZE - FRAME - (e->kind->elf == EM_X86_64 ? 8 : 0);
    for (size_t i = 0; i < e->registers; i++)
        must(uc_reg_write(e->uc, e->number[i], zeros), "clear");
    e->kind->begin(e, &s);
    must(uc_mem_write(e->uc, STACK, zeros, sizeof zeros), "clear stack");
    must(uc_mem_write(e->uc, top, s.frame, FRAME), "frame");
    set(e, e->kind->stack_pointer, top);
    e->counted = 0;
    e->last = 0;
    must(uc_emu_start(e->uc, address_of(e, name) | e->kind->thumb, HOME, 0, 0), name);
    uc_reg_read(e->uc, e->kind->result[0], &result);
    if (e->kind->result[1] != 0) {
        uc_reg_read(e->uc, e->kind->result[1], &high);
        result |= high << 32;
    }
    return result;
}
