/* A plain peer for `bench/native`: native memory as a list of blocks in order of their bases, searched by bisection, and a
 * machine for RV64IM over it, which fetches and decodes at each step. It decodes every instruction, not just those of the
 * loop, so that a step costs what it costs a whole machine. For the words `steps` and `reads BLOCKS READS` it does what
 * native_bench does, and for `call CODE OFFSET` what plhost does with a function of a file of bare code, and prints the same line.
 * It takes a host whose lowest byte comes first. */
#include <stdbool.h>
#include <stdint.h>
#include <stdio.h>
#include <stdlib.h>
#include <string.h>

struct rights {
    bool r, w, x;
};

struct block {
    uint64_t base, size;
    uint8_t *bytes;
    struct rights rights;
};

struct memory {
    struct block *blocks;
    size_t count, room;
    uint64_t next;
};

struct registers {
    uint64_t pc, x[32];
};

static void fail(const char *why) {
    fprintf(stderr, "machine: %s\n", why);
    exit(1);
}

/* Places a block that holds zeros, and returns its base. A block starts at least 16 bytes behind the one before. */
static uint64_t place(struct memory *memory, uint64_t size, struct rights rights) {
    if (memory->count == memory->room) {
        memory->room = 2 * memory->room + 4;
        memory->blocks = realloc(memory->blocks, memory->room * sizeof *memory->blocks);
        if (!memory->blocks) fail("out of memory");
    }
    uint64_t base = memory->next;
    struct block block = {base, size, calloc(size, 1), rights};
    if (!block.bytes) fail("out of memory");
    memory->blocks[memory->count++] = block;
    memory->next = base + (size + 15) / 16 * 16 + 16;
    return base;
}

/* The block that covers a range of at least one byte. */
static struct block *covering(const struct memory *memory, uint64_t addr, uint64_t len) {
    size_t low = 0, high = memory->count;
    while (low < high) {
        size_t middle = low + (high - low) / 2;
        if (memory->blocks[middle].base <= addr)
            low = middle + 1;
        else
            high = middle;
    }
    if (low == 0) return NULL;
    struct block *block = &memory->blocks[low - 1];
    uint64_t start = addr - block->base;
    return start <= block->size && len <= block->size - start ? block : NULL;
}

static bool fetch_word(const struct memory *memory, uint64_t pc, uint32_t *word) {
    const struct block *block = covering(memory, pc, 4);
    if (!block || !block->rights.x) return false;
    memcpy(word, block->bytes + (pc - block->base), 4);
    return true;
}

static bool read_bytes(const struct memory *memory, uint64_t addr, void *into, uint64_t len) {
    const struct block *block = covering(memory, addr, len);
    if (!block || !block->rights.r) return false;
    memcpy(into, block->bytes + (addr - block->base), len);
    return true;
}

static bool write_bytes(struct memory *memory, uint64_t addr, const void *from, uint64_t len) {
    struct block *block = covering(memory, addr, len);
    if (!block || !block->rights.w) return false;
    memcpy(block->bytes + (addr - block->base), from, len);
    return true;
}

/* The bits of a word from `low` on. */
static uint32_t bits(uint32_t word, int low, int count) {
    return word >> low & ((1u << count) - 1);
}

/* A number of `width` bits, sign-extended. */
static int64_t extended(uint64_t value, int width) {
    return (int64_t)(value << (64 - width)) >> (64 - width);
}

static int64_t i_immediate(uint32_t word) {
    return extended(bits(word, 20, 12), 12);
}

static int64_t s_immediate(uint32_t word) {
    return extended(bits(word, 25, 7) << 5 | bits(word, 7, 5), 12);
}

static int64_t b_immediate(uint32_t word) {
    return extended(bits(word, 31, 1) << 12 | bits(word, 7, 1) << 11 | bits(word, 25, 6) << 5 | bits(word, 8, 4) << 1, 13);
}

static int64_t u_immediate(uint32_t word) {
    return extended(word & 0xFFFFF000, 32);
}

static int64_t j_immediate(uint32_t word) {
    return extended(bits(word, 31, 1) << 20 | bits(word, 12, 8) << 12 | bits(word, 20, 1) << 11 | bits(word, 21, 10) << 1, 21);
}

static bool load(const struct memory *memory, uint32_t funct3, uint64_t addr, uint64_t *value) {
    union {
        uint8_t byte;
        uint16_t half;
        uint32_t word;
        uint64_t number;
    } it = {.number = 0};
    bool there;
    switch (funct3 & 3) {
    case 0: there = read_bytes(memory, addr, &it.byte, 1); break;
    case 1: there = read_bytes(memory, addr, &it.half, 2); break;
    case 2: there = read_bytes(memory, addr, &it.word, 4); break;
    default: there = funct3 == 3 && read_bytes(memory, addr, &it.number, 8); break;
    }
    if (there) *value = funct3 < 3 ? (uint64_t)extended(it.number, 8 << funct3) : it.number;
    return there;
}

static bool store(struct memory *memory, uint32_t funct3, uint64_t addr, uint64_t value) {
    switch (funct3) {
    case 0: return write_bytes(memory, addr, &value, 1);
    case 1: return write_bytes(memory, addr, &value, 2);
    case 2: return write_bytes(memory, addr, &value, 4);
    case 3: return write_bytes(memory, addr, &value, 8);
    default: return false;
    }
}

static bool taken(uint32_t funct3, uint64_t a, uint64_t b, bool *is_taken) {
    switch (funct3) {
    case 0: *is_taken = a == b; return true;
    case 1: *is_taken = a != b; return true;
    case 4: *is_taken = (int64_t)a < (int64_t)b; return true;
    case 5: *is_taken = (int64_t)a >= (int64_t)b; return true;
    case 6: *is_taken = a < b; return true;
    case 7: *is_taken = a >= b; return true;
    default: return false;
    }
}

static bool op_immediate(uint32_t word, uint64_t a, uint64_t *value) {
    int64_t immediate = i_immediate(word);
    uint32_t amount = bits(word, 20, 6), funct6 = bits(word, 26, 6);
    switch (bits(word, 12, 3)) {
    case 0: *value = a + immediate; return true;
    case 1: *value = a << amount; return funct6 == 0;
    case 2: *value = (int64_t)a < immediate; return true;
    case 3: *value = a < (uint64_t)immediate; return true;
    case 4: *value = a ^ immediate; return true;
    case 5:
        *value = funct6 ? (uint64_t)((int64_t)a >> amount) : a >> amount;
        return funct6 == 0 || funct6 == 0x10;
    case 6: *value = a | immediate; return true;
    default: *value = a & immediate; return true;
    }
}

static bool op_immediate_32(uint32_t word, uint64_t a, uint64_t *value) {
    uint32_t amount = bits(word, 20, 5), funct7 = bits(word, 25, 7);
    switch (bits(word, 12, 3)) {
    case 0: *value = extended(a + i_immediate(word), 32); return true;
    case 1: *value = extended(a << amount, 32); return funct7 == 0;
    case 5:
        *value = funct7 ? (int32_t)a >> amount : (int32_t)((uint32_t)a >> amount);
        return funct7 == 0 || funct7 == 0x20;
    default: return false;
    }
}

static uint64_t multiplied_or_divided(uint32_t funct3, uint64_t a, uint64_t b) {
    int64_t x = (int64_t)a, y = (int64_t)b;
    bool overflows = x == INT64_MIN && y == -1;
    switch (funct3) {
    case 0: return a * b;
    case 1: return (unsigned __int128)((__int128)x * y) >> 64;
    case 2: return (unsigned __int128)((__int128)x * (__int128)b) >> 64;
    case 3: return (unsigned __int128)a * b >> 64;
    case 4: return b == 0 ? UINT64_MAX : overflows ? a : (uint64_t)(x / y);
    case 5: return b == 0 ? UINT64_MAX : a / b;
    case 6: return b == 0 ? a : overflows ? 0 : (uint64_t)(x % y);
    default: return b == 0 ? a : a % b;
    }
}

static bool op(uint32_t word, uint64_t a, uint64_t b, uint64_t *value) {
    uint32_t funct3 = bits(word, 12, 3), funct7 = bits(word, 25, 7);
    if (funct7 == 1) {
        *value = multiplied_or_divided(funct3, a, b);
        return true;
    }
    if (funct7 == 0x20) {
        *value = funct3 == 0 ? a - b : (uint64_t)((int64_t)a >> (b & 63));
        return funct3 == 0 || funct3 == 5;
    }
    switch (funct3) {
    case 0: *value = a + b; break;
    case 1: *value = a << (b & 63); break;
    case 2: *value = (int64_t)a < (int64_t)b; break;
    case 3: *value = a < b; break;
    case 4: *value = a ^ b; break;
    case 5: *value = a >> (b & 63); break;
    case 6: *value = a | b; break;
    default: *value = a & b; break;
    }
    return funct7 == 0;
}

static bool op_32(uint32_t word, uint64_t a, uint64_t b, uint64_t *value) {
    int32_t x = (int32_t)a, y = (int32_t)b;
    bool overflows = x == INT32_MIN && y == -1;
    int32_t found;
    switch (bits(word, 25, 7) << 3 | bits(word, 12, 3)) {
    case 0x000: found = (uint32_t)a + (uint32_t)b; break;
    case 0x001: found = (uint32_t)a << (b & 31); break;
    case 0x005: found = (uint32_t)a >> (b & 31); break;
    case 0x100: found = (uint32_t)a - (uint32_t)b; break;
    case 0x105: found = x >> (b & 31); break;
    case 0x008: found = (uint32_t)a * (uint32_t)b; break;
    case 0x00C: found = y == 0 ? -1 : overflows ? x : x / y; break;
    case 0x00D: found = y == 0 ? -1 : (int32_t)((uint32_t)a / (uint32_t)b); break;
    case 0x00E: found = y == 0 ? x : overflows ? 0 : x % y; break;
    case 0x00F: found = y == 0 ? x : (int32_t)((uint32_t)a % (uint32_t)b); break;
    default: return false;
    }
    *value = extended((uint32_t)found, 32);
    return true;
}

/* Executes the instruction at pc. False where it can't be executed; then all is as it was. */
static bool step(struct registers *registers, struct memory *memory) {
    uint32_t word;
    if (!fetch_word(memory, registers->pc, &word)) return false;
    uint32_t rd = bits(word, 7, 5), funct3 = bits(word, 12, 3);
    uint64_t a = registers->x[bits(word, 15, 5)], b = registers->x[bits(word, 20, 5)];
    uint64_t pc = registers->pc, next = pc + 4, value = 0;
    bool is_taken;
    switch (word & 0x7F) {
    case 0x03:
        if (!load(memory, funct3, a + i_immediate(word), &value)) return false;
        break;
    case 0x0F:
        if (funct3 != 0) return false;
        rd = 0;
        break;
    case 0x13:
        if (!op_immediate(word, a, &value)) return false;
        break;
    case 0x17: value = pc + u_immediate(word); break;
    case 0x1B:
        if (!op_immediate_32(word, a, &value)) return false;
        break;
    case 0x23:
        if (!store(memory, funct3, a + s_immediate(word), b)) return false;
        rd = 0;
        break;
    case 0x33:
        if (!op(word, a, b, &value)) return false;
        break;
    case 0x37: value = u_immediate(word); break;
    case 0x3B:
        if (!op_32(word, a, b, &value)) return false;
        break;
    case 0x63:
        if (!taken(funct3, a, b, &is_taken)) return false;
        if (is_taken) next = pc + b_immediate(word);
        rd = 0;
        break;
    case 0x67:
        if (funct3 != 0) return false;
        value = next;
        next = (a + i_immediate(word)) & ~(uint64_t)1;
        break;
    case 0x6F:
        value = next;
        next = pc + j_immediate(word);
        break;
    default: return false;
    }
    if (next % 4 != 0) return false;
    if (rd != 0) registers->x[rd] = value;
    registers->pc = next;
    return true;
}

/* The loop, which native_bench/src/steps.rt explains. */
static const uint32_t LOOP[] = {
    0x03F5F293, /* andi t0, a1, 63 */
    0x00329293, /* slli t0, t0, 3 */
    0x002282B3, /* add  t0, t0, sp */
    0x0002B303, /* ld   t1, 0(t0) */
    0x00B30333, /* add  t1, t1, a1 */
    0x0062B023, /* sd   t1, 0(t0) */
    0x00654533, /* xor  a0, a0, t1 */
    0x02D50533, /* mul  a0, a0, a3 */
    0x00158593, /* addi a1, a1, 1 */
    0xFCC59EE3, /* bne  a1, a2, -36 */
};

enum { STEPS = 10000000, TURNS = 1000000, STACK = 1 << 20, SP = 2, A0 = 10, A2 = 12, A3 = 13 };

static void steps(void) {
    struct memory memory = {.next = 65536};
    struct registers registers = {0};
    registers.pc = place(&memory, sizeof LOOP, (struct rights){.r = true, .x = true});
    memcpy(memory.blocks[0].bytes, LOOP, sizeof LOOP);
    registers.x[SP] = place(&memory, STACK, (struct rights){.r = true, .w = true});
    registers.x[A2] = TURNS;
    registers.x[A3] = 0x100000001B3;
    for (long count = 0; count < STEPS; count++)
        if (!step(&registers, &memory)) fail("a step faults");
    printf("%d steps, a0 %016llx\n", STEPS, (unsigned long long)registers.x[A0]);
}

static void read_among(uint64_t blocks, uint64_t reads) {
    struct memory memory = {.next = 65536};
    uint64_t first = memory.next, sum = 0;
    for (uint64_t number = 0; number < blocks; number++) {
        uint8_t byte = number % 256;
        if (!write_bytes(&memory, place(&memory, 1, (struct rights){.r = true, .w = true}), &byte, 1)) fail("a write faults");
    }
    uint64_t stride = 77777 % blocks, number = 0;
    for (uint64_t turn = 0; turn < reads; turn++) {
        uint8_t byte;
        if (!read_bytes(&memory, first + 32 * number, &byte, 1)) fail("a read faults");
        sum += byte;
        number += stride;
        if (number >= blocks) number -= blocks;
    }
    printf("%llu blocks, %llu reads, sum %llu\n", (unsigned long long)blocks, (unsigned long long)reads, (unsigned long long)sum);
}

enum { RETURN_PLACE = 0x100, MEMCPY_PLACE = 0x240, RA = 1, A1 = 11, CODE_ROOM = 1 << 16 };

/* The host function memcpy. */
static bool copy_bytes(struct registers *registers, struct memory *memory) {
    uint64_t to = registers->x[A0], from = registers->x[A1], size = registers->x[A2];
    uint8_t *bytes = malloc(size);
    bool copied = bytes && read_bytes(memory, from, bytes, size) && write_bytes(memory, to, bytes, size);
    free(bytes);
    registers->pc = registers->x[RA];
    return copied;
}

static void call(const char *name, uint64_t offset) {
    struct memory memory = {.next = 65536};
    struct registers registers = {0};
    registers.x[SP] = place(&memory, STACK, (struct rights){.r = true, .w = true}) + STACK;
    uint64_t code = place(&memory, CODE_ROOM, (struct rights){.r = true, .x = true});
    FILE *file = fopen(name, "rb");
    if (!file || !fread(memory.blocks[1].bytes, 1, CODE_ROOM, file)) fail("the code can't be read");
    fclose(file);
    registers.x[RA] = RETURN_PLACE;
    registers.pc = code + offset;
    while (registers.pc != RETURN_PLACE) {
        bool went = registers.pc == MEMCPY_PLACE ? copy_bytes(&registers, &memory) : step(&registers, &memory);
        if (!went) fail("the code faults");
    }
    printf("0x%016llx\n", (unsigned long long)registers.x[A0]);
}

int main(int count, char **words) {
    if (count == 2 && !strcmp(words[1], "steps"))
        steps();
    else if (count == 4 && !strcmp(words[1], "reads"))
        read_among(strtoull(words[2], NULL, 10), strtoull(words[3], NULL, 10));
    else if (count == 4 && !strcmp(words[1], "call"))
        call(words[2], strtoull(words[3], NULL, 10));
    else
        fail("no such mode");
    return 0;
}
