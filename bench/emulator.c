/* A plain interpreter of the instruction table of docs/machine.md, to compare the proved emulator with.
   It decodes each word again at each step, by a switch over its fields, and keeps nothing of what it decoded.

   usage: emulator IMAGE STEPS
   It makes up to STEPS steps of the image, and prints how many it made, and as what the last one ended. */
#define _GNU_SOURCE
#include <stdint.h>
#include <stdio.h>
#include <stdlib.h>
#include <string.h>

#define CODE UINT64_C(0x10000)
#define STATICS UINT64_C(0x20000000)
#define HEAP UINT64_C(0x40000000)
#define CONTROL UINT64_C(0x60000000)
#define NUMBER UINT64_C(0x70000000)
#define REGION_SIZE (UINT64_C(64) << 20)

struct region {
    uint64_t start, size;
    unsigned char *bytes;
};

struct machine {
    uint64_t x[32], pc;
    struct region code, statics, heap, control, number;
    const char *ending;
};

static int64_t sign_of(uint64_t number, int bits) {
    return (int64_t)(number << (64 - bits)) >> (64 - bits);
}

/* Where a region has these bytes, or NULL. */
static unsigned char *in_region(struct region *region, uint64_t address, uint64_t count) {
    uint64_t offset = address - region->start;
    return offset < region->size && count <= region->size - offset ? region->bytes + offset : NULL;
}

static unsigned char *place(struct machine *m, uint64_t address, uint64_t count, int writes) {
    if (address % count != 0)
        return NULL;
    if (address >= NUMBER)
        return in_region(&m->number, address, count);
    if (address >= CONTROL)
        return in_region(&m->control, address, count);
    if (address >= HEAP)
        return in_region(&m->heap, address, count);
    if (address >= STATICS)
        return in_region(&m->statics, address, count);
    return writes ? NULL : in_region(&m->code, address, count);
}

static void set(struct machine *m, unsigned rd, uint64_t word) {
    if (rd != 0)
        m->x[rd] = word;
    m->pc += 4;
}

static void end(struct machine *m, const char *ending) {
    m->ending = ending;
}

static void trap(struct machine *m) {
    end(m, "trap");
}

static uint64_t high_product(uint64_t a, uint64_t b, unsigned funct3) {
    if (funct3 == 3)
        return (uint64_t)(((unsigned __int128)a * b) >> 64);
    __int128 second = funct3 == 1 ? (__int128)(int64_t)b : (__int128)b;
    return (uint64_t)(((__int128)(int64_t)a * second) >> 64);
}

static uint64_t divided(int64_t a, int64_t b, unsigned funct3) {
    if (funct3 == 4)
        return b == 0 ? UINT64_MAX : b == -1 ? -(uint64_t)a : (uint64_t)(a / b);
    if (funct3 == 5)
        return b == 0 ? UINT64_MAX : (uint64_t)a / (uint64_t)b;
    if (funct3 == 6)
        return b == 0 ? (uint64_t)a : b == -1 ? 0 : (uint64_t)(a % b);
    return b == 0 ? (uint64_t)a : (uint64_t)a % (uint64_t)b;
}

static void load(struct machine *m, unsigned rd, unsigned funct3, uint64_t address) {
    uint64_t count = UINT64_C(1) << funct3 % 4, number = 0;
    unsigned char *bytes = funct3 == 7 ? NULL : place(m, address, count, 0);
    if (bytes == NULL) {
        trap(m);
        return;
    }
    switch (funct3) {
    case 0: { int8_t n; memcpy(&n, bytes, 1); number = (uint64_t)(int64_t)n; break; }
    case 1: { int16_t n; memcpy(&n, bytes, 2); number = (uint64_t)(int64_t)n; break; }
    case 2: { int32_t n; memcpy(&n, bytes, 4); number = (uint64_t)(int64_t)n; break; }
    case 4: { uint8_t n; memcpy(&n, bytes, 1); number = n; break; }
    case 5: { uint16_t n; memcpy(&n, bytes, 2); number = n; break; }
    case 6: { uint32_t n; memcpy(&n, bytes, 4); number = n; break; }
    default: memcpy(&number, bytes, 8);
    }
    set(m, rd, number);
}

static void store(struct machine *m, unsigned funct3, uint64_t address, uint64_t word) {
    uint64_t count = UINT64_C(1) << funct3 % 4;
    unsigned char *bytes = funct3 > 3 ? NULL : place(m, address, count, 1);
    if (bytes == NULL) {
        trap(m);
        return;
    }
    switch (funct3) {
    case 0: memcpy(bytes, &word, 1); break;
    case 1: memcpy(bytes, &word, 2); break;
    case 2: memcpy(bytes, &word, 4); break;
    default: memcpy(bytes, &word, 8);
    }
    m->pc += 4;
}

static void branch(struct machine *m, unsigned funct3, uint64_t a, uint64_t b, uint64_t target) {
    int taken;
    switch (funct3) {
    case 0: taken = a == b; break;
    case 1: taken = a != b; break;
    case 4: taken = (int64_t)a < (int64_t)b; break;
    case 5: taken = (int64_t)a >= (int64_t)b; break;
    case 6: taken = a < b; break;
    case 7: taken = a >= b; break;
    default: trap(m); return;
    }
    m->pc = taken ? target : m->pc + 4;
}

static void immediate(struct machine *m, uint32_t w, unsigned rd, unsigned funct3, uint64_t a) {
    uint64_t b = (uint64_t)sign_of(w >> 20, 12);
    unsigned amount = w >> 20 & 63;
    switch (funct3) {
    case 0: set(m, rd, a + b); return;
    case 1: w >> 26 == 0 ? set(m, rd, a << amount) : trap(m); return;
    case 2: set(m, rd, (int64_t)a < (int64_t)b); return;
    case 3: set(m, rd, a < b); return;
    case 4: set(m, rd, a ^ b); return;
    case 5:
        w >> 26 == 0 ? set(m, rd, a >> amount)
        : w >> 26 == 16 ? set(m, rd, (uint64_t)((int64_t)a >> amount)) : trap(m);
        return;
    case 6: set(m, rd, a | b); return;
    default: set(m, rd, a & b);
    }
}

static void word_immediate(struct machine *m, uint32_t w, unsigned rd, unsigned funct3, uint64_t a) {
    unsigned amount = w >> 20 & 31, funct7 = w >> 25;
    if (funct3 == 0)
        set(m, rd, (uint64_t)sign_of(a + (uint64_t)sign_of(w >> 20, 12), 32));
    else if (funct3 == 1 && funct7 == 0)
        set(m, rd, (uint64_t)sign_of(a << amount, 32));
    else if (funct3 == 5 && funct7 == 0)
        set(m, rd, (uint64_t)sign_of((uint32_t)a >> amount, 32));
    else if (funct3 == 5 && funct7 == 32)
        set(m, rd, (uint64_t)((int64_t)(int32_t)a >> amount));
    else
        trap(m);
}

static void operation(struct machine *m, unsigned rd, unsigned code, uint64_t a, uint64_t b) {
    switch (code) {
    case 0: set(m, rd, a + b); return;
    case 1: set(m, rd, a << (b & 63)); return;
    case 2: set(m, rd, (int64_t)a < (int64_t)b); return;
    case 3: set(m, rd, a < b); return;
    case 4: set(m, rd, a ^ b); return;
    case 5: set(m, rd, a >> (b & 63)); return;
    case 6: set(m, rd, a | b); return;
    case 7: set(m, rd, a & b); return;
    case 32 << 3: set(m, rd, a - b); return;
    case 32 << 3 | 5: set(m, rd, (uint64_t)((int64_t)a >> (b & 63))); return;
    case 1 << 3: set(m, rd, a * b); return;
    case 1 << 3 | 1: case 1 << 3 | 2: case 1 << 3 | 3: set(m, rd, high_product(a, b, code & 7)); return;
    case 1 << 3 | 4: case 1 << 3 | 5: case 1 << 3 | 6: case 1 << 3 | 7:
        set(m, rd, divided((int64_t)a, (int64_t)b, code & 7));
        return;
    default: trap(m);
    }
}

static void word_operation(struct machine *m, unsigned rd, unsigned code, uint64_t a, uint64_t b) {
    int32_t low_a = (int32_t)a, low_b = (int32_t)b;
    uint64_t result;
    switch (code) {
    case 0: result = a + b; break;
    case 1: result = a << (b & 31); break;
    case 5: result = (uint32_t)a >> (b & 31); break;
    case 32 << 3: result = a - b; break;
    case 32 << 3 | 5: result = (uint64_t)(low_a >> (b & 31)); break;
    case 1 << 3: result = a * b; break;
    case 1 << 3 | 4: case 1 << 3 | 6: result = divided(low_a, low_b, code & 7); break;
    case 1 << 3 | 5: case 1 << 3 | 7: result = divided((uint32_t)a, (uint32_t)b, code & 7); break;
    default: trap(m); return;
    }
    set(m, rd, (uint64_t)sign_of(result, 32));
}

static int is_character(uint64_t code) {
    return code < 0xD800 || (0xE000 <= code && code < 0x110000);
}

/* What is written is dropped, and the input is empty. */
static void call(struct machine *m) {
    switch (m->x[17]) {
    case 1: is_character(m->x[16]) ? set(m, 0, 0) : trap(m); return;
    case 2: set(m, 16, UINT64_MAX); return;
    case 3: end(m, "value"); return;
    case 4: 1 <= m->x[16] && m->x[16] <= 10 ? end(m, "error") : trap(m); return;
    case 5: end(m, "heap"); return;
    case 6: end(m, "stack"); return;
    default: trap(m);
    }
}

static void jump(struct machine *m, unsigned rd, uint64_t target) {
    set(m, rd, m->pc + 4);
    m->pc = target;
}

static void step(struct machine *m) {
    uint64_t offset = m->pc - CODE;
    uint32_t w;
    if (m->pc % 4 != 0 || offset >= m->code.size) {
        trap(m);
        return;
    }
    memcpy(&w, m->code.bytes + offset, 4);
    unsigned rd = w >> 7 & 31, funct3 = w >> 12 & 7, funct7 = w >> 25;
    uint64_t a = m->x[w >> 15 & 31], b = m->x[w >> 20 & 31];
    uint64_t i = (uint64_t)sign_of(w >> 20, 12);
    switch (w & 127) {
    case 0x37: set(m, rd, (uint64_t)sign_of(w & 0xFFFFF000, 32)); return;
    case 0x17: set(m, rd, m->pc + (uint64_t)sign_of(w & 0xFFFFF000, 32)); return;
    case 0x6F:
        jump(m, rd, m->pc + (uint64_t)sign_of((w >> 31) << 20 | (w >> 12 & 255) << 12 | (w >> 20 & 1) << 11 | (w >> 21 & 1023) << 1, 21));
        return;
    case 0x67: funct3 == 0 ? jump(m, rd, (a + i) & ~UINT64_C(1)) : trap(m); return;
    case 0x63:
        branch(m, funct3, a, b, m->pc + (uint64_t)sign_of((w >> 31) << 12 | (w >> 7 & 1) << 11 | (w >> 25 & 63) << 5 | (w >> 8 & 15) << 1, 13));
        return;
    case 0x03: load(m, rd, funct3, a + i); return;
    case 0x23: store(m, funct3, a + (uint64_t)sign_of(funct7 << 5 | rd, 12), b); return;
    case 0x13: immediate(m, w, rd, funct3, a); return;
    case 0x1B: word_immediate(m, w, rd, funct3, a); return;
    case 0x33: operation(m, rd, funct7 << 3 | funct3, a, b); return;
    case 0x3B: word_operation(m, rd, funct7 << 3 | funct3, a, b); return;
    case 0x73: w == 0x73 ? call(m) : trap(m); return;
    default: trap(m);
    }
}

static uint64_t number_at(const unsigned char *bytes, int count) {
    uint64_t number = 0;
    memcpy(&number, bytes, (size_t)count);
    return number;
}

static struct region region_of(uint64_t start, uint64_t size, const unsigned char *bytes) {
    struct region region = {start, size, calloc(1, size + 8)};
    if (region.bytes == NULL)
        exit(1);
    if (bytes != NULL)
        memcpy(region.bytes, bytes, size);
    return region;
}

/* The image is trusted to be one. */
static int start(struct machine *m, const char *name) {
    FILE *file = fopen(name, "rb");
    static unsigned char image[1 << 23];
    size_t size = file == NULL ? 0 : fread(image, 1, sizeof image, file);
    if (size < 40)
        return 0;
    uint64_t code = number_at(image + 8, 8), statics = number_at(image + 16, 8);
    m->code = region_of(CODE, code, image + 40);
    m->statics = region_of(STATICS, statics, image + 40 + code);
    m->heap = region_of(HEAP, REGION_SIZE, NULL);
    m->control = region_of(CONTROL, REGION_SIZE, NULL);
    m->number = region_of(NUMBER, REGION_SIZE, NULL);
    m->pc = number_at(image + 32, 8);
    m->x[2] = NUMBER;
    m->x[3] = m->x[4] = CONTROL;
    m->x[8] = HEAP;
    m->x[9] = HEAP + REGION_SIZE;
    m->x[19] = STATICS + 3;
    m->x[28] = CONTROL + REGION_SIZE;
    m->x[29] = NUMBER + REGION_SIZE;
    return 1;
}

int main(int count, char **words) {
    static struct machine m;
    if (count != 3 || !start(&m, words[1]))
        return 2;
    uint64_t steps = 0, limit = strtoull(words[2], NULL, 10);
    while (steps < limit && m.ending == NULL) {
        step(&m);
        steps++;
    }
    printf("%llu steps, %s\n", (unsigned long long)steps, m.ending == NULL ? "step limit" : m.ending);
    return 0;
}
