#include "harness.h"

#include <string.h>

static uint8_t *at, *save, *check, *finish;

static void byte(unsigned one) { *at++ = (uint8_t)one; }

static void bytes(const char *hex) {
    for (; *hex; hex += 2) {
        unsigned high = (unsigned)(hex[0] <= '9' ? hex[0] - '0' : hex[0] - 'a' + 10);
        unsigned low = (unsigned)(hex[1] <= '9' ? hex[1] - '0' : hex[1] - 'a' + 10);
        byte(high << 4 | low);
    }
}

static void four(uint64_t number) {
    uint32_t some = (uint32_t)number;
    memcpy(at, &some, 4);
    at += 4;
}

static void jump(const char *opcode, const uint8_t *target) {
    bytes(opcode);
    four((uint64_t)(target - at - 4));
}

/* An instruction of 64 bits with a register and memory: at an absolute address, or at a distance from a register. */
static void absolute(unsigned opcode, unsigned reg, uint64_t address) {
    byte(0x48 | reg >> 3 << 2);
    byte(opcode);
    byte((reg & 7) << 3 | 4);
    byte(0x25);
    four(address);
}

static void based(unsigned opcode, unsigned reg, unsigned base, uint64_t distance) {
    byte(0x48);
    byte(opcode);
    byte(0x80 | reg << 3 | base);
    four(distance);
}

enum { STORE = 0x89, LOAD = 0x8b, COMPARE = 0x3b };
#define VARIABLE(name) (AREA + offsetof(struct variables, name))
#define FIELD(name) offsetof(struct entry, name)

uint64_t *before_of(struct entry *entry, int reg) {
    if (reg == RSP)
        return &entry->before[15];
    return &entry->before[reg > RSP ? 15 - reg : 14 - reg];
}

uint64_t to_kept(uint64_t flags) { return (flags & (SIX & ~(uint64_t)OF) & 0xff) << 8 | 0x200 | (flags & OF ? 1 : 0); }

uint64_t from_kept(uint64_t kept) { return (kept >> 8 & 0xd5) | (kept & 1 ? OF : 0); }

static void lay_load(void) {
    absolute(LOAD, RBX, VARIABLE(current));
    for (unsigned one = PLACES; one-- > 0;) { /* the operand last: it may hold a target */
        uint64_t place = FIELD(places) + one * sizeof(struct place);
        based(LOAD, RCX, RBX, place + offsetof(struct place, address));
        based(LOAD, RAX, RBX, place + offsetof(struct place, before));
        bytes("488901"); /* mov [rcx], rax */
    }
    based(LOAD, RAX, RBX, FIELD(rip));
    absolute(STORE, RAX, VARIABLE(target));
    bytes("48c70425"); /* mov qword [landed], 0 */
    four(VARIABLE(landed));
    four(0);
    bytes("4889dc");   /* mov rsp, rbx */
    bytes("58047f9e"); /* pop rax; add al, 7F; sahf */
    for (unsigned reg = 16; reg-- > 0;)
        if (reg >= 8)
            byte(0x41), byte(0x58 | (reg & 7));
        else if (reg != RSP)
            byte(0x58 | reg);
    bytes("5cff2425"); /* pop rsp; jmp [target] */
    four(VARIABLE(target));
}

static void lay_save(void) {
    save = at;
    for (unsigned reg = 0; reg < 16; reg++)
        absolute(STORE, reg, VARIABLE(regs) + 8 * reg);
    bytes("9f0f90c066890425"); /* lahf; seto al; mov [flags], ax */
    four(VARIABLE(flags));
    bytes("ff2425"); /* jmp [ret] */
    four(VARIABLE(ret));
}

/* Compares a variable with a field of the trial; jumps to be filled in are remembered. */
static uint8_t *holes[32];
static int holes_count;

static void unequal(void) {
    bytes("0f85");
    holes[holes_count++] = at;
    four(0);
}

static void lay_comparisons(void) {
    check = at;
    holes_count = 0;
    absolute(LOAD, RBX, VARIABLE(current));
    for (unsigned reg = 0; reg < 16; reg++) {
        absolute(LOAD, RAX, VARIABLE(regs) + 8 * reg);
        based(COMPARE, RAX, RBX, FIELD(regs_after) + 8 * reg);
        unequal();
    }
    absolute(LOAD, RAX, VARIABLE(flags));
    based(COMPARE, RAX, RBX, FIELD(flags_after));
    unequal();
    absolute(LOAD, RAX, VARIABLE(landed));
    based(COMPARE, RAX, RBX, FIELD(landed));
    unequal();
    for (unsigned one = 0; one < PLACES; one++) {
        uint64_t place = FIELD(places) + one * sizeof(struct place);
        based(LOAD, RCX, RBX, place + offsetof(struct place, address));
        bytes("488b01"); /* mov rax, [rcx] */
        based(COMPARE, RAX, RBX, place + offsetof(struct place, after));
        unequal();
    }
}

static void fill_holes(void) {
    for (int one = 0; one < holes_count; one++) {
        uint32_t distance = (uint32_t)(at - holes[one] - 4);
        memcpy(holes[one], &distance, 4);
    }
}

/* Goes on to the next trial, or past the last one. A trial that differs is listed and counted before. */
static void lay_loop(const uint8_t *load) {
    uint8_t *next = at;
    absolute(LOAD, RBX, VARIABLE(current));
    bytes("4881c3"); /* add rbx, the entry's size */
    four(sizeof(struct entry));
    absolute(STORE, RBX, VARIABLE(current));
    absolute(COMPARE, RBX, VARIABLE(end));
    jump("0f85", load);
    bytes("e9");
    uint8_t *over = at;
    four(0);
    fill_holes();
    absolute(LOAD, RCX, VARIABLE(count));
    bytes("4883f90c"); /* cmp rcx, 12 */
    bytes("7308");     /* jae over the next */
    bytes("48891ccd"); /* mov [listed + 8 rcx], rbx */
    four(VARIABLE(listed));
    bytes("4883c101"); /* add rcx, 1 */
    absolute(STORE, RCX, VARIABLE(count));
    jump("e9", next);
    uint32_t distance = (uint32_t)(at - over - 4);
    memcpy(over, &distance, 4);
}

/* Compares one space of data with what is expected: r15 is the first byte of eight that differ. */
static void lay_space(uint64_t space, uint64_t expected) {
    bytes("48be"); /* mov rsi, the space */
    memcpy(at, &space, 8);
    at += 8;
    bytes("48c7c7"); /* mov rdi, what is expected */
    four(expected);
    bytes("48c7c1"); /* mov rcx, its eights */
    four(SPACE / 8);
    bytes("488b06483b077403");         /* mov rax, [rsi]; cmp rax, [rdi]; je over the next */
    bytes("4989f7");                   /* mov r15, rsi */
    bytes("4883c6084883c7084883e901"); /* add rsi, 8; add rdi, 8; sub rcx, 1 */
    bytes("75e7");                     /* jne to the load of rax */
}

static void lay_finish(void) {
    bytes("49c7c700000000"); /* mov r15, 0 */
    lay_space(DATA, EXPECTED);
    lay_space(HIGH, EXPECTED + SPACE);
    for (unsigned reg = 0; reg < LISTED; reg++)
        absolute(LOAD, reg, VARIABLE(listed) + 8 * reg);
    absolute(LOAD, 12, VARIABLE(count));
    finish = at;
    byte(0xf4);
}

void lay_harness(uint8_t *code, uint8_t *landings) {
    at = code;
    lay_load();
    lay_save();
    lay_comparisons();
    lay_loop(code);
    lay_finish();
    for (unsigned one = 0; one < LANDINGS_COUNT; one++)
        lay_landing(landings + LANDING * one);
}

void lay_landing(uint8_t *landing) {
    at = landing;
    bytes("c70425"); /* mov dword [landed], its number */
    four(VARIABLE(landed));
    four((uint64_t)landing / LANDING);
    lay_jump_to_save(at);
}

void lay_jump_to_save(uint8_t *from) {
    at = from;
    jump("e9", save);
}

const uint8_t *check_at(void) { return check; }

const uint8_t *finish_at(void) { return finish; }
