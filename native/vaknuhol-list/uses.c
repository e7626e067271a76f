#include "uses.h"

#include <stdlib.h>

#include "refusing.h"

enum {
    REGISTER_COUNT = 16,
    MOST_SLOTS = 12,
    MOST_WAITING = 48,
    MOST_STEPS = 320,
    MOST_NESTED = 3,
    MOST_VISITS = 2,
    SEEN = 1024,
    ALIGNED = 16,
    MOST_DEEP = 100
};
enum { RAX, RCX, RDX, RBX, RSP, RBP, RSI, RDI, WORD_BYTES = 8 }; /* as processors number them */

/* What a register or a place of the stack has: the address as it was, one made of it, or an address of the stack. */
enum has { OTHER_VALUE, EXACT, DERIVED, STACK };
struct value {
    int has, offset; /* offset: from where the stack pointer was at first */
};
struct slot {
    int offset;
    struct value value;
};
struct state {
    uint32_t addr;
    struct value registers[REGISTER_COUNT];
    struct slot slots[MOST_SLOTS];
    int slot_count;
};

/* A walk, which its nested ones share: what was found, and which addresses were come to, and how often. A function is left in another way than by
   a return to where it was called, where some of its ways don't end so, and none does. */
struct walk {
    const struct evidence *it;
    int steps;
    bool is_for_return, is_read, is_led_to, is_changed, is_returned, is_left;
    uint32_t seen[SEEN];
    uint8_t visits[SEEN];
};

static const struct value NOTHING_KNOWN = {OTHER_VALUE, 0};

static bool is_pointer(struct value value) { return value.has == EXACT || value.has == DERIVED; }

static struct value derived(struct value value) { return is_pointer(value) ? (struct value){DERIVED, 0} : NOTHING_KNOWN; }

/* The register's number, or -1 for what is none of 32 or 64 bits. */
static int number_of(ZydisRegister name) {
    switch (ZydisRegisterGetClass(name)) {
    case ZYDIS_REGCLASS_GPR64:
    case ZYDIS_REGCLASS_GPR32: return ZydisRegisterGetId(name);
    default: return -1;
    }
}

static struct value of_register(const struct state *state, ZydisRegister name) {
    int number = number_of(name);
    return number < 0 ? NOTHING_KNOWN : state->registers[number];
}

static void set_register(struct state *state, ZydisRegister name, struct value value) {
    int number = number_of(ZydisRegisterGetLargestEnclosing(ZYDIS_MACHINE_MODE_LONG_64, name));
    if (number >= 0)
        state->registers[number] = value;
}

static struct value of_slot(const struct state *state, int offset) {
    for (int at = 0; at < state->slot_count; at++)
        if (state->slots[at].offset == offset)
            return state->slots[at].value;
    return NOTHING_KNOWN;
}

static void set_slot(struct state *state, int offset, struct value value) {
    int at = 0;
    while (at < state->slot_count && state->slots[at].offset != offset)
        at++;
    if (at == MOST_SLOTS || (at == state->slot_count && value.has == OTHER_VALUE))
        return;
    state->slot_count += at == state->slot_count;
    state->slots[at] = (struct slot){offset, value};
}

/* Whether an operand is a place of the stack, and which. */
static bool is_slot(const struct state *state, const ZydisDecodedOperand *operand, int *offset) {
    if (operand->type != ZYDIS_OPERAND_TYPE_MEMORY || operand->mem.index != ZYDIS_REGISTER_NONE)
        return false;
    struct value base = of_register(state, operand->mem.base);
    *offset = base.offset + (int)operand->mem.disp.value;
    return base.has == STACK;
}

/* What an operand has. */
static struct value of_operand(const struct state *state, const ZydisDecodedOperand *operand) {
    int offset;
    if (operand->type == ZYDIS_OPERAND_TYPE_REGISTER)
        return of_register(state, operand->reg.value);
    return is_slot(state, operand, &offset) && operand->size == 64 ? of_slot(state, offset) : NOTHING_KNOWN;
}

static void set_operand(struct state *state, const ZydisDecodedOperand *operand, struct value value) {
    int offset;
    if (operand->type == ZYDIS_OPERAND_TYPE_REGISTER)
        set_register(state, operand->reg.value, value);
    else if (is_slot(state, operand, &offset))
        set_slot(state, offset, value);
}

/* The address that a lea makes. */
static struct value of_address(const struct state *state, const ZydisDecodedOperand *operand) {
    struct value base = of_register(state, operand->mem.base), index = of_register(state, operand->mem.index);
    bool has_index = operand->mem.index != ZYDIS_REGISTER_NONE;
    int distance = (int)operand->mem.disp.value;
    if (base.has == STACK)
        return has_index ? NOTHING_KNOWN : (struct value){STACK, base.offset + distance};
    if (is_pointer(base))
        return has_index || distance ? (struct value){DERIVED, 0} : base;
    return operand->mem.scale == 1 ? derived(index) : NOTHING_KNOWN;
}

/* Whether memory is accessed by the address that is followed. */
static bool is_through(const struct state *state, const ZydisDecodedInstruction *insn, const ZydisDecodedOperand *operand) {
    if (operand->type != ZYDIS_OPERAND_TYPE_MEMORY || operand->mem.type != ZYDIS_MEMOP_TYPE_MEM || insn->mnemonic == ZYDIS_MNEMONIC_NOP)
        return false;
    return is_pointer(of_register(state, operand->mem.base)) || (operand->mem.scale == 1 && is_pointer(of_register(state, operand->mem.index)));
}

static void push(struct state *state, struct value value) {
    struct value *top = state->registers + RSP;
    if (top->has != STACK)
        return;
    top->offset -= WORD_BYTES;
    set_slot(state, top->offset, value);
}

static struct value pop(struct state *state) {
    struct value *top = state->registers + RSP, value = top->has == STACK ? of_slot(state, top->offset) : NOTHING_KNOWN;
    top->offset += WORD_BYTES;
    return value;
}

/* An add or a subtraction: what is added to an address of the stack is a number, or its place isn't known any more. */
static struct value moved(const struct state *state, const ZydisDecodedInstruction *insn, const ZydisDecodedOperand *operands) {
    struct value first = of_operand(state, operands), second = of_operand(state, operands + 1);
    bool is_sum = insn->mnemonic == ZYDIS_MNEMONIC_ADD, is_number = operands[1].type == ZYDIS_OPERAND_TYPE_IMMEDIATE;
    int distance = is_number ? (int)operands[1].imm.value.s : 0;
    if (first.has == STACK)
        return is_number ? (struct value){STACK, first.offset + (is_sum ? distance : -distance)} : NOTHING_KNOWN;
    if (is_sum)
        return derived(is_pointer(first) ? first : second);
    return is_number ? derived(first) : NOTHING_KNOWN;
}

static void exchange(struct state *state, const ZydisDecodedOperand *operands) {
    struct value first = of_operand(state, operands), second = of_operand(state, operands + 1);
    set_operand(state, operands, second);
    set_operand(state, operands + 1, first);
}

/* What isn't known otherwise: all that is written has another value, and what the instruction counts on is made of what it was. */
static void write_others(struct state *state, const ZydisDecodedInstruction *insn, const ZydisDecodedOperand *operands) {
    for (int at = 0; at < insn->operand_count; at++)
        if (operands[at].actions & ZYDIS_OPERAND_ACTION_MASK_WRITE) {
            bool counts_on = operands[at].actions & ZYDIS_OPERAND_ACTION_MASK_READ;
            set_operand(state, operands + at, counts_on ? derived(of_operand(state, operands + at)) : NOTHING_KNOWN);
        }
}

/* What becomes of the registers and the stack. */
static void apply(struct state *state, const ZydisDecodedInstruction *insn, const ZydisDecodedOperand *operands) {
    switch (insn->mnemonic) {
    case ZYDIS_MNEMONIC_MOV:
    case ZYDIS_MNEMONIC_MOVSXD: set_operand(state, operands, of_operand(state, operands + 1)); break;
    case ZYDIS_MNEMONIC_LEA: set_operand(state, operands, of_address(state, operands + 1)); break;
    case ZYDIS_MNEMONIC_PUSH: push(state, of_operand(state, operands)); break;
    case ZYDIS_MNEMONIC_POP: set_operand(state, operands, pop(state)); break;
    case ZYDIS_MNEMONIC_PUSHFQ: push(state, NOTHING_KNOWN); break;
    case ZYDIS_MNEMONIC_POPFQ: pop(state); break;
    case ZYDIS_MNEMONIC_LEAVE:
        state->registers[RSP] = state->registers[RBP];
        state->registers[RBP] = pop(state);
        break;
    case ZYDIS_MNEMONIC_ADD:
    case ZYDIS_MNEMONIC_SUB: set_operand(state, operands, moved(state, insn, operands)); break;
    case ZYDIS_MNEMONIC_XCHG: exchange(state, operands); break;
    case ZYDIS_MNEMONIC_SHL:
    case ZYDIS_MNEMONIC_SHR:
    case ZYDIS_MNEMONIC_SAR:
    case ZYDIS_MNEMONIC_XOR:
    case ZYDIS_MNEMONIC_IMUL: set_operand(state, operands, NOTHING_KNOWN); break;
    default: write_others(state, insn, operands); break;
    }
}

/* A call changes these; a system call the first two and r11. */
static void forget(struct state *state, bool is_call) {
    static const uint8_t OF_CALLS[] = {RAX, RCX, 11, RDX, RSI, RDI, 8, 9, 10};
    for (int at = 0; at < (is_call ? (int)sizeof OF_CALLS : 3); at++)
        state->registers[OF_CALLS[at]] = NOTHING_KNOWN;
}

/* Whether an address was come to often enough. */
static bool was_seen(struct walk *walk, uint32_t addr) {
    uint32_t at = addr * 2654435761u >> 22;
    while (walk->seen[at] && walk->seen[at] != addr)
        at = (at + 1) % SEEN;
    walk->seen[at] = addr;
    return walk->visits[at]++ >= MOST_VISITS;
}

static void follow_from(struct walk *walk, const struct state *from, int nested);

/* A function that is called with the address in a register is followed for what it reads. */
static void follow_call(struct walk *walk, const struct state *state, uint32_t target, int nested) {
    struct state inner = *state;
    bool holds = false;
    for (int at = 0; at < REGISTER_COUNT; at++)
        holds |= is_pointer(state->registers[at]);
    if (!holds || !target || nested == MOST_NESTED)
        return;
    push(&inner, NOTHING_KNOWN);
    inner.addr = target;
    follow_from(walk, &inner, nested + 1);
}

/* A return to where the function was called needs its return address at the top of the stack, as it was. */
static void judge_return(struct walk *walk, const struct state *state) {
    struct value top = state->registers[RSP], to = top.has == STACK ? of_slot(state, top.offset) : NOTHING_KNOWN;
    walk->is_returned |= to.has == EXACT;
    walk->is_changed |= to.has == DERIVED;
    walk->is_left |= top.has == STACK && top.offset >= 0 && to.has == OTHER_VALUE;
}

static void judge_jump(struct walk *walk, struct value to) {
    walk->is_led_to |= !walk->is_for_return && is_pointer(to);
    walk->is_returned |= walk->is_for_return && to.has == EXACT;
    walk->is_changed |= walk->is_for_return && to.has == DERIVED;
}

/* What an instruction reads; that of jumps and calls through memory, too. A push or a call reaches the stack by itself. */
static void judge_accesses(struct walk *walk, const struct state *state, const ZydisDecodedInstruction *insn, const ZydisDecodedOperand *operands) {
    for (int at = 0; at < insn->operand_count; at++)
        walk->is_read |= is_through(state, insn, operands + at) && operands[at].actions & ZYDIS_OPERAND_ACTION_MASK_READ;
}

/* Whether a function may begin behind a call, which then doesn't return. */
static bool may_begin_function(const struct evidence *it, uint32_t addr) {
    struct instruction one;
    bool is_odd;
    return addr % ALIGNED == 0 || !in_text(it->program, addr) || it->names[addr - it->program->lo] || !decode(it->program, addr, &one, &is_odd)
           || one.marks & NOTHING;
}

/* One instruction; whether what stands behind it is followed. Where a branch leads is `target`. */
static bool make_step(struct walk *walk, struct state *state, uint32_t *target, int nested) {
    ZydisDecodedInstruction insn;
    ZydisDecodedOperand operands[ZYDIS_MAX_OPERAND_COUNT];
    struct instruction one;
    bool is_odd;
    *target = 0;
    if (!decode_whole(walk->it->program, state->addr, &one, &is_odd, &insn, operands) || is_odd)
        return false;
    judge_accesses(walk, state, &insn, operands);
    state->addr += one.length;
    switch (one.kind) {
    case RETURN:
        if (!nested && walk->is_for_return)
            judge_return(walk, state);
        return false;
    case JUMP_INDIRECT: judge_jump(walk, of_operand(state, operands)); return false;
    case END: return false;
    case JUMP: *target = one.target; return false;
    case BRANCH: *target = one.target; return true;
    case CALL_INDIRECT:
        judge_jump(walk, of_operand(state, operands));
        forget(state, true);
        break;
    case CALL:
        follow_call(walk, state, one.target, nested);
        if (takes_return(walk->it, one.target))
            return false;
        forget(state, true);
        break;
    case KERNEL:
    case TRAP: forget(state, false); return true;
    default: apply(state, &insn, operands); return true;
    }
    return !may_begin_function(walk->it, state->addr);
}

/* From a state on all ways, one after the other, until what is looked for is found. */
static void follow_from(struct walk *walk, const struct state *from, int nested) {
    struct state *waiting = zeros(MOST_WAITING, sizeof *waiting);
    int count = 1;
    waiting[0] = *from;
    while (count && !walk->is_read && !walk->is_led_to && !walk->is_changed) {
        struct state state = waiting[--count];
        uint32_t target;
        bool goes_on = true;
        while (goes_on && !was_seen(walk, state.addr) && walk->steps++ < MOST_STEPS) {
            goes_on = make_step(walk, &state, &target, nested);
            if (target && goes_on && count < MOST_WAITING) {
                waiting[count] = state;
                waiting[count++].addr = target;
            } else if (target && !goes_on) {
                state.addr = target;
                goes_on = true;
            }
        }
    }
    free(waiting);
}

bool reads_through(const struct evidence *it, const struct instruction *from) {
    ZydisDecodedInstruction insn;
    ZydisDecodedOperand operands[ZYDIS_MAX_OPERAND_COUNT];
    struct walk walk = {.it = it};
    struct state state = {.addr = from->addr + from->length};
    struct instruction one;
    bool is_odd;
    state.registers[RSP] = (struct value){STACK, 0};
    if (!decode_whole(it->program, from->addr, &one, &is_odd, &insn, operands))
        return false;
    if (insn.mnemonic == ZYDIS_MNEMONIC_PUSH)
        push(&state, (struct value){EXACT, 0});
    else if (insn.mnemonic == ZYDIS_MNEMONIC_MOV || insn.mnemonic == ZYDIS_MNEMONIC_LEA)
        set_operand(&state, operands, (struct value){EXACT, 0});
    else
        return false;
    follow_from(&walk, &state, 0);
    return walk.is_read && !walk.is_led_to;
}

/* Whether a function takes its return address, as the function shows by itself. */
static bool judge(const struct evidence *it, uint32_t function) {
    struct walk walk = {.it = it, .is_for_return = true};
    struct state state = {.addr = function};
    state.registers[RSP] = (struct value){STACK, 0};
    set_slot(&state, 0, (struct value){EXACT, 0});
    follow_from(&walk, &state, 0);
    return walk.is_read || walk.is_changed || (walk.is_left && !walk.is_returned);
}

/* Functions that they call are judged first, so many deep; one that calls itself is taken to return meanwhile. */
bool takes_return(const struct evidence *it, uint32_t function) {
    static int depth;
    uint8_t *known = it->callees + (function - it->program->lo);
    if (!in_text(it->program, function) || (!*known && depth == MOST_DEEP))
        return false;
    if (!*known) {
        depth++;
        *known = JUDGED;
        *known |= judge(it, function) ? TAKES_RETURN : 0;
        depth--;
    }
    return *known & TAKES_RETURN;
}
