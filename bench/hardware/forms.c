#include "forms.h"

#include <stdio.h>
#include <stdlib.h>
#include <string.h>

static struct form_list exact;

static int bits_of(char width) { return width == 'b' ? 8 : width == 'w' ? 16 : width == 'd' ? 32 : 64; }

static enum leaves leaves_of(const char *name) {
    static const char *const logic[] = { "and", "or", "xor", "test" };
    for (size_t at = 0; at < sizeof logic / sizeof *logic; at++)
        if (!strcmp(name, logic[at]))
            return LOGIC;
    return !strcmp(name, "shl") || !strcmp(name, "shr") ? SHIFT : !strcmp(name, "sar") ? SIGNED_SHIFT : NO_FLAG;
}

static void add_one(struct form_list *list, struct form form, int bits, int in_memory) {
    form.bits = bits;
    form.other_bits = form.other == '=' ? bits : bits_of(form.other);
    form.in_memory = in_memory;
    if (list->count == FORMS_MOST) {
        fprintf(stderr, "hardware: more than %d forms\n", FORMS_MOST);
        exit(2);
    }
    list->all[list->count++] = form;
}

void add_forms(struct form_list *list, const char *text, const struct form *more) {
    struct form form = *more;
    if (sscanf(text, "%7s %c%c %11s %4s %3s %3s", form.name, &form.width, &form.other, form.opcode, form.mode, form.imm,
               form.also) != 7) {
        fprintf(stderr, "hardware: %s is no form\n", text);
        exit(2);
    }
    form.leaves = form.changes ? NO_FLAG : leaves_of(form.name);
    form.is_branch = form.imm[0] == 'c' || form.mode[1] == 'j' || form.also[0] == 't' || form.also[1] == 't';
    for (int bits = 8; bits <= 64; bits *= 2) {
        int fits = form.width == 'b'   ? bits == 8
                   : form.width == 'v' ? bits > 8
                   : form.width == 'd' ? bits > 16
                                       : bits == 64;
        int modrm = form.mode[0] == '/';
        if (!fits)
            continue;
        if (modrm && !strchr(form.mode, 'e'))
            add_one(list, form, bits, 1);
        if (!modrm || !strpbrk(form.mode, "ms"))
            add_one(list, form, bits, 0);
    }
}

static void add(const char *text) {
    static const struct form plain;
    add_forms(&exact, text, &plain);
}

static void add_moves(void) {
    static const char *const texts[] = {
        "mov b= 88 /r - -",     "mov v= 89 /r - -",     "mov b= 8a /r - -",     "mov v= 8b /r - -",
        "mov b= b0 +r ib -",    "mov v= b8 +r iv -",    "mov b= c6 /0 ib -",    "mov v= c7 /0 iz -",
        "movzx vb 0fb6 /r - -", "movzx dw 0fb7 /r - -", "movsx vb 0fbe /r - -", "movsx dw 0fbf /r - -",
        "movsxd Qd 63 /r - -",  "lea v= 8d /m - f",     "xchg b= 86 /e - -",    "xchg v= 87 /e - -",
        "xchg v= 90 +r - -",    "nop q= 90 - - -",      "nop q= f390 - - -",    "nop q= f30f1efa - - -",
        "nop v= 0f1f /r - f",   "push q= 50 +r - p",    "push q= 68 - iz p",    "push q= 6a - ib p",
        "push q= ff /6m - p",   "push q= ff /6e - p",   "pop q= 58 +r - s",     "pop q= 8f /0m - s",
        "pop q= 8f /0e - s",    "push q= 54 - - p",     "push q= ff /6s - p",   "pop q= 5c - - s",
        "pop q= 8f /0s - s",    "leave q= c9 - - b",
    };
    for (size_t at = 0; at < sizeof texts / sizeof *texts; at++)
        add(texts[at]);
}

static void add_each(const char *format, const char *name, unsigned number) {
    char text[64];
    snprintf(text, sizeof text, format, name, number, number, number, number);
    add(text);
}

static void add_computing(void) {
    static const char *const sums[] = { "add", "or", "adc", "sbb", "and", "sub", "xor", "cmp" };
    static const char *const ones[] = { "inc", "dec", "not", "neg" };
    static const char *const tests[] = { "test b= 84 /r - -", "test v= 85 /r - -",  "test b= a8 - ib -",
                                         "test v= a9 - iz -", "test b= f6 /0 ib -", "test v= f7 /0 iz -" };
    static const char *const plain[] = { "widen v= 98 - - -", "widen v= 99 - - -", "cmc q= f5 - - -", "clc q= f8 - - -",
                                         "stc q= f9 - - -",   "sahf q= 9e - - -",  "lahf q= 9f - - -" };
    for (unsigned op = 0; op < 8; op++) {
        add_each("%s b= %02x /r - -", sums[op], op * 8);
        add_each("%s v= %02x /r - -", sums[op], op * 8 + 1);
        add_each("%s b= %02x /r - -", sums[op], op * 8 + 2);
        add_each("%s v= %02x /r - -", sums[op], op * 8 + 3);
        add_each("%s b= %02x - ib -", sums[op], op * 8 + 4);
        add_each("%s v= %02x - iz -", sums[op], op * 8 + 5);
        add_each("%s b= 80 /%u ib -", sums[op], op);
        add_each("%s v= 81 /%u iz -", sums[op], op);
        add_each("%s v= 83 /%u ib -", sums[op], op);
    }
    for (size_t at = 0; at < 6; at++)
        add(tests[at]);
    for (unsigned op = 0; op < 4; op++) {
        add_each(op < 2 ? "%s b= fe /%u - -" : "%s b= f6 /%u - -", ones[op], op);
        add_each(op < 2 ? "%s v= ff /%u - -" : "%s v= f7 /%u - -", ones[op], op);
    }
    for (size_t at = 0; at < sizeof plain / sizeof *plain; at++)
        add(plain[at]);
}

static void add_shifts(void) {
    static const char *const names[] = { "shl", "shr", "sar" };
    for (unsigned op = 0; op < 3; op++) {
        unsigned reg = op < 2 ? op + 4 : 7;
        add_each("%s b= c0 /%u ic -", names[op], reg);
        add_each("%s v= c1 /%u ic -", names[op], reg);
        add_each("%s b= d0 /%u - -", names[op], reg);
        add_each("%s v= d1 /%u - -", names[op], reg);
        add_each("%s b= d2 /%u - n", names[op], reg);
        add_each("%s v= d3 /%u - n", names[op], reg);
    }
}

static void add_conditions_and_branches(void) {
    static const char *const texts[] = {
        "loopne q= e0 - cb l",  "loope q= e1 - cb l", "loop q= e2 - cb l",   "jrcxz q= e3 - cb l",
        "jecxz q= 67e3 - cb l", "jmp q= eb - cb -",   "jmp q= e9 - cd -",    "jmp q= ff /j4e - -",
        "jmp q= ff /j4m - -",   "call q= e8 - cd p",  "call q= ff /j2e - p", "call q= ff /j2m - p",
        "call q= ff /j2s - p",  "ret q= c3 - - t",    "ret q= c2 - iw t",    "ret q= f3c3 - - t",
    };
    for (unsigned code = 0; code < 16; code++) {
        add_each("%s v= 0f4%x /r - -", "cmov", code);
        add_each("%s bb 0f9%x /0 - -", "set", code);
        add_each("%s q= 7%x - cb -", "jcc", code);
        add_each("%s q= 0f8%x - cd -", "jcc", code);
    }
    for (size_t at = 0; at < sizeof texts / sizeof *texts; at++)
        add(texts[at]);
}

const struct form *all_forms(size_t *count) {
    if (exact.count == 0) {
        add_moves();
        add_computing();
        add_shifts();
        add_conditions_and_branches();
    }
    *count = exact.count;
    return exact.all;
}
