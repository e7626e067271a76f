/* The instructions of a program, listed by evidence: what is strongest first, and where two overlap, the weaker yields.

   A run is what is executed from an address on, up to a jump, a return, a call or a start that is listed. Runs of the two
   strongest levels are taken as they are; any other is taken whole or not at all. */
#ifndef EVIDENCE_H
#define EVIDENCE_H
#include <stddef.h>
#include <stdint.h>

#include "elf_file.h"
#include "instruction.h"

/* What says that an instruction begins there, strongest first. */
enum level {
    ENTRY = 1,  /* the entry point, .init and .fini, functions that symbols or frames name, the arrays of functions */
    DIRECT,     /* a direct branch or call leads there, or what stands before it falls through */
    AFTER_CALL, /* it stands after a call, if that returns */
    EXTENT,     /* it lies in a function of known extent, and all up to the next start or the extent's end reads as code */
    WORD,       /* an eight-byte word of the loaded data has its address, or a jump table whose number of entries is known */
    NUMBER,     /* an instruction holds its address */
    TABLE,      /* a jump table whose number of entries isn't known */
    SWEEP,      /* nothing leads there, but a gap reads as code throughout, or the code there leads to a start */
    LEVELS
};

/* Of a byte: an instruction begins there, or has it after its first one; when all is listed: its evidence is no weak one. */
enum { START = 1, INSIDE = 2, SURE = 4 };
/* Of a byte: it is data; data begins there, whose end isn't known. */
enum { IS_DATA = 1, DATA_BEGINS = 2 };
enum { NAMED = 1, FRAMED = 2 }; /* of a byte: a symbol or a section begins there, or a frame */

/* Of a function that is called: whether it was looked at, and doesn't return to where it was called. */
enum { JUDGED = 1, TAKES_RETURN = 2 };

/* An address of text that an instruction holds, or has by a word of the data: of `from` it is seen what it does with it; with 0 it reads there, entries that
   are so far apart. */
struct holder {
    uint32_t addr, from, stride;
};

/* A restartable sequence, from where on what begins it stands, and the signature before the place where it is aborted. */
struct restart {
    uint32_t begin;
    struct range range, signature;
};

struct queue {
    uint32_t *addrs;
    size_t count, capacity;
};

struct evidence {
    const struct program *program;
    uint8_t *state, *is_data, *names, *callees; /* of each byte from the text's first address on */
    uint32_t *extent_of;                        /* the number of the function's extent that holds a byte, 0 where there is none */
    uint32_t *index_of;                         /* of a start: its instruction */
    struct instruction *found;                  /* in the order of finding, and at the end by address */
    size_t count, capacity;
    struct range *extents;
    size_t extent_count, extent_capacity;
    struct queue queues[LEVELS];
    struct holder *holders;
    size_t holder_count, holder_capacity, holders_judged;
    struct restart *restarts;
    size_t restart_count, restart_capacity;
    struct range *breaks; /* where strong evidence leads to what can't be decoded, or into an instruction */
    size_t break_count, break_capacity;
};

void begin_evidence(struct evidence *it, const struct program *program);

static inline bool is_start(const struct evidence *it, uint32_t addr) { return it->state[addr - it->program->lo] & START; }

/* Whether the byte is only after the first one of a listed instruction. */
static inline bool is_inside(const struct evidence *it, uint32_t addr) { return it->state[addr - it->program->lo] == INSIDE; }

static inline bool is_data(const struct evidence *it, uint32_t addr) { return it->is_data[addr - it->program->lo]; }

/* The listed instruction that begins at a start. */
struct instruction *at_start(const struct evidence *it, uint32_t addr);

/* The listed instruction that ends where another one begins, or NULL. */
const struct instruction *one_before(const struct evidence *it, uint32_t addr);

/* Says that there is evidence of a level for a start. What is no text is no start. */
void propose(struct evidence *it, uint64_t addr, int level);

/* Says that a function has so many bytes from an address on. */
void add_extent(struct evidence *it, uint64_t addr, uint64_t length);

/* Says that bytes of the text are data. */
void add_data(struct evidence *it, uint64_t addr, uint64_t length);

/* Looks at the code that holds addresses of text: where it reads through one, data begins there, unless code is listed there. */
void judge_holders(struct evidence *it);

/* Whether data begins there, whose end isn't known. */
static inline bool begins_data(const struct evidence *it, uint32_t addr) {
    return it->is_data[addr - it->program->lo] == DATA_BEGINS && !it->state[addr - it->program->lo];
}

/* Whether a jump from anywhere to an address would enter an accepted instruction after more than its prefixes. */
bool enters_inside(const struct evidence *it, uint32_t addr);

/* Whether there are only prefixes from one address up to another. */
bool are_prefixes(const struct evidence *it, uint32_t from, uint32_t to);

/* Whether what stands after an end only fills room: CC, several zeros, or one up to a start or to where functions are aligned. */
bool is_filled(const struct evidence *it, uint32_t addr);

/* Whether so many bytes from an address on read as code, or fewer up to a start or to what fills room. */
bool reads_on(const struct evidence *it, uint32_t addr, uint32_t bytes);

/* Whether an address stands in an array of addresses, or of what has some: no code reads so. */
bool is_among_addresses(const struct evidence *it, uint32_t addr);

/* Lists a run; whether it is listed. */
bool list_run(struct evidence *it, uint32_t first, int level);

/* Lists one more instruction by itself, as a nop that fills room. */
void list_alone(struct evidence *it, const struct instruction *one, int level);

/* Whether an instruction has the byte for which there is more than weak evidence; known when all is listed. */
static inline bool is_supported(const struct evidence *it, uint32_t addr) { return it->state[addr - it->program->lo] & SURE; }

/* Puts the instructions in order, and marks those that share bytes, that e9tool can't displace, and that are unsure. */
void finish(struct evidence *it);
#endif
