/* One instruction with the state before it, and what the processor made of it. */
#ifndef TRIAL_H
#define TRIAL_H
#include <stdint.h>

enum { RAX, RCX, RDX, RBX, RSP, RBP, RSI, RDI };
enum { CF = 1, PF = 4, AF = 16, ZF = 64, SF = 128, OF = 2048, SIX = CF | PF | AF | ZF | SF | OF };
enum { CODE_MOST = 15, PLACES = 2, WRITTEN_MOST = 256 };

/* Eight bytes of memory that the instruction may read or write. */
struct place {
    uint64_t address, before, after;
};

/* The bytes of memory that an instruction has changed, from the first to the last. */
struct written {
    uint64_t address;
    int size;
    uint8_t bytes[WRITTEN_MOST];
};

struct trial {
    unsigned form; /* its number */
    uint8_t code[CODE_MOST];
    int size;
    int rip_at;         /* where the displacement of a RIP operand stands in the code, or 0 */
    uint64_t named;     /* the address that a RIP operand names, without a segment's base */
    uint64_t rip;       /* where the instruction stands */
    uint64_t undefined; /* the flags that the manual leaves undefined */
    uint64_t regs[16], flags;
    struct place places[PLACES];
    uint64_t regs_after[16], flags_after;
    uint64_t operand_at;        /* where its operand in memory stands, with a segment's base */
    unsigned reg_bits, rm_bits; /* the registers that the ModRM byte names, as bits */
    int is_asked;               /* it asks the world for all that it changes */
    struct written written;
    uint64_t landed; /* 0 where it went on to the next instruction, else the number of the landing that it came to */
};
#endif
