/* The file that tells of a program's instructions, of its blocks, and of what in its text is doubtful. All numbers are little endian.

   A head of 64 bytes:

     0  8  VAKLIST and a zero
     8  4  version: 1
    12  4  n, the number of instructions
    16  4  b, the number of blocks
    20  4  f, the number of names
    24  4  r, the number of ranges
    28  4  s, the length of the texts of names in bytes
    32  4  bytes of text
    36  4  bytes of text that belong to listed instructions
    40  4  bytes 00 that fill room
    44  4  bytes CC that fill room
    48 16  zeros

   Then columns, each from a multiple of 8 on, with zeros before it. Instructions ascend by address; numbers of four bytes have n
   entries: address; direct target, or 0; the address of an operand that names one without a register but rip, or 0; an immediate of 32 bits
   and more, or 0; registers read; registers written (bits as in instruction.h). Of two bytes: flags read; flags
   written (bits of rflags); marks (instruction.h). Of one byte: length; kind (instruction.h); level of evidence (evidence.h). Blocks: the
   number of the first instruction, and how many it has, b numbers of four bytes each, and whether it is a function's first block
   (blocks.h), b numbers of one byte. Names: an address each, ascending, and where its text begins, f numbers of four bytes each. Ranges, by kind and
   ascending: r first addresses, r ends (four bytes), r kinds (one byte). The texts of names, each with a zero after it. */
#ifndef LIST_FILE_H
#define LIST_FILE_H
#include "blocks.h"
#include "gaps.h"
#include "symbols.h"

enum range_kind {
    DOUBTFUL = 1,        /* no evidence says whether it is code */
    DATA = 2,            /* it is read as data, or is a jump table */
    BREAK = 3,           /* strong evidence leads there, and it can't be decoded */
    CLONE_FLAGS = 4,     /* an instruction that loads or pushes what a call of clone has as flags, for a thread or a process in the same memory */
    WITHOUT_SUPPORT = 5, /* no instruction is listed there, only one for which there is weak evidence, or one of a restartable sequence or of
                            what begins it: nothing of a patch may lie there */
    RESTARTED = 6,       /* a restartable sequence */
};

struct told {
    const struct evidence *evidence;
    const struct blocks *blocks;
    const struct names *names;
    const struct gaps *gaps;
};

void write_list(const char *path, const struct told *told);

/* The addresses of all instructions, as e9tool takes them. */
void write_starts(const char *path, const struct evidence *evidence);
#endif
