/* Jump tables: words of eight bytes that are addresses, or of four that are distances from the table itself. */
#ifndef JUMP_TABLES_H
#define JUMP_TABLES_H
#include "evidence.h"

/* Says that an instruction holds this address: no table goes on past it. */
void name_word(uint32_t addr);

/* Says that a table of words of so many bytes may stand at an address, as the instruction at `from` tells. */
void add_table(struct evidence *it, uint32_t addr, uint32_t from, uint32_t width);

/* Proposes the entries of the tables whose number of entries is known, of new tables or of all; whether there was one. */
bool judge_known_tables(struct evidence *it, bool all);

/* Proposes one more entry of each table whose number of entries isn't known; whether there was one. */
bool go_on_in_tables(struct evidence *it);
#endif
