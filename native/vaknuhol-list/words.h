/* The eight-byte words of a program's data that may be addresses of code. */
#ifndef WORDS_H
#define WORDS_H
#include "evidence.h"

/* Proposes the addresses of text that stand in data outside of the text: those before which something can end or only fill room, as before
   a function, or the others. A number may look like an address; so what the first lead to is listed before the others are looked at, and of
   these none is taken that lies inside of an instruction of the code around. */
void propose_words(struct evidence *it, bool behind_ends);
#endif
