/* What e9tool takes bytes for, by the tables of docs/reference/formats.md alone: the length of an instruction, and whether e9tool has code for
   another place that does its work. It shares nothing with the decoder, so that each judges the other. */
#ifndef SPELLING_H
#define SPELLING_H
#include <stdbool.h>
#include <stdint.h>

/* The length that the bytes spell, 0 where they spell none. */
int spelled_length(const uint8_t *bytes, int count);

/* Whether an instruction of a known length can be displaced. Where its targets lie isn't looked at. */
bool can_be_displaced(const uint8_t *bytes, int count);
#endif
