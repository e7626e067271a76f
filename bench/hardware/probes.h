/* What lengths the proved program takes sequences for, by what it refuses to patch. */
#ifndef PROBES_H
#define PROBES_H
#include "sequences.h"
#include "tool.h"

enum { PROBED_AT_ONCE = 32768, UNKNOWN = 0 };

/* For each sequence with a length by the processor whether the program takes it for as many bytes: 1 in `agrees`.
   For one without (length 0), whether the program knows it as an instruction of two bytes or more: 1 in `agrees`
   where it doesn't. At most PROBED_AT_ONCE of them. */
void probe_lengths(const struct tool *tool, const struct sequence *all, size_t count, uint8_t *agrees);

/* The length that the program takes a sequence for. A single byte that it takes for an instruction isn't told from one
   that it doesn't know: both are UNKNOWN. At most PROBED_AT_ONCE / 8 of them. */
void tell_lengths(const struct tool *tool, const struct sequence *all, size_t count, uint8_t *lengths);
#endif
