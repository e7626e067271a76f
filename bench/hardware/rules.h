/* The classes of sequences that the processor knows and the program doesn't, by design. */
#ifndef RULES_H
#define RULES_H
#include "sequences.h"

enum rule { NO_RULE, EVEX, XOP, THREE_D_NOW, BRANCH_66, VEX_BEHIND_REX, CONTROL_MOVE, LONG_AND_UNDEFINED, RULES };

extern const char *const RULE_NAMES[RULES];

/* The class of a sequence by its prefixes and the bytes behind them, or NO_RULE. LONG_AND_UNDEFINED isn't told so. */
enum rule rule_of(const struct sequence *it);
#endif
