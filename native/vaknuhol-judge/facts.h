/* What is known of a patched program before it runs: its listed instructions, its new addresses, its patched sites; and which bytes
   are stale. */
#ifndef FACTS_H
#define FACTS_H
#include "process.h"

/* What an address is: a listed start, one of known length, a byte of a listed instruction, a new address; the start of a patched site; code
   of an event, its first address where rax is saved, an address between save and restore; where relocated code begins; a stale byte. */
enum mark { START = 1, KNOWN = 2, LISTED = 4, NEW = 8, SITE = 16, EVENT = 32, SAVES = 64, HAS_SAVED = 128, WORK = 256, STALE = 512 };

enum { LONGEST = 15, MOST_COMPARISONS = 3 };

/* What every event does: after how many of its bytes it has recorded, how many bytes it records in; of a ring how many slots that has, and
   after how many bytes one is claimed; and the condition under which it does: registers, signs as == != < <= > >= are numbered from 0 on,
   and numbers. */
struct event {
    uint64_t recorded, size, slots, claimed;
    int comparison_count;
    struct {
        int reg, sign;
        uint64_t value;
    } comparisons[MOST_COMPARISONS];
};

/* A patched site: its instruction's address, its trampoline's place, its number; how many bytes its event has, where it has one; how many
   effect steps were made of it that are recorded, and how many threads ended before one. */
struct site {
    uint64_t addr, place, number, event, effects, pending;
};

/* Reads the original file and the facts, whose lines are: start ADDR; new LO HI; private ADDR; told HEADERS COUNT ENTRY; event RECORDED SIZE,
   ring SLOTS CLAIMED, and when REG SIGN VALUE for each comparison; behind these site ADDR PLACE NUMBER EVENT. */
void read_facts(const char *original, const char *facts);

unsigned marks_of(uint64_t addr);
void set_marks(uint64_t addr, unsigned bits);
void clear_marks(uint64_t lo, uint64_t hi, unsigned bits);

/* The first address from lo on and below hi that has one of the marks, or hi. */
uint64_t first_marked(uint64_t lo, uint64_t hi, unsigned bits);

const struct told *told_to_original(void);
const struct event *every_event(void);

/* The site in whose trampoline an address lies up to where its relocated code begins, or none. */
struct site *site_at(uint64_t addr);

/* The address of what all events record, from its first byte on. */
uint64_t record_address(void);

/* The site of a number here, below the count of sites, and the address of its record. */
struct site *site_number(size_t number);
size_t site_count(void);
uint64_t mark_address(const struct site *site);

/* The original's bytes of code from an address on, within one segment; how many there are, at most LONGEST. */
int original_code(uint64_t addr, uint8_t bytes[LONGEST]);
#endif
