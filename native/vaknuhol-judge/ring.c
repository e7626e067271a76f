/* The ring of a patched program, as claims and fills of its threads leave it. */
#include "judge.h"

#include <stdio.h>

#include "refusing.h"

static uint64_t claims;
static uint32_t *filled;

static void prepare_ring(void) {
    if (!filled)
        filled = zeros(every_event()->slots, sizeof *filled);
}

void watch_ring(struct thread *thread, const struct site *site) {
    const struct event *event = every_event();
    uint64_t made = thread->insn.rip + thread->insn.insn.length - site->place;
    prepare_ring();
    if (made == event->claimed)
        thread->claim = claims++;
    else if (made == event->recorded)
        filled[thread->claim % event->slots] = (uint32_t)site->number + 1;
}

bool judge_ring(char *what, size_t size) {
    uint32_t told = 0;
    uint64_t at = record_address();
    prepare_ring();
    if (!read_memory(living(), at, &told, sizeof told) || told != (uint32_t)claims) {
        snprintf(what, size, "the position of the ring is %u, but %lu slots were claimed", told, claims);
        return false;
    }
    for (uint64_t slot = 0; slot < every_event()->slots; slot++)
        if (!read_memory(living(), at + (1 + slot) * sizeof told, &told, sizeof told) || told != filled[slot]) {
            snprintf(what, size, "slot %lu of the ring is %u, but %u was written last", slot, told, filled[slot]);
            return false;
        }
    return true;
}
