/* Looks whether instructions that ask the world touch what the program says: each is run at two places, which nothing
   may show; it goes on to the next instruction; of memory its operand alone changes, and of the registers those that it
   names. Then the program is asked the same, with what the processor gave as the world's answers. Usage: asked E9TOOL
   SEED COUNT [JOBS] */
#include <stdio.h>
#include <string.h>

#include "bulk.h"
#include "draws.h"
#include "states.h"

enum { STRING_MOST = 64, PUSHED = 16 };

static uint8_t original[2 * SPACE], before[2 * SPACE], after[2 * SPACE], elsewhere[2 * SPACE];

/* Where a byte of the two spaces stands. */
static uint64_t address_of(size_t at) { return at < SPACE ? DATA + at : HIGH + at - SPACE; }

static int changes(const struct form *form, char letter) { return strchr(form->changes, letter) != NULL; }

/* The registers that the form's letters name, as bits. */
static unsigned changeable(const struct form *form, const struct trial *it) {
    static const char letters[] = "acdbspSD";
    unsigned set = 0;
    for (int reg = 0; letters[reg]; reg++)
        set |= changes(form, letters[reg]) ? 1u << reg : 0;
    if (changes(form, 'r'))
        set |= it->reg_bits;
    if (changes(form, 'm') && !form->in_memory)
        set |= it->rm_bits;
    return set;
}

static int is_within(uint64_t address, uint64_t from, uint64_t to) { return address - from < to - from; }

static int may_change(const struct form *form, const struct trial *it, uint64_t address) {
    uint64_t touches = form->touches ? (uint64_t)form->touches : (uint64_t)form->other_bits / 8;
    if (changes(form, 'w') && form->in_memory && is_within(address, it->operand_at, it->operand_at + touches))
        return 1;
    if (strchr(form->also, 'p') && is_within(address, it->regs[RSP] - PUSHED, it->regs[RSP]))
        return 1;
    return changes(form, 'D') || strchr(form->also, 'D')
               ? is_within(address, it->regs[RDI] - STRING_MOST, it->regs[RDI] + STRING_MOST)
               : 0;
}

/* Fills in what has changed in memory, and answers whether it may. */
static int take_written(const struct form *form, struct trial *it) {
    size_t first = 0, end = sizeof before;
    while (first < end && before[first] == after[first])
        first++;
    while (end > first && before[end - 1] == after[end - 1])
        end--;
    it->written = (struct written){ .address = address_of(first), .size = 0 };
    if (end == first)
        return 1;
    if (end - first > WRITTEN_MOST || (first < SPACE && end > SPACE))
        return 0;
    it->written.size = (int)(end - first);
    memcpy(it->written.bytes, after + first, end - first);
    for (size_t at = first; at < end; at++)
        if (before[at] != after[at] && !may_change(form, it, address_of(at)))
            return 0;
    return 1;
}

static int registers_stay(const struct form *form, const struct trial *it) {
    unsigned set = changeable(form, it);
    for (int reg = 0; reg < 16; reg++)
        if (it->regs[reg] != it->regs_after[reg] && !(set >> reg & 1))
            return 0;
    return 1;
}

static int same_outcome(const struct trial *one, const struct trial *other) {
    return !memcmp(one->regs_after, other->regs_after, sizeof one->regs_after) &&
           one->flags_after == other->flags_after && one->landed == other->landed;
}

static enum ran differs(const struct form *form, const struct trial *it, const char *what) {
    print_trial(form, it, what);
    put_data(original);
    take_back_trial();
    return DIFFERED;
}

/* What the guest will put into the trial's places, the first one last. */
static void put_places(const struct trial *it) {
    for (int one = PLACES - 1; one >= 0; one--)
        if (it->places[one].address)
            memcpy((void *)it->places[one].address, &it->places[one].before, 8);
}

static enum ran run_asked(const struct form *form, struct trial *trial, const struct run *run) {
    struct trial copy = *trial;
    trial->is_asked = 1;
    take_data(original);
    put_places(trial);
    take_data(before);
    draw_state();
    use_first_state();
    int ran = run_trial(trial, run);
    if (!ran) {
        put_data(original);
        return FAULTED;
    }
    take_data(after);
    put_data(before);
    use_second_state();
    int ran_again = run_elsewhere(&copy, run);
    take_data(elsewhere);
    put_data(after);
    if (!ran_again || !same_outcome(trial, &copy) || memcmp(after, elsewhere, sizeof after) || !same_states())
        return differs(form, trial, "shows its place");
    if (!take_written(form, trial) || !registers_stay(form, trial) || trial->landed != 0)
        return differs(form, trial, "changes something else");
    return WENT_ON;
}

int main(int count, char **words) {
    struct kind asked = { "asked", asked_forms, run_asked, 1 };
    struct order order = read_order(count, words);
    find_states();
    return compare_in_bulk(&order, &asked);
}
