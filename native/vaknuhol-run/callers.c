/* In which functions a thread is: how far from a register the caller's stack begins, and where its rbp and its next address are kept, is told of each
   function's code (LSB core, Exception Frames; scripts/vaknuhol/recording/call_frames.py). */
#include "run.h"

enum { RBP = 6, RSP = 7, ADDRESS = 8 };
static const struct rule behind_call = {.reg = RSP, .distance = ADDRESS};

static const struct rule *rule_at(uint64_t address) {
    const struct rule *low = rules, *high = rules + patch->rule_count;
    while (low < high) {
        const struct rule *middle = low + (high - low) / 2;
        if (middle->at <= address)
            low = middle + 1;
        else
            high = middle;
    }
    return low > rules && address < low[-1].end ? low - 1 : NULL;
}

/* Whether a thread was led to where no memory is, as by a null pointer to a function. It has made no more than the call. Its stack can be read. */
static bool is_led_astray(pid_t tid, uint64_t at, uint64_t rsp) {
    uint8_t byte;
    uint64_t word;
    return !read_memory(tid, at, &byte, sizeof byte) && read_word(tid, rsp, &word);
}

unsigned find_frames(pid_t tid, const struct user_regs_struct *regs, struct frame found[MOST_FRAMES]) {
    uint64_t at = regs->rip - (uint64_t)is_at_call(regs), rsp = regs->rsp, rbp = regs->rbp;
    unsigned count = 0;
    while (count < MOST_FRAMES) {
        const struct rule *it = rule_at(at);
        found[count++] = (struct frame){at, it ? it->begin : 0, it ? it->end : 0};
        if (!it && count == 1 && is_led_astray(tid, at, rsp))
            it = &behind_call;
        uint64_t end = !it || !it->reg ? 0 : (it->reg == RBP ? rbp : rsp) + (uint64_t)(int64_t)it->distance;
        if (end <= rsp || !read_word(tid, end - ADDRESS, &at) || (it->rbp_place && !read_word(tid, end + (uint64_t)(int64_t)it->rbp_place, &rbp)))
            break;
        rsp = end;
        at--; /* the last byte of the call, whose function may end behind it */
    }
    return count;
}
