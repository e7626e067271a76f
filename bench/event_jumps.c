/* What an event's two jumps cost, by how many blocks have them: event_jumps [-a APART] [-e EACH] [-f FIRST] [-h] [BLOCKS]...
   A chain of blocks is run round and round, each a nop of five bytes and a jump to the next. In the second run a jump to a
   trampoline stands in the nop's place, and the trampoline has the nop and the jump back; in the third it begins with the
   code of a cover event, in the fourth with that of a count event. Prints the nanoseconds of processor time a block, the
   least of three runs. A processor keeps the targets of some thousand jumps: where the chain has more, each costs more.
   With -e only each EACH-th block has an event, and it is told what an event adds. Trampolines stand APART bytes apart (64),
   from the address FIRST on (hexadecimal, 10000000); with -h on huge pages.
   Build: gcc -O2 -Wall -Wextra -Werror -o event_jumps bench/event_jumps.c */
#define _GNU_SOURCE
#include <stdint.h>
#include <stdio.h>
#include <stdlib.h>
#include <string.h>
#include <sys/mman.h>
#include <sys/resource.h>
#include <unistd.h>

enum { BLOCK = 16, LEAST = 42, PAGE = 4096, MOST = 1 << 14, EVENTS = 10000000, RUNS = 3 };
enum { CHAIN = 0x500000, RECORD = 0x20000 };
enum what { PLAIN, JUMPS, COVER, COUNT, WHATS };

static const uint8_t NOP[] = { 0x0f, 0x1f, 0x44, 0x00, 0x00 };
static uint8_t *at;
static unsigned long apart = 64, each = 1, first = 0x10000000;

static void put(const void *bytes, size_t size) {
    memcpy(at, bytes, size);
    at += size;
}

static void put_number(uint32_t number) { put(&number, sizeof number); }

static void put_branch(const char *opcode, size_t size, const uint8_t *target) {
    put(opcode, size);
    put_number((uint32_t)(target - at - 4));
}

static void put_jump(const uint8_t *target) { put_branch("\xe9", 1, target); }

static void put_event(enum what what, uint32_t number) {
    if (what == COVER) { /* mov byte [RECORD + number], 1 */
        put("\xc6\x04\x25", 3);
        put_number(RECORD + number);
        put("\1", 1);
    } else if (what == COUNT) {
        put("\x48\x89\x84\x24\x78\xff\xff\xff", 8); /* mov [rsp - 136], rax */
        put("\x9f\x0f\x90\xc0", 4);                 /* lahf; seto al */
        put("\x48\x83\x04\x25", 4);                 /* add qword [RECORD + 8 number], 1 */
        put_number(RECORD + 8 * number);
        put("\1", 1);
        put("\x04\x7f\x9e", 3);                     /* add al, 127; sahf */
        put("\x48\x8b\x84\x24\x78\xff\xff\xff", 8); /* mov rax, [rsp - 136] */
    }
}

/* The chain goes on from the last block to the first as long as rdi, which counts down, is not 0. */
static void lay(unsigned blocks, enum what what) {
    for (unsigned one = 0; one < blocks; one++) {
        uint8_t *block = (uint8_t *)CHAIN + BLOCK * one, *trampoline = (uint8_t *)first + apart * one;
        at = block;
        if (what == PLAIN || one % each)
            put(NOP, sizeof NOP);
        else
            put_jump(trampoline);
        if (one + 1 < blocks)
            put_jump(block + BLOCK);
        else
            put("\x48\xff\xcf", 3), put_branch("\x0f\x85", 2, (uint8_t *)CHAIN), put("\xc3", 1);
        at = trampoline;
        put_event(what, one);
        put(NOP, sizeof NOP);
        put_jump(block + sizeof NOP);
    }
}

static double seconds(void) {
    struct rusage used;
    getrusage(RUSAGE_SELF, &used);
    return (double)used.ru_utime.tv_sec + (double)used.ru_utime.tv_usec * 1e-6;
}

static double least(unsigned blocks, enum what what) {
    uint64_t rounds = EVENTS / blocks;
    double best = 1e9;
    lay(blocks, what);
    for (int run = 0; run < RUNS; run++) {
        double before = seconds();
        ((void (*)(uint64_t))CHAIN)(rounds);
        double took = (seconds() - before) * 1e9 / (double)(rounds * blocks);
        best = took < best ? took : best;
    }
    return best;
}

static void *map_at(uint64_t address, size_t size, int permissions) {
    void *got = mmap((void *)address, size, permissions, MAP_PRIVATE | MAP_ANONYMOUS | MAP_FIXED_NOREPLACE, -1, 0);
    if (got != (void *)address) {
        perror("event_jumps: mmap");
        exit(2);
    }
    return got;
}

/* Of all blocks what one takes; with -e what an event adds to it. */
static void print_line(unsigned blocks) {
    double plain = least(blocks, PLAIN);
    printf("%8u%12.2f", blocks, plain);
    for (int what = JUMPS; what < WHATS; what++) {
        double took = least(blocks, (enum what)what);
        printf("%12.2f", each > 1 ? (took - plain) * (double)each : took);
    }
    printf("\n");
}

static unsigned long number(const char *word, int base, unsigned long low, unsigned long high) {
    char *end;
    unsigned long read = strtoul(word, &end, base);
    if (*end || read < low || read > high) {
        fprintf(stderr, "event_jumps: %s: a number from %lu to %lu is needed\n", word, low, high);
        exit(2);
    }
    return read;
}

int main(int count, char **words) {
    static const unsigned usual[] = { 10, 50, 250, 500, 1000, 2000, 4000 };
    int option, is_huge = 0;
    while ((option = getopt(count, words, "a:e:f:h")) != -1) {
        if (option == 'a')
            apart = number(optarg, 10, LEAST, 2 * PAGE);
        else if (option == 'e')
            each = number(optarg, 10, 1, MOST);
        else if (option == 'f')
            first = number(optarg, 16, CHAIN + BLOCK * (MOST + 1), 0x70000000);
        else if (option == 'h')
            is_huge = 1;
        else
            return 2;
    }
    map_at(CHAIN, BLOCK * (MOST + 1), PROT_READ | PROT_WRITE | PROT_EXEC);
    void *far = map_at(first & -PAGE, apart * MOST + 2 * PAGE, PROT_READ | PROT_WRITE | PROT_EXEC);
    if (is_huge && madvise(far, apart * MOST, MADV_HUGEPAGE))
        perror("event_jumps: madvise");
    map_at(RECORD, 8 * MOST, PROT_READ | PROT_WRITE);
    printf("%8s%12s%12s%12s%12s\n", "blocks", "ns, plain", "jumps", "cover", "count");
    for (size_t one = 0; optind == count && one < sizeof usual / sizeof *usual; one++)
        print_line(usual[one]);
    for (int word = optind; word < count; word++)
        print_line((unsigned)number(words[word], 10, 1, MOST));
    return 0;
}
