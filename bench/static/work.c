/* Work of many kinds in little code: a switch, tables of functions, a computed goto, a longjmp, sorting, strings, numbers. It reads
   lines of its input, and prints what it makes of them and of its words. */
#include <setjmp.h>
#include <stdio.h>
#include <stdlib.h>
#include <string.h>

enum { MOST_WORDS = 64, CODE = 12 };

struct word {
    char text[32];
    unsigned mark;
};

static struct word words[MOST_WORDS];
static int word_count;
static jmp_buf back;

static unsigned rotate(unsigned x, int by) { return x << by | x >> (32 - by); }

/* A small machine by a switch, for which compilers write a jump table. */
static unsigned by_switch(const unsigned char *code, int count, unsigned x) {
    for (int at = 0; at < count; at++)
        switch (code[at] % CODE) {
        case 0: x += 7; break;
        case 1: x ^= 0x9E3779B9u; break;
        case 2: x = rotate(x, 5); break;
        case 3: x *= 2654435761u; break;
        case 4: x = ~x; break;
        case 5: x -= (unsigned)at; break;
        case 6: x = x / 3 + 1; break;
        case 7: x |= 0x10; break;
        case 8: x = x % 1000003; break;
        case 9: x += x << 3; break;
        case 10: x ^= x >> 11; break;
        default: x = rotate(x, 13); break;
        }
    return x;
}

/* The same by the addresses of labels. */
static unsigned by_labels(const unsigned char *code, int count, unsigned x) {
    static const void *const PLACES[] = { &&add, &&mix, &&turn, &&end };
    int at = 0;
next:
    if (at == count)
        return x;
    goto *PLACES[code[at++] & 3];
add:
    x += 11;
    goto next;
mix:
    x ^= x << 7;
    goto next;
turn:
    x = rotate(x, 9);
    goto next;
end:
    x += (unsigned)at;
    goto next;
}

static unsigned twice(unsigned x) { return x * 2; }
static unsigned square(unsigned x) { return x * x; }
static unsigned half(unsigned x) { return x >> 1; }
static unsigned (*const STEPS[])(unsigned) = { twice, square, half, twice };

static int by_mark(const void *one, const void *other) {
    const struct word *a = one, *b = other;
    return a->mark < b->mark ? -1 : a->mark > b->mark ? 1 : strcmp(a->text, b->text);
}

static void take(const char *text) {
    if (word_count == MOST_WORDS)
        longjmp(back, 2);
    struct word *word = words + word_count++;
    strncpy(word->text, text, sizeof word->text - 1);
    word->mark = by_switch((const unsigned char *)text, (int)strlen(text), 1);
}

static void take_line(char *line) {
    for (char *text = strtok(line, " \t\r\n"); text; text = strtok(NULL, " \t\r\n")) {
        if (!strcmp(text, "stop"))
            longjmp(back, 1);
        take(text);
    }
}

static long mean(void) {
    long sum = 0;
    for (int at = 0; at < word_count; at++)
        sum += words[at].mark >> 12;
    return word_count ? sum / word_count : 0;
}

int main(int count, char **given) {
    char line[256];
    volatile int why = setjmp(back);
    if (!why) {
        for (int at = 1; at < count; at++)
            take(given[at]);
        while (fgets(line, sizeof line, stdin))
            take_line(line);
    }
    qsort(words, (size_t)word_count, sizeof *words, by_mark);
    unsigned sum = 0;
    for (int at = 0; at < word_count; at++) {
        const struct word *word = words + at;
        sum = STEPS[at & 3](sum + by_labels((const unsigned char *)word->text, (int)strlen(word->text), word->mark));
        snprintf(line, sizeof line, "%-12s %08x %10u", word->text, word->mark, sum);
        puts(line);
    }
    printf("%d words, %d, mean %ld, %ld\n", word_count, why, mean(), strtol("-77", NULL, 8));
    return (int)(sum % 100);
}
