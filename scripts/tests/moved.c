/* Code that an optimizer moved away from its lines: loops on one line, constants, calls of which no code is left. */
#include <stdio.h>
#include <stdlib.h>

struct state { int now; };
static struct state state;
static int table[64];

static void set_state(struct state *it, int now)
{
    it->now = now;
}

static int next_of(int now)
{
    return now + 1;
}

__attribute__((noinline)) static int fill(int count)
{
    int i;
    for (i = 0; i < count; i++) table[i] = i * 3;
    while (i > 0 && table[i - 1] > 30) i--;
    return i;
}

__attribute__((noinline)) static int find(const char *text, int wanted)
{
    int breaks = 0;
    int at = 0;
    for (at = 0; text[at]; at++) {
        if (text[at] == wanted) {
            breaks = 1;
            puts("found");
            break;
        }
    }
    return breaks ? at : -1;
}

__attribute__((noinline)) static int count_of(const char *text, int wanted)
{
    int found = 0;
    if (!text[0])
        return -1;
    for (; *text; text++)
        found += *text == wanted;
    return found;
}

__attribute__((noinline)) static int walk(int rounds)
{
    int total = 0;
    for (int round = 0; round < rounds; round++) {
        total += table[round & 7];
        set_state(&state, next_of(round));
        set_state(&state, next_of(total));
    }
    return total;
}

struct writer { int plain, column, rows; };

__attribute__((noinline)) static int begin_row(struct writer *it)
{
    it->plain = it->rows++ > 8;
    return it->column < 99;
}

__attribute__((noinline)) static int is_narrow(struct writer *it)
{
    return it->column < 20;
}

/* Where the first test fails by its second half, the first half of the second test follows from it, and only its second half is made. */
__attribute__((noinline)) static void write_key(struct writer *it)
{
    if (it->plain || it->column > 40) {
        if (!begin_row(it))
            it->rows--;
    }
    if (!it->plain && is_narrow(it))
        it->column += 4;
    it->column++;
}

/* The code behind the call is that of all ways out of the loop's body, `continue;` has none. */
__attribute__((noinline)) static int fit(struct writer *it, int rounds)
{
    int fitting = 0;
    for (int round = 0; round < rounds; round++) {
        if (it->column > 1000) {
            puts("far too wide");
            continue;
        }
        if (it->column < round + 13)
            fitting += table[round & 7];
    }
    return fitting;
}

/* The second loop's first test follows from the test before it where that is made. */
__attribute__((noinline)) static int decimal(char *into, int value)
{
    char digits[12];
    int length = 0;
    while (value) {
        digits[length++] = (char)('0' + value % 10);
        value /= 10;
    }
    if (length == 0)
        digits[length++] = '0';
    while (length > 0)
        *into++ = digits[--length];
    *into = 0;
    return 0;
}

/* Where `is_odd` finds a number above 1, the next statement's test has no code: a row is left of it, and the inlined call begins. */
static int is_odd(int number)
{
    if (number < 2)
        return 0;
    return number % 2;
}

static int odd_part(int number)
{
    while (number % 2 == 0)
        number /= 2;
    return number;
}

int parts[64];

__attribute__((noinline)) static int tabulate(int count)
{
    int odd = 0;
    for (int at = 0; at < count; at++) {
        odd += is_odd(at);
        parts[at] = at ? odd_part(at) : 0;
    }
    return odd;
}

int main(int count, char **words)
{
    (void)words;
    struct writer writer = {count > 1, 13, 0};
    int last = fill(20 + count);
    printf("%d %d %d\n", last, find("a line of text", 'x'), find("a line of text", 'y'));
    printf("%d %d\n", walk(count * 5), walk(0));
    for (int key = 0; key < count * 3; key++)
        write_key(&writer);
    printf("%d %d\n", writer.column, writer.rows);
    printf("%d\n", fit(&writer, 7));
    char text[12];
    decimal(text, 0);
    decimal(text, 4711);
    printf("%d %d\n", count_of("", 'e'), count_of("three e", 'e'));
    printf("%d\n", tabulate(count + 19));
    return state.now < 0;
}
