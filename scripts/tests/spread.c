/* Statements over several lines, of which the code comes back to a line that it left; test_copies.py compares them with
   gcov's counts without optimization. */
#include <stdio.h>

static int twice(int number)
{
    return 2 * number;
}

static int added(int left, int right)
{
    return left + right;
}

/* A call whose second word is a test of its own. */
static int parted(int rounds)
{
    int sum = 0;
    for (int round = 0; round < rounds; round++)
        sum = added(sum,
                    round % 3 == 0
                        ? twice(round)
                        : 1);
    return sum;
}

/* A value that is true or not, by parts on two lines. */
static int both(int left, int right)
{
    int is_one = left && (right > 2
                          || right < -2);
    int is_other = is_one ||
                   left > right;
    return is_one + is_other;
}

/* A loop without a test, of which a jump alone leads back to the first statement; and a test on two lines, to whose
   loop only a jump leads from its first line. */
static int first_above(int least)
{
    int at = 0, square;
    for (;;) {
        square = at * at;
        while (square % 5 == 4)
            square++;
        if (square > least)
            return at;
        while (at % 4 == 2
                   ? twice(at) > least - square
                   : twice(at) > least)
            least++;
        if (at++ % 4 == 3)
            least--;
    }
}

/* A jump out of a branch that stands in braces, behind a call. */
static int ended(int number)
{
    int sum = 0;
    if (number > 3 && twice(number) > 9) {
        int part = twice(number);
        sum = added(part, 1);
        sum = twice(sum);
    } else
        sum = -1;
    return sum;
}

/* A step of a loop on more lines than its test. */
static int stepped(int most)
{
    int sum = 0;
    for (int at = 0; at < most;
         at = added(at,
                    twice(1)))
        sum += at;
    return sum;
}

int main(void)
{
    int sum = parted(7) + first_above(90) + stepped(9);
    for (int number = 0; number < 6; number++) {
        sum += both(number, number - 3) + ended(number);
    }
    printf("%d\n", sum);
    return 0;
}
