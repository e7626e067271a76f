// What the tests of the command run: known counts, input that is read, ends of each kind.
#include <stdio.h>
#include <stdlib.h>
#include <string.h>
#include <unistd.h>

namespace tour {
static volatile long sum;

struct Walk {
    void step(long by) { sum += by; }
};

static void walk(long steps) {
    Walk it;
    for (long i = 0; i < steps; i++)
        it.step(i);
}

static long copied() {
    Walk it;
    long bytes = 0;
    for (int byte; (byte = getchar()) != EOF; bytes++)
        it.step(byte);
    return bytes;
}

static void never() {
    puts("never");
}
}

int main(int argc, char **argv) {
    const char *how = argc > 1 ? argv[1] : "";
    long many = argc > 2 ? atol(argv[2]) : 0;
    if (!strcmp(how, "walk"))
        tour::walk(many);
    else if (!strcmp(how, "copy"))
        printf("%ld bytes\n", tour::copied());
    else if (!strcmp(how, "crash")) {
        tour::walk(many);
        abort();
    } else if (!strcmp(how, "long"))
        for (int i = 0; i < 360000; i++) {
            tour::walk(10);
            usleep(10000);
        }
    else if (many)
        tour::never();
    printf("sum %ld\n", tour::sum);
    return 4;
}
