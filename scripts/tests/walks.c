/* Threads that each walk through functions of their own, which may be sites: the next one is drawn by a rule that
   scripts/tests/test_thread_rings.py has, too. With a timer handlers come in between, through `tick`; how many is printed.
   usage: walks THREADS STEPS [MICROSECONDS] */
#include <pthread.h>
#include <signal.h>
#include <stdint.h>
#include <stdio.h>
#include <stdlib.h>
#include <sys/time.h>

enum { MOST = 4, WAYS = 3, WAIT = 300, MOST_TICKS = 2000 };
static int steps, turns;
static long ticks;

/* The function step_T_W of each thread and way, and a table of their addresses. */
__asm__(".globl tick; .type tick, @function; tick: mov $9, %edx; ret; .size tick, . - tick\n"
        ".macro step thread, way; .globl step_\\thread\\()_\\way; .type step_\\thread\\()_\\way, @function; step_\\thread\\()_\\way:"
        "mov $\\way, %edx; ret; .size step_\\thread\\()_\\way, . - step_\\thread\\()_\\way\n"
        ".pushsection .data; .quad step_\\thread\\()_\\way; .popsection; .endm\n"
        ".pushsection .data; .balign 8; ways: .popsection\n"
        ".irp thread, 0, 1, 2, 3; .irp way, 0, 1, 2; step \\thread, \\way; .endr; .endr");
extern void (*const ways[MOST][WAYS])(void);
void tick(void);

static void on_tick(int number) {
    struct itimerval none = {{0, 0}, {0, 0}};
    (void)number;
    tick();
    if (__atomic_add_fetch(&ticks, 1, __ATOMIC_SEQ_CST) == MOST_TICKS)
        setitimer(ITIMER_REAL, &none, NULL);
}

static void *walk(void *number) {
    uint32_t drawn = (uint32_t)(uintptr_t)number + 1;
    for (int i = 0; i < steps; i++) {
        drawn = drawn * 1103515245 + 12345;
        ways[(uintptr_t)number][(drawn >> 16) % WAYS]();
        for (volatile int wait = 0; wait < turns; wait++)
            ;
    }
    return NULL;
}

int main(int count, char **words) {
    struct sigaction action = {.sa_handler = on_tick, .sa_flags = SA_RESTART};
    struct itimerval each = {{0, count > 3 ? atoi(words[3]) : 0}, {0, 1}};
    pthread_t all[MOST];
    int threads = count > 2 ? atoi(words[1]) : 0;
    if (threads < 1 || threads > MOST)
        return 64;
    steps = atoi(words[2]), turns = count > 3 ? WAIT : 0;
    sigaction(SIGALRM, &action, NULL);
    if (count > 3)
        setitimer(ITIMER_REAL, &each, NULL);
    for (uintptr_t number = 0; number < (uintptr_t)threads; number++)
        pthread_create(&all[number], NULL, walk, (void *)number);
    for (int number = 0; number < threads; number++)
        pthread_join(all[number], NULL);
    signal(SIGALRM, SIG_IGN);
    printf("%ld\n", ticks);
    return 0;
}
