/* The program and its signal handler call through memory in a loop: prints OK if each call led to its own function. */
#include <signal.h>
#include <stdio.h>
#include <sys/time.h>

struct calls {
    void (*run)(void);
};

static volatile long handled, called, elsewhere;
static volatile int in_handler;

__attribute__((noinline)) static void of_handler(void)
{
    handled++;
    elsewhere += !in_handler;
}

__attribute__((noinline)) static void of_main(void)
{
    called++;
    elsewhere += in_handler;
}

static struct calls to_handler = {of_handler}, to_main = {of_main};
static struct calls *volatile handlers = &to_handler, *volatile mains = &to_main;

static void on_alarm(int number)
{
    struct calls *calls = handlers;
    long left = number - SIGALRM + 3;
    in_handler = 1;
    do
        calls->run();
    while (--left);
    in_handler = 0;
}

int main(void)
{
    const long rounds = 10000000;
    struct sigaction action = {.sa_handler = on_alarm};
    struct itimerval often = {{0, 50}, {0, 50}}, never = {{0, 0}, {0, 0}};
    struct calls *calls = mains;
    long left = rounds;
    sigaction(SIGALRM, &action, 0);
    setitimer(ITIMER_REAL, &often, 0);
    do
        calls->run();
    while (--left);
    setitimer(ITIMER_REAL, &never, 0);
    if (called == rounds && !elsewhere)
        printf("OK, and %s came\n", handled ? "signals" : "no signals");
    else
        printf("%ld of %ld calls were made, %ld led elsewhere\n", called, rounds, elsewhere);
    return 0;
}
