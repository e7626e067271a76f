/* Takes five seconds (`long`), or none, or has no end (`endless`), or leaves a daemon behind; `counted` is called each hundredth of a second. */
#include <stdio.h>
#include <string.h>
#include <time.h>
#include <unistd.h>
static volatile long done;
__attribute__((noinline)) void counted(void) { done++; }
static void work(int times) {
  struct timespec pause = {0, 10000000};
  for (; times != 0; times--) {
    counted();
    nanosleep(&pause, NULL);
  }
}
int main(int argc, char **argv) {
  const char *how = argc > 1 ? argv[1] : "";
  if (strcmp(how, "daemon") == 0) {
    if (fork() == 0) {
      setsid();
      work(-1);
    }
    puts("left");
    return 0;
  }
  puts("begins");
  fflush(stdout);
  work(strcmp(how, "endless") == 0 ? -1 : strcmp(how, "long") == 0 ? 500 : 1);
  puts("ends");
  return 6;
}
