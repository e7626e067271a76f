/* Replaces memory of its patch, after `early` is executed for the last time: of its record or its code, by other memory or code, or by none; itself, or in
   a forked child, or in a thread. WHO WHAT HOW. The record is what is shared (SYSV), or of no file below the program; the code is what may be executed of the
   program's file and doesn't hold `main`. */
#define _GNU_SOURCE
#include <pthread.h>
#include <stdbool.h>
#include <stdio.h>
#include <stdlib.h>
#include <string.h>
#include <sys/mman.h>
#include <sys/wait.h>
#include <unistd.h>

static const char *what, *how;
static volatile long done;
__attribute__((noinline)) void early(void) { done++; }

static void replace(unsigned long low, unsigned long high) {
  int access = PROT_READ | PROT_WRITE | (strcmp(how, "code") == 0 ? PROT_EXEC : 0), flags = MAP_PRIVATE | MAP_ANONYMOUS | MAP_FIXED;
  bool is_done = strcmp(how, "none") == 0 ? munmap((void *)low, high - low) == 0 : mmap((void *)low, high - low, access, flags, -1, 0) != MAP_FAILED;
  if (!is_done)
    _exit(9);
}

static void replace_all(void) {
  static char lines[200][500];
  FILE *maps = fopen("/proc/self/maps", "r");
  int count = 0;
  while (count < 200 && fgets(lines[count], 500, maps))
    count++;
  fclose(maps);
  for (int n = 0; n < count; n++) {
    unsigned long low, high, here = (unsigned long)&replace_all;
    char access[5];
    sscanf(lines[n], "%lx-%lx %4s", &low, &high, access);
    bool is_code = access[2] == 'x' && strchr(lines[n], '/') && (here < low || high <= here), is_record = strstr(lines[n], "SYSV") != NULL;
    if ((is_code && strcmp(what, "code") == 0) || (is_record && strcmp(what, "memory") == 0))
      replace(low, high);
  }
}

static void *work(void *none) {
  for (int n = 0; n < 10; n++)
    early();
  replace_all();
  return none;
}

int main(int argc, char **argv) {
  const char *who = argc > 3 ? argv[1] : "";
  pthread_t thread;
  if (argc < 4)
    return 8;
  what = argv[2], how = argv[3];
  if (strcmp(who, "child") == 0 && fork() > 0) {
    wait(NULL);
    return 6;
  }
  if (strcmp(who, "thread") == 0 && pthread_create(&thread, NULL, work, NULL) == 0)
    pthread_join(thread, NULL);
  else
    work(NULL);
  return 6;
}
