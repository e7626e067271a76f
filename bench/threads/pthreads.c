/* Programs of threads, one by each of these names as a macro; each prints one line, which does not depend on the order of its threads. */
#define _GNU_SOURCE
#include <pthread.h>
#include <sched.h>
#include <semaphore.h>
#include <signal.h>
#include <stdatomic.h>
#include <stdio.h>
#include <stdlib.h>
#include <string.h>
#include <sys/time.h>
#include <sys/wait.h>
#include <time.h>
#include <unistd.h>

enum { MOST = 4, TURNS = 40 };
static long total;
static pthread_mutex_t lock = PTHREAD_MUTEX_INITIALIZER;
static pthread_cond_t changed = PTHREAD_COND_INITIALIZER;

static void add(long n) {
  pthread_mutex_lock(&lock);
  total += n;
  pthread_cond_broadcast(&changed);
  pthread_mutex_unlock(&lock);
}

/* Starts so many threads with their numbers, and waits for them. */
static void all(int count, void *(*work)(void *)) {
  pthread_t threads[MOST];
  for (long i = 0; i < count; i++)
    pthread_create(&threads[i], NULL, work, (void *)i);
  for (int i = 0; i < count; i++)
    pthread_join(threads[i], NULL);
}

#if defined MUTEX || defined LATE
static void *work(void *n) {
  for (int i = 0; i < TURNS; i++)
    add((long)n + i);
  return n;
}
static void run(void) {
#ifdef LATE
  unsigned long x = 1;
  for (int i = 0; i < 3000; i++)
    x = x * 6364136223846793005 + (x >> 33);
  total = x & 1023;
  all(1, work);
#else
  all(MOST, work);
#endif
}
#elif defined CONDITION
static int box, is_full;
static void *work(void *n) {
  for (int i = 1; i <= TURNS; i++) {
    pthread_mutex_lock(&lock);
    while (is_full == (n == NULL))
      pthread_cond_wait(&changed, &lock);
    if (n == NULL)
      box = i;
    else
      total += box;
    is_full = !is_full;
    pthread_cond_signal(&changed);
    pthread_mutex_unlock(&lock);
  }
  return n;
}
static void run(void) { all(2, work); }
#elif defined BARRIER
static pthread_barrier_t phase;
static long part[MOST];
static void *work(void *n) {
  for (int i = 0; i < 5; i++) {
    part[(long)n] = i + total;
    if (pthread_barrier_wait(&phase) == PTHREAD_BARRIER_SERIAL_THREAD)
      for (int j = 0; j < MOST; j++)
        total += part[j];
    pthread_barrier_wait(&phase);
  }
  return n;
}
static void run(void) {
  pthread_barrier_init(&phase, NULL, MOST);
  all(MOST, work);
}
#elif defined LOCALS
static _Thread_local long own = 5;
static _Thread_local char text[200];
static pthread_key_t key;
static pthread_once_t once = PTHREAD_ONCE_INIT;
static void end(void *n) { add((long)n); }
static void make(void) { pthread_key_create(&key, end); }
static void *work(void *n) {
  pthread_once(&once, make);
  own += (long)n;
  for (int i = 0; i < TURNS; i++)
    text[i] = (char)own;
  pthread_setspecific(key, (void *)(own + text[9]));
  return n;
}
static void run(void) { all(MOST, work); }
#elif defined DETACHED
static sem_t done;
static void *work(void *n) {
  add((long)n);
  sem_post(&done);
  return n;
}
static void run(void) {
  pthread_attr_t detached;
  pthread_t thread;
  sem_init(&done, 0, 0);
  pthread_attr_init(&detached);
  pthread_attr_setdetachstate(&detached, PTHREAD_CREATE_DETACHED);
  for (long i = 1; i <= MOST; i++)
    pthread_create(&thread, &detached, work, (void *)i);
  for (int i = 0; i < MOST; i++)
    sem_wait(&done);
}
#elif defined POOL
static struct job {
  struct job *next;
  long n;
} *jobs;
static int is_over;
static void *work(void *n) {
  pthread_mutex_lock(&lock);
  for (;;) {
    struct job *job = jobs;
    if (job) {
      jobs = job->next;
      pthread_mutex_unlock(&lock);
      add(job->n * job->n);
      free(job);
      pthread_mutex_lock(&lock);
    } else if (is_over)
      break;
    else
      pthread_cond_wait(&changed, &lock);
  }
  pthread_mutex_unlock(&lock);
  return n;
}
static void run(void) {
  pthread_t threads[MOST];
  for (long i = 0; i < MOST; i++)
    pthread_create(&threads[i], NULL, work, NULL);
  for (long i = 0; i < TURNS; i++) {
    struct job *job = malloc(sizeof *job);
    pthread_mutex_lock(&lock);
    *job = (struct job){ jobs, i };
    jobs = job, is_over = i == TURNS - 1;
    pthread_cond_broadcast(&changed);
    pthread_mutex_unlock(&lock);
  }
  for (int i = 0; i < MOST; i++)
    pthread_join(threads[i], NULL);
}
#elif defined READERS
static pthread_rwlock_t gate = PTHREAD_RWLOCK_INITIALIZER;
static long pair[2];
static void *work(void *n) {
  long same = 0;
  for (int i = 0; i < TURNS; i++)
    if ((long)n == 0) {
      pthread_rwlock_wrlock(&gate);
      pair[0]++, pair[1]++;
      pthread_rwlock_unlock(&gate);
    } else {
      pthread_rwlock_rdlock(&gate);
      same += pair[0] == pair[1];
      pthread_rwlock_unlock(&gate);
    }
  add(same);
  return n;
}
static void run(void) { all(MOST, work); }
#elif defined SIGNALS
static atomic_int seen, is_over;
static void handle(int number) { seen += number == SIGUSR1; }
static void *work(void *n) {
  while (!is_over)
    sched_yield();
  return n;
}
static void run(void) {
  pthread_t threads[2];
  struct sigaction action = { .sa_handler = handle };
  sigaction(SIGUSR1, &action, NULL);
  for (int i = 0; i < 2; i++)
    pthread_create(&threads[i], NULL, work, NULL);
  for (int i = 0; i < 6; i++) {
    pthread_kill(threads[i % 2], SIGUSR1);
    while (seen <= i)
      sched_yield();
  }
  is_over = 1;
  for (int i = 0; i < 2; i++)
    pthread_join(threads[i], NULL);
  total = seen;
}
#elif defined WAITS_FOR_SIGNALS
static sigset_t set;
static void *work(void *n) {
  for (int i = 0, number; i < 3; i++) {
    sigwait(&set, &number);
    add(number == SIGUSR2);
  }
  return n;
}
static void run(void) {
  pthread_t thread;
  sigemptyset(&set);
  sigaddset(&set, SIGUSR2);
  pthread_sigmask(SIG_BLOCK, &set, NULL);
  pthread_create(&thread, NULL, work, NULL);
  for (long i = 1; i <= 3; i++) {
    pthread_kill(thread, SIGUSR2);
    pthread_mutex_lock(&lock);
    while (total < i)
      pthread_cond_wait(&changed, &lock);
    pthread_mutex_unlock(&lock);
  }
  pthread_join(thread, NULL);
}
#elif defined TIMER
static atomic_int seen;
static void handle(int number) { seen += number == SIGALRM; }
static void *work(void *n) {
  while (seen < 3)
    sched_yield();
  return n;
}
static void run(void) {
  struct sigaction action = { .sa_handler = handle, .sa_flags = SA_RESTART };
  struct itimerval each = { { 0, 2000 }, { 0, 2000 } }, none = { { 0, 0 }, { 0, 0 } };
  sigaction(SIGALRM, &action, NULL);
  setitimer(ITIMER_REAL, &each, NULL);
  all(2, work);
  setitimer(ITIMER_REAL, &none, NULL);
  total = 3;
}
#elif defined CANCELLED
static void leave(void *n) { add((long)n); }
static void *work(void *n) {
  pthread_cleanup_push(leave, (void *)((long)n + 7));
  for (;;)
    pause();
  pthread_cleanup_pop(0);
}
static void run(void) {
  pthread_t threads[2];
  void *ended;
  for (long i = 0; i < 2; i++)
    pthread_create(&threads[i], NULL, work, (void *)i);
  for (int i = 0; i < 2; i++) {
    pthread_cancel(threads[i]);
    pthread_join(threads[i], &ended);
    total += ended == PTHREAD_CANCELED;
  }
}
#elif defined SPINS
static atomic_flag taken = ATOMIC_FLAG_INIT;
static _Atomic long sum;
static void *work(void *n) {
  for (int i = 0; i < TURNS; i++) {
    while (atomic_flag_test_and_set(&taken))
      sched_yield();
    total++;
    atomic_flag_clear(&taken);
    for (long old = sum; !atomic_compare_exchange_weak(&sum, &old, old + 2);)
      ;
  }
  return n;
}
static void run(void) {
  all(MOST, work);
  total += sum;
}
#elif defined FORKS
static void *work(void *n) {
  int status = 0;
  pid_t child = fork();
  if (child == 0)
    _exit(3 + (int)(long)n);
  waitpid(child, &status, 0);
  add(WEXITSTATUS(status));
  return n;
}
static void run(void) { all(2, work); }
#elif defined CRASHES
static void *work(void *n) {
  add((long)n);
  *(volatile int *)16 = 0;
  return n;
}
static void run(void) { all(1, work); }
#elif defined NONE
static void run(void) {
  void *block[TURNS];
  for (int i = 0; i < TURNS; i++)
    memset(block[i] = malloc(16 + i), i, 16);
  for (int i = 0; i < TURNS; i++)
    total += *(char *)block[i], free(block[i]);
  if (total < 0)
    all(0, NULL);
}
#endif

int main(void) {
  run();
  printf("total %ld\n", total);
  fflush(stdout);
  return 7;
}
