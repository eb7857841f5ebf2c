/* Times of two archives of the library on the same bundles, in turn. tools/bench/archives.sh builds it: the four calls of the
 * older archive are renamed, with old_ before their names.
 * Usage: two_archives FILE..
 * A row has, for each call, the time of the older archive, that of the newer one, and the ratio of the two. Each time is the middle
 * one of some rounds, and a round of the one is followed by a round of the other. A call of more than half a second is made once,
 * and one that does not end within a minute of processor time is left out. */
#define _POSIX_C_SOURCE 200112L
#include "bundle_file.h"
#include <sys/resource.h>
#include <sys/wait.h>
#include <time.h>
#include <unistd.h>

#define ROUNDS 9
#define ROUND_SECONDS 0.01
#define SLOW_SECONDS 0.5
#define PATIENCE_SECONDS 60

uint8_t old_layout_accept(const uint8_t *, size_t);
uint8_t old_layout_report(const uint8_t *, size_t, uint8_t *, size_t, size_t *);
uint8_t old_layout_renumber(const uint8_t *, size_t, uint8_t *, size_t, size_t *);
uint8_t old_layout_chain(const uint8_t *, size_t, uint16_t, uint16_t, uint16_t *, size_t, size_t *);

static const struct calls old_calls = {old_layout_accept, old_layout_report, old_layout_renumber, old_layout_chain};

/* The thread's own processor time. */
static double now(void) {
  struct timespec time;
  clock_gettime(CLOCK_THREAD_CPUTIME_ID, &time);
  return (double)time.tv_sec + 1e-9 * (double)time.tv_nsec;
}

static double seconds(const struct calls *calls, int call, struct bundle *bundle, long repeats) {
  double start = now();
  long turn;
  for (turn = 0; turn < repeats; turn++) {
    make_call(calls, call, bundle);
  }
  return (now() - start) / (double)repeats;
}

/* Whether a call ends within a minute: it is made in a process of its own, which the system ends. */
static int ends(const struct calls *calls, int call, struct bundle *bundle) {
  static const struct rlimit limit = {PATIENCE_SECONDS, PATIENCE_SECONDS};
  int status = 1;
  pid_t child = fork();
  if (child == 0) {
    setrlimit(RLIMIT_CPU, &limit);
    make_call(calls, call, bundle);
    _exit(0);
  }
  return child > 0 && waitpid(child, &status, 0) == child && WIFEXITED(status);
}

static int by_size(const void *one, const void *other) {
  double a = *(const double *)one, b = *(const double *)other;
  return (a > b) - (a < b);
}

static double middle(double *times) {
  qsort(times, ROUNDS, sizeof *times, by_size);
  return times[ROUNDS / 2];
}

/* How often a call is repeated in a round, by the time that one took. */
static long repeats_of(double time) {
  return time < ROUND_SECONDS ? (long)(ROUND_SECONDS / (time > 2e-8 ? time : 2e-8)) + 1 : 1;
}

/* The time of one call, or a negative number where it does not end within a minute. */
static double once(const struct calls *calls, int call, struct bundle *bundle) {
  return ends(calls, call, bundle) ? seconds(calls, call, bundle, 1) : -1;
}

static int is_quick(double time) { return 0 <= time && time <= SLOW_SECONDS; }

static void in_turn(int call, struct bundle *bundle, double *older, double *newer) {
  double olds[ROUNDS], news[ROUNDS];
  long old_repeats, new_repeats;
  int round;
  *older = once(&old_calls, call, bundle);
  *newer = once(&own_calls, call, bundle);
  if (!is_quick(*older) || !is_quick(*newer)) {
    return;
  }
  old_repeats = repeats_of(*older);
  new_repeats = repeats_of(*newer);
  for (round = 0; round < ROUNDS; round++) {
    olds[round] = seconds(&old_calls, call, bundle, old_repeats);
    news[round] = seconds(&own_calls, call, bundle, new_repeats);
  }
  *older = middle(olds);
  *newer = middle(news);
}

/* Whether the two archives answer the same. */
static int same_answer(int call, struct bundle *bundle, uint8_t *copy) {
  int older, newer;
  size_t bytes;
  bundle->written = 0;
  older = make_call(&old_calls, call, bundle);
  bytes = call == CHAIN ? 2 * bundle->written : bundle->written;
  memcpy(copy, call == CHAIN ? (const void *)bundle->list : bundle->out, bytes);
  bundle->written = 0;
  newer = make_call(&own_calls, call, bundle);
  return older == newer && bytes == (call == CHAIN ? 2 : 1) * bundle->written &&
         memcmp(copy, call == CHAIN ? (const void *)bundle->list : bundle->out, bytes) == 0;
}

static void show(double time) {
  if (time < 0) {
    printf("%12s", "over 60 s");
  } else if (time < 1e-6) {
    printf("%9.0f ns", time * 1e9);
  } else if (time < 1e-3) {
    printf("%9.1f us", time * 1e6);
  } else if (time < 1) {
    printf("%9.2f ms", time * 1e3);
  } else {
    printf("%9.2f s ", time);
  }
}

static const char *last_part(const char *path) {
  const char *slash = strrchr(path, '/');
  return slash == NULL ? path : slash + 1;
}

int main(int count, char **words) {
  static const int order[] = {REPORT, ACCEPT, RENUMBER, CHAIN};
  uint8_t *copy = malloc(REPORT_ROOM);
  int all_same = 1, word, number;
  printf("%-46s", "case");
  for (number = 0; number < 4; number++) {
    printf("%12s%12s%8s", call_names[order[number]], "newer", "ratio");
  }
  printf("\n");
  for (word = 1; word < count; word++) {
    struct bundle bundle = bundle_of_file(words[word]);
    printf("%-46s", last_part(words[word]));
    for (number = 0; number < 4; number++) {
      double older, newer;
      in_turn(order[number], &bundle, &older, &newer);
      show(older);
      show(newer);
      if (older < 0 || newer < 0) {
        printf("%8s", "");
      } else {
        printf("%8.2f", older / newer);
        if (!same_answer(order[number], &bundle, copy)) {
          printf(" DIFFER");
          all_same = 0;
        }
      }
      fflush(stdout);
    }
    printf("\n");
    free(bundle.bytes);
    free(bundle.out);
  }
  return all_same ? 0 : 1;
}
