/* How much stack the calls take. Each call is made on bundles that go deep, in a thread that has STACK_BYTES of stack left, which is
 * LAYOUT_STACK_BYTES unless the build says otherwise.
 * Usage: stack_test           every call with exactly that stack; a call that needs more ends the test with exit code 1
 *        stack_test measure   the most that each call took, and on which bundle
 * The deepest bundles are lines of definitions, each leading to the next from deep inside its type. They differ in what the
 * definitions are, what is inside them, how deep, what stands first and so asks about them, what stands last, and whether there are
 * edges. */
#define _GNU_SOURCE
#include "layout.h"
#include <pthread.h>
#include <signal.h>
#include <stdio.h>
#include <stdlib.h>
#include <string.h>
#include <sys/mman.h>
#include <unistd.h>

#ifndef STACK_BYTES
#define STACK_BYTES LAYOUT_STACK_BYTES
#endif

#define REGION (2u << 20)
#define GUARD 65536u
#define PAINT 0xA5
#define REPORT_ROOM (1u << 20)

enum { ARRAY, STRUCT, UNION, ENUM, SIZED_UNION, KINDS };
static const char *const kind_names[] = {"array", "struct", "union", "enum", "sized union"};

/* What the first definition is. */
enum { NOTHING, FIXED_ARRAY, JAGGED_ARRAY, TAGGED, HOLDER, TWICE, STARTS };
static const char *const start_names[] = {"nothing first", "an array first", "a jagged array first", "an enum first",
                                          "a struct first", "a name of two definitions first"};

static uint8_t bytes[LAYOUT_BYTE_LIMIT + 1024];
static size_t length;

static void put(unsigned value, int width) {
  while (width-- > 0) {
    bytes[length++] = (uint8_t)value;
    value >>= 8;
  }
}

static void put_type_ref(unsigned name) {
  put(0x40, 1);
  put(name, 2);
}

/* A kind with its attributes, all 0. */
static void put_head(unsigned kind) {
  put(kind, 1);
  put(0, 4);
  put(0, 4);
  put(0, 1);
}

/* A member's record; `value` says whether one stands behind the name. */
static void put_member(unsigned kind, unsigned name, int value) {
  put(kind, 1);
  put(name, 2);
  if (value) {
    put(0, 4);
    put(0, 4);
  }
}

/* All of a type that stands before the one type inside it. */
static void put_around(int kind) {
  static const uint8_t codes[] = {0x44, 0x41, 0x42, 0x43, 0x45};
  static const uint8_t members[] = {0, 0x50, 0x51, 0x52, 0x53};
  put_head(codes[kind]);
  put(kind == ARRAY ? 0 : 1, kind == ARRAY ? 1 : 2);
  if (kind == ARRAY || kind == ENUM) {
    put(0x04, 1);
    put(1, 1);
  }
  if (kind != ARRAY) {
    put_member(members[kind], 7, kind == ENUM || kind == SIZED_UNION);
  }
}

static void put_reference(unsigned owner, unsigned field) {
  put(0x0A, 1);
  put(owner, 2);
  put(field, 2);
}

/* The last definition of a line: none, so that its name leads nowhere, or one by which all of the line can have a fixed size. The sums
 * are arrays whose size goes down to the deepest level, on its left or on its right. */
enum { OPEN, CLOSED, LEFT_SUM, RIGHT_SUM, ENDS };
static const char *const end_names[] = {"", ", closed", ", closed by a sum on the left", ", closed by a sum on the right"};
static const unsigned end_lengths[] = {0, 4, 83, 83};

static void put_one(void) {
  put(0x04, 1);
  put(1, 1);
}

/* Adds of 1 and 1, each inside the one before. The array has depth 1 and the last literals the greatest depth. */
static void put_sum(int on_the_right) {
  int level;
  for (level = 2; level < LAYOUT_DEPTH_LIMIT; level++) {
    put(0x10, 1);
    if (on_the_right) {
      put_one();
    }
  }
  put_one();
  for (level = 2; level < LAYOUT_DEPTH_LIMIT && !on_the_right; level++) {
    put_one();
  }
}

static void put_end(int end, unsigned name) {
  put(0x61, 1);
  put(name, 2);
  if (end != CLOSED) {
    put_head(0x44);
    put(0, 1);
    put_sum(end == RIGHT_SUM);
  }
  put(0x30, 1);
}

/* What differs between the bundles. */
struct shape {
  int start;
  int outside;
  int inside;
  int levels;
  unsigned edges;
  size_t limit;
  int end;
};

/* The first definitions, of which one leads to `next`; how many they are. */
static unsigned put_start(const struct shape *shape, unsigned next) {
  int start = shape->start;
  if (start == NOTHING) {
    return 0;
  }
  put(0x61, 1);
  put(1, 2);
  if (start == FIXED_ARRAY || start == JAGGED_ARRAY) {
    put_head(0x44);
    put(start == JAGGED_ARRAY, 1);
    put(0x04, 1);
    put(3, 1);
    put_type_ref(next);
    return 1;
  }
  if (start == TWICE) {
    /* The second is an enum whose reference asks about the first. */
    put_around(shape->outside);
    put_type_ref(next);
    put(0x61, 1);
    put(1, 2);
    put_head(0x43);
    put(1, 2);
    put_reference(900, 1);
    put_member(0x52, 7, 1);
    put(0x30, 1);
    return 2;
  }
  put_head(start == TAGGED ? 0x43 : 0x41);
  if (start == TAGGED) {
    put(1, 2);
    put_reference(900, 1);
    put_member(0x52, 7, 1);
    put_type_ref(next);
    return 1;
  }
  /* A struct whose first field leads to a struct that refers to the second, behind what leads on. */
  put(2, 2);
  put_member(0x50, 1, 0);
  put_type_ref(2);
  put_member(0x50, 2, 0);
  put(0x30, 1);
  put(0x61, 1);
  put(2, 2);
  put_head(0x41);
  put(2, 2);
  put_member(0x50, 1, 0);
  put_type_ref(next);
  put_member(0x50, 2, 0);
  put_head(0x44);
  put(0, 1);
  put_reference(1, 2);
  put(0x30, 1);
  return 2;
}

/* The bytes of one definition of a line. */
static void put_definition(const struct shape *shape, unsigned name) {
  int level;
  put(0x61, 1);
  put(name, 2);
  put_around(shape->outside);
  for (level = 1; level < shape->levels; level++) {
    put_around(shape->inside);
  }
  put_type_ref(name + 1);
}

/* The definition of which a value is asked: the last, which is a sum, or the first. */
static size_t valued;

/* A line of as many definitions as there can be; the last leads to a name without definition, to a U8 or to a sum. */
static void make_bundle(const struct shape *shape) {
  const unsigned closed = shape->end != OPEN;
  unsigned definitions, first, edge;
  size_t before = 0;
  length = 0;
  put(0x60, 1);
  put(0, 2);
  put(shape->edges, 2);
  put(0, 2);
  definitions = put_start(shape, 10);
  first = definitions;
  while (definitions < LAYOUT_DEFINITION_LIMIT - closed) {
    before = length;
    put_definition(shape, 10 + definitions - first);
    if (length + 6 * shape->edges + end_lengths[shape->end] > shape->limit) {
      length = before;
      break;
    }
    definitions++;
  }
  if (closed) {
    put_end(shape->end, 10 + definitions - first);
    definitions++;
  }
  valued = shape->end >= LEFT_SUM ? definitions - 1 : 0;
  for (edge = 0; edge < shape->edges; edge++) {
    put(0x62, 1);
    put(edge == 0 ? 900 : 1000 + edge, 2);
    put(edge + 1 == shape->edges ? 1 : 1001 + edge, 2);
    put(0, 1);
  }
  bytes[1] = (uint8_t)definitions;
  bytes[2] = (uint8_t)(definitions >> 8);
}

enum { ACCEPT, REPORT, RENUMBER, CHAIN, CHAIN_FOLLOWED, FIXED_SIZE, SIZE_VALUE, CALLS };
static const char *const call_names[] = {"accept",         "report",     "renumber",  "chain",
                                         "chain followed", "fixed size", "size value"};

static uint8_t *region;
static uint8_t *out;
static uint16_t list[1025];
static uint32_t offsets[LAYOUT_FIELD_LIMIT];
static int call;
static int measuring;
static uint8_t answer;
static char where[256];

static void make_call(void) {
  size_t written = 0, followed = 0;
  uint64_t size = 0, alignment = 0;
  int64_t value = 0;
  switch (call) {
  case ACCEPT:
    answer = layout_accept(bytes, length);
    break;
  case REPORT:
    answer = layout_report(bytes, length, out, REPORT_ROOM, &written);
    break;
  case RENUMBER:
    answer = layout_renumber(bytes, length, out, REPORT_ROOM, &written);
    break;
  case CHAIN:
    answer = layout_chain(bytes, length, 900, 1, list, 1025, &written);
    break;
  case CHAIN_FOLLOWED:
    answer = layout_chain_followed(bytes, length, 900, 1, list, 1025, &written, &followed);
    break;
  case FIXED_SIZE:
    answer = layout_fixed_size(bytes, length, 0, offsets, LAYOUT_FIELD_LIMIT, &size, &alignment, &written);
    break;
  default:
    answer = layout_size_value(bytes, length, valued, &value);
  }
}

/* Makes the call where so many bytes of the stack are left over. They are in use until the call has ended. */
static void call_above(size_t over) {
  volatile uint8_t spare[over];
  spare[0] = spare[over - 1] = 0;
  make_call();
  spare[0] = answer;
}

static void overflow(int number) {
  ssize_t ignored = write(2, where, strlen(where));
  (void)number;
  (void)ignored;
  _exit(1);
}

/* Where the stack of the call starts, in a measurement. */
static uint8_t *top;

static void *run(void *unused) {
  static uint8_t spare[65536];
  stack_t other;
  uint8_t here;
  size_t left = (size_t)(&here - (region + GUARD));
  memset(&other, 0, sizeof other);
  other.ss_sp = spare;
  other.ss_size = sizeof spare;
  sigaltstack(&other, NULL);
  if (measuring) {
    top = &here;
    make_call();
  } else {
    call_above(left - STACK_BYTES);
  }
  return unused;
}

static void in_thread(void) {
  pthread_attr_t attributes;
  pthread_t thread;
  pthread_attr_init(&attributes);
  if (pthread_attr_setstack(&attributes, region + GUARD, REGION - GUARD) != 0 ||
      pthread_create(&thread, &attributes, run, NULL) != 0) {
    fprintf(stderr, "no thread\n");
    exit(2);
  }
  pthread_join(thread, NULL);
  pthread_attr_destroy(&attributes);
}

static size_t most[CALLS];
static char most_where[CALLS][160];

/* The lowest place of the stack that is no longer painted. All below it is painted still. */
static uint8_t *lowest_used(void) {
  const uint64_t *place = (const uint64_t *)(void *)(region + GUARD);
  uint64_t painted;
  memset(&painted, PAINT, sizeof painted);
  while (*place == painted) {
    place++;
  }
  return (uint8_t *)(uintptr_t)place;
}

static void measure(const char *name) {
  uint8_t *lowest = lowest_used();
  if ((size_t)(top - lowest) > most[call]) {
    most[call] = (size_t)(top - lowest);
    snprintf(most_where[call], sizeof most_where[call], "%s", name);
  }
  memset(lowest, PAINT, (size_t)(region + REGION - lowest));
}

/* Makes the calls from the first one on. */
static void try_bundle(const char *name, int first) {
  for (call = first; call < CALLS; call++) {
    snprintf(where, sizeof where, "more than %lu bytes of stack: %s, %s\n", (unsigned long)STACK_BYTES,
             call_names[call], name);
    in_thread();
    /* What varies has no fixed size, and what is no array no value. */
    if (answer != 0 && (call < FIXED_SIZE || answer != LAYOUT_VARYING || (call == SIZE_VALUE && valued != 0))) {
      fprintf(stderr, "%s refuses with %d: %s\n", call_names[call], answer, name);
      exit(2);
    }
    if (measuring) {
      measure(name);
    }
  }
}

static void try_shape(struct shape *shape) {
  char name[160];
  for (shape->end = OPEN; shape->end < ENDS; shape->end++) {
    make_bundle(shape);
    snprintf(name, sizeof name, "%s, %d levels of %s in %s, %u edges, %lu bytes%s", start_names[shape->start],
             shape->levels, kind_names[shape->inside], kind_names[shape->outside], shape->edges,
             (unsigned long)length, end_names[shape->end]);
    try_bundle(name, shape->end == OPEN ? ACCEPT : FIXED_SIZE);
  }
}

static void try_kinds(struct shape *shape) {
  static const int levels[] = {1, 2, 4, 8, 12, 17, 23};
  size_t depth;
  for (shape->outside = 0; shape->outside < KINDS; shape->outside++) {
    for (shape->inside = 0; shape->inside < KINDS; shape->inside++) {
      for (depth = 0; depth < sizeof levels / sizeof *levels; depth++) {
        shape->levels = levels[depth];
        try_shape(shape);
      }
    }
  }
}

int main(int count, char **words) {
  static const size_t limits[] = {64, 1024, LAYOUT_BYTE_LIMIT};
  static const unsigned edges[] = {0, 2, LAYOUT_EDGE_LIMIT};
  struct sigaction action;
  struct shape shape;
  size_t limit, some;
  measuring = count == 2 && strcmp(words[1], "measure") == 0;
  region = mmap(NULL, REGION, PROT_READ | PROT_WRITE, MAP_PRIVATE | MAP_ANONYMOUS, -1, 0);
  out = malloc(REPORT_ROOM);
  if (region == MAP_FAILED || out == NULL || mprotect(region, GUARD, PROT_NONE) != 0) {
    fprintf(stderr, "no memory\n");
    return 2;
  }
  memset(region + GUARD, PAINT, REGION - GUARD);
  memset(&action, 0, sizeof action);
  action.sa_handler = overflow;
  action.sa_flags = SA_ONSTACK;
  sigaction(SIGSEGV, &action, NULL);
  for (limit = 0; limit < 3; limit++) {
    for (some = 0; some < 3; some++) {
      shape.limit = limits[limit];
      shape.edges = edges[some];
      if (6 * shape.edges + 200 > shape.limit && shape.edges > 0) {
        continue;
      }
      for (shape.start = 0; shape.start < STARTS; shape.start++) {
        try_kinds(&shape);
      }
    }
  }
  for (call = 0; measuring && call < CALLS; call++) {
    printf("%-15s%8lu  %s\n", call_names[call], (unsigned long)most[call], most_where[call]);
  }
  if (!measuring) {
    printf("every call has enough with %lu bytes of stack\n", (unsigned long)STACK_BYTES);
  }
  return 0;
}
