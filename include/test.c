/* Calls each function of layout.h once or more and compares the answers; then from
 * unaligned places, and from threads at the same time.
 * Prints nothing but a count if all are as due; returns 1 otherwise. */
#define _POSIX_C_SOURCE 200809L
#include "layout.h"

#include <pthread.h>
#include <stdio.h>
#include <string.h>

static int failures = 0;
static int checks = 0;

static void check(int holds, const char *what) {
  checks++;
  if (!holds) {
    failures++;
    printf("failed: %s\n", what);
  }
}

/* A jagged array of three U8, and its report. */
static const uint8_t jagged[24] = {0x60, 1, 0, 0, 0, 0, 0, 0x61, 1, 0, 0x44, 0,
                                   0, 0, 0, 0, 0, 0, 0, 0, 1, 4, 3, 0x30};
static const uint8_t jagged_report[22] = {0x70, 1, 0, 0x77, 0, 0, 1, 0,
                                          0, 0, 0, 0, 0, 0, 0, 0,
                                          0, 1, 0, 0x7F, 1, 0};

/* Edges 9 to 8, 9 to 7, 7 to 6, 8 to 6, and the same renumbered. */
static const uint8_t edges[31] = {0x60, 0, 0, 4, 0, 0, 0, 0x62, 9, 0, 8, 0, 0,
                                  0x62, 9, 0, 7, 0, 1, 0x62, 7, 0, 6, 0, 2,
                                  0x62, 8, 0, 6, 0, 3};
static const uint8_t renumbered[31] = {
    0x60, 0, 0, 4, 0, 0, 0, 0x62, 1, 0, 2, 0, 0, 0x62, 1, 0,
    3, 0, 1, 0x62, 3, 0, 4, 0, 2, 0x62, 2, 0, 4, 0, 3};

static int all_are(const uint8_t *from, size_t length, uint8_t value) {
  for (size_t i = 0; i < length; i++) {
    if (from[i] != value) return 0;
  }
  return 1;
}

static void check_accept(void) {
  static const uint8_t circle[13] = {0x60, 1, 0, 0, 0, 0, 0,
                                     0x61, 1, 0, 0x40, 1, 0};
  check(layout_accept(jagged, 24) == LAYOUT_ACCEPTED, "accept");
  check(layout_accept(NULL, 0) == LAYOUT_SHORT, "nothing is short");
  check(layout_accept(jagged, 23) == LAYOUT_SHORT, "cut off is short");
  check(layout_accept(circle, 13) == LAYOUT_CIRCLE, "circle");
}

static void check_report(void) {
  uint8_t out[64];
  size_t written = 77;
  memset(out, 0xAA, sizeof out);
  check(layout_report(jagged, 24, out, 21, &written) == LAYOUT_NARROW, "narrow");
  check(written == 77 && all_are(out, 64, 0xAA), "narrow writes nothing");
  check(layout_report(jagged, 24, out, 64, &written) == 0, "report");
  check(written == 22 && memcmp(out, jagged_report, 22) == 0, "report bytes");
  check(all_are(out + 22, 42, 0xAA), "the rest is kept");
}

static void check_renumber(void) {
  uint8_t out[40];
  size_t written = 77;
  memset(out, 0xAA, sizeof out);
  check(layout_renumber(edges, 31, out, 30, &written) == LAYOUT_NARROW, "narrow");
  check(written == 77 && all_are(out, 40, 0xAA), "narrow writes nothing");
  check(layout_renumber(edges, 31, out, 40, &written) == 0, "renumber");
  check(written == 31 && memcmp(out, renumbered, 31) == 0, "renumbered bytes");
  check(all_are(out + 31, 9, 0xAA), "the rest is kept");
}

static void check_chain(void) {
  uint16_t list[4] = {77, 77, 77, 77};
  size_t written = 77;
  check(layout_chain(edges, 31, 9, 6, list, 2, &written) == LAYOUT_NARROW, "narrow");
  check(written == 77 && list[0] == 77, "narrow writes nothing");
  check(layout_chain(edges, 31, 9, 6, list, 4, &written) == 0, "chain");
  check(written == 3 && list[0] == 9 && list[1] == 8 && list[2] == 6, "its names");
  check(list[3] == 77, "the rest is kept");
  check(layout_chain(edges, 31, 6, 9, list, 4, &written) == 0, "no chain");
  check(written == 0 && list[0] == 9, "no chain writes nothing");
  check(layout_chain(edges, 30, 6, 9, list, 4, &written) == LAYOUT_SHORT, "short");
}

/* What a call of layout_chain_followed may write, with noise in it before. */
struct search {
  uint16_t list[6];
  size_t written;
  size_t followed;
};
static const struct search unsearched = {{77, 78, 79, 80, 81, 82}, 83, 84};

static int same_search(const struct search *one, const struct search *other) {
  return memcmp(one->list, other->list, sizeof one->list) == 0 &&
         one->written == other->written && one->followed == other->followed;
}

/* Calls with noise in the answer and a list of so many places. */
static uint8_t follow(const uint8_t *bundle, size_t length, uint16_t from, uint16_t to,
                      size_t list_len, struct search *search) {
  *search = unsearched;
  return layout_chain_followed(bundle, length, from, to, search->list, list_len,
                               &search->written, &search->followed);
}

/* Edges 1 to 2, 1 to 3 twice, 1 to 1, 3 to 5, 2 to 4, 2 to 5, 5 to 1, 4 to 6, 8 to 9. From 1
 * the order is 1, 2 (by edge 0), 3 (1), 4 (0, 5), 5 (0, 6), 6 (0, 5, 8); 7, 8 and 9 are not
 * reached. */
enum { GRAPH_LEN = 67 };
static const uint8_t graph[GRAPH_LEN] = {
    0x60, 0, 0, 10, 0, 0, 0, 0x62, 1, 0, 2, 0, 0, 0x62, 1, 0, 3, 0, 0, 0x62, 1, 0, 3,
    0,    1, 0x62, 1, 0, 1, 0, 0, 0x62, 3, 0, 5, 0, 2, 0x62, 2, 0, 4, 0, 3, 0x62, 2, 0,
    5,    0, 0, 0x62, 5, 0, 1, 0, 0, 0x62, 4, 0, 6, 0, 0, 0x62, 8, 0, 9, 0, 0};

static const struct {
  const char *what;
  uint16_t from;
  uint16_t to;
  struct search due; /* its list has the names alone, and not what is kept behind them */
} searches[] = {
    {"a name to itself", 1, 1, {{1}, 1, 0}},
    {"a name to itself that no edge has", 7, 7, {{7}, 1, 0}},
    {"the first edge", 1, 2, {{1, 2}, 2, 1}},
    {"two edges alike", 1, 3, {{1, 3}, 2, 1}},
    {"by the second name", 1, 4, {{1, 2, 4}, 3, 2}},
    {"by the second name and not the third, whose edge stands first", 1, 5, {{1, 2, 5}, 3, 2}},
    {"by the fourth name", 1, 6, {{1, 2, 4, 6}, 4, 4}},
    {"around a circle", 3, 2, {{3, 5, 1, 2}, 4, 3}},
    {"another part", 8, 9, {{8, 9}, 2, 1}},
    {"a name that is not reached", 1, 8, {{0}, 0, 6}},
    {"a name that no edge has", 1, 7, {{0}, 0, 6}},
    {"from a name without edges of its own", 6, 1, {{0}, 0, 1}},
    {"from a name that no edge has", 7, 1, {{0}, 0, 1}},
};

static void check_chain_followed(void) {
  struct search search;
  for (size_t i = 0; i < sizeof searches / sizeof *searches; i++) {
    const uint16_t from = searches[i].from, to = searches[i].to;
    struct search due = searches[i].due;
    const size_t names = due.written;
    memcpy(due.list + names, unsearched.list + names, (6 - names) * sizeof *due.list);
    check(follow(graph, GRAPH_LEN, from, to, 6, &search) == 0, searches[i].what);
    check(same_search(&search, &due), "names and count; the rest is kept");
    check(follow(graph, GRAPH_LEN, from, to, names, &search) == 0, "an exact list");
    check(same_search(&search, &due), "the same names and count");
    if (names == 0) continue;
    check(follow(graph, GRAPH_LEN, from, to, names - 1, &search) == LAYOUT_NARROW, "one short");
    check(same_search(&search, &unsearched), "narrow writes nothing");
    check(follow(graph, GRAPH_LEN, from, to, 0, &search) == LAYOUT_NARROW, "no places");
    check(same_search(&search, &unsearched), "narrow writes nothing");
  }
  search = unsearched;
  check(layout_chain_followed(graph, GRAPH_LEN, 6, 1, NULL, 0, &search.written,
                              &search.followed) == 0,
        "no list where there is no chain");
  check(search.written == 0 && search.followed == 1, "its count");
}

/* Refused bundles, from a name to itself, to another and without a chain. */
static void check_chain_followed_refusals(void) {
  static const uint8_t circle[13] = {0x60, 1, 0, 0, 0, 0, 0, 0x61, 1, 0, 0x40, 1, 0};
  static const struct {
    size_t at;
    uint8_t byte;
    size_t length;
    uint8_t due;
  } damaged[] = {{0, 0x60, GRAPH_LEN - 1, LAYOUT_SHORT},     {0, 0x60, 0, LAYOUT_SHORT},
                 {GRAPH_LEN - 6, 0x61, GRAPH_LEN, LAYOUT_STRANGER},
                 {GRAPH_LEN - 1, 4, GRAPH_LEN, LAYOUT_OFF_SCALE},
                 {4, 8, GRAPH_LEN, LAYOUT_CROWDED},          {0, 0x60, GRAPH_LEN + 1, LAYOUT_TRAILING},
                 {0, 0x60, LAYOUT_BYTE_LIMIT + 1, LAYOUT_OVERLONG}};
  static uint8_t bundle[LAYOUT_BYTE_LIMIT + 1];
  struct search search;
  for (size_t i = 0; i < sizeof damaged / sizeof *damaged; i++) {
    memcpy(bundle, graph, GRAPH_LEN);
    bundle[damaged[i].at] = damaged[i].byte;
    for (uint16_t to = 1; to < 8; to++) {
      const size_t length = damaged[i].length;
      check(follow(bundle, length, 1, to, 6 * (to % 2), &search) == damaged[i].due, "damaged");
      check(same_search(&search, &unsearched), "a refused call writes nothing");
    }
  }
  check(follow(circle, 13, 1, 1, 0, &search) == LAYOUT_CIRCLE, "circle before narrow");
  check(same_search(&search, &unsearched), "a refused call writes nothing");
  check(follow(circle, 13, 1, 2, 6, &search) == LAYOUT_CIRCLE, "circle before none");
  check(same_search(&search, &unsearched), "a refused call writes nothing");
}

/* A line of as many edges as there can be, from 0 on: the longest chain, and the highest count. */
static void check_longest_chain(void) {
  static uint8_t bundle[7 + 6 * LAYOUT_EDGE_LIMIT];
  static uint16_t list[LAYOUT_EDGE_LIMIT + 1];
  const uint8_t header[7] = {0x60, 0, 0, LAYOUT_EDGE_LIMIT % 256, LAYOUT_EDGE_LIMIT / 256, 0, 0};
  size_t written = 77, followed = 78;
  memcpy(bundle, header, 7);
  for (unsigned i = 0; i < LAYOUT_EDGE_LIMIT; i++) {
    const uint8_t edge[6] = {0x62, (uint8_t)i, (uint8_t)(i >> 8), (uint8_t)(i + 1),
                             (uint8_t)((i + 1) >> 8), 0};
    memcpy(bundle + 7 + 6 * i, edge, 6);
  }
  check(layout_chain_followed(bundle, sizeof bundle, 0, LAYOUT_EDGE_LIMIT, list,
                              LAYOUT_EDGE_LIMIT, &written, &followed) == LAYOUT_NARROW,
        "one short for the longest chain");
  check(written == 77 && followed == 78 && list[0] == 0, "narrow writes nothing");
  check(layout_chain_followed(bundle, sizeof bundle, 0, LAYOUT_EDGE_LIMIT, list,
                              LAYOUT_EDGE_LIMIT + 1, &written, &followed) == 0,
        "the longest chain");
  check(written == LAYOUT_EDGE_LIMIT + 1 && followed == LAYOUT_EDGE_LIMIT, "its length and count");
  check(list[0] == 0 && list[LAYOUT_EDGE_LIMIT] == LAYOUT_EDGE_LIMIT, "its ends");
  check(layout_chain_followed(bundle, sizeof bundle, 0, 0xFFFF, list, 0, &written, &followed) == 0,
        "none over all edges");
  check(written == 0 && followed == LAYOUT_EDGE_LIMIT + 1, "the highest count");
}

/* Names of two different bytes: the low byte first in bundle and report, and
 * numbers of C in the list. */
static void check_byte_order(void) {
  static const uint8_t named[36] = {
      0x60, 1, 0, 2, 0, 0, 0, 0x61, 0x34, 0x12, 0x44, 0, 0, 0, 0, 0, 0, 0,
      0,    0, 1, 4, 3, 0x30, 0x62, 0x34, 0x12, 0x78, 0x56, 0,
      0x62, 0x78, 0x56, 0xFF, 0x00, 0};
  uint8_t out[64];
  uint16_t list[4] = {0, 0, 0, 0};
  size_t written = 0;
  check(layout_report(named, 36, out, 64, &written) == 0, "report");
  check(written == 22 && out[1] == 1 && out[2] == 0, "count, low byte first");
  check(out[6] == 0x34 && out[7] == 0x12, "violating name, low byte first");
  check(out[20] == 0x34 && out[21] == 0x12, "chain name, low byte first");
  check(layout_chain(named, 36, 0x1234, 0xFF, list, 4, &written) == 0, "chain");
  check(written == 3 && list[0] == 0x1234 && list[1] == 0x5678 && list[2] == 0xFF,
        "names as numbers");
  struct search search;
  const struct search due = {{0x1234, 0x5678, 0xFF, 80, 81, 82}, 3, 2};
  check(follow(named, 36, 0x1234, 0xFF, 6, &search) == 0, "the same chain with its count");
  check(same_search(&search, &due), "names and count as numbers");
}

/* A struct of U8, U32, U8; a TypeRef to it; an array of three of the TypeRef; and a
 * struct without fields, aligned to 2^63. */
enum {
  FIXED_LEN = 74,
  STRUCT_ALIGNED = 12, /* the places of some bytes */
  REF_NAME = 38,
  ARRAY_JAGGED = 53
};
static const uint8_t fixed[FIXED_LEN] = {
    0x60, 4, 0, 0, 0, 0, 0,                                 /* header */
    0x61, 1, 0, 0x41, 0, 0, 0, 0, 0, 0, 0, 0, 0, 3, 0,      /* 0: struct */
    0x50, 5, 0, 0x30, 0x50, 6, 0, 0x32, 0x50, 7, 0, 0x30,   /* its fields */
    0x61, 2, 0, 0x40, 1, 0,                                 /* 1: TypeRef */
    0x61, 3, 0, 0x44, 0, 0, 0, 0, 0, 0, 0, 0, 0, 0, 4, 3,   /* 2: array */
    0x40, 2, 0,                                             /* its element */
    0x61, 4, 0, 0x41, 0, 0, 0, 0, 0, 0, 0, 0, 0x80, 0, 0};  /* 3: empty */

/* What a call of layout_fixed_size may write, with noise in it before. */
struct answer {
  uint32_t offsets[5];
  uint64_t size;
  uint64_t alignment;
  size_t written;
};
static const struct answer noise = {{77, 78, 79, 80, 81}, 82, 83, 84};

static int same(const struct answer *one, const struct answer *other) {
  return memcmp(one->offsets, other->offsets, sizeof one->offsets) == 0 &&
         one->size == other->size && one->alignment == other->alignment &&
         one->written == other->written;
}

/* Calls with noise in the answer and a list of so many places. */
static uint8_t ask(const uint8_t *bundle, size_t definition, size_t offsets_len,
                   struct answer *answer) {
  *answer = noise;
  return layout_fixed_size(bundle, FIXED_LEN, definition, answer->offsets, offsets_len,
                           &answer->size, &answer->alignment, &answer->written);
}

static void check_fixed_size(void) {
  static const struct answer of_struct = {{0, 4, 8, 80, 81}, 12, 4, 3};
  static const struct answer of_array = {{77, 78, 79, 80, 81}, 36, 4, 0};
  struct answer answer = noise;
  for (size_t definition = 0; definition < 2; definition++) {
    check(ask(fixed, definition, 5, &answer) == 0, "a longer list");
    check(same(&answer, &of_struct), "size, alignment, offsets; the rest is kept");
    check(ask(fixed, definition, 3, &answer) == 0, "an exact list");
    check(same(&answer, &of_struct), "size, alignment, offsets");
    check(ask(fixed, definition, 2, &answer) == LAYOUT_NARROW, "one place short");
    check(same(&answer, &noise), "narrow writes nothing");
    check(ask(fixed, definition, 0, &answer) == LAYOUT_NARROW, "no places");
  }
  check(ask(fixed, 2, 5, &answer) == 0 && same(&answer, &of_array), "an array");
  answer = noise;
  check(layout_fixed_size(fixed, FIXED_LEN, 2, NULL, 0, &answer.size, &answer.alignment,
                          &answer.written) == 0,
        "no list for what has no offsets");
  check(same(&answer, &of_array), "its size and alignment");
  check(ask(fixed, 3, 0, &answer) == 0, "a struct without fields");
  check(answer.size == 0 && answer.alignment == (uint64_t)1 << 63 && answer.written == 0,
        "an alignment of 64 bits");
}

/* Whether the call is refused with this number and writes nothing. */
static void check_refused(const uint8_t *bundle, size_t definition, size_t offsets_len,
                          uint8_t due, const char *what) {
  struct answer answer;
  check(ask(bundle, definition, offsets_len, &answer) == due, what);
  check(same(&answer, &noise), "a refused call writes nothing");
}

static void check_fixed_size_refusals(void) {
  uint8_t bundle[FIXED_LEN];
  memcpy(bundle, fixed, FIXED_LEN);
  check_refused(bundle, 4, 5, LAYOUT_VARYING, "no such definition");
  check_refused(bundle, SIZE_MAX, 5, LAYOUT_VARYING, "no such definition, the greatest");
  bundle[STRUCT_ALIGNED + 4] = 1; /* 2^32 */
  check_refused(bundle, 0, 5, LAYOUT_OVERSIZED, "oversized");
  check_refused(bundle, 0, 0, LAYOUT_OVERSIZED, "oversized before narrow");
  bundle[ARRAY_JAGGED] = 1;
  check_refused(bundle, 2, 0, LAYOUT_VARYING, "varying before oversized");
  bundle[STRUCT_ALIGNED] = 1; /* 2^32 + 1 */
  check_refused(bundle, 0, 5, LAYOUT_MISALIGNED, "misaligned");
  check_refused(bundle, 2, 5, LAYOUT_MISALIGNED, "misaligned before varying");
  check_refused(bundle, 4, 5, LAYOUT_VARYING, "no such definition beside a misaligned one");
  bundle[REF_NAME] = 2;
  check_refused(bundle, 0, 5, LAYOUT_CIRCLE, "circle before misaligned");
}

/* The value of an array's size, with noise around it and before. */
struct guarded {
  int64_t before;
  int64_t value;
  int64_t after;
};
static const struct guarded untouched = {-77, -78, -79};

/* Whether the guards stand and the value is this one. */
static int holds(const struct guarded *guarded, int64_t value) {
  return guarded->before == untouched.before && guarded->value == value &&
         guarded->after == untouched.after;
}

/* A definition that is an array of U8, with room for its size at SIZED_AT. */
enum { SIZED_AT = 21, SIZED_ROOM = 80 };
static const uint8_t sized[SIZED_AT] = {0x60, 1, 0, 0, 0, 0, 0, 0x61, 1, 0, 0x44,
                                        0,    0, 0, 0, 0, 0, 0, 0,    0, 0};

/* Asks for the value of a size of these bytes, in an array that is jagged or not. */
static uint8_t ask_value(const uint8_t *size, size_t length, uint8_t is_jagged,
                         struct guarded *guarded) {
  uint8_t bundle[SIZED_AT + SIZED_ROOM + 1];
  memcpy(bundle, sized, SIZED_AT);
  bundle[SIZED_AT - 1] = is_jagged;
  memcpy(bundle + SIZED_AT, size, length);
  bundle[SIZED_AT + length] = 0x30;
  *guarded = untouched;
  return layout_size_value(bundle, SIZED_AT + length + 1, 0, &guarded->value);
}

struct valued {
  const char *what;
  int64_t value;
  size_t length;
  uint8_t size[32];
};

#define LEAST (-INT64_C(9223372036854775807) - 1)
#define GREATEST INT64_C(9223372036854775807)
#define GREATEST_BYTES 0xFF, 0xFF, 0xFF, 0xFF, 0xFF, 0xFF, 0xFF, 0x7F
#define LEAST_BYTES 0, 0, 0, 0, 0, 0, 0, 0x80

static const struct valued literals[] = {
    {"U64", GREATEST, 9, {1, GREATEST_BYTES}},
    {"U32", INT64_C(4294967295), 5, {2, 0xFF, 0xFF, 0xFF, 0xFF}},
    {"U16", 65535, 3, {3, 0xFF, 0xFF}},
    {"U8", 255, 2, {4, 0xFF}},
    {"I64", LEAST, 9, {5, LEAST_BYTES}},
    {"I32", -2, 5, {6, 0xFE, 0xFF, 0xFF, 0xFF}},
    {"I16", -32768, 3, {7, 0, 0x80}},
    {"I8", -1, 2, {8, 0xFF}},
};

static const struct valued operators[] = {
    {"4 * 3", 12, 5, {0x12, 4, 4, 4, 3}},
    {"200 + 100", 300, 5, {0x10, 4, 200, 4, 100}},
    {"3 - 5", -2, 5, {0x11, 4, 3, 4, 5}},
    {"-7 / 2", -3, 5, {0x13, 8, 0xF9, 4, 2}},
    {"7 / -2", -3, 5, {0x13, 4, 7, 8, 0xFE}},
    {"-7 % 2", -1, 5, {0x14, 8, 0xF9, 4, 2}},
    {"7 % -2", 1, 5, {0x14, 4, 7, 8, 0xFE}},
    {"-2^63 % -1", 0, 12, {0x14, 5, LEAST_BYTES, 8, 0xFF}},
    {"3 == 3", 1, 5, {0x1B, 4, 3, 4, 3}},
    {"255 == -1", 0, 5, {0x1B, 4, 0xFF, 8, 0xFF}},
    {"3 != 3", 0, 5, {0x1C, 4, 3, 4, 3}},
    {"255 != -1", 1, 5, {0x1C, 4, 0xFF, 8, 0xFF}},
    {"-1 < 0", 1, 5, {0x1D, 8, 0xFF, 4, 0}},
    {"3 < 3", 0, 5, {0x1D, 4, 3, 4, 3}},
    {"0 > -1", 1, 5, {0x1E, 4, 0, 8, 0xFF}},
    {"3 > 3", 0, 5, {0x1E, 4, 3, 4, 3}},
    {"3 <= 3", 1, 5, {0x1F, 4, 3, 4, 3}},
    {"0 <= -1", 0, 5, {0x1F, 4, 0, 8, 0xFF}},
    {"3 >= 3", 1, 5, {0x20, 4, 3, 4, 3}},
    {"-1 >= 0", 0, 5, {0x20, 8, 0xFF, 4, 0}},
    {"(2^63 - 1) - 1 + 1", GREATEST, 15, {0x10, 0x11, 1, GREATEST_BYTES, 4, 1, 4, 1}},
};

static void check_values(const struct valued *list, size_t count) {
  for (size_t i = 0; i < count; i++) {
    struct guarded guarded;
    for (uint8_t is_jagged = 0; is_jagged < 2; is_jagged++) {
      const uint8_t number = ask_value(list[i].size, list[i].length, is_jagged, &guarded);
      check(number == LAYOUT_ACCEPTED && holds(&guarded, list[i].value), list[i].what);
    }
  }
}

struct refused {
  const char *what;
  uint8_t number;
  size_t length;
  uint8_t size[32];
};

static const struct refused without_value[] = {
    {"1 / 0", LAYOUT_ZERO_DIVISOR, 5, {0x13, 4, 1, 4, 0}},
    {"1 % 0", LAYOUT_ZERO_DIVISOR, 5, {0x14, 4, 1, 4, 0}},
    {"0 * (1 / 0)", LAYOUT_ZERO_DIVISOR, 8, {0x12, 4, 0, 0x13, 4, 1, 4, 0}},
    {"-2^63 / 0", LAYOUT_ZERO_DIVISOR, 12, {0x13, 5, LEAST_BYTES, 4, 0}},
    {"2^63", LAYOUT_OUT_OF_RANGE, 9, {1, LEAST_BYTES}},
    {"2^63 > 0", LAYOUT_OUT_OF_RANGE, 12, {0x1E, 1, LEAST_BYTES, 4, 0}},
    {"2^63 - 1 + 1", LAYOUT_OUT_OF_RANGE, 12, {0x10, 1, GREATEST_BYTES, 4, 1}},
    {"-2^63 - 1", LAYOUT_OUT_OF_RANGE, 12, {0x11, 5, LEAST_BYTES, 4, 1}},
    {"-2^63 * -1", LAYOUT_OUT_OF_RANGE, 12, {0x12, 5, LEAST_BYTES, 8, 0xFF}},
    {"-2^63 / -1", LAYOUT_OUT_OF_RANGE, 12, {0x13, 5, LEAST_BYTES, 8, 0xFF}},
    {"2^63 % 0", LAYOUT_OUT_OF_RANGE, 12, {0x14, 1, LEAST_BYTES, 4, 0}},
    {"a field + 1 / 0", LAYOUT_UNCOVERED, 9, {0x10, 9, 1, 0, 0x13, 4, 1, 4, 0}},
    {"1 / 0 + a field", LAYOUT_ZERO_DIVISOR, 9, {0x10, 0x13, 4, 1, 4, 0, 9, 1, 0}},
    {"(1 / 0) ** 1", LAYOUT_UNCOVERED, 8, {0x15, 0x13, 4, 1, 4, 0, 4, 1}},
};

static void check_without_value(void) {
  /* The kinds without a value: Pow to RightShift, And, Or, Xor; then BitNot to Popcount. */
  static const uint8_t binary[] = {0x15, 0x16, 0x17, 0x18, 0x19, 0x1A, 0x21, 0x22, 0x23};
  struct guarded guarded;
  for (size_t i = 0; i < sizeof without_value / sizeof *without_value; i++) {
    const struct refused *given = &without_value[i];
    check(ask_value(given->size, given->length, 0, &guarded) == given->number, given->what);
    check(holds(&guarded, untouched.value), "a refused call writes nothing");
  }
  for (size_t i = 0; i < sizeof binary; i++) {
    const uint8_t size[5] = {binary[i], 4, 1, 4, 1};
    check(ask_value(size, 5, 0, &guarded) == LAYOUT_UNCOVERED, "a binary kind");
  }
  for (uint8_t kind = 0x24; kind <= 0x27; kind++) {
    const uint8_t size[3] = {kind, 4, 1};
    check(ask_value(size, 3, 0, &guarded) == LAYOUT_UNCOVERED, "a kind with one operand");
  }
  for (uint8_t kind = 0x09; kind <= 0x0E; kind++) {
    const uint8_t size[9] = {kind, 1, 0, 1, 0, 1, 0, 1, 0};
    const size_t names = kind <= 0x0C ? kind - 8u : 1;
    check(ask_value(size, 1 + 2 * names, 0, &guarded) == LAYOUT_UNCOVERED, "a name");
    check(holds(&guarded, untouched.value), "a refused call writes nothing");
  }
}

/* Whether the call is refused with this number and writes nothing. */
static void check_value_refused(const uint8_t *bundle, size_t length, size_t definition,
                                uint8_t due, const char *what) {
  struct guarded guarded = untouched;
  check(layout_size_value(bundle, length, definition, &guarded.value) == due, what);
  check(holds(&guarded, untouched.value), "a refused call writes nothing");
}

/* What is asked of a bundle before any value: that it is sound, and that the number is an array's. */
static void check_no_array(void) {
  static const uint8_t circle[13] = {0x60, 1, 0, 0, 0, 0, 0, 0x61, 1, 0, 0x40, 1, 0};
  /* An array of 1 / 0 elements; one byte of it is changed at a time. */
  static const uint8_t divided[27] = {0x60, 1, 0, 0, 0,    0, 0, 0x61, 1, 0, 0x44, 0, 0,   0,
                                      0,    0, 0, 0, 0,    0, 0, 0x13, 4, 1, 4,    0, 0x30};
  static uint8_t overlong[LAYOUT_BYTE_LIMIT + 1];
  static const struct {
    size_t at;
    uint8_t byte;
    uint8_t due;
  } damaged[] = {{2, 2, LAYOUT_CROWDED}, {20, 2, LAYOUT_OFF_SCALE}, {26, 0x46, LAYOUT_STRANGER}};
  for (size_t i = 0; i < 3; i++) {
    uint8_t bundle[27];
    memcpy(bundle, divided, 27);
    bundle[damaged[i].at] = damaged[i].byte;
    check_value_refused(bundle, 27, 0, damaged[i].due, "a damaged bundle");
    check_value_refused(bundle, 27, 1, damaged[i].due, "before a missing number");
  }
  memcpy(overlong, divided, 27);
  check_value_refused(overlong, sizeof overlong, 0, LAYOUT_OVERLONG, "overlong");
  check_value_refused(overlong, 28, 0, LAYOUT_TRAILING, "trailing");
  check_value_refused(NULL, 0, 0, LAYOUT_SHORT, "nothing is short");
  check_value_refused(divided, 26, 0, LAYOUT_SHORT, "cut off is short");
  check_value_refused(circle, 13, 0, LAYOUT_CIRCLE, "circle before no array");
  check_value_refused(divided, 27, 0, LAYOUT_ZERO_DIVISOR, "zero divisor");
  check_value_refused(divided, 27, 1, LAYOUT_VARYING, "no such definition");
  check_value_refused(divided, 27, SIZE_MAX, LAYOUT_VARYING, "no such definition, the greatest");
  check_value_refused(fixed, FIXED_LEN, 0, LAYOUT_VARYING, "a struct");
  check_value_refused(fixed, FIXED_LEN, 1, LAYOUT_VARYING, "a TypeRef");
  check_value_refused(fixed, FIXED_LEN, 4, LAYOUT_VARYING, "one number too many");
}

/* Puts so many Adds of 1 and 1, each inside the one before, on its left or right; their length. */
static size_t put_adds(uint8_t *size, size_t adds, int on_the_right) {
  size_t length = 0;
  for (size_t i = 0; i < adds; i++) {
    size[length++] = 0x10;
    if (on_the_right) {
      size[length++] = 4;
      size[length++] = 1;
    }
  }
  for (size_t i = on_the_right ? adds : 0; i <= adds; i++) {
    size[length++] = 4;
    size[length++] = 1;
  }
  return length;
}

/* A size that goes down to the deepest level that is read, and one level more. */
static void check_deep_value(void) {
  for (int on_the_right = 0; on_the_right < 2; on_the_right++) {
    uint8_t size[SIZED_ROOM];
    struct guarded guarded;
    size_t length = put_adds(size, LAYOUT_DEPTH_LIMIT - 2, on_the_right);
    check(ask_value(size, length, 0, &guarded) == 0, "the deepest size");
    check(holds(&guarded, LAYOUT_DEPTH_LIMIT - 1), "its value");
    length = put_adds(size, LAYOUT_DEPTH_LIMIT - 1, on_the_right);
    check(ask_value(size, length, 0, &guarded) == LAYOUT_BURIED, "one level more");
    check(holds(&guarded, untouched.value), "a refused call writes nothing");
  }
}

/* The count of an array is the value of its size. */
static void check_counts(void) {
  /* An array of 4 * 3 U8, of which the operator is changed. */
  uint8_t bundle[27] = {0x60, 1, 0, 0, 0,    0, 0, 0x61, 1, 0, 0x44, 0, 0,   0,
                        0,    0, 0, 0, 0,    0, 0, 0x12, 4, 4, 4,    3, 0x30};
  static const struct {
    uint8_t kind;
    uint8_t right;
    uint8_t due;
    uint64_t size;
  } cases[] = {{0x12, 3, 0, 12}, {0x13, 3, 0, 1},   {0x11, 4, 0, 0},  {0x1E, 3, 0, 1},
               {0x11, 5, 11, 0}, {0x13, 0, 11, 0}, {0x15, 3, 11, 0}};
  for (size_t i = 0; i < sizeof cases / sizeof *cases; i++) {
    struct answer answer = noise;
    bundle[21] = cases[i].kind;
    bundle[25] = cases[i].right;
    check(layout_fixed_size(bundle, 27, 0, NULL, 0, &answer.size, &answer.alignment,
                            &answer.written) == cases[i].due,
          "a count that is worked out");
    if (cases[i].due != 0) {
      check(same(&answer, &noise), "a refused call writes nothing");
    } else {
      check(answer.size == cases[i].size && answer.alignment == 1, "its size");
    }
  }
}

/* The most fields that a struct can have. */
static void check_field_limit(void) {
  static uint8_t bundle[LAYOUT_BYTE_LIMIT];
  static uint32_t offsets[LAYOUT_FIELD_LIMIT];
  static const uint8_t field[4] = {0x50, 5, 0, 0x30};
  const size_t length = 22 + (size_t)4 * LAYOUT_FIELD_LIMIT;
  struct answer answer = noise;
  memcpy(bundle, fixed, 22);
  bundle[1] = 1;
  bundle[20] = LAYOUT_FIELD_LIMIT % 256;
  bundle[21] = LAYOUT_FIELD_LIMIT / 256;
  for (size_t at = 22; at < length; at += 4) memcpy(bundle + at, field, 4);
  check(length <= LAYOUT_BYTE_LIMIT && length + 4 > LAYOUT_BYTE_LIMIT, "no room for one more");
  check(layout_fixed_size(bundle, length, 0, offsets, LAYOUT_FIELD_LIMIT, &answer.size,
                          &answer.alignment, &answer.written) == 0,
        "the most fields");
  check(answer.written == LAYOUT_FIELD_LIMIT && answer.size == LAYOUT_FIELD_LIMIT, "their number");
  check(offsets[LAYOUT_FIELD_LIMIT - 1] == LAYOUT_FIELD_LIMIT - 1, "the last offset");
}

/* Bundle and buffer at every offset from an aligned place. */
static void check_unaligned(void) {
  uint64_t from[11];
  uint64_t to[8];
  for (size_t offset = 0; offset < 8; offset++) {
    uint8_t *bundle = (uint8_t *)from + offset;
    uint8_t *out = (uint8_t *)to + offset;
    uint16_t list[3];
    struct answer answer = noise;
    size_t written = 0;
    memcpy(bundle, jagged, 24);
    check(layout_accept(bundle, 24) == 0, "unaligned accept");
    check(layout_report(bundle, 24, out, 40, &written) == 0, "unaligned report");
    check(written == 22 && memcmp(out, jagged_report, 22) == 0, "its bytes");
    memcpy(bundle, edges, 31);
    check(layout_renumber(bundle, 31, out, 40, &written) == 0, "unaligned renumber");
    check(written == 31 && memcmp(out, renumbered, 31) == 0, "its bytes");
    check(layout_chain(bundle, 31, 9, 6, list, 3, &written) == 0, "unaligned chain");
    check(written == 3 && list[0] == 9 && list[1] == 8 && list[2] == 6, "its names");
    struct search search;
    const struct search due = {{9, 8, 6, 80, 81, 82}, 3, 2};
    check(follow(bundle, 31, 9, 6, 3, &search) == 0, "unaligned chain with its count");
    check(same_search(&search, &due), "its names and count");
    memcpy(bundle, fixed, FIXED_LEN);
    check(ask(bundle, 1, 3, &answer) == 0, "unaligned fixed size");
    check(answer.size == 12 && answer.written == 3 && answer.offsets[2] == 8, "its offsets");
    struct guarded guarded = untouched;
    check(layout_size_value(bundle, FIXED_LEN, 2, &guarded.value) == 0, "unaligned value");
    check(holds(&guarded, 3), "its value");
  }
}

/* 88 definitions, each of 23 structs one inside the other, and the innermost
 * refers to the next definition, at depth 24. */
enum { DEEP_DEFINITIONS = 88, DEEP_STRUCTS = 23 };
static uint8_t deep[LAYOUT_BYTE_LIMIT];
static size_t deep_len = 0;

static void put(const uint8_t *from, size_t length) {
  memcpy(deep + deep_len, from, length);
  deep_len += length;
}

static void make_deep(void) {
  static const uint8_t header[7] = {0x60, DEEP_DEFINITIONS, 0, 0, 0, 0, 0};
  static const uint8_t level[15] = {0x41, 0, 0, 0, 0, 0, 0, 0,
                                    0, 0, 1, 0, 0x50, 0xFF, 0};
  put(header, 7);
  for (int i = 1; i <= DEEP_DEFINITIONS; i++) {
    const uint8_t definition[3] = {0x61, (uint8_t)i, 0};
    const uint8_t next[3] = {0x40, (uint8_t)(i + 1), 0};
    put(definition, 3);
    for (int k = 0; k < DEEP_STRUCTS; k++) put(level, 15);
    put(next, 3);
  }
}

/* What one thread does: the same calls many times, in places of its own. */
struct work {
  const uint8_t *bundle;
  size_t length;
  int rounds;
  int wrong;
};

static void *call_often(void *given) {
  struct work *work = given;
  static const uint8_t passes[3] = {0x70, 0, 0};
  const int is_deep = work->bundle == deep;
  for (int i = 0; i < work->rounds; i++) {
    uint8_t out[64];
    uint16_t list[4];
    size_t written = 0;
    work->wrong += layout_accept(work->bundle, work->length) != 0;
    work->wrong += layout_report(work->bundle, work->length, out, 64, &written) != 0;
    work->wrong += is_deep ? written != 3 || memcmp(out, passes, 3) != 0
                           : written != 22 || memcmp(out, jagged_report, 22) != 0;
    work->wrong += layout_chain(edges, 31, 9, 6, list, 4, &written) != 0;
    work->wrong += written != 3 || list[0] != 9 || list[1] != 8 || list[2] != 6;
    struct search search;
    work->wrong += follow(graph, GRAPH_LEN, 1, 6, 6, &search) != 0;
    work->wrong += search.written != 4 || search.list[3] != 6 || search.followed != 4;
    struct answer answer;
    work->wrong += ask(fixed, 0, 5, &answer) != 0;
    work->wrong += answer.size != 12 || answer.written != 3 || answer.offsets[2] != 8;
    struct guarded guarded = untouched;
    work->wrong += layout_size_value(fixed, FIXED_LEN, 2, &guarded.value) != 0;
    work->wrong += !holds(&guarded, 3);
  }
  return NULL;
}

/* Two threads share a bundle and two more another one. Their stacks have what
 * layout.h says, and as much again for the thread and call_often. */
static void check_threads(void) {
  struct work work[4] = {{jagged, 24, 20000, 0},
                         {jagged, 24, 20000, 0},
                         {deep, deep_len, 200, 0},
                         {deep, deep_len, 200, 0}};
  pthread_t threads[4];
  pthread_attr_t attributes;
  pthread_attr_init(&attributes);
  check(pthread_attr_setstacksize(&attributes, 2u * LAYOUT_STACK_BYTES) == 0, "a stack");
  for (int i = 0; i < 4; i++) {
    const int made = pthread_create(&threads[i], &attributes, call_often, &work[i]);
    check(made == 0, "a thread");
    if (made != 0) return;
  }
  for (int i = 0; i < 4; i++) {
    check(pthread_join(threads[i], NULL) == 0, "its end");
    check(work[i].wrong == 0, "the answers of a thread");
  }
  pthread_attr_destroy(&attributes);
}

int main(void) {
  make_deep();
  check_accept();
  check_report();
  check_renumber();
  check_chain();
  check_chain_followed();
  check_chain_followed_refusals();
  check_longest_chain();
  check_byte_order();
  check_fixed_size();
  check_fixed_size_refusals();
  check_values(literals, sizeof literals / sizeof *literals);
  check_values(operators, sizeof operators / sizeof *operators);
  check_without_value();
  check_no_array();
  check_deep_value();
  check_counts();
  check_field_limit();
  check_unaligned();
  check_threads();
  printf("%d checks, %d failed\n", checks, failures);
  return failures == 0 ? 0 : 1;
}
