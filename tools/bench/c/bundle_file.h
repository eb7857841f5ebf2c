/* A bundle in a file, and the library's calls on it: for the programs in C beside this file. */
#ifndef BUNDLE_FILE_H
#define BUNDLE_FILE_H

#include "../../../include/layout.h"
#include <stdio.h>
#include <stdlib.h>
#include <string.h>

/* Longer than any report of a bundle that is measured. */
#define REPORT_ROOM (64u << 20)
#define CHAIN_ROOM 1025

/* The four calls of one archive. */
struct calls {
  uint8_t (*accept)(const uint8_t *, size_t);
  uint8_t (*report)(const uint8_t *, size_t, uint8_t *, size_t, size_t *);
  uint8_t (*renumber)(const uint8_t *, size_t, uint8_t *, size_t, size_t *);
  uint8_t (*chain)(const uint8_t *, size_t, uint16_t, uint16_t, uint16_t *, size_t, size_t *);
};

static const struct calls own_calls = {layout_accept, layout_report, layout_renumber, layout_chain};

enum { ACCEPT, REPORT, RENUMBER, CHAIN, NO_CALL };

static const char *const call_names[] = {"accept", "report", "renumber", "chain"};

/* A bundle, the ends of the chain that is asked for, and places for what a call writes. */
struct bundle {
  uint8_t *bytes;
  size_t length;
  uint16_t from;
  uint16_t to;
  uint8_t *out;
  size_t out_length;
  size_t written;
  uint16_t list[CHAIN_ROOM];
};

static uint16_t name_at(const struct bundle *bundle, size_t at) {
  return (uint16_t)(bundle->bytes[at] | bundle->bytes[at + 1] << 8);
}

/* The chain goes from the first edge's start to the last edge's end. Edges have six bytes and stand last. */
static void ask_for_chain(struct bundle *bundle) {
  size_t edges = bundle->length < 7 ? 0 : name_at(bundle, 3);
  bundle->from = bundle->to = 1;
  if (edges > 0 && 6 * edges <= bundle->length) {
    bundle->from = name_at(bundle, bundle->length - 6 * edges + 1);
    bundle->to = name_at(bundle, bundle->length - 6 + 3);
  }
}

static struct bundle bundle_of_file(const char *path) {
  struct bundle bundle;
  FILE *file = fopen(path, "rb");
  if (file == NULL) {
    perror(path);
    exit(2);
  }
  bundle.bytes = malloc(LAYOUT_BYTE_LIMIT + 1);
  bundle.length = fread(bundle.bytes, 1, LAYOUT_BYTE_LIMIT + 1, file);
  fclose(file);
  bundle.out_length = REPORT_ROOM;
  bundle.out = malloc(bundle.out_length);
  bundle.written = 0;
  ask_for_chain(&bundle);
  return bundle;
}

static int make_call(const struct calls *calls, int call, struct bundle *bundle) {
  switch (call) {
  case ACCEPT:
    return calls->accept(bundle->bytes, bundle->length);
  case REPORT:
    return calls->report(bundle->bytes, bundle->length, bundle->out, bundle->out_length, &bundle->written);
  case RENUMBER:
    return calls->renumber(bundle->bytes, bundle->length, bundle->out, bundle->out_length, &bundle->written);
  default:
    return calls->chain(bundle->bytes, bundle->length, bundle->from, bundle->to, bundle->list, CHAIN_ROOM,
                        &bundle->written);
  }
}

#endif
