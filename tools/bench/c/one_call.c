/* Makes one call of the library on a bundle in a file, so that its instructions can be counted.
 * Usage: one_call FILE accept|report|renumber|chain|chain_followed|fixed_size|size_value
 * The chain goes from the first edge's start to the last edge's end; fixed size and value are those of the first definition. */
#include "bundle_file.h"

static int call_of(const char *word) {
  int call = 0;
  while (call < NO_CALL && strcmp(word, call_names[call]) != 0) {
    call++;
  }
  return call;
}

static int chain_followed(struct bundle *bundle) {
  size_t followed;
  return layout_chain_followed(bundle->bytes, bundle->length, bundle->from, bundle->to, bundle->list, CHAIN_ROOM,
                               &bundle->written, &followed);
}

static int fixed_size(struct bundle *bundle) {
  static uint32_t offsets[LAYOUT_FIELD_LIMIT];
  uint64_t size, alignment;
  return layout_fixed_size(bundle->bytes, bundle->length, 0, offsets, LAYOUT_FIELD_LIMIT, &size, &alignment,
                           &bundle->written);
}

static int size_value(const struct bundle *bundle) {
  int64_t value;
  return layout_size_value(bundle->bytes, bundle->length, 0, &value);
}

int main(int count, char **words) {
  struct bundle bundle;
  int call;
  if (count == 3 && strcmp(words[2], "chain_followed") == 0) {
    bundle = bundle_of_file(words[1]);
    return chain_followed(&bundle);
  }
  if (count == 3 && strcmp(words[2], "fixed_size") == 0) {
    bundle = bundle_of_file(words[1]);
    return fixed_size(&bundle);
  }
  if (count == 3 && strcmp(words[2], "size_value") == 0) {
    bundle = bundle_of_file(words[1]);
    return size_value(&bundle);
  }
  if (count != 3 || (call = call_of(words[2])) == NO_CALL) {
    fprintf(stderr, "usage: one_call FILE accept|report|renumber|chain|chain_followed|fixed_size|size_value\n");
    return 2;
  }
  bundle = bundle_of_file(words[1]);
  return make_call(&own_calls, call, &bundle);
}
