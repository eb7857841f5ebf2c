/* The layout checks, for callers in C.
 *
 * A bundle is a set of frame definitions as bytes, 32,768 at most. Each call
 * below reads a bundle, refuses one that is damaged, and answers about one that
 * is sound. An answer depends on the call's arguments alone, not on earlier calls.
 *
 * What a call returns: 0 if it accepted what it was given, otherwise the number of
 * the refusal (see below).
 *
 * What happens to the output: an accepted call writes `*written` items from the
 * start of the buffer and leaves the rest of the buffer as it was. A refused
 * call leaves the whole buffer, `*written`, for layout_chain_followed `*followed`,
 * for layout_fixed_size `*size` and `*alignment`, and for layout_size_value `*value`
 * as they were. The bundle is only read. Bundle, buffer, `written`, `followed`,
 * `size`, `alignment` and `value` must not overlap.
 *
 * A pointer to a bundle or a buffer may be null only if its length is 0;
 * `written`, `followed`, `size`, `alignment` and `value` may never be null.
 *
 * Byte order: in the bytes of a bundle and of a report every number of more than
 * one byte is little-endian. The names that layout_chain and layout_chain_followed
 * take and write, the numbers that layout_fixed_size and layout_size_value take and
 * write, `*written` and `*followed` are numbers of C in the machine's own order.
 * docs/FORMAT.md has both formats byte by byte.
 *
 * Alignment: bundles and buffers of bytes may start at any address. `list` must be
 * aligned as uint16_t, `offsets` as uint32_t, `size` and `alignment` as uint64_t,
 * `value` as int64_t, and `written` and `followed` as size_t.
 *
 * Threads: the library has no variables of its own, no heap and no locks, and keeps
 * nothing from one call to the next. Calls may run at the same time. Several may
 * read one bundle; each needs outputs of its own, and neither these nor the bundle
 * may be written by others during the call. A call works on the stack of its
 * thread and takes less than LAYOUT_STACK_BYTES of it: that is measured and tested
 * with bundles made to go deep, and not proved.
 *
 * The library is for Linux on x86-64, and of the C library it needs memset.
 */
#ifndef LAYOUT_H
#define LAYOUT_H

#include <stddef.h>
#include <stdint.h>

#ifdef __cplusplus
extern "C" {
#endif

/* Limits of a bundle. */
#define LAYOUT_BYTE_LIMIT 32768
#define LAYOUT_DEFINITION_LIMIT 256
#define LAYOUT_EDGE_LIMIT 1024
#define LAYOUT_DEPTH_LIMIT 24

/* The most fields that a struct can have: a header (7 bytes), one definition (3) that
 * is a struct (12), and fields of 4 bytes each, of which 3 are the field's own and 1
 * is a primitive. */
#define LAYOUT_FIELD_LIMIT 8186

/* The stack that a call may take, from where it is made. */
#define LAYOUT_STACK_BYTES 262144

/* The answers. 1 comes before all others. 2 to 6 are found while the bytes are
 * read front to back, and the first fault counts. Then come 7 and 8, then 10 to 15,
 * which only layout_fixed_size and layout_size_value have, and 9 last. Each call has
 * these, in the order in which they count:
 *
 *   layout_accept          1 to 8
 *   layout_report          1 to 8, 9
 *   layout_renumber        1 to 8, 9
 *   layout_chain           1 to 8, 9
 *   layout_chain_followed  1 to 8, 9
 *   layout_fixed_size      1 to 8, 10, 11, 12, 9
 *   layout_size_value      1 to 8, 11, then the first of 13, 14 and 15 that is met
 */
enum layout_refusal {
  LAYOUT_ACCEPTED = 0,
  LAYOUT_OVERLONG = 1,      /* overlong: more than 32,768 bytes */
  LAYOUT_SHORT = 2,         /* short: the bytes end where more are due */
  LAYOUT_STRANGER = 3,      /* stranger: a kind byte that may not stand there */
  LAYOUT_OFF_SCALE = 4,     /* off scale: packed or jagged over 1, edge kind over 3 */
  LAYOUT_CROWDED = 5,       /* crowded: over 256 definitions or 1,024 edges */
  LAYOUT_BURIED = 6,        /* buried: a type or expression due at depth 25 */
  LAYOUT_TRAILING = 7,      /* trailing: bytes after the last record due */
  LAYOUT_CIRCLE = 8,        /* circle: a definition leads back to itself */
  LAYOUT_NARROW = 9,        /* narrow: the output is longer than the buffer lent */
  LAYOUT_MISALIGNED = 10,   /* misaligned: an aligned that is neither 0 nor a power of 2 */
  LAYOUT_VARYING = 11,      /* varying: no such definition; or one without a fixed size,
                               or for layout_size_value one that is no array */
  LAYOUT_OVERSIZED = 12,    /* oversized: a size or an offset over 4,294,967,295 */
  LAYOUT_ZERO_DIVISOR = 13, /* zero divisor: a Div or Mod by 0 */
  LAYOUT_OUT_OF_RANGE = 14, /* out of range: a value below -2^63 or over 2^63 - 1 */
  LAYOUT_UNCOVERED = 15     /* uncovered: an expression of a kind without a value */
};

/* Whether the bundle is sound: refusals 1 to 8 or 0. It says nothing about
 * violations; layout_report does. */
uint8_t layout_accept(const uint8_t *bundle, size_t bundle_len);

/* Writes the report: 70, the number of violations, then the violations. A set
 * passes if that number is 0; the report then has three bytes. Refusals 1 to 9.
 * A violation takes 16 bytes and 3 for each name of its chain. A buffer of 65,536
 * bytes is enough for all but sets with very many violations or long chains. */
uint8_t layout_report(const uint8_t *bundle, size_t bundle_len, uint8_t *out,
                      size_t out_len, size_t *written);

/* Writes the bundle with its names numbered 1, 2, 3 by first appearance; name 0
 * stays. The result has as many bytes as the bundle. Refusals 1 to 9. */
uint8_t layout_renumber(const uint8_t *bundle, size_t bundle_len, uint8_t *out,
                        size_t out_len, size_t *written);

/* Writes the names on the shortest path of edges from one name to another, both
 * included; of several equally short ones the first by edge numbers. From a name
 * to itself the chain is that name. Without a path the call is accepted and
 * `*written` is 0. Refusals 1 to 8, and 9 only if there is a chain and it has
 * more than `list_len` names. No chain has more than 1,025 names. */
uint8_t layout_chain(const uint8_t *bundle, size_t bundle_len, uint16_t from,
                     uint16_t to, uint16_t *list, size_t list_len,
                     size_t *written);

/* The same chain, with the same refusals, and in `*followed` how far the search went
 * for it: the number of names whose edges it followed.
 *
 * The names that edges lead to from `from`, and `from` itself, are ordered by the
 * chains to them: fewer edges first, then by edge numbers. The search follows the
 * edges of these names in this order and ends at the first edge to `to`. So
 * `*followed` counts the names up to the last but one of the chain, that one
 * included; without a chain it counts all of them, and `from` also if no edge has
 * it. From a name to itself it is 0. It is 1,025 at the most, and does not depend on
 * `list_len`. A refusal, 9 too, gives no count. */
uint8_t layout_chain_followed(const uint8_t *bundle, size_t bundle_len,
                              uint16_t from, uint16_t to, uint16_t *list,
                              size_t list_len, size_t *written,
                              size_t *followed);

/* The size and the alignment, in bytes, of a definition that never varies, and the
 * offsets of its fields. `definition` is its number, from 0 in the bundle's order.
 *
 * A primitive has 1, 2, 4 or 8 bytes (a Char 1) and is aligned to its size. A struct
 * puts each field at the next multiple of the field's alignment, and a packed one
 * without gaps; a union puts its members at 0 and has the size of the largest. Both
 * are aligned as the member with the largest alignment, and to 1 if packed or
 * without members; an `aligned` above that replaces it, packed or not. Their size is
 * rounded up to a multiple of their alignment. An array is its count, which is the
 * value of its size (see layout_size_value), times the size of its element and is
 * aligned as that; its own attributes do not count. A TypeRef is the first definition
 * of its name.
 *
 * The offsets are those of the struct that the definition is, or that it leads to as
 * a TypeRef, by more TypeRefs too if each is the whole of its definition; in the
 * order of its fields. Any other definition has none, and `*written` is 0. A list of
 * LAYOUT_FIELD_LIMIT places is long enough for every struct.
 *
 * What is reached from a definition: itself, and whatever members, elements and first
 * definitions lead to, inside enums, size-discriminated unions, jagged arrays and
 * arrays of no elements too. Refusals 1 to 8, and then in this order:
 *
 *   10  something reached has an `aligned` that is neither 0 nor a power of two; an
 *       array's own does not count
 *   11  the bundle has no definition of this number; or something reached is an
 *       enum, a size-discriminated union, a jagged array, a TypeRef to a name
 *       without a definition, or an array whose size has no value or a negative one;
 *       why it has none, 13, 14 or 15, this call does not say
 *   12  something reached has a size, or a field with an offset, over 4,294,967,295
 *    9  there are more offsets than `offsets_len`
 *
 * So an offset has 32 bits and a size does not pass 4,294,967,295; an alignment is a
 * power of two up to 2^63, and over 2^31 only where the size is 0. */
uint8_t layout_fixed_size(const uint8_t *bundle, size_t bundle_len,
                          size_t definition, uint32_t *offsets,
                          size_t offsets_len, uint64_t *size,
                          uint64_t *alignment, size_t *written);

/* The value of the size expression of a definition that is an array, jagged or not.
 * `definition` is its number, from 0 in the bundle's order.
 *
 * The value is worked out in exact whole numbers, the left side of an operator first.
 * A literal is its number: U64, U32, U16 and U8 without sign, I64, I32, I16 and I8 by
 * two's complement. Add, Sub and Mul are exact; Div cuts toward zero, and Mod has the
 * sign of the dividend, so that -7 / 2 is -3 and -7 % 2 is -1. Eq, Ne, Lt, Gt, Le and
 * Ge are 1 where they hold and 0 where not. Refusals 1 to 8, and then:
 *
 *   11  the bundle has no definition of this number, or it is no array; a TypeRef to
 *       an array is none
 *
 * or the first of these that is met, where each part is tested for its kind before its
 * operands are worked out, and for the rest after them:
 *
 *   13  the right side of a Div or Mod is 0
 *   14  a value is below -2^63 or over 2^63 - 1: a U64 literal, also where it is only
 *       compared, or what an operator gives, as -2^63 / -1; -2^63 % -1 is 0
 *   15  any other kind: FieldRef, Sizeof, Alignof, Pow, BitAnd, BitOr, BitXor,
 *       LeftShift, RightShift, And, Or, Xor, BitNot, Neg, Not, Popcount
 *
 * Where the left side has a value, the right side is worked out too, whatever that
 * value is: 0 * (1 / 0) is refused with 13. */
uint8_t layout_size_value(const uint8_t *bundle, size_t bundle_len,
                          size_t definition, int64_t *value);

#ifdef __cplusplus
}
#endif

#endif
