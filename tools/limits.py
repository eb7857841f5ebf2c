#!/usr/bin/env python3
"""Makes the cases of crates/limits: bundles at the limits of document 01 and pairs of faults that show its order.

  tools/limits.py          writes crates/limits/stdin and crates/limits/stdout

Each case is a label, a bundle and the answer that document 01 gives, written here by hand from the document: 0 for accepted,
else the number of the refusal. crates/limits/stdin has for each case the label's length (1 byte), the bundle's length (2 bytes,
low byte first), the label and the bundle.
"""
import os

def number(value, width):
    return value.to_bytes(width, 'little')

def header(definitions, edges, current=0):
    return b'\x60' + number(definitions, 2) + number(edges, 2) + number(current, 2)

def definition(name, kind):
    return b'\x61' + number(name, 2) + kind

def edge(source, target, kind):
    return b'\x62' + number(source, 2) + number(target, 2) + number(kind, 1)

U8 = b'\x30'
THREE = b'\x04\x03'

def reference(name):
    return b'\x40' + number(name, 2)

def attributes(packed=0, aligned=0):
    return number(packed, 1) + number(aligned, 8)

def array(size, element, jagged=0, packed=0):
    return b'\x44' + attributes(packed) + number(jagged, 1) + size + element

def group(kind, member, types, packed=0, count=None):
    count = len(types) if count is None else count
    body = b''.join(member + number(i + 1, 2) + t for i, t in enumerate(types))
    return number(kind, 1) + attributes(packed) + number(count, 2) + body

def struct(*types, **more):
    return group(0x41, b'\x50', types, **more)

def nested(levels, inside):
    for _ in range(levels):
        inside = struct(inside)
    return inside

def arrays(levels, inside):
    for _ in range(levels):
        inside = array(THREE, inside)
    return inside

def one(kind, current=0):
    return header(1, 0, current) + definition(1, kind)

def many(kinds):
    return header(len(kinds), 0) + b''.join(definition(i + 1, k) for i, k in enumerate(kinds))

full = one(struct(reference(9), *[U8] * 8185))
assert len(full) == 32768
ring = many([reference(i + 2) for i in range(255)] + [reference(1)])
line = many([reference(i + 2) for i in range(256)])
twice = many([struct(reference(i + 2), reference(i + 2)) for i in range(255)] + [U8])
swap = many([reference(2), reference(1)])

CASES = [
    ('no bytes', b'', 2),
    ('a header without its body', b'\x60', 2),
    ('an empty bundle', header(0, 0), 0),
    ('a definition for a header', definition(1, U8), 3),
    ('structs to depth 24', one(nested(23, U8)), 0),
    ('structs to depth 25', one(nested(24, U8)), 6),
    ('an empty struct at depth 24', one(nested(23, struct())), 0),
    ('an empty struct at depth 25', one(nested(24, struct())), 6),
    ('arrays to depth 24', one(arrays(23, U8)), 0),
    ('arrays to depth 25', one(arrays(24, U8)), 6),
    ('an array at depth 24', one(nested(23, array(THREE, U8))), 6),
    ('an expression to depth 24', one(array(b'\x24' * 22 + THREE, U8)), 0),
    ('an expression to depth 25', one(array(b'\x24' * 23 + THREE, U8)), 6),
    ('256 definitions', many([U8] * 256), 0),
    ('257 definitions', many([U8] * 257), 5),
    ('65535 definitions, none there', header(65535, 0), 5),
    ('1024 edges', header(0, 1024) + edge(1, 2, 3) * 1024, 0),
    ('1025 edges', header(0, 1025) + edge(1, 2, 3) * 1025, 5),
    ('32768 bytes', full, 0),
    ('32769 bytes', full + b'\x00', 1),
    ('32769 bytes that begin wrong', b'\xff' * 32769, 1),
    ('a field where a tag is due', one(group(0x43, b'\x50', [U8])), 3),
    ('an enum', one(b'\x43' + attributes() + number(1, 2) + THREE + b'\x52' + number(7, 2) + number(9, 8) + U8), 0),
    ('an enum whose member is a field', one(b'\x43' + attributes() + number(1, 2) + THREE + b'\x50' + number(7, 2) + U8), 3),
    ('a struct whose member is a variant', one(group(0x41, b'\x51', [U8])), 3),
    ('a union', one(group(0x42, b'\x51', [U8, U8])), 0),
    ('a size-discriminated union', one(b'\x45' + attributes() + number(1, 2) + b'\x53' + number(7, 2) + number(9, 8) + U8), 0),
    ('kind 0F', one(array(b'\x0f', U8)), 3),
    ('kind 28', one(array(b'\x28' + THREE, U8)), 3),
    ('kind 3C', one(b'\x3c'), 3),
    ('header kind 63', b'\x63' + header(0, 0)[1:] + b'\x0f', 3),
    ('packed 1', one(struct(U8, packed=1)), 0),
    ('packed 2', one(struct(U8, packed=2)), 4),
    ('jagged 2', one(array(THREE, U8, jagged=2)), 4),
    ('edge kind 3', header(0, 1) + edge(1, 2, 3), 0),
    ('edge kind 4', header(0, 1) + edge(1, 2, 4), 4),
    ('a byte behind the end', header(0, 0) + b'\x00', 7),
    ('an edge more than counted', header(0, 0) + edge(1, 2, 0), 7),
    ('an edge less than counted', header(0, 2) + edge(1, 2, 0), 2),
    ('a definition less than counted', header(2, 0) + definition(1, U8), 2),
    ('a member more than counted', one(struct(U8, U8, count=1)), 7),
    ('a member less than counted', one(struct(U8, count=2)), 2),
    ('definition 1 as TypeRef 1', one(reference(1)), 8),
    ('two definitions that refer to each other', swap, 8),
    ('a ring of 256 definitions', ring, 8),
    ('a line of 256 definitions', line, 0),
    ('256 definitions, each twice in the one before', twice, 0),
    ('a circle through an array in a union', one(array(THREE, group(0x42, b'\x51', [reference(1)]))), 8),
    ('a TypeRef that leads nowhere', one(reference(2)), 0),
    ('a second definition of 1 as TypeRef 1', header(2, 0) + definition(1, U8) + definition(1, reference(1)), 0),
    ('Sizeof of the definition itself', one(array(b'\x0d' + number(1, 2), U8)), 0),
    ('order: too deep, and no byte there', one(nested(24, b'')), 6),
    ('order: packed 2 in a body cut short', one(b'\x41\x02'), 2),
    ('order: a wrong kind whose body is cut short', one(b'\x61\x01'), 3),
    ('order: 257 definitions in a header cut short', b'\x60\x01\x01\x00\x00', 2),
    ('order: 257 definitions, and a wrong kind behind', header(257, 0) + b'\xff', 5),
    ('order: 1025 edges before a wrong definition', header(1, 1025) + b'\xff', 5),
    ('order: packed 2 before a wrong member', one(b'\x41' + attributes(2) + number(1, 2) + b'\xff'), 4),
    ('order: a wrong member before packed 2', header(2, 0) + definition(1, struct(b'\xff')) + definition(2, struct(packed=2)), 3),
    ('order: edge kind 4 before bytes behind', header(0, 1) + edge(1, 2, 4) + b'\x00', 4),
    ('order: bytes behind a circle', one(reference(1)) + b'\x00', 7),
    ('order: a circle and an edge cut short', header(1, 1) + definition(1, reference(1)) + edge(1, 2, 0)[:-1], 2),
    ('order: 32769 bytes with 257 definitions', header(257, 0) + bytes(32762), 1),
    ("order: a member's record at the last level before its type", one(nested(23, b'\x41' + attributes() + number(1, 2) + b'\x51')), 3),
    ("order: a member's type at depth 25", one(nested(23, struct(U8))), 6),
]

def main():
    top = os.path.join(os.path.dirname(os.path.abspath(__file__)), '..', 'crates', 'limits')
    with open(os.path.join(top, 'stdin'), 'wb') as cases:
        for label, bundle, _ in CASES:
            text = label.encode()
            cases.write(number(len(text), 1) + number(len(bundle), 2) + text + bundle)
    with open(os.path.join(top, 'stdout'), 'w') as answers:
        for label, _, answer in CASES:
            answers.write(f"{label}: {'accepted' if answer == 0 else answer}\n")

if __name__ == '__main__':
    main()
