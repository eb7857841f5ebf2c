#!/usr/bin/env python3
"""Makes the cases of crates/replay from the oracle's lines.

  tools/oracle/target/oracle cases 5 400 > A; tools/oracle/target/oracle edgecases > B
  tools/oracle/target/oracle fixedcases 7 600 > C; tools/oracle/target/oracle valuecases 9 800 > D
  tools/oracle/target/oracle followedcases 11 400 > E
  tools/replay_cases.py A B --fixed C --values D --followed E

Each line has a bundle and the report due, in hexadecimal, '-' for no bytes. Bundles over 600 bytes are left out but for the first
two of each file, and so are reports over 60,000 bytes. For each bundle the renumbered bundle due is asked of `oracle renumber`
too. Two cases are made here: 256 definitions in which each refers twice to the next, the last an array sized by a field, behind
an array of the first; and the same with the names shifted.

Each line of C has the number of a definition, a bundle, and size (8 bytes, low byte first), alignment (8 bytes) and offsets (4 bytes
each), or 7E and the refusal. Each line of D has the number of a definition, a bundle, and the value of its size (8 bytes, two's
complement, low byte first), or 7E and the refusal. The number goes in front of the bundle, in two bytes; one that has no room there
is left out.

Each line of E has two names, a bundle, and the count of names whose edges are followed from the one to the other (8 bytes, low byte
first) with the names of the chain (2 bytes each), or 7E and the refusal. Both names go in front of the bundle, in two bytes each. Of a
bundle over 600 bytes the first two cases are taken.

crates/replay/stdin has for each case 0 for a report, 1 for a renumbering, 2 for a fixed size, 3 for a value or 4 for a count with its
chain, the lengths of what is asked and of the answer (2 bytes each, low byte first) and both. Behind them come cases with a wrong answer,
a result and a refusal of each call with one bit changed at the end, a count with one bit changed, one name too many and one too few behind
it, and a case of a call that there is not: crates/replay/stdout says how many are answered the same, and that these are not.
"""
import os
import subprocess
import sys

TOP = os.path.join(os.path.dirname(os.path.abspath(__file__)), '..')


def load(path):
    long = 0
    for line in open(path):
        bundle, answer = (b'' if word == '-' else bytes.fromhex(word) for word in line.split())
        if len(bundle) > 600:
            long += 1
            if long > 2:
                continue
        if len(bundle) < 65536 and len(answer) < 60000:
            yield bundle, answer


def number(value, width=2):
    return value.to_bytes(width, 'little')


def shared(shift):
    """Each definition twice in the one before; an array of the first varies in size with the last: type 5."""
    plain = bytes(9)
    kinds = [b'\x44' + plain + b'\0\x04\x03\x40' + number(2 + shift)]
    for i in range(2, 256):
        kinds.append(b'\x41' + plain + number(2) + (b'\x50' + number(7) + b'\x40' + number(i + 1 + shift)) * 2)
    kinds.append(b'\x44' + plain + b'\0\x09' + number(9) + b'\x30')
    bundle = b'\x60' + number(256) + number(0) + number(0)
    bundle += b''.join(b'\x61' + number(i + 1 + shift) + kind for i, kind in enumerate(kinds))
    name = number(1 + shift)
    return bundle, b'\x70' + number(1) + b'\x75' + number(0) + name + bytes(9) + number(1) + b'\x7f' + name


def renumbered(bundle):
    oracle = os.path.join(TOP, 'tools', 'oracle', 'target', 'oracle')
    return subprocess.run([oracle, 'renumber'], input=bundle, capture_output=True, check=True).stdout


def numbered(path):
    """Cases of one definition, its number in front of the bundle."""
    for line in open(path):
        definition, bundle, answer = line.split()
        bundle = b'' if bundle == '-' else bytes.fromhex(bundle)
        if int(definition) < 65536 and len(bundle) < 65534:
            yield number(int(definition)) + bundle, bytes.fromhex(answer)


def searches(path):
    """Cases of two names, which stand in front of the bundle."""
    long = {}
    for line in open(path):
        start, end, bundle, answer = line.split()
        bundle = b'' if bundle == '-' else bytes.fromhex(bundle)
        if len(bundle) > 600:
            long[bundle] = long.get(bundle, 0) + 1
        if long.get(bundle, 0) <= 2 and len(bundle) < 65532:
            yield number(int(start)) + number(int(end)) + bundle, bytes.fromhex(answer)


def files(words):
    """The files of reports, of fixed sizes, of values and of counts."""
    lists = {'': [], '--fixed': [], '--values': [], '--followed': []}
    current = ''
    for word in words:
        if word in lists:
            current = word
        else:
            lists[current].append(word)
    return lists.values()


def wrong(cases):
    """A result and a refusal of each call with one bit changed, wrong counts and chains, and a call that there is not."""
    for call in range(5):
        own = [case for case in cases if case[0] == call]
        for refused in False, True:
            bundle, answer = next(case[1:] for case in own if (len(case[2]) == 2) == refused)
            yield call, bundle, answer[:-1] + bytes([answer[-1] ^ 1])
    asked, answer = next(case[1:] for case in cases if case[0] == 4 and len(case[2]) > 8)
    yield 4, asked, bytes([answer[0] ^ 1]) + answer[1:]
    yield 4, asked, answer + answer[-2:]
    yield 4, asked, answer[:-2]
    yield 5, cases[-1][1], cases[-1][2]


def main():
    plain, fixed, values, followed = files(sys.argv[1:])
    reports = [case for path in plain for case in load(path)] + [shared(0), shared(300)]
    cases = [(0, bundle, answer) for bundle, answer in reports]
    cases += [(1, bundle, renumbered(bundle)) for bundle, _ in reports]
    cases += [(2, bundle, answer) for path in fixed for bundle, answer in numbered(path)]
    cases += [(3, bundle, answer) for path in values for bundle, answer in numbered(path)]
    cases += [(4, asked, answer) for path in followed for asked, answer in searches(path)]
    others = list(wrong(cases))
    folder = os.path.join(TOP, 'crates', 'replay')
    with open(os.path.join(folder, 'stdin'), 'wb') as out:
        for call, bundle, answer in cases + others:
            out.write(number(call, 1) + number(len(bundle)) + number(len(answer)) + bundle + answer)
    with open(os.path.join(folder, 'stdout'), 'w') as out:
        out.write(f'{len(cases)} answers the same, {len(others)} others\n')


if __name__ == '__main__':
    main()
