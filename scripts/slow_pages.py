#!/usr/bin/env python3
"""Makes pages that are built to be slow, and times what wdq takes for each beside an ordinary page of its size.

    slow_pages.py [--once] [--most TIMES] PROGRAM [SHAPE ..]

Each page has about 8 MB, the most that wdq reads. A shape is replayed twice: stored alone, and edited (a second revision of the same
bytes). The time is the processor time of the process, the best of three runs, or with --once that of one. `ordinary` is the yardstick:
with --most the script ends with 1 if a page takes more than so many times what storing the ordinary one takes.
"""
import argparse
import json
import os
import resource
import subprocess
import sys
import tempfile

SIZE = 8_000_000
ENTITY = 'Q1'


def page(**members):
    return json.dumps({'type': 'item', 'id': ENTITY, **members}, ensure_ascii=False, separators=(',', ':'))


def text_snak(prop, text):
    return {'snaktype': 'value', 'property': prop, 'datatype': 'string', 'datavalue': {'value': text, 'type': 'string'}}


def unknown(prop):
    return {'snaktype': 'somevalue', 'property': prop, 'datatype': 'string'}


def statement(ident, **more):
    return {'mainsnak': text_snak('P1', 'a'), 'type': 'statement', 'id': ident, 'rank': 'normal', **more}


def filled(make, cost):
    """as many of `make(i)` as fit"""
    return [make(i) for i in range(SIZE // cost)]


def ordinary():
    claims = filled(lambda i: statement(f'Q1${i:032x}', qualifiers={'P2': [text_snak('P2', f'q{i}')]},
                                        references=[{'hash': f'{i % 400:040x}', 'snaks': {'P3': [text_snak('P3', f'r{i % 400}')]}}]), 505)
    return page(claims={'P1': claims})


def long_id_unknown():
    return page(claims={'P1': [statement('Q1$' + 'a' * (SIZE // 2), qualifiers={'P2': [unknown('P2')] * (SIZE // 2 // 65)})]})


def long_id_texts():
    return page(claims={'P1': [statement('Q1$' + 'a' * (SIZE // 2), qualifiers={'P2': [text_snak('P2', f'{i:06}') for i in range(SIZE // 2 // 115)]})]})


def long_id_references():
    return page(claims={'P1': [statement('Q1$' + 'a' * (SIZE // 2), references=[{'hash': f'{i:x}', 'snaks': {}} for i in range(SIZE // 2 // 30)])]})


def long_title():
    return page(sitelinks={'enwiki': {'site': 'enwiki', 'title': 'a' * (SIZE // 2), 'badges': [f'Q{i + 1}' for i in range(SIZE // 2 // 10)]}})


def two_long_ids():
    """the statements take turns in their qualifiers' values, and their ids have one size"""
    half = [text_snak('P2', f'{i:06}') for i in range(SIZE // 4 // 115)]
    return page(claims={'P1': [statement('Q1$' + c * (SIZE // 4), qualifiers={'P2': half}) for c in 'ab']})


def alike_ids():
    """ids that differ at their end alone"""
    front = 'a' * 2000
    return page(claims={'P1': filled(lambda i: statement(f'Q1${front}{i:06}'), 2170)})


def alike_keys():
    """names of one object that differ at their end alone"""
    front = 'a' * 200
    return page(labels={f'{front}{i:06}': {'language': 'en', 'value': 'x'} for i in range(SIZE // 245)})


def many_keys():
    return page(labels={f'x{i}': {'language': f'x{i}', 'value': 'x'} for i in range(SIZE // 45)})


def repeated_key():
    return '{"type":"item","id":"Q1","labels":{' + ','.join(['"en":{"language":"en","value":"x"}'] * (SIZE // 34)) + '}}'


def deep():
    """nested as deep as pages may be, again and again"""
    one = '[' * 61 + ']' * 61
    return '{"type":"item","id":"Q1","more":[' + ','.join([one] * (SIZE // (len(one) + 1))) + ']}'


def empty_objects():
    return '{"type":"item","id":"Q1","more":[' + ','.join(['{}'] * (SIZE // 3)) + ']}'


def one_text():
    return page(labels={'en': {'language': 'en', 'value': 'a' * (SIZE - 200)}})


def escapes():
    return '{"type":"item","id":"Q1","labels":{"en":{"language":"en","value":"' + '\\u0041' * (SIZE // 6 - 50) + '"}}}'


def quotes():
    return page(labels={'en': {'language': 'en', 'value': '\n' * (SIZE // 2 - 200)}})


def long_number():
    return '{"type":"item","id":"Q1","more":1' + '0' * (SIZE - 100) + '}'


def long_amount():
    amount = {'amount': '+' + '1' * (SIZE // 2), 'unit': '1'}
    snak = {'snaktype': 'value', 'property': 'P1', 'datatype': 'quantity', 'datavalue': {'value': amount, 'type': 'quantity'}}
    return page(claims={'P1': [{'mainsnak': snak, 'type': 'statement', 'id': 'Q1$a', 'rank': 'normal'}]})


def many_ranks():
    return page(claims={f'P{i + 1}': [{**statement(f'Q1${i}'), 'mainsnak': text_snak(f'P{i + 1}', 'a'), 'rank': 'preferred'}] for i in range(SIZE // 190)})


SHAPES = [ordinary, long_id_unknown, long_id_texts, long_id_references, long_title, two_long_ids, alike_ids, alike_keys, many_keys, repeated_key, deep,
          empty_objects, one_text, escapes, quotes, long_number, long_amount, many_ranks]


def seconds(program, folder, revisions, rounds):
    """The processor time of a replay, and what its side output says."""
    lines = ''.join('{"kind":"edit","entity":"Q1","rev":%d,"time":"2024-05-01T10:00:%02dZ"}\n{"watermark":"2024-05-01T10:00:%02dZ"}\n' % (r, r, r) for r in range(1, revisions + 1))
    best, said = None, ''
    for _ in range(rounds):
        before = resource.getrusage(resource.RUSAGE_CHILDREN)
        done = subprocess.run([program, 'replay', '--from', folder, '--side'], input=lines.encode(), capture_output=True, timeout=600)
        after = resource.getrusage(resource.RUSAGE_CHILDREN)
        took = after.ru_utime + after.ru_stime - before.ru_utime - before.ru_stime
        best = took if best is None else min(best, took)
        said = (done.stdout + done.stderr).decode().strip().replace('\n', '; ')[:80]
    return best, said


def time_shape(program, shape, rounds):
    """Prints what a shape takes, and gives the seconds of its page stored and edited."""
    text = shape().encode()
    with tempfile.TemporaryDirectory() as folder:
        for revision in (1, 2):
            with open(f'{folder}/{revision}.json', 'wb') as out:
                out.write(text)
        stored, said = seconds(program, folder, 1, rounds)
        both, _ = seconds(program, folder, 2, rounds)
    print(f'{shape.__name__:20} {len(text):9} {stored:8.2f} {both - stored:8.2f}  {said}', flush=True)
    return stored, both - stored


def read_words():
    """The words of the command line."""
    names = [shape.__name__ for shape in SHAPES]
    parser = argparse.ArgumentParser(description=__doc__, formatter_class=argparse.RawDescriptionHelpFormatter)
    parser.add_argument('--once', action='store_true', help='one run in place of three')
    parser.add_argument('--most', type=float, metavar='TIMES', help='what a page may take at most')
    parser.add_argument('program', metavar='PROGRAM')
    parser.add_argument('shapes', nargs='*', metavar='SHAPE', help=', '.join(names))
    words = parser.parse_args()
    if unknown := set(words.shapes) - set(names):
        parser.error(f'no such shape: {", ".join(unknown)}')
    return words


def main():
    words = read_words()
    program = os.path.abspath(words.program)
    print(f'{"shape":20} {"bytes":>9} {"stored":>8} {"edited":>8}  side output')
    took = {shape: time_shape(program, shape, 1 if words.once else 3) for shape in SHAPES
            if not words.shapes or shape.__name__ in words.shapes or words.most and shape is ordinary}
    if not words.most:
        return 0
    limit = words.most * took[ordinary][0]
    slow = [shape.__name__ for shape, times in took.items() if max(times) > limit]
    for name in slow:
        print(f'{name} takes more than {words.most:g} times what storing the ordinary page takes')
    return 1 if slow else 0


if __name__ == '__main__':
    sys.exit(main())
