#!/usr/bin/env python3
"""Compares the records of `patches --lean` with those of `patches`, byte for byte, over event files that are made up.

    lean_streams.py [--runs N] [--events N] [--seed N] PROGRAM

The pages are strange: statement ids name other entities, also in small letters or with a dash in place of the dollar sign, two ids become
one node, two items have one article, and pages share values and references. In every second file most pages are long ones that differ in a
few parts from the page before of their entity, so that wdq compares the two. The events edit, delete, undelete and reconcile, come in any
order and repeatedly, and change the version of the mapping. Each file is also cut in two: either kind of run saves behind the first part,
and either goes on from the other's snapshot, which has to be the same file. With a small limit on terms, the lean run goes on where the
other stops. Ends with 1 at the first difference, whose files it keeps and names.
"""
import argparse
import json
import os
import random
import shutil
import subprocess
import sys
import tempfile

ITEMS = ['Q1', 'Q2', 'Q3', 'Q12', 'Q20']
ENTITIES = ITEMS + ['P5', 'L1', 'L2']
CODES = 'ar bg bn ca cs da de el en es et fa fi fr he hi hr hu id it ja ko lt lv nl pl pt ro ru sv'.split()


def snak(rng, prop):
    if prop == 'P1':
        value = {'type': 'string', 'value': rng.choice(['a', 'b', 'ä\n"'])}
    elif prop == 'P2':
        value = {'type': 'quantity', 'value': {'amount': rng.choice(['+5', '-2.50']), 'unit': rng.choice(['1', 'http://www.wikidata.org/entity/Q2'])}}
    elif prop == 'P3':
        value = {'type': 'wikibase-entityid', 'value': {'id': rng.choice(ITEMS), 'entity-type': 'item'}}
    else:
        value = {'type': 'time', 'value': {'time': f'+20{rng.randrange(10, 14)}-01-01T00:00:00Z', 'precision': 11, 'timezone': 0, 'before': 0,
                                           'after': 0, 'calendarmodel': 'http://www.wikidata.org/entity/Q1985727'}}
    return {'snaktype': 'value', 'property': prop, 'datavalue': value}


def named(rng, entity):
    """the id of a statement, mostly of its entity's, and sometimes of another's"""
    owner = entity if rng.random() < 0.6 else rng.choice(ENTITIES)
    owner = rng.choice([owner, owner, owner.lower()])
    return owner + rng.choice(['$', '$', '-']) + rng.choice(['a', 'b', 'a.b', 'a b', 'a_b'])


def statement(rng, entity):
    prop = rng.choice(['P1', 'P2', 'P3', 'P4'])
    made = {'mainsnak': snak(rng, prop), 'type': 'statement', 'id': named(rng, entity), 'rank': rng.choice(['normal', 'preferred', 'deprecated'])}
    if rng.random() < 0.4:
        made['qualifiers'] = {p: [snak(rng, p)] for p in rng.sample(['P1', 'P2', 'P4'], rng.randrange(1, 3))}
    if rng.random() < 0.4:
        made['references'] = [{'hash': f'{rng.randrange(3):040x}', 'snaks': {'P1': [snak(rng, 'P1')]}}]
    return prop, made


def claims(rng, entity):
    found = {}
    for _ in range(rng.randrange(5)):
        prop, made = statement(rng, entity)
        found.setdefault(prop, []).append(made)
    return found


def page(rng, entity):
    if rng.random() < 0.1:
        return {'entity': entity, 'redirect': rng.choice(ITEMS)}
    texts = {lang: {'language': lang, 'value': rng.choice(['one', 'two'])} for lang in rng.sample(['en', 'de'], rng.randrange(3))}
    if entity[0] == 'Q':
        links = {'enwiki': {'site': 'enwiki', 'title': rng.choice(['A', 'B c']), 'badges': []}} if rng.random() < 0.5 else {}
        return {'type': 'item', 'id': entity, 'labels': texts, 'sitelinks': links, 'claims': claims(rng, entity)}
    if entity[0] == 'P':
        return {'type': 'property', 'id': entity, 'datatype': 'string', 'labels': texts, 'claims': claims(rng, entity)}
    owner = entity if rng.random() < 0.8 else rng.choice(['L1', 'L2'])
    forms = [{'id': f'{owner}-F{i}', 'representations': {'en': {'language': 'en', 'value': rng.choice(['go', 'went'])}},
              'grammaticalFeatures': [], 'claims': claims(rng, entity)} for i in range(rng.randrange(3))]
    return {'type': 'lexeme', 'id': entity, 'lemmas': {'en': {'language': 'en', 'value': 'go'}}, 'language': 'Q1', 'lexicalCategory': 'Q2',
            'forms': forms, 'senses': [], 'claims': claims(rng, entity)}


def with_descriptions(rng, made):
    """the page of an item or a property, made longer than 1 kB"""
    made['descriptions'] = {code: {'language': code, 'value': f'{rng.choice(["one", "two"])} of the things in {code}'} for code in CODES}
    return made


def change_part(rng, entity, made):
    """changes one part of a page"""
    kind = rng.choice(['labels', 'descriptions', 'claims', 'claims', 'claims', 'less', 'sitelinks'])
    if kind in ('labels', 'descriptions'):
        code = rng.choice(CODES)
        made[kind][code] = {'language': code, 'value': rng.choice(['three', 'four'])}
    elif kind == 'claims':
        prop, new = statement(rng, entity)
        found = made['claims'].setdefault(prop, [])
        found[rng.randrange(len(found) + 1):] = [new]
    elif kind == 'less' and made['claims']:
        del made['claims'][rng.choice(list(made['claims']))]
    elif kind == 'sitelinks' and 'sitelinks' in made:
        made['sitelinks'] = {'enwiki': {'site': 'enwiki', 'title': rng.choice(['A', 'B c']), 'badges': []}}


class Edited:
    """Long pages, most of which differ in a few parts from the one before of their entity."""

    def __init__(self):
        self.last = {}

    def page(self, rng, entity):
        before = self.last.get(entity)
        if before is None or rng.random() < 0.1:
            made = page(rng, entity)
            if 'claims' not in made or made.get('type') == 'lexeme':
                return made
            made = with_descriptions(rng, made)
        else:
            made = json.loads(json.dumps(before))
            for _ in range(rng.randrange(1, 4)):
                change_part(rng, entity, made)
        self.last[entity] = made
        return made


def stamp(second):
    return f'2024-05-01T{second // 3600:02}:{second // 60 % 60:02}:{second % 60:02}Z'


def lines(rng, events, pages, page_of=page, entities=ENTITIES):
    """the lines of an event file; pages go to the folder"""
    rev, second, waiting, made = 100, 0, [], []
    for _ in range(events):
        second += rng.randrange(3)
        entity, kind = rng.choice(entities), rng.choices(['edit', 'delete', 'undelete', 'reconcile'], [12, 2, 1, 1])[0]
        rev += 1
        event = {'kind': kind, 'entity': entity, 'rev': rev, 'time': stamp(second)}
        if kind == 'reconcile':
            event['mode'] = rng.choice(['kept', 'deleted'])
        if rng.random() < 0.95:
            with open(os.path.join(pages, f'{rev}.json'), 'w', encoding='utf-8') as file:
                json.dump(page_of(rng, entity), file, ensure_ascii=False)
        waiting.append(event)
        if rng.random() < 0.2:
            waiting.append(event)
        if rng.random() < 0.15:
            rng.shuffle(waiting)
            made += waiting + [{'watermark': stamp(second)}]
            waiting = []
        if rng.random() < 0.02:
            made.append({'mapping': rng.choice([1, 2])})
    return [json.dumps(line) + '\n' for line in made + waiting]


def run(program, words, text):
    done = subprocess.run([program, 'patches', *words], input=''.join(text).encode(), stdout=subprocess.PIPE, stderr=subprocess.PIPE, check=False)
    return done.returncode, done.stdout


def check(name, found, wanted):
    if found != wanted:
        raise AssertionError(f'{name}: status {found[0]} and {len(found[1])} bytes, where status {wanted[0]} and {len(wanted[1])} bytes were expected')


def content(path):
    with open(path, 'rb') as file:
        return file.read()


def try_one(program, seed, events, room):
    rng = random.Random(seed)
    text = lines(rng, events, room, page if seed % 2 else Edited().page)
    with open(os.path.join(room, 'events.jsonl'), 'w', encoding='utf-8') as file:
        file.writelines(text)
    pages = ['--from', room]
    whole = run(program, pages, text)
    if whole[0] != 0:
        raise AssertionError(f'the whole file: status {whole[0]}')
    check('the whole file', run(program, [*pages, '--lean'], text), whole)

    # in two parts, either kind before the cut and either after it
    cut = rng.randrange(len(text) + 1)
    saved = {}
    for kind in ([], ['--lean']):
        name = os.path.join(room, 'saved' + ''.join(kind))
        first = run(program, [*pages, *kind, '--save', name], text[:cut])
        saved[''.join(kind)] = first
        if first[0] == 0:
            for other in ([], ['--lean']):
                second = run(program, [*pages, *other, '--resume', name], text[cut:])
                check(f'cut before line {cut + 1}, {kind} and then {other}', (second[0], first[1] + second[1]), whole)
    check(f'saved behind line {cut}', saved['--lean'], saved[''])
    if saved[''][0] == 0 and content(os.path.join(room, 'saved')) != content(os.path.join(room, 'saved--lean')):
        raise AssertionError(f'the snapshots behind line {cut} differ')

    # with little room the lean run may go on where the other is full
    few = ['--max-terms', str(rng.randrange(1, 200))]
    plain, lean = run(program, [*pages, *few], text), run(program, [*pages, '--lean', *few], text)
    if not whole[1].startswith(lean[1]) or not lean[1].startswith(plain[1]):
        raise AssertionError(f'{few}: the records are no beginning of those without a limit')
    if lean[0] != 0 and plain[0] == 0:
        raise AssertionError(f'{few}: the lean run ended with status {lean[0]}, and the other with 0')
    return whole[1].count(b'# patch ')


def main():
    parser = argparse.ArgumentParser(description=__doc__, formatter_class=argparse.RawDescriptionHelpFormatter)
    parser.add_argument('--runs', type=int, default=60, help='how many event files (60)')
    parser.add_argument('--events', type=int, default=80, help='how many events each (80)')
    parser.add_argument('--seed', type=int, default=1, help='of the first file (1)')
    parser.add_argument('program', metavar='PROGRAM')
    args = parser.parse_args()
    program = os.path.abspath(args.program)
    if not os.access(program, os.X_OK):
        sys.exit(f'lean_streams.py: no program: {args.program}')
    records = 0
    for seed in range(args.seed, args.seed + args.runs):
        room = tempfile.mkdtemp(prefix='lean')
        try:
            records += try_one(program, seed, args.events, room)
        except AssertionError as fault:
            print(f'seed {seed}: {fault}; its files: {room}')
            sys.exit(1)
        shutil.rmtree(room)
    print(f'{args.runs} files of {args.events} events, {records} records: they are the same')


if __name__ == '__main__':
    main()
