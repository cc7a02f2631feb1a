"""Counts, in crates/*/src, the places that docs/DESIGN-PASS.md speaks of: `python3 tools/places/places.py [FOLDER] [--list]`.

FOLDER is a checkout, this one if none is named. Point 8 is counted in crates/*/proofs.
"""

import glob
import os
import re
import sys

FUNCTION = re.compile(r'^ *(?:pub )?(?:extern "C" )?fn (\w+)(<[^>]*>)?\(', re.M)
NUMBER_TYPES = {'u8', 'u16', 'u32', 'u64', 'usize', 'i32', 'i64'}


def closed(text, start, opening, closing):
    """The place behind the bracket that closes the one at `start`."""
    depth = 0
    for place in range(start, len(text)):
        if text[place] == opening:
            depth += 1
        elif text[place] == closing:
            depth -= 1
            if depth == 0:
                return place + 1
    return len(text)


def functions(text):
    """Name, parameters, body and place of each function that has a body."""
    for match in FUNCTION.finditer(text):
        end = closed(text, match.end() - 1, '(', ')')
        body = re.compile(r'^ *(?:ensures|requires|ghost)\b.*$|(\{)|(;)', re.M).search
        place = end
        while True:
            found = body(text, place)
            if found is None or found.group(2):
                break
            if found.group(1):
                stop = closed(text, found.start(), '{', '}')
                yield match.group(1), text[match.end() : end - 1], text[found.start() : stop], match.start()
                break
            place = found.end()


def shape(body):
    """A body with its names, types and numbers left out: twins have one shape."""
    names = {}
    tokens = []
    for token in re.findall(r'\w+|[^\w\s]', body):
        if token in NUMBER_TYPES:
            token = 'TYPE'
        elif token[0].isdigit():
            token = '0'
        elif token not in {'for', 'in', 'if', 'else', 'let', 'mut', 'return', 'as', 'match', 'while', 'continue', 'true', 'false'}:
            token = names.setdefault(token, 'n%d' % len(names))
        tokens.append(token)
    return tuple(tokens)


def places(folder):
    found = {point: [] for point in ('1', '2', '3', '3, plain', '4', '5', '7')}
    shapes = {}
    for path in sorted(glob.glob(os.path.join(folder, 'crates', '*', 'src', '*.rt'))):
        text = re.sub(r'//.*', lambda comment: ' ' * len(comment.group(0)), open(path, encoding='utf-8').read())
        name = os.path.relpath(path, folder)

        def put(point, start, what):
            found[point].append('%s:%d %s' % (name, text[:start].count('\n') + 1, what))

        for match in re.finditer(r'^(?:pub )?enum (\w+)', text, re.M):
            put('1', match.start(), 'enum ' + match.group(1))
        for match in re.finditer(r'^(?:pub )?struct (\w+)[^{;]*\{([^}]*)\}', text, re.M):
            for field in re.findall(r'(\w+): bool|(refusal): u64', match.group(2)):
                put('1', match.start(), 'struct %s, field %s' % (match.group(1), field[0] or field[1]))
        for match in re.finditer(r'^ *(?:pub )?fn (\w+_refusal)\(', text, re.M):
            put('1', match.start(), match.group(1))
        for match in re.finditer(r'^ *(?:while ([^{]*)|for (\w+) in ([^{]*\.\.[^{]*))\{', text, re.M):
            body = text[match.end() - 1 : closed(text, match.end() - 1, '{', '}')]
            if match.group(1) is not None:
                put('3', match.end(), 'while ' + match.group(1))
            elif '[' not in match.group(3):
                used = re.search(r'\[[^\]]*\b%s\b' % match.group(2), body)
                put('3' if used else '3, plain', match.end(), 'for %s in %s' % match.group(2, 3))
        for match in re.finditer(r'\.enumerate\(\)', text):
            put('3', match.start(), 'enumerate')
        for match in re.finditer(r' as (?:u8|u16|u32|u64|usize|i32|i64)\b', text):
            put('4', match.start(), match.group(0).strip())
        for function, parameters, body, start in functions(text):
            count = len([part for part in parameters.split(',') if part.strip()])
            if count >= 6:
                put('5', start + 1, '%s, %d parameters' % (function, count))
            if re.search(r'\b\w+: bool\b', parameters):
                put('7', start + 1, '%s, a flag' % function)
            key = shape(body)
            if len(key) >= 30:
                shapes.setdefault(key, []).append('%s %s' % (name, function))
        for match in re.finditer(r'match (?:s|kernel) \{', text):
            put('7', match.start(), 'match')
    found['2'] = [', '.join(group) for group in shapes.values() if len(group) > 1]
    answers = [p for p in glob.glob(os.path.join(folder, 'crates', '*', 'proofs', '**', '*.antt'), recursive=True)]
    goals = 0
    for path in answers:
        goals += len(re.findall(r'^pub [^ ]+ : goal\.', open(path, encoding='utf-8').read(), re.M))
    lines = sum(open(path, encoding='utf-8').read().count('\n') for path in answers)
    return found, goals, lines


def main():
    words = [word for word in sys.argv[1:] if word != '--list']
    here = os.path.join(os.path.dirname(os.path.abspath(__file__)), '..', '..')
    found, goals, lines = places(words[0] if words else here)
    for point, group in found.items():
        print('point %s: %d' % (point, len(group)))
        if '--list' in sys.argv:
            for place in group:
                print('    ' + place)
    print('point 8: %d answers, %d lines of proofs' % (goals, lines))


if __name__ == '__main__':
    main()
