#!/usr/bin/env python3
"""Wrong models of documents 01 and 02, and whether anybody sees that they are wrong: tests/mutants.py [FILE ..] -- DRIVER ..

Changes one literal, comparison or operator of src/model (or of the named FILEs there) at a time, in copies under target/mutants. A wrong
model is seen where its own tests fail, or where a short comparison with the library differs; DRIVER .. are the words that run the driver.
Prints each model that nobody saw, and each that only the comparison saw. Ends with 1 where nobody saw one that should be seen.
`sh tests/mutants` builds what this needs and calls it.
"""
import concurrent.futures
import os
import pathlib
import queue
import re
import shutil
import subprocess
import sys
import threading

TESTS = pathlib.Path(__file__).resolve().parent
ROOT = TESTS.parent
MODEL = pathlib.Path('src/model')
WORK = ROOT / 'target' / 'mutants'
SECONDS = 60

# What stands in a line, and what is put in its place. Literals are changed by `other_literals`.
SWAPS = [(re.compile(pattern), others.split(' ')) for pattern, others in [
    (r'(?<= )==(?= )', '!='),
    (r'!=(?= )', '=='),
    (r'(?<= )<=(?= )', '< >= =='),
    (r'(?<= )>=(?= )', '> <= =='),
    (r'(?<= )<(?= )', '<= >'),
    (r'(?<= )>(?= )', '>= <'),
    (r'\.\.=', '..'),
    (r'(?<=\d)\.\.(?=\d)', '..='),
    (r'(?<= )&&(?= )', '||'),
    (r'(?<= )\|\|(?= )', '&&'),
    (r'(?<![\w!=])!(?=[\w(])', ''),
    (r'(?<= )\+(?= )', '-'),
    (r'(?<= )-(?= )', '+'),
    (r'(?<= )\*(?= )', '+'),
    (r'(?<= )/(?= )', '*'),
    (r'(?<= )%(?= )', '/'),
    (r'(?<= )&(?= )', '| ^'),
    (r'(?<= )\^(?= )', '|'),
    (r'(?<= )<<(?= )', '>>'),
    (r'(?<= )>>(?= )', '<<'),
    (r'\btrue\b', 'false'),
    (r'\bfalse\b', 'true'),
    (r'\.all\(', '.any('),
    (r'\bis_ascii_uppercase\b', 'is_ascii_alphabetic is_ascii_alphanumeric'),
    (r'\bis_ascii_alphanumeric\b', 'is_ascii_alphabetic is_ascii_graphic'),
    (r'\bto_le_bytes\b', 'to_be_bytes'),
    (r'\bfrom_le_bytes\b', 'from_be_bytes'),
    (r'\bneed\(.*\)\?;$', ''),
]]
NUMBER = r'(?:0x[0-9A-Fa-f_]+|\d[\d_]*)\b'
LITERAL = re.compile(rf"b'(?:[^'\\]|\\.)'|b?\"(?:[^\"\\]|\\.)*\"|(?<![\w.]){NUMBER}|(?<=\.\.){NUMBER}|(?<=\.\.=){NUMBER}")

# Wrong models that no such change makes: file, text, other text.
BY_HAND = [
    ('chain.rs', 'found.iter().all(|other| id(other) != BLOCK_ONE)', 'found.last().is_none_or(|other| id(other) != BLOCK_ONE)'),
    ('chain.rs', 'found.iter().all(|other| id(other) != BLOCK_ONE)', 'found.first().is_none_or(|other| id(other) != BLOCK_ONE)'),
    ('chain.rs', 'place: Some(place)', 'place: Some(place - START)'),
    ('chain.rs', 'place: Some(place)', 'place: None'),
    # Each number behind the next one of the order.
    ('chain.rs', 'need(length != 2,', 'need(length != 2 || rest.len() < 2,'),
    ('chain.rs', 'refusal::END)', 'if rest.len() > 2 && id(rest) == 0 { refusal::ID } else { refusal::END })'),
    ('chain.rs', 'length >= 4 || !is_structured(block)', 'length >= 4 || !is_structured(block) || exclusive_or(block) != 0'),
    ('chain.rs', 'exclusive_or(block) == 0, ', 'exclusive_or(block) == 0 || (id(block) == BLOCK_ONE && !found.is_empty()), '),
    ('editing.rs', 'u8::try_from(number).ok()', 'Some(number as u8)'),
    ('fields.rs', 'field[end..].iter().all(|byte| *byte == 0)', 'field.last() == Some(&0)'),
    ('isil.rs', "b'/' | b'-' | b':'", "b'/' | b'-' | b':' | b'.'"),
    ('isil.rs', "b'/' | b'-' | b':'", "b'/' | b'-' | b':' | b'_'"),
    ('isil.rs', "b'/' | b'-' | b':'", "b'/' | b'-' | b':' | b' '"),
    ('isil.rs', "b'/' | b'-' | b':'", "b'/' | b'-' | b':' | 0x80.."),
    ('layout.rs', 'all.resize(width, 0);', 'all.resize(width, 0xFF);'),
    ('pages.rs', 'length.is_multiple_of(page)', 'length.is_multiple_of(2)'),
    ('pages.rs', 'locks.len() * page == tag_length', 'locks.len() * page >= tag_length'),
    ('pages.rs', 'locks.len() * page == tag_length', 'locks.len() * page <= tag_length'),
    ('sheet.rs', 'head[2]])) == place', 'head[2]])) == place % 65_536'),
    ('sheet.rs', 'head[2]])) == place', 'head[2]])) == place && place < 65_535'),
    # Text: the rule before E4; any bytes; controls of two bytes refused; long forms, surrogates, cut characters, tabs taken.
    ('text.rs', 'std::str::from_utf8(bytes).is_ok()', 'bytes.is_ascii()'),
    ('text.rs', 'std::str::from_utf8(bytes).is_ok()', 'true'),
    ('text.rs', 'std::str::from_utf8(bytes).is_ok()', 'std::str::from_utf8(bytes).is_ok_and(|text| !text.chars().any(char::is_control))'),
    ('text.rs', 'std::str::from_utf8(bytes).is_ok()', '(std::str::from_utf8(bytes).is_ok() || matches!(bytes, [0xC0, 0x80..=0xBF]))'),
    ('text.rs', 'std::str::from_utf8(bytes).is_ok()', '(std::str::from_utf8(bytes).is_ok() || matches!(bytes, [0xED, 0xA0..=0xBF, 0x80..=0xBF]))'),
    ('text.rs', 'std::str::from_utf8(bytes).is_ok()', 'std::str::from_utf8(bytes).map_or_else(|error| error.error_len().is_none(), |_| true)'),
    ('text.rs', '*byte >= 0x20', '(*byte >= 0x20 || *byte == 9)'),
    # Limits that count characters.
    ('content.rs', 'self.get(PRIMARY).len() > 16', 'String::from_utf8_lossy(self.get(PRIMARY)).chars().count() > 16'),
    ('editing.rs', 'value.len() <= 255', 'String::from_utf8_lossy(value).chars().count() <= 255'),
    ('layout.rs', 'primary.len() > 16', 'String::from_utf8_lossy(primary).chars().count() > 16'),
    # A reader that takes FA by its first byte; pads anywhere; pads alone; FC for the others only; 00 as a pad.
    ('words.rs', 'let sum = word.checked_sub(1)?;', 'let sum = if high == 0xFA { 63_999 } else { word.checked_sub(1)? };'),
    ('words.rs', 'held.iter().map(|value| character(*value)).collect()', 'held.iter().filter(|value| **value != PAD).map(|value| character(*value)).collect()'),
    ('words.rs', 'characters.filter(|characters| !characters.is_empty())', 'characters'),
    ('words.rs', 'low.is_ascii().then_some(vec![low])', '(low.is_ascii() && value(low).is_none()).then_some(vec![low])'),
    ('words.rs', 'low.is_ascii().then_some(vec![low])', 'low.is_ascii().then_some(if low == 0 { vec![] } else { vec![low] })'),
    ('words.rs', 'low.is_ascii().then_some(vec![low])', 'Some(vec![low & 0x7F])'),
    ('words.rs', 'word.to_be_bytes()', 'word.to_le_bytes()'),
    # 2 before 20 and 21.
    ('words.rs', 'fill(text, &text_of(words)?)', 'need(text.len() >= words.len(), refusal::ROOM)?;\n    fill(text, &text_of(words)?)'),
    ('words.rs', 'fill(words, &words_of(text)?)', 'need(3 * words.len() >= text.len(), refusal::ROOM)?;\n    fill(words, &words_of(text)?)'),
    # A writer that folds; that goes on with a run; that ends every run with a word of its own; that makes FC of all.
    ('words.rs', 'position(|known| *known == character)', 'position(|known| *known == character.to_ascii_uppercase())'),
    ('words.rs', 'value(*one).is_some() && value(*next).is_some()', 'value(*one).is_some()'),
    ('words.rs', 'value(*one).is_some() && value(*next).is_some()', 'value(*next).is_some()'),
    ('words.rs', 'value(*one).is_some() && value(*next).is_some()', 'value(*one).is_some() == value(*next).is_some()'),
    ('words.rs', 'run.chunks(3).map(packed).collect()', 'run.chunks(3).chain((run.len() % 3 == 0).then_some(&[][..])).map(packed).collect()'),
    ('words.rs', 'run.chunks(3).map(packed).collect()', 'run.rchunks(3).rev().map(packed).collect()'),
    ('words.rs', 'text.is_ascii(), refusal::HIGH', 'text.first().is_none_or(u8::is_ascii), refusal::HIGH'),
    # Taking apart: a yes that is 1 or a byte; a guess; 23 before 6, and for more than S; 2 first; 00, an empty part and leading zeros taken.
    ('identifier.rs', 'isil_leads != 0', 'isil_leads == 1'),
    ('identifier.rs', 'isil_leads != 0', 'isil_leads as u8 != 0'),
    ('identifier.rs', 'isil_leads != 0', 'text.split(|byte| *byte == DOT).next().is_some_and(|part| is_good(ISIL, part))'),
    ('identifier.rs', 'need(isil.is_none_or(', 'need(set == Some(ELSEWHERE) || isil.is_none_or('),
    ('identifier.rs', 'Some(part) if part == ELSEWHERE', 'Some(part) if part.eq_ignore_ascii_case(ELSEWHERE)'),
    ('identifier.rs', 'Some(part) if part == ELSEWHERE', 'Some(part) if part.starts_with(ELSEWHERE)'),
    ('identifier.rs', 'Some(part) if part == ELSEWHERE', 'Some(part) if part.ends_with(ELSEWHERE)'),
    ('identifier.rs', 'let elements = elements_of', 'need(buffers[2].len() >= 4, refusal::ROOM)?;\n    let elements = elements_of'),
    ('identifier.rs', 'Some(part) => from_digits', 'Some([]) | Some(b"00") => set_information(0, 0),\n        Some(part) => from_digits'),
    ('identifier.rs', 'totals.contains(&total) && ', 'total > 0 && total < 256 && '),
    ('identifier.rs', '(number(total)?, number(ordinal)?)', '(number(total)? % 256, number(ordinal)?)'),
    ('identifier.rs', 'char::from(*digit).to_digit(10)?', 'u32::from(*digit & 15)'),
    # Building: a dot taken; an ISIL wanted; empty as none; limits that count characters; leading zeros lost.
    ('identifier.rs', ' && !item.contains(&DOT)', ''),
    ('identifier.rs', 'isil.is_empty() || ', ''),
    ('identifier.rs', 'is_good(SET, set), ', 'set.is_empty() || is_good(SET, set), '),
    ('identifier.rs', 'item.len() <= 255', 'String::from_utf8_lossy(item).chars().count() <= 255'),
    ('identifier.rs', '{ordinal:0width$}', '{ordinal}'),
]

# Changes that leave the model right: file, a part of the changed line, why no input tells them apart.
STILL_RIGHT = [
    ('chain.rs', 'Some(1 | 0)', 'a byte 00 has ended the chain before'),
    ('chain.rs', '(0..=100)', 'ID 0 is damage before anybody asks whether it is structured'),
    ('element.rs', 'Some(2 | 1 | 3)', 'an owner that begins 01 is neither a 3 nor a 23'),
    ('element.rs', 'Some(2 | 3 | 4)', 'an owner that begins 04 is neither a 3 nor a 23'),
    ('fields.rs', '[1 | 0]', 'the used bytes of a field have no 00'),
    ('isil.rs', "b'/' | 48", '48 is the digit 0, which is a unit character'),
    ('isil.rs', "b':' | 57", '57 is the digit 9, which is a unit character'),
    ('layout.rs', '& 241 | 1', 'the low bit is set all the same'),
    ('layout.rs', 'extend([1, 0])', 'the CRC, which does not cover its own bytes, is stored there'),
    ('layout.rs', 'extend([0, 1])', 'the CRC, which does not cover its own bytes, is stored there'),
    ('pages.rs', '(35..=2048)', '35 is no multiple of 4'),
    ('pages.rs', '(36..=2049)', '2,049 is no multiple of 4'),
    ('sheet.rs', 'map_or(1,', 'a content has 4 and 5'),
]


def value_of(text):
    """The number that a literal stands for."""
    return ord(text[2:-1]) if text.startswith("b'") else int(text.replace('_', ''), 0)


def other_literals(text, pattern):
    """Literals near this one. In a pattern with these numbers also this one or its neighbour, where that is none of them."""
    if text.endswith('"'):
        start = text.index('"') + 1
        inside = text[start:-1]
        return [f'{text[:start]}{inside}x"', f'{text[:start]}{inside[1:]}"'] if inside else []
    number = value_of(text)
    near = [number + 1] + ([number - 1] if number else [])
    return [str(other) for other in near] + [f'{text} | {other}' for other in near if pattern and other not in pattern]


def changes(line):
    """(start, end, other text) for each change of a line."""
    code = re.sub(r'//.*', '', line).rstrip()
    if not code or code.lstrip().startswith(('use ', 'pub use', 'pub mod', '#')):
        return
    literals = list(LITERAL.finditer(code))
    numbers = [value_of(literal.group()) for literal in literals if not literal.group().endswith('"')]
    for literal in literals:
        in_pattern = '=>' in code[literal.end():] or 'matches!(' in code[:literal.start()]
        # What is said where the model itself is broken is no rule.
        if not code[:literal.start()].endswith('expect('):
            for other in other_literals(literal.group(), numbers if in_pattern else []):
                yield *literal.span(), other
    for pattern, others in SWAPS:
        for match in pattern.finditer(code):
            if not any(literal.start() <= match.start() < literal.end() for literal in literals):
                for other in others:
                    yield *match.span(), other


def mutants(names):
    """(file, place, what is done, the whole file's text) for each wrong model."""
    for path in sorted((TESTS / MODEL).glob('*.rs')):
        if names and path.name not in names:
            continue
        text = path.read_text(encoding='utf8')
        lines = text.split('\n')
        for i, line in enumerate(lines):
            for start, end, other in changes(line):
                changed = lines[:i] + [line[:start] + other + line[end:]] + lines[i + 1:]
                yield path.name, f'{path.name}:{i + 1}', f'{line.strip()}  ->  {changed[i].strip()}', '\n'.join(changed)
        for name, old, new in BY_HAND:
            if name == path.name:
                if text.count(old) != 1:
                    raise SystemExit(f'tests/mutants.py: not once in {name}: {old}')
                yield name, name, f'{old}  ->  {new}', text.replace(old, new)


def why_right(name, what):
    """The grounds on which a change leaves the model right, or nothing."""
    return next((why for file, part, why in STILL_RIGHT if file == name and part in what.split('  ->  ')[1]), None)


def ends_well(command, folder):
    """Whether a command ends with 0, in time. A test that fails shows as an F, and the others are not waited for."""
    with subprocess.Popen(command, cwd=folder, stdout=subprocess.PIPE, stderr=subprocess.DEVNULL) as process:
        clock = threading.Timer(SECONDS, process.kill)
        clock.start()
        for piece in iter(lambda: os.read(process.stdout.fileno(), 4096), b''):
            if b'F' in piece and '--quiet' in command:
                process.kill()
        clock.cancel()
    return process.returncode == 0


class Workplace:
    """A copy of the independent program, with a build of its own."""

    def __init__(self, number, driver):
        self.folder = WORK / str(number)
        self.tests = self.folder / 'tests'
        self.runs = [('read', '0', driver), ('write', '0', driver), ('edit', '0', driver), ('to_text', '0', driver), ('to_words', '0', driver),
                     ('apart', '0', driver), ('together', '0', driver), ('histories', '100', driver), ('taglist', '0', [str(ROOT / 'build' / 'taglist')])]
        shutil.rmtree(self.tests, ignore_errors=True)
        shutil.copytree(TESTS, self.tests)
        self.environment = dict(os.environ, CARGO_TARGET_DIR=str(self.folder / 'target'), CARGO_PROFILE_DEV_OPT_LEVEL='1', CARGO_PROFILE_DEV_DEBUG='0')

    def built(self):
        """The test program, or nothing where the model does not compile."""
        command = ['cargo', 'test', '--offline', '--no-run']
        done = subprocess.run(command, cwd=self.tests, env=self.environment, capture_output=True, text=True, check=False)
        if done.returncode != 0:
            return None
        return re.search(r'\((\S*/deps/all-\w+)\)', done.stderr).group(1)

    def seen_by(self, name, text):
        """Who sees that the model is wrong: 'tests', 'comparison' or 'nobody'; 'compiler' where it does not compile."""
        path = self.tests / MODEL / name
        right = path.read_text(encoding='utf8')
        path.write_text(text, encoding='utf8')
        try:
            program = self.built()
            if not program:
                return 'compiler'
            if not ends_well([program, '--quiet'], self.tests):
                return 'tests'
            compare = str(self.folder / 'target' / 'debug' / 'compare')
            same = all(ends_well([compare, subject, '1', count, *words], self.folder) for subject, count, words in self.runs)
            return 'nobody' if same else 'comparison'
        finally:
            path.write_text(right, encoding='utf8')


def main():
    words = sys.argv[1:]
    if '--' not in words or words[-1] == '--':
        print('usage: tests/mutants.py [FILE ..] -- DRIVER ..', file=sys.stderr)
        return 2
    names, driver = words[:words.index('--')], words[words.index('--') + 1:]
    for name in names:
        if not (TESTS / MODEL / name).is_file():
            print(f'tests/mutants.py: no file {name} in tests/{MODEL}', file=sys.stderr)
            return 2
    places = queue.Queue()
    for number in range(os.cpu_count() or 1):
        places.put(Workplace(number, driver))

    def tried(mutant):
        name, _, _, text = mutant
        place = places.get()
        try:
            return mutant, place.seen_by(name, text)
        finally:
            places.put(place)

    right = ('text.rs', '', '', (TESTS / MODEL / 'text.rs').read_text(encoding='utf8'))
    if tried(right)[1] != 'nobody':
        print('tests/mutants.py: the right model itself does not pass', file=sys.stderr)
        return 2
    counts = dict.fromkeys(('compiler', 'tests', 'comparison', 'right', 'nobody'), 0)
    with concurrent.futures.ThreadPoolExecutor(places.qsize()) as pool:
        for (name, where, what, _), seen in pool.map(tried, mutants(names)):
            why = why_right(name, what)
            if why and seen != 'nobody':
                print(f'seen after all, though said to be right ({why}): {where}: {what}', flush=True)
            seen = 'right' if why and seen == 'nobody' else seen
            counts[seen] += 1
            if seen in ('comparison', 'nobody'):
                print(f'seen by {seen}: {where}: {what}', flush=True)
    print(f"{sum(counts.values())} changes: {counts['tests']} seen by the model's tests, {counts['comparison']} by the comparison alone, {counts['nobody']} by nobody; "
          f"{counts['right']} leave the model right, {counts['compiler']} do not compile")
    return 1 if counts['nobody'] else 0


if __name__ == '__main__':
    sys.exit(main())
