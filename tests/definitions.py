#!/usr/bin/env python3
"""Wrong definitions, and whether any theorem or table sees that they are wrong: tests/definitions.py [CRATE/FILE ..], as format/Fields.antt

Raises each number of the definitions of format, words and identifier by one, one at a time, in copies in the folder for temporary files, and checks the crate. Pieces
of format is left out: no rule stands there, and only crates above use them. Prints each change that nothing refuses. Ends with 1 where one of them
should be refused. About 15 minutes for all files, on two cores; no part of tests/run.
"""
import concurrent.futures
import os
import pathlib
import re
import shutil
import subprocess
import sys
import tempfile

ROOT = pathlib.Path(__file__).resolve().parent.parent
CRATES = {'format': 'format:\n', 'words': 'format:\nwords: format\n', 'identifier': 'format:\nwords: format\nidentifier: format words\n'}
# Outside the checkout, since rt ci lets no crate stand beside those of crates.txt.
WORK = pathlib.Path(tempfile.gettempdir()) / f'urpanella-definitions-{os.getuid()}'
RULELESS = {'Lib.antt', 'Pieces.antt'}  # of any crate
NUMBER = re.compile(r'(?<![\w.·{])(?<!Type )(?:0x[0-9A-Fa-f]+|\d+)(?![\w}])')

# Changes that leave every call as it is: file, the line as it is then, grounds.
SAME = [
    ('format/Chain.antt', 'id_of b = word (get_or b 1 1) (get_or b 2 0)', 'a block of fewer than 3 bytes is damage whatever its ID'),
    ('format/Chain.antt', 'id_of b = word (get_or b 1 0) (get_or b 2 1)', 'a block of fewer than 3 bytes is damage whatever its ID'),
    ('format/Elements.antt', 'place_in [] n = 1', 'a place behind the list is no place, however far behind'),
    ('format/Fields.antt', 'unit_byte b = capital b || between 0x61 0x7A b || between 0x30 0x3A b || eqb b 0x2F || eqb b 0x2D || eqb b 0x3A', '3A is named besides'),
    ('format/Numbers.antt', 'refusal_of (got a) = plain 1', 'nothing asks it of a call whose work is done'),
    ('format/Pages.antt', 'locked locks i = eqb (get_or locks i 1) 1', 'a lock map reaches every page, or the call is refused 1'),
    ('format/Sheet.antt', 'record { number = get_or h 0 1; bytes = take n b } ∷ cut k (drop 4 h) (drop n b)', 'a head that the sheet lacks makes another sheet, so 8'),
    ('format/Sheet.antt', 'count_in s = word (get_or s 0 1) (get_or s 1 0)', 'no entries make a sheet of fewer than 2 bytes, so it is 8'),
    ('format/Sheet.antt', 'count_in s = word (get_or s 0 0) (get_or s 1 1)', 'no entries make a sheet of fewer than 2 bytes, so it is 8'),
    ('identifier/Demands.antt', 'pub not_taken : (leads : Bool) (s : List ℕ) (t o : ℕ) (buffers : Elements) → Tells leads s t o → 256 < t → (part leads s buffers).answer ≡ refused (plain 6)', 'asks less; a total of 256 is refused by PartsIdentifiers too'),
    ('identifier/Demands.antt', 'pub not-put : (e : Elements) (buffer : List ℕ) → 256 < parts_of e.set → (join e buffer).answer ≡ refused (plain 9)', 'asks less; 256 parts are refused by JoinsElements too'),
]


def raised(number):
    return f'0x{int(number, 16) + 1:0{len(number) - 2}X}' if number.startswith('0x') else str(int(number) + 1)


def files():
    """The files of definitions, as CRATE/FILE."""
    for crate in CRATES:
        for path in sorted((ROOT / 'crates' / crate / 'specs').glob('*.antt')):
            if path.name not in RULELESS:
                yield f'{crate}/{path.name}', path


def changes(names):
    """(file, its text so changed, the changed line) for each number that is not in a comment or a `use`, nor says how an operator binds."""
    for name, path in files():
        if names and name not in names:
            continue
        text, place = path.read_text(encoding='utf8'), 0
        for line in text.splitlines(keepends=True):
            code = line.split('--')[0]
            for match in [] if code.startswith(('use ', 'infix ')) else NUMBER.finditer(code):
                at, end, new = place + match.start(), place + match.end(), raised(match.group())
                yield name, text[:at] + new + text[end:], (line[:match.start()] + new + line[match.end():]).strip()
            place += len(line)


def passes(worker, name, text):
    """Is the file's crate proved with this text of it?"""
    crate, file = name.split('/')
    folder = WORK / str(worker) / crate
    path = folder / 'crates' / crate / 'specs' / file
    kept = path.read_text(encoding='utf8')
    path.write_text(text, encoding='utf8')
    try:
        run = subprocess.run(['rt', 'check'], cwd=folder / 'crates' / crate, capture_output=True, text=True, errors='replace')
    finally:
        path.write_text(kept, encoding='utf8')
    said = run.stdout + run.stderr
    if 'logic=' not in said:
        raise SystemExit(f'definitions: rt check gave no verdict: {said[-300:]}')
    return 'logic=not-proved' not in said


def work(worker, workers, names):
    """This worker's share: (how many were tried, those that nothing refuses)."""
    shutil.rmtree(WORK / str(worker), ignore_errors=True)
    for crate, listed in CRATES.items():
        folder = WORK / str(worker) / crate
        for copied in re.findall(r'(?m)^(\w+):', listed):
            shutil.copytree(ROOT / 'crates' / copied, folder / 'crates' / copied, ignore=shutil.ignore_patterns('out'))
        (folder / 'crates.txt').write_text(listed, encoding='utf8')
    tried, unseen = 0, []
    for i, (name, text, line) in enumerate(changes(names)):
        if i % workers == worker:
            tried += 1
            if passes(worker, name, text):
                unseen.append((name, line))
    return tried, unseen


def main():
    names = sys.argv[1:]
    known = {name for name, _ in files()}
    if set(names) - known:
        print(f'usage: tests/definitions.py [CRATE/FILE ..]\nno such file: {" ".join(sorted(set(names) - known))}', file=sys.stderr)
        return 2
    workers = min(os.cpu_count() or 1, 4)
    with concurrent.futures.ThreadPoolExecutor(workers) as pool:
        shares = list(pool.map(lambda worker: work(worker, workers, names), range(workers)))
    grounds = {(file, line): why for file, line, why in SAME}
    unseen = [change for _, share in shares for change in share]
    wrong = [change for change in unseen if change not in grounds]
    for file, line in unseen:
        print(f'{file}: {line}: {grounds.get((file, line), "REFUSED BY NOTHING")}')
    print(f'{sum(tried for tried, _ in shares)} numbers raised by one, {len(unseen) - len(wrong)} leave every call as it is, {len(wrong)} refused by nothing')
    return 1 if wrong else 0


if __name__ == '__main__':
    sys.exit(main())
