#!/usr/bin/env python3
"""What refuses each must-fail edit: the statement that the check meets first, and whether docs/PROMISES.md says the same.

    python3 tests/edits.py [FILE..]

Each FILE is what `rt ci` or `rt must-fail` printed; with none, this runs `rt must-fail`, which tries again only what has changed. Of each edit
one line is printed, with the first error of its check. Where the page's row does not name just that, the edit is checked once more, in a
copy of the crates, for all that fails. A statement that is left unchecked because another failed is not shown. An error in the proof of a
function is one of its contract: of what it ensures, or of what it has to show on the way. A refusal of which rt says that it shows little, for a
name that the edit took away or a limit that was met, is a fault. A row of docs/PROMISES.md that names an edit names
statements that fail, and each edit has one row.
"""
import concurrent.futures
import os
import pathlib
import re
import shutil
import subprocess
import sys
import tempfile

ROOT = pathlib.Path(__file__).resolve().parent.parent
LINE = re.compile(r'^rt: must-fail (\w+)/([\w.-]+)\.edit: (.*)')
REFUSED = re.compile(r'refused, as it must be: (.*)')
FOLLOWS = re.compile(r'were not checked|was not checked|was not admitted')
PROOF = re.compile(r"(?:\./)?proofs/([\w+/]+)\.antt:(\d+):\d+: error: [^`]*`([^`]+)`")
SOURCE = re.compile(r'note: src/([\w/]+)\.rt:(\d+):\d+: ')
FUNCTION = re.compile(r'^\s*(?:pub )?(?:extern "C" )?fn (\w+)')
IMPL = re.compile(r'^impl(?:<[^>]*>)? (?:(\w+)(?:<(\w+)>)? for )?(\w+)')
ROW = re.compile(r'^\|(.*)\|\s*$')
EDIT = re.compile(r'^[a-z_]+/[a-z0-9_]+$')


def function_at(crate, file, line):
    """The function of src/ that stands at a line (an edit moves no line), or whose attribute does; a method's behind its type."""
    lines = (ROOT / 'crates' / crate / 'src' / f'{file}.rt').read_text(encoding='utf8').splitlines()
    while lines[line - 1].lstrip().startswith('#['):
        line += 1
    at = next((n for n in reversed(range(line)) if FUNCTION.match(lines[n])), None)
    if at is None:
        return f'{crate}::?'
    owner = next((n for n in reversed(range(at)) if lines[n] and not lines[n].startswith((' ', '//'))), None)
    within = IMPL.match(lines[owner]) if lines[at].startswith(' ') and owner is not None else None
    # an impl is named as rt names it: type, trait and what the trait is of
    kind = [''.join(part[0].upper() + part[1:] for part in (within.group(3), within.group(1), within.group(2)) if part)] if within else []
    names = [*([] if file in ('lib', 'main') else [file]), *kind, FUNCTION.match(lines[at]).group(1)]
    return '::'.join([crate, *names])


def refused_by(crate, said):
    """(statement, where) of what the check met first."""
    reason = REFUSED.match(said)
    proof = reason and PROOF.match(reason.group(1))
    source = reason and SOURCE.match(reason.group(1))
    if proof:
        file, place, name = proof.groups()
        function = re.fullmatch(r'(\w+(?:/\w+)*)/(?:Answers|Invariants|Proof)', file)
        statement = f'contract of `{crate}::{function.group(1).replace("/", "::")}`' if function else f'`{name}`'
        return statement, f'{name}, proofs/{file}.antt:{place}'
    if source:
        file, place = source.groups()
        return f'contract of `{function_at(crate, file, int(place))}`', f'src/{file}.rt:{place}'
    return None


def checked(crate, path):
    """(statement, where) for each that fails by itself, of all that `rt check` says of the crate with this edit."""
    with tempfile.TemporaryDirectory() as room:
        shutil.copytree(ROOT / 'crates', f'{room}/crates', ignore=shutil.ignore_patterns('out'))
        shutil.copy(ROOT / 'crates.txt', room)
        file = old = None
        for line in path.read_text(encoding='utf8').splitlines():
            if line.startswith('file: '):
                file = pathlib.Path(room, 'crates', crate, line[6:].strip())
            elif line.startswith('old: '):
                old = line[5:]
            elif line.startswith('new:'):
                file.write_text(file.read_text(encoding='utf8').replace(old, line[4:].removeprefix(' ')), encoding='utf8')
        ran = subprocess.run(['rt', 'check'], cwd=f'{room}/crates/{crate}', stdout=subprocess.PIPE, stderr=subprocess.STDOUT, text=True, errors='replace')
    found = []
    for line in ran.stdout.splitlines():
        if not FOLLOWS.search(line):
            one = refused_by(crate, f'refused, as it must be: {line}')
            if one and one[0] not in [known for known, _ in found]:
                found.append(one)
    return found


def page():
    """The rows of docs/PROMISES.md that name an edit: the edit and what it says."""
    rows = {}
    for line in (ROOT / 'docs' / 'PROMISES.md').read_text(encoding='utf8').splitlines():
        row = ROW.match(line)
        cells = [cell.strip() for cell in row.group(1).split('|')] if row else []
        for i, cell in enumerate(cells):
            if EDIT.match(cell):
                rows.setdefault(cell, []).append(cells[i + 1] if i + 1 < len(cells) else '')
    return rows


def said(cell):
    """The statements that a cell names."""
    contracts = re.findall(r'contract of `[\w:]+`', cell)
    rest = re.sub(r'contract of `[\w:]+`', '', cell)
    return contracts + [f'`{name}`' for name in re.findall(r'`([^`]+)`', rest)]


def main():
    if sys.argv[1:]:
        text = '\n'.join(pathlib.Path(file).read_text(encoding='utf8', errors='replace') for file in sys.argv[1:])
    else:
        text = subprocess.run(['rt', 'must-fail'], cwd=ROOT, stdout=subprocess.PIPE, text=True, errors='replace').stdout
    told = {f'{found.group(1)}/{found.group(2)}': found.group(3) for found in map(LINE.match, text.splitlines()) if found}
    edits = sorted((ROOT / 'crates').glob('*/must-fail/*.edit'))
    rows, faults = page(), []

    def look(path):
        """All that is known to refuse the edit; None where it was not tried, or not refused by a statement."""
        crate, edit = path.parts[-3], f'{path.parts[-3]}/{path.stem}'
        found = refused_by(crate, told.get(edit, ''))
        cells = rows.get(edit, [])
        names = said(cells[0]) if len(cells) == 1 else []
        return found and ([found] if names == [found[0]] and not FOLLOWS.search(told[edit]) else checked(crate, path))

    with concurrent.futures.ThreadPoolExecutor(min(os.cpu_count() or 1, 4)) as pool:
        looked = list(pool.map(look, edits))
    for path, shown in zip(edits, looked):
        edit = f'{path.parts[-3]}/{path.stem}'
        print(f'{edit}: {path.read_text(encoding="utf8").splitlines()[0]}')
        if not shown:
            faults.append(f'{edit}: {told.get(edit, "not tried")}')
            continue
        cells = rows.get(edit, [])
        names = said(cells[0]) if len(cells) == 1 else []
        for statement, where in shown:
            print(f'    {statement}  ({where})')
        if len(cells) != 1:
            faults.append(f'{edit}: {len(cells)} rows in docs/PROMISES.md')
        elif not names or not set(names) <= {statement for statement, _ in shown}:
            faults.append(f'{edit}: docs/PROMISES.md says {cells[0]}')
    faults += [f'{edit}: in docs/PROMISES.md, and not in crates/' for edit in sorted(set(rows) - {f'{p.parts[-3]}/{p.stem}' for p in edits})]
    for line in faults:
        print(line)
    print(f'{len(edits)} must-fail edits, {len(faults)} faults')
    return 1 if faults else 0


if __name__ == '__main__':
    sys.exit(main())
