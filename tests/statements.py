#!/usr/bin/env python3
"""Every public function states its whole result, and one only.

For each `pub fn` of crates/: it has an `ensures`; it has no `requires`, unless docs/EXCEPTIONS.txt lists it; and a theorem says that two
outcomes that fit its contract are equal, answer and buffers, unless docs/EXCEPTIONS.txt lists it as answering more than one. The theorem of
`crate::some_function` is `some-function-one` in crates/CRATE/proofs/One.antt. It has the contract itself, word for word, as its two premises:
the contents of a lent slice `x` at entry are written x, those of a `&mut` x at exit x' in the first outcome and x₂ in the second, and the
answers r and r₂. It concludes that the answers are equal, and so is each `&mut` at exit; of a lent answer, that its contents are and, where the
contract tells its place, its place. What the contract's names mean is what they mean there: both files bring each of them in from the same
module. A `pub fn` of a module that is not `pub` is not public.

A conversion, `impl From<A> for B`, is a public function too. What it ensures is its `ghost from_gives = { λ a b. .. }`, and its theorem is
`b-from-a-one`, with what that says of the answers r and r₂ as its premises.

A line of docs/EXCEPTIONS.txt is `crate::function: requires: grounds` or `crate::function: answers: grounds`; '#' starts a comment. Nothing in it
excuses a missing `ensures`, nor a `requires` on what a host or a program calls. A listed function that needs no exception is a fault too.
"""
import pathlib
import re
import sys

ROOT = pathlib.Path(__file__).resolve().parent.parent
PUBLIC = re.compile(r'\bpub\s+(?:extern\s+"C"\s+)?fn\s+(\w+)')
CALLED_FROM_OUTSIDE = {'reading', 'writing', 'editing', 'decoding', 'encoding', 'parting', 'joining', 'capi', 'listing'}
CLAUSE = re.compile(r'\s*(requires|ensures)\b\*?[^{]*')
CONVERSION = re.compile(r'(?m)^impl(?:<[^>]*>)? From<([^>]+)> for ([^{]+?) \{')
GIVES = re.compile(r'\s*ghost from_gives = \{\s*λ (\w+) (\w+)\.\s*([^{}]*?)\s*\};')
RESULT = re.compile(r'\s*->\s*([^{}]*?)(?=\s*(?:requires\b|ensures\b|\{))')
USED = re.compile(r'(?m)^(?:ghost )?use ([^;{\n]+)\.\{([^}]*)\}')
RENAMED = re.compile(r'(?m)^(?:ghost )?use ([\w.]+) as (\w+);?$')
LIBRARY = 'Rattle.std.specs.'
KIT = ('Rattle.std.', 'mathlib.', 'Prim.', 'lib.', 'denote.')
NAME = r"[^\s(){}.;,]"
KINDS = ('requires', 'answers')


def closed(text, at):
    """The place behind the bracket that closes the one at `at`."""
    depth = 0
    for i in range(at, len(text)):
        depth += {'(': 1, '{': 1, ')': -1, '}': -1}.get(text[i], 0)
        if depth == 0:
            return i + 1
    raise SystemExit(f'statements: a bracket is not closed: {text[at:at + 60]!r}')


def words(text):
    return ' '.join(text.split())


def used(text):
    """The module that each name of a file is brought in from, or that it stands for."""
    return {name.strip(): module for module, names in USED.findall(text) + RENAMED.findall(text) for name in names.split(',')}


class Function:
    """A public function: its name, its parameters that are lent to be changed, its result's type, its clauses."""

    def __init__(self, crate, text, match):
        self.crate, self.name, self.used = crate, match.group(1), used(text)
        at = text.index('(', match.end())
        end = closed(text, at)
        parameters = text[at + 1:end - 1]
        self.lent = re.findall(r"(\w+)\s*:\s*&\s*(?:'\w+\s+)?mut\b", parameters)
        result = RESULT.match(text, end)
        self.result = result.group(1).strip() if result else ''
        at = result.end() if result else end
        self.clauses = []
        while True:
            clause = CLAUSE.match(text, at)
            if not clause:
                return
            at = closed(text, clause.end())
            self.clauses.append((clause.group(1), text[clause.end() + 1:at - 1]))

    @property
    def full(self):
        return f'{self.crate}::{self.name}'

    def asks(self):
        return any(kind == 'requires' for kind, _ in self.clauses)

    def ensured(self):
        return [body for kind, body in self.clauses if kind == 'ensures']

    def premise(self, second):
        """The contract as a theorem has it: of the first outcome, or of the second."""
        body = re.sub(rf'(?<!{NAME})result(?!{NAME})', 'r₂' if second else 'r', self.ensured()[0])
        body = re.sub(rf'(?<!{NAME})(\w+)\.new(?!{NAME})', r'\1₂' if second else r"\1'", body)
        # A contract that tells a place speaks of the references themselves, any other of what they point to.
        if re.search(r'\w\.entry\b', body):
            body = re.sub(r'(\w+)\.entry\b', r'\1', body)
        else:
            body = re.sub(rf'(?<!{NAME})(?!r\.|r₂\.)(\w+)\.(?:now|old)(?!{NAME})', r'\1', body)
        return words(body)

    def meanings(self):
        """The names of the contract that are brought in, and from where."""
        found = set(re.findall(r"[^\s(){}]+", ' '.join(self.ensured())))
        found |= {name.split('.')[0] for name in found}
        return {name: module for name, module in self.used.items() if name.strip('◌') in found}

    def conclusion(self):
        parts = ['r ≡ r₂'] if self.result else []
        if self.result.startswith('&'):
            placed = re.search(rf'(?<!{NAME})r(?![\w₂.])', self.premise(False))
            parts = ['r.now ≡ r₂.now', 'r.ref_ptr ≡ r₂.ref_ptr'] if placed else ['r.now ≡ r₂.now']
        parts += [f"{name}' ≡ {name}₂" for name in self.lent]
        return parts[0] if len(parts) == 1 else ' × '.join(f'({part})' for part in parts)

    def theorem(self):
        """Its name joins the function's words by dashes, or is in snake case where the library has such a name."""
        return {self.name.replace('_', '-') + '-one', self.name + '_one'}


class Conversion(Function):
    """A `From`: what it is of and what it gives, and its clause."""

    def __init__(self, crate, text, match):
        self.crate, self.used, self.lent = crate, used(text), []
        self.of, self.result = match.groups()
        self.name = f'{self.result}::from({self.of})'
        gives = GIVES.match(text, match.end())
        self.given, body = (gives.group(2), gives.group(3)) if gives else ('', '')
        self.clauses = [('ensures', body)] if gives else []

    def premise(self, second):
        return words(re.sub(rf'(?<!{NAME}){self.given}(?!{NAME})', 'r₂' if second else 'r', self.ensured()[0]))

    def theorem(self):
        return {'-'.join([*re.findall(r'\w+', self.result), 'from', *re.findall(r'\w+', self.of), 'one']).lower()}


def code(path):
    return re.sub(r'//[^\n]*', '', path.read_text(encoding='utf8'))


def functions():
    for path in sorted((ROOT / 'crates').glob('*/src/*.rt')):
        if path.stem not in ('lib', 'main') and not re.search(rf'\bpub mod {path.stem};', code(path.parent / 'lib.rt')):
            continue
        text = code(path)
        for match in PUBLIC.finditer(text):
            yield Function(path.parts[-3], text, match)
        for match in CONVERSION.finditer(text):
            yield Conversion(path.parts[-3], text, match)


def theorems(crate):
    """The statements of a crate's proofs/One.antt, by name."""
    path = ROOT / 'crates' / crate / 'proofs' / 'One.antt'
    if not path.exists():
        return {}
    if not re.search(r'^pub mod One$', (path.parent / 'Lib.antt').read_text(encoding='utf8'), re.M):
        raise SystemExit(f'statements: {path.parent / "Lib.antt"} does not name One')
    text = re.sub(r'(?m)^--.*\n', '', path.read_text(encoding='utf8'))
    found = re.findall(r'(?ms)^pub ([\w-]+) :(.*?)(?=^\S)', text)
    return {name: (words(statement), used(text)) for name, statement in found}


def states_one(function, statement, meanings):
    """Does the statement say of this function's contract that one outcome fits it?"""
    if len(function.ensured()) != 1:
        return False
    # What a contract takes from the kit's Prelude, a theorem may take from the module of the kit that the Prelude has it from.
    for name, module in function.meanings().items():
        there = meanings.get(name, '')
        if there != module and not (module.startswith(LIBRARY) and there.startswith(KIT)):
            return False
    first, second = function.premise(False), function.premise(True)
    if ' × ' in first:
        first, second = f'({first})', f'({second})'
    return statement.endswith(f'→ {first} → {second} → {function.conclusion()}')


def exceptions():
    listed = {}
    path = ROOT / 'docs' / 'EXCEPTIONS.txt'
    for line in path.read_text(encoding='utf8').splitlines() if path.exists() else []:
        line = line.split('#')[0].strip()
        if not line:
            continue
        parts = line.split(': ', 2)
        if len(parts) != 3 or parts[1] not in KINDS or not parts[2].strip():
            raise SystemExit(f'statements: docs/EXCEPTIONS.txt: not `crate::function: requires|answers: grounds`: {line}')
        listed[(parts[0], parts[1])] = parts[2]
    return listed


def main():
    if len(sys.argv) > 1:
        print('usage: tests/statements.py', file=sys.stderr)
        return 2
    listed = exceptions()
    used, wrong, seen, proved, named = set(), [], 0, 0, {}
    for function in functions():
        seen += 1
        named.setdefault(function.crate, set()).update(function.theorem())
        if not function.ensured():
            wrong.append(f'{function.full}: states no result')
            continue
        if function.asks():
            if (function.full, 'requires') in listed and function.crate not in CALLED_FROM_OUTSIDE:
                used.add((function.full, 'requires'))
            else:
                wrong.append(f'{function.full}: has a requires')
        known = theorems(function.crate)
        name = next((name for name in sorted(function.theorem()) if name in known), None)
        theorem = known.get(name)
        if theorem and states_one(function, *theorem):
            proved += 1
        elif theorem:
            wrong.append(f'{function.full}: {name} does not say of its contract that one outcome fits')
        elif (function.full, 'answers') in listed and function.crate not in CALLED_FROM_OUTSIDE:
            used.add((function.full, 'answers'))
        else:
            wrong.append(f'{function.full}: no theorem says that one outcome fits its contract')
    for path in sorted((ROOT / 'crates').glob('*/proofs/One.antt')):
        crate = path.parts[-3]
        wrong += [f'{crate}: {name} is the theorem of no public function' for name in sorted(set(theorems(crate)) - named.get(crate, set()))]
    wrong += [f'{name}: listed in docs/EXCEPTIONS.txt for {kind}, and needs no exception' for name, kind in sorted(set(listed) - used)]
    for line in wrong:
        print(line)
    print(f'{seen} public functions, {proved} with one outcome by a theorem, {len(used)} listed exceptions, {len(wrong)} faults')
    return 1 if wrong else 0


if __name__ == '__main__':
    sys.exit(main())
