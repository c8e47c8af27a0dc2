#!/usr/bin/env python3
"""Brings the repository's own names to snake_case (types to CamelCase). Run at the top of the checkout, no arguments.

Own names are those that crates/*/{specs,proofs}/**/*.antt declare. What a file imports from the kit keeps its spelling there, and so does
what the checker generates (Need-.., invariant-.., decreases-.., F-spec in proofs/F/Proof.antt). It is for the tree as port.py leaves it, and stops where
proofs of functions are in the new form already: their goals have hyphens in their names.
"""
import glob
import os
import re
import sys
from collections import defaultdict

# Lemmas and fields that would take the name of the definition of which they speak, both being in one file's scope
# (`zone-end` speaks of `zoneEnd`, which becomes `zone_end`): they end in `_law`.
LAWS = """
    after-checks after-follow blank-map blank-record changes-from claim-lines cross-mended first-zone fragment-then
    free-found free-spans free-sweep held-lines holder-number id-of in-turn in-zone is-empty is-whole last-from
    length-fits length-told location-read lowest-id map-A most-zones object-read own-pieces owners-fit pairs-fit
    pairs-in place-lines record-fits record-put release-lines with-room zone-after zone-checks zone-drawn zone-end
    zone-from zone-pieces zones-read
""".split()
EXCEPTIONS = {name: name.lower().replace('-', '_') + '_law' for name in LAWS}
# a field of StationLaws is `cut_off`, and speaks of this definition
EXCEPTIONS['cutOff'] = 'cut_off_copies'
# a local definition by which fields `in_order` are shown
EXCEPTIONS['inOrder'] = 'in_order_pairs'
# Lemmas that are snake_case already and whose name a definition of the same file's scope is about to take: they end in `_law` as well.
# Only while that definition (at the right) has its old spelling, so that a second run leaves it alone.
TAKEN = {
    'cross_at': 'crossAt',
    'first_bit': 'firstBit',
    'first_taken': 'firstTaken',
    'holes_in': 'holesIn',
    'length_found': 'lengthFound',
    'map_read': 'mapRead',
    'none_touch': 'noneTouch',
    'pair_fits': 'pairFits',
    'too_long': 'tooLong',
}
# (file, old name) -> new name: the same for a name declared and used in one file
LOCAL_EXCEPTIONS = {
}

DELIM = r'\s.(){},;"`\[\]'
TOKEN = re.compile(r'[^' + DELIM + r']+')
WORD = re.compile(r"[^" + DELIM + r"/:|*]+")  # in the backticks of a comment or document, where a path may stand
CRATES = sorted(os.path.basename(p.rstrip('/')) for p in glob.glob('crates/*/'))
GENERATED = re.compile(r'Rattle\.\w+\.(specs\.declared\b|proofs\.\w+\.(Tie|Statement|Lts|Goals|Given)\b)')
LOWER = re.compile(r'[a-z]')


def read(path):
    with open(path, encoding='utf-8') as f:
        return f.read()


def snake(name):
    if name[0].isupper():
        return ''.join(part[:1].upper() + part[1:] for part in re.split(r'[-_]', name))
    name = name.replace('-', '_')
    name = re.sub(r'([a-z0-9₀-₉])([A-Z])', r'\1_\2', name)
    name = re.sub(r'([A-Z]+)([A-Z][a-z])', r'\1_\2', name)
    return name.lower()


def odd(name):
    """an identifier whose spelling is not today's"""
    if not re.match(r'[A-Za-z]', name):
        return False
    if name[0].isupper():
        return '-' in name or '_' in name
    return '-' in name or re.search('[A-Z]', name) is not None


def code(line):
    """what stands before the comment of an antt line"""
    m = re.search(r'(^|\s)--(\s|$)', line)
    return line[:m.start()] if m else line


DECLARED = re.compile(r'^\s*(?:(?:pub|abbrev|unfoldable|private|opaque|instance)\s+)*(data\s+|record\s+)?([^' + DELIM + r']+)(.*?)(?:\s:|\s=|$)')


def declarations(text):
    """(name, kind) of what a text declares: type, field, constructor, word"""
    out = []
    blocks = []  # (indent, kind)
    for line in text.split('\n'):
        line = code(line)
        if not line.strip():
            continue
        indent = len(line) - len(line.lstrip())
        while blocks and indent <= blocks[-1][0]:
            blocks.pop()
        m = re.match(r'\s*(?:pub\s+)?(data|record)\s+([^' + DELIM + r']+)', line)
        if m and line.rstrip().endswith('where'):
            blocks.append((indent, m.group(1)))
            out.append((m.group(2), 'type'))
            continue
        if m and m.group(1) in ('data', 'record') and m.group(2)[0].isupper():
            out.append((m.group(2), 'type'))
            blocks.append((indent, m.group(1)))
            continue
        m = re.match(r'\s*((?:(?:pub|abbrev|unfoldable|private|opaque)\s+)*)([^' + DELIM + r']+(?:\s+[^' + DELIM + r']+)*?)(?:\s+[({][^(){}]*[)}])*\s+:(\s|$)', line)
        if not m:  # a long type that begins in the next line, or binders that hold brackets
            m = re.match(r'((?:\s*)(?:(?:pub|abbrev|unfoldable|private|opaque)\s+)+)([^' + DELIM + r']+)', line)
        if not m:
            continue
        names = m.group(2).split()
        if names[0] in ('let', 'λ', 'use', 'module', 'in', 'case', 'rw', 'simp', 'omega', '=', '∙', '→', '×'):
            continue
        if len(names) > 1 and not blocks:
            continue
        kind = {'record': 'field', 'data': 'constructor'}[blocks[-1][1]] if blocks else 'word'
        for n in names:
            out.append((n, kind))
    return out


BINDERS = [
    re.compile(r'[({]((?:[^' + DELIM + r']+\s+)+):\s'),
    re.compile(r'\blet\s+([^' + DELIM + r']+)\s'),
    re.compile(r'λ\s+((?:[^' + DELIM + r']+\s*)+)\.'),
]


def binders(text):
    out = set()
    body = '\n'.join(code(l) for l in text.split('\n'))
    for b in BINDERS:
        for m in b.finditer(body):
            out.update(m.group(1).split())
    return out


USE = re.compile(r'\buse\s+([^\s{;]+?)\.?(?:\{([^}]*)\}|\s+as\s+[^\s;]+|(?=[\s;]))')


def imports(text):
    """(path, names) of each use"""
    body = '\n'.join(code(l) for l in text.split('\n'))
    return [(m.group(1), [n.strip() for n in (m.group(2) or '').split(',') if n.strip()]) for m in USE.finditer(body)]


def own_path(path):
    return any(path == 'Rattle.' + c or path.startswith('Rattle.' + c + '.') for c in CRATES) and not GENERATED.match(path)


def is_proof(path):
    return path.endswith('/Proof.antt')


def exempt(path, text):
    """in proofs/F/Proof.antt: what another tool rewrites"""
    out = set()
    if not is_proof(path):
        return out
    folder = os.path.basename(os.path.dirname(path))
    for line in text.split('\n'):
        m = re.match(r'\s*(?:pub\s+)?(\S+)\s+:\s+(.*)', line)
        if m and (re.search(r'\btie\.(Need|invariant|decreases)\b', m.group(2)) or re.search(r'\bstatement\b', m.group(2))):
            out.add(m.group(1))
    out.add(folder.replace('_', '-') + '-spec')
    out.add(folder + '-spec')
    return out


class Names:
    def __init__(self):
        self.antt = sorted(glob.glob('crates/*/specs/**/*.antt', recursive=True) + glob.glob('crates/*/proofs/**/*.antt', recursive=True))
        self.rt = sorted(glob.glob('crates/*/src/**/*.rt', recursive=True))
        self.text = {p: read(p) for p in self.antt + self.rt}
        self.table = {}
        self.fields = set()
        self.local = defaultdict(dict)
        self.keep = {}
        for p in self.antt:
            t = self.text[p]
            ex = exempt(p, t)
            for name, kind in declarations(t):
                if kind == 'field':
                    self.fields.add(name)
                if name in ex or not odd(name):
                    continue
                new = LOCAL_EXCEPTIONS.get((p, name)) or EXCEPTIONS.get(name) or snake(name)
                if is_proof(p):
                    self.local[p][name] = new
                elif (p, name) in LOCAL_EXCEPTIONS:
                    self.local[p][name] = new
                else:
                    self.table[name] = new
            for name in binders(t):
                if odd(name) and name not in ex and name[0].islower():
                    self.local[p].setdefault(name, LOCAL_EXCEPTIONS.get((p, name)) or EXCEPTIONS.get(name) or snake(name))
        everything = set()
        for p in self.antt:
            everything.update(name for name, kind in declarations(self.text[p]))
        self.taken = {}
        for name, by in TAKEN.items():
            if name in everything and by in everything:
                self.taken[name] = name + '_law'
        SPELT.update(name for name in everything if not odd(name))
        SPELT.update(self.table.values())
        # names that a file imports although they are respelled where they are declared, its aliases and the variables of its clauses
        for p in self.antt + self.rt:
            t = self.text[p]
            for path, names in imports(t):
                if own_path(path):
                    for name in names:
                        if odd(name) and name[0].islower() and name not in self.table and snake(name) in SPELT:
                            self.local[p][name] = snake(name)
            for m in re.finditer(r'\bas\s+([a-z]\w*)', t):
                if p.endswith('.antt') and re.match(r'\s*use ', t[t.rfind('\n', 0, m.start()) + 1:m.start()]) and odd(m.group(1)):
                    self.local[p][m.group(1)] = snake(m.group(1))
            if p.endswith('.antt'):
                for m in re.finditer(r'^ *\w+ +([a-z][\w ]*[A-Z]\w*)', t, re.M):
                    for name in m.group(1).split():
                        if odd(name) and name[0].islower() and name not in self.table:
                            self.local[p].setdefault(name, snake(name))
        for p in self.antt + self.rt:
            kept = set(exempt(p, self.text[p]))
            for path, names in imports(self.text[p]):
                if not own_path(path):
                    kept.update(names)
            self.keep[p] = kept

    def map_of(self, p):
        m = dict(self.table)
        if p.endswith('.antt'):
            m.update(self.taken)
        m.update(self.local.get(p, {}))
        for k in self.keep.get(p, ()):
            m.pop(k, None)
        return m


STEP = re.compile(r'\.(ensures|result|auto|given|before|start|loop|requires|args|if\d)\b')


def rename(text, table, after_dot=None):
    if re.match(r'\s*pub mod ', text):
        return text

    def sub(m):
        t = m.group(0)
        if t not in table:
            return t
        if m.start() and text[m.start() - 1] == '.':
            before = re.search(r'[^\s(){},;]*$', text[:m.start()]).group(0)
            after = text[m.end():m.end() + 20]
            if before.startswith('Rattle.'):
                return t if after.startswith('.') else table[t]
            if after_dot is not None and (t not in after_dot or STEP.match(after)):
                return t
        return table[t]
    return TOKEN.sub(sub, text)


SPELT = set()  # every own name in today's spelling


def word(t, table):
    """a name in prose; also one whose declaration an earlier run or tool has respelled already"""
    if t in table:
        return table[t]
    return snake(t) if odd(t) and t[0].islower() and snake(t) in SPELT else t


def ticks(text, table):
    """names between the backticks of one line"""
    return re.sub(r'`[^`\n]+`', lambda m: re.sub(r'[^' + DELIM + r'/:|*]+', lambda w: word(w.group(0), table), m.group(0)), text)


def antt(text, table, after_dot=None):
    out = []
    for line in text.split('\n'):
        body = code(line)
        out.append(rename(body, table, after_dot) + ticks(line[len(body):], table))
    return '\n'.join(out)


RUST = re.compile(r'(//[^\n]*)|("(?:\\.|[^"\\])*"|b?\'(?:\\.|["])\')|((?:(?!//)(?!")(?!b?\'(?:\\.|")\')[\s\S])+)')


def rt(text, table):
    def sub(m):
        if m.group(1):
            return ticks(m.group(1), table)
        return m.group(2) or rename(m.group(3), table)
    return RUST.sub(sub, text)


def edits():
    return sorted(glob.glob('crates/*/must-fail/*.edit'))


def main():
    if glob.glob('crates/*/proofs/*/**/Answers.antt', recursive=True):
        sys.exit('names.py: proofs of functions are in the new form already; nothing was changed')
    n = Names()
    changed = {}
    for p in n.antt:
        dots = None
        if is_proof(p):
            dots = n.fields
        changed[p] = antt(n.text[p], n.map_of(p), dots)
    for p in n.rt:
        changed[p] = rt(n.text[p], n.map_of(p))
    for p in edits():
        crate = os.path.dirname(os.path.dirname(p))
        target = ''
        lines = read(p).split('\n')
        kind = ''
        for i, line in enumerate(lines):
            m = re.match(r'(file|old|new):', line)
            if m:
                kind = m.group(1)
                if kind == 'file':
                    target = os.path.normpath(os.path.join(crate, line[5:].strip()))
                    continue
            if not m or not target:
                lines[i] = ticks(line, n.table)
                continue
            table = n.map_of(target)
            for t in TOKEN.findall(line[4:]):
                if t not in n.keep.get(target, ()) and not is_proof(target):
                    table.setdefault(t, word(t, table))
            if target.endswith('.rt'):
                lines[i] = line[:4] + rt(line[4:], table)
            else:
                lines[i] = line[:4] + antt(line[4:], table, n.fields if is_proof(target) else None)
        changed[p] = '\n'.join(lines)
    for p in ['README.md'] + sorted(glob.glob('docs/*.md')):
        fence = False
        lines = read(p).split('\n')
        for i, line in enumerate(lines):
            if line.lstrip().startswith('```'):
                fence = not fence
            elif not fence:
                lines[i] = ticks(line, n.table)
        changed[p] = '\n'.join(lines)
    files = 0
    for p, t in sorted(changed.items()):
        if t != read(p):
            files += 1
            with open(p, 'w', encoding='utf-8') as f:
                f.write(t)
    print(f'{len(n.table)} names, {sum(len(v) for v in n.local.values())} names of one file, {files} files')


if __name__ == '__main__':
    main()
