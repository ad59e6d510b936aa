#!/usr/bin/env python3
"""Turns a crate's proofs by hand (proofs/F/Proof.antt, `tie.close (tie.spec ..)`) into Invariants.antt and Answers.antt, goal by goal under the names of this kit.

usage: tools/answers.py CRATE NAMES.json [FUNCTION..]

NAMES.json is what `rt check --generated FOLDER --old-names` writes in the crate's folder. An answer that is only `search rules` goes, as the check finds it alone.
Where a file has another number of answers than the function has goals, it is left and named. Was used once, for the port to this kit.
"""
import json
import os
import re
import sys

TOKEN = re.compile(r"[^\s(){};,@\"«»]+")
OPEN, CLOSE = '({[', ')}]'


def split_terms(text):
    """The parenthesised or bare terms that stand beside one another at the top of a text."""
    out, depth, cur = [], 0, ''
    for ch in text:
        if ch in OPEN:
            depth += 1
        if ch in CLOSE:
            depth -= 1
        if ch.isspace() and depth == 0:
            if cur:
                out.append(cur)
            cur = ''
        else:
            cur += ch
    if cur:
        out.append(cur)
    return out


class Names:
    def __init__(self, table):
        self.parent, self.step, self.arms, self.order, self.callee = {}, {}, {}, [], {}
        for entry in table['places']:
            place, parent, (old, new) = entry[0], entry[1], entry[2]
            self.parent[place] = parent
            self.step[place] = (old, new)
            self.order.append(place)
            self.callee[place] = entry[3]
        for place, arm in zip(self.order, table['arms']):
            if arm:
                for field, at, path in arm[2]:
                    self.arms[(at, tuple(path))] = (arm[0], field)
        self.args = {}
        for row in table['args']:
            for old, new in [row] if isinstance(row[0], str) else row:
                self.args[old.replace(' ', '')] = new.replace(' ', '')

    def up(self, place):
        while place is not None:
            yield place
            place = self.parent.get(place)


def plain(step):
    # the kit's script and ours turned a few steps that are spelled like names of a library or of ours
    return re.sub('_lem$', '', step.replace('-', '_')).lower()


def resolve(path, names, place, said, start=None):
    """A path of an old proof, behind its first name, as this kit spells it."""
    start = start or place
    segs = [re.sub('^well-formed$', 'well_formed', s) for s in path.split('.')[1:]]
    while segs and segs[0] == 'before':
        place = names.parent.get(place)
        if place is None:
            said.append(f'too many .before in {path}')
            place = names.order[0]
        segs = segs[1:]
    if not segs:
        return None, place
    head = segs[0]
    # the places up from here: the step with that name
    at, found = place, None
    if not any(names.step[p][0] and plain(names.step[p][0]) == plain(head) for p in names.up(place)):
        # today's chain of steps may be another
        at = start
    while at is not None:
        old = names.step[at][0]
        if old and plain(old) == plain(head):
            found = names.step[at]
            rest_of = names.callee[at]
            break
        at = names.parent.get(at)
    rest = segs[1:]
    if found:
        head = found[0]
        if rest_of and len(rest) > 1 and rest[0] == 'ensures' and rest[1].isdigit():
            rest = ['ensures'] + clause_at(rest_of, rest[1:])
    for n in range(len(rest), -1, -1):
        key = (head, tuple(rest[:n]))
        if key in names.arms:
            arm, field = names.arms[key]
            return '.'.join(['', arm, field] + rest[n:]), place
    if head in ('args', 'ranges') and rest:
        new = names.args.get('.' + head + '.' + rest[0])
        if new:
            return '.'.join([new] + rest[1:]), place
    if found:
        return '.'.join(['', found[1]] + rest), place
    return '.'.join([''] + segs), place


def turn_body(body, names, place, said, var='c'):
    aliases = {var: place}
    texts = {}

    # lets that only name a place or a step: told by what they stand for
    def one(m):
        word = m[0]
        head = word.split('.')[0]
        if m.start() and body_now[m.start() - 1] in '.':
            return word
        if head in aliases:
            new, at = resolve(word, names, aliases[head], said, place)
            return 'c' + (new or '')
        if head in texts:
            path, at = texts[head]
            return 'c' + resolve(path + word[len(head):], names, at, said, place)[0]
        return word

    while True:
        m = re.search(r"let (\S+) = ((?:\w[\w'-]*)(?:\.[\w'+-]+)+) in\s*", body)
        if not m:
            break
        name, path = m[1], m[2]
        head = path.split('.')[0]
        if head not in aliases:
            break
        new, at = resolve(path, names, aliases[head], said, place)
        before = body[:m.start()]
        after = body[m.end():]
        if new is None:
            aliases[name] = at
        else:
            texts[name] = (path, aliases[head])
        body = before + after
        # what else the alias was used for stays under its name until the end
    body_now = body
    return TOKEN.sub(one, body)


def paren(text):
    text = text.strip()
    while text.startswith('(') and text.endswith(')') and len(split_terms(text)) == 1:
        text = text[1:-1].strip()
    return text


def parse(text):
    """The heading comment, the use lines, the other declarations, each as (name, signature, unfolding, body)."""
    lines = text.rstrip('\n').split('\n')
    head, uses, decls = [], [], []
    i = 0
    while i < len(lines) and (lines[i].startswith('--') or not lines[i]):
        if lines[i]:
            head.append(lines[i])
        i += 1
    comment = []
    while i < len(lines):
        l = lines[i]
        if l.startswith('use '):
            uses.append(l)
            i += 1
            continue
        if l.startswith('--'):
            comment.append(l)
            i += 1
            continue
        if not l:
            i += 1
            continue
        block = [l]
        i += 1
        while i < len(lines) and lines[i] and not lines[i].startswith('use '):
            block.append(lines[i])
            i += 1
        decls.append((comment, block))
        comment = []
    return head, uses, decls


def convert(crate, path, table):
    """path: the function's folder below proofs/."""
    folder = os.path.join('crates', crate, 'proofs', path)
    with open(os.path.join(folder, 'Proof.antt'), encoding='utf-8') as f:
        text = f.read()
    names = Names(table)
    module = 'Rattle.' + crate + '.proofs.' + path.replace('/', '.')
    head, uses, decls = parse(text)
    uses = [u for u in uses if not re.search(r'\.(Statement\.\{statement\}|Tie as tie)$', u)]
    own, spec, others = {}, None, []
    for comment, block in decls:
        first = block[0]
        m = re.match(r'^(?:abbrev |pub |unfoldable )*(\S+) : tie\.(\S+)(?: .*)?$', first)
        if m:
            own[m[1]] = (m[2], comment, block)
        elif re.search(r': \{M : Type 1\} → statement M$', first):
            spec = block
        else:
            others.append((comment, block))
    if spec is None:
        return 'no statement'
    unfolding = [l for l in spec[1:] if l.startswith('unfolding ')]
    rest = '\n'.join(l for l in spec[1:] if not l.startswith('unfolding '))
    body = rest.split('=', 1)[1].strip()
    lets = ''
    m = re.match(r'^(.*?)tie\.close\s*(.*)$', body, re.S)
    if not m:
        return 'no tie.close'
    if m[1].strip():
        return 'before tie.close: ' + m[1].strip()[:80]
    inner = paren(m[2])
    searched = inner.startswith('search (tie.spec')
    if not searched and not inner.startswith('tie.spec'):
        return 'no tie.spec'
    loops = table['loops']
    n = 2 * len(loops)
    if searched:
        # the check finds the rest
        by_old = {old: new for old, new in table['needs']}
        wanted = {it[0].replace('_', '-'): name for name, it in own.items()}
        terms = []
        for (old, new), _ in loops:
            for kind in ('invariant', 'decreases'):
                terms.append(wanted.get(f'{kind}-{old}'.replace('_', '-')))
        for old, new in table['needs']:
            terms.append(wanted.get('Need-' + old.replace('_', '-')) or '(λ c. search rules)')
        left = [k for k in wanted if k.startswith('Need-') and k[5:] not in [o.replace('_', '-') for o in by_old]]
        if left or None in terms:
            return f'goals {left} not among {sorted(by_old)}, {terms}'
        unfolding = []
    else:
        terms = split_terms(inner[len('tie.spec'):])
    if len(terms) - n != len(table['needs']):
        return f"{len(terms) - n} answers, {len(table['needs'])} goals: {[a for a, b in table['needs']]}"
    said = []
    # invariants and measures
    given = []
    for i, ((old, new), variables) in enumerate(loops):
        changed = table['changed'][i]
        for kind, term in (('invariant', terms[2 * i]), ('decreases', terms[2 * i + 1])):
            if term not in own:
                return f'{kind} {term} is not a name'
            block = own[term][2]
            lines = [l for l in block[1:] if not l.startswith('unfolding ')]
            if len(lines) != len(block) - 1:
                return f'{kind} {term} unfolds'
            joined = '\n'.join(lines)
            left, right = joined.split(' = ', 1) if ' = ' in joined else joined.split(' =\n', 1)
            params = left.split()[1:]
            wanted = [(v, c) for v, c in zip(variables, changed)]
            fields = ['l.' + ('initial.' if c else '') + v for v, c in wanted] + ['l.' + v for v, c in wanted if c]
            if len(params) != len(fields):
                return f'{kind}: {params} for {fields}'
            by = dict(zip(params, fields))

            def one(m):
                h = m[0].split('.')[0]
                return by[h] + m[0][len(h):] if h in by else m[0]

            given.append((f'{kind}-{new}', own[term][1], TOKEN.sub(one, right.rstrip())))
    answers = []
    for term, (old, new), (place, _) in zip(terms[n:], table['needs'], table['asked_at']):
        unfold = list(unfolding)
        if term in own:
            block = own[term][2]
            unfold = [l for l in block[1:] if l.startswith('unfolding ')]
            joined = '\n'.join(l for l in block[1:] if not l.startswith('unfolding '))
            left, right = re.split(r' =\s', joined, maxsplit=1)
            pattern = left.split()[1:]
            right = right.strip()
        else:
            term = paren(term)
            m = re.match(r'^λ ([^.]*)\.\s*(.*)$', term, re.S)
            if not m:
                return f'answer {new}: {term[:60]}'
            pattern, right = m[1].split(), m[2].strip()
        plain = right == 'search rules'
        if plain and (not unfold or not new.startswith('returns')):
            continue
        if right == 'tt':
            continue
        right = turn_body(right, names, place, said, pattern[0])
        right = re.sub(r'(c\.args\.\w+)\.ptr\b', r'\1.ref_ptr', right)
        # a test of `!x` tells of x itself now
        right = re.sub(r'not-(?:true|false) [^\s()]+ (c\.if-not-[^\s(),]+\.(?:true|false))', r'\1', right)
        right = by_clauses(right, new, path.split('/')[-1])
        answers.append((new, pattern, unfold, right))
    heading = '\n'.join(head) + '\n' if head else ''
    if given:
        used = '\n'.join(g[2] for g in given)
        lines = [u for u in (keep_used(u, used) for u in uses) if u]
        out = heading + ''.join(l + '\n' for l in lines) + f'use {module}.Given as goal\n'
        for name, comment, right in given:
            out += '\n' + ''.join(c + '\n' for c in comment) + f'abbrev pub {name} : goal.{name}\n{name} l = {right}\n'
        with open(os.path.join(folder, 'Invariants.antt'), 'w', encoding='utf-8') as f:
            f.write(out)
    if answers or others:
        body = '\n'.join(' '.join([*u, r]) for _, _, u, r in answers) + '\n' + '\n'.join('\n'.join(b) for _, b in others)
        lines = [u for u in (keep_used(u, body) for u in uses) if u]
        out = heading + ''.join(l + '\n' for l in lines) + f'use {module}.Goals as goal\n'
        for comment, block in others:
            out += '\n' + ''.join(c + '\n' for c in comment) + '\n'.join(block) + '\n'
        for new, pattern, unfold, right in answers:
            sep = '\n    ' if '\n' in right or len(right) > 100 else ' '
            args = 'c'
            out += f'\npub {new} : goal.{new}\n' + ''.join(u + '\n' for u in unfold) + f'{new} {args} ={sep}{right}\n'
        with open(os.path.join(folder, 'Answers.antt'), 'w', encoding='utf-8') as f:
            f.write(out)
    os.remove(os.path.join(folder, 'Proof.antt'))
    return ('ok, look: ' + '; '.join(said)) if said else 'ok'


CLAUSES = {}


def clause_at(callee, numbers):
    """The name of the clause that the numbers of nested pairs point to."""
    if not CLAUSES:
        clauses()
    parts = callee.split('::')
    found = CLAUSES.get((parts[0], parts[-1], 'ensures'))
    if not found:
        return numbers
    at, i = 0, 0
    while i < len(numbers) and numbers[i] == '1' and at < len(found) - 1:
        at += 1
        i += 1
    if at < len(found) - 1:
        if i < len(numbers) and numbers[i] == '0':
            i += 1
        else:
            return numbers
    return [found[at]] + numbers[i:]


def clauses():
    """Of each function of src/ the names of its requires and its ensures, where it has more than one of a kind."""
    for folder, dirs, fs in os.walk('crates'):
        dirs[:] = [d for d in dirs if d != 'out']
        for f in fs:
            if not f.endswith('.rt'):
                continue
            with open(os.path.join(folder, f), encoding='utf-8') as it:
                text = re.sub(r'//.*', '', it.read())
            for m in re.finditer(r'\bfn (\w+)(.*?)\n *\{\n', text, re.S):
                for kind in ('requires', 'ensures'):
                    found = re.findall(kind + r'\*? (\w+) \{', m[2])
                    if found:
                        CLAUSES[(m[1], kind)] = CLAUSES[(folder.split('/')[1], m[1], kind)] = found


def by_clauses(right, goal, own):
    """A tuple for several named clauses as a record of them."""
    if not CLAUSES:
        clauses()
    if goal.startswith('returns'):
        found = CLAUSES.get((own, 'ensures'))
    elif re.search(r'-requires(-|$)', goal):
        found = CLAUSES.get((re.match(r'(\w+)', goal)[1], 'requires'))
    else:
        return right
    if not found:
        return right
    # behind the lets
    at = 0
    for m in re.finditer(r'\bin\b', right):
        if right[:m.end()].count('(') == right[:m.end()].count(')') and right.lstrip().startswith('let'):
            at = m.end()
    head, term = right[:at], right[at:].strip()
    flat = []
    while True:
        if not (term.startswith('(') and term.endswith(')') and len(split_terms(term)) == 1):
            if term.startswith('record') or term == 'search rules' or len(found) != 2:
                return right
            # a lemma that gives both
            return (head + ' ' if head else '') + f'let both = {term} in record {{ {found[0]} = both.0; {found[1]} = both.1 }}'
        parts, depth, cur = [], 0, ''
        for ch in term[1:-1]:
            depth += (ch in OPEN) - (ch in CLOSE)
            if ch == ',' and depth == 0:
                parts.append(cur.strip())
                cur = ''
            else:
                cur += ch
        if cur.strip():
            parts.append(cur.strip())
        break
    if len(parts) == 2 and len(found) > 2:
        # nested to the right
        while len(parts) < len(found) and parts[-1].startswith('('):
            inner, depth, cur = [], 0, ''
            for ch in parts[-1][1:-1]:
                depth += (ch in OPEN) - (ch in CLOSE)
                if ch == ',' and depth == 0:
                    inner.append(cur.strip())
                    cur = ''
                else:
                    cur += ch
            if cur.strip():
                inner.append(cur.strip())
            if len(inner) < 2:
                break
            parts = parts[:-1] + inner
    if len(parts) != len(found):
        return right
    return (head + ' ' if head else '') + 'record { ' + '; '.join(f'{n} = {p}' for n, p in zip(found, parts)) + ' }'


def keep_used(use, text):
    """The import with the names that the text has, or None."""
    m = re.match(r'^use (\S+?)\.\{(.*)\}$', use)
    words = set()
    for t in TOKEN.findall(text):
        words.add(t)
        for part in t.split('.'):
            words.add(part)
    if not m:
        name = use.split()[-1]
        return use if name.split('.')[-1] in words else None
    kept = []
    for item in m[2].split(', '):
        name = item.split(' as ')[-1].strip()
        if name in words or '◌' in name and all(w in words or w in text for w in name.split('◌') if w):
            kept.append(item)
    return f'use {m[1]}.{{{", ".join(kept)}}}' if kept else None


def main():
    crate, table = sys.argv[1], json.load(open(sys.argv[2], encoding='utf-8'))
    wanted = sys.argv[3:]
    base = os.path.join('crates', crate, 'proofs')
    for folder, dirs, fs in sorted(os.walk(base)):
        if 'Proof.antt' not in fs:
            continue
        path = os.path.relpath(folder, base)
        if wanted and path not in wanted:
            continue
        key = f'Rattle-{crate}-proofs.{path.replace("/", ".")}.Lts'
        if key not in table:
            print(f'{crate} {path}: not in the table')
            continue
        try:
            r = convert(crate, path, table[key])
        except Exception as e:
            r = f'failed: {type(e).__name__} {e}'
        if r != 'ok':
            print(f'{crate} {path}: {r}')


if __name__ == '__main__':
    main()
