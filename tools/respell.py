#!/usr/bin/env python3
"""Brings this repository's own definitions and lemmas to the spelling of the kit that it was ported to.

usage: tools/respell.py        at the top of the repository, once, after the kit's own port.py

What a file of specs/ or proofs/ declares goes from someName and some-lemma to some_name and some_lemma; types, modules, goals that Rattle names, and functions of
src/ keep theirs. A lemma that would get the name of a definition gets _lem behind it. Turned: .antt and .rt files, and the texts of must-fail edits.
"""
import collections
import os
import re
import sys

TOKEN = re.compile(r'[^\s(){}.;,@"«»:]+')
SIGNATURE = re.compile(r'^(\s*)((?:abbrev |unfoldable |opaque |pub )*)([^\s(){}.;,@"«»:]+)((?: [^\s(){}.;,@"«»:]+)*) : (.*)$')
TYPE = re.compile(r'^\s*(?:pub )?(?:data|record|enum) (?:pub )?(\S+)')
# Lemmas that the kit's script gave a spelling that a definition beside them gets here.
GIVE_WAY = ('in_image', 'is_one', 'no_number', 'no_room', 'offset_read')
MADE = re.compile(r'^(?:goal|tie)\.')


def files(*kinds):
    for folder, dirs, names in os.walk('crates'):
        dirs[:] = sorted(d for d in dirs if d != 'out')
        for name in sorted(names):
            if name.endswith(kinds):
                yield os.path.join(folder, name)


def snake(name):
    # `notADate` has a word of one letter; the first run spelled such names not_aDate, and they were mended after it
    name = re.sub(r'([a-z0-9])A([A-Z])', lambda m: m[1] + '_a_' + m[2].lower(), name)
    name = re.sub(r'([a-z0-9])([A-Z])', lambda m: m[1] + '_' + m[2].lower(), name)
    return name.replace('-', '_')


def declared():
    """Each name that turns, with the kinds of file that declare it ('specs', 'proofs'), and the fields of records among them."""
    where, fields, every, every_field = collections.defaultdict(set), set(), collections.defaultdict(set), set()
    for path in files('.antt'):
        kind = path.split('/')[2]
        in_record = None
        with open(path, encoding='utf-8') as f:
            for line in f:
                if line.strip().startswith('--') or not line.strip():
                    continue
                indent = len(line) - len(line.lstrip())
                if in_record is not None and indent <= in_record:
                    in_record = None
                if TYPE.match(line):
                    in_record = indent
                    every[TYPE.match(line)[1]].add(path)
                    continue
                m = SIGNATURE.match(line)
                if not m or m[3] in ('use', 'module', 'let', 'λ', '→') or m[3].startswith('--'):
                    continue
                for name in (m[3] + m[4]).split(' '):
                    if not re.match(r"^[\w'+-]+$", name) or MADE.match(m[5]):
                        continue
                    every[name].add(path)
                    if in_record is not None:
                        every_field.add(name)
                    if name[0].isupper() and '-' not in name:
                        continue
                    if snake(name) != name:
                        where[name].add(kind)
                        if in_record is not None:
                            fields.add(name)
    return where, fields, every, every_field


def table():
    where, fields, every, every_field = declared()
    new = {}
    taken = collections.defaultdict(set)
    for name in where:
        taken[snake(name)].add(name)
    for to, names in sorted(taken.items()):
        others = {n for n in names} | ({to} if to in every else set())
        for name in names:
            new[name] = to
        if len(others) > 1:
            # A lemma gives way to a definition, and of two in one kind of file the one that was spelled with dashes.
            camel = [n for n in names if '-' not in n]
            lemmas = [n for n in names if where[n] == {'proofs'}]
            keep = [n for n in others if n not in lemmas] or camel
            way = [n for n in names if n not in keep]
            if len(keep) > 1 and camel:
                way += [n for n in keep if n not in camel and n != to]
            for n in way:
                new[n] = to + '_lem'
    for name in GIVE_WAY:
        new[name] = name + '_lem'
        if name in every_field:
            fields.add(name)
    return new, fields


def turn_code(text, new, fields):
    def one(m):
        word = m[0]
        bare = word.rstrip("'")
        to = new.get(word) or (new.get(bare) and new[bare] + word[len(bare):])
        if not to:
            return word
        if text[m.start() - 1:m.start()] == '.':
            before = re.search(r"([^\s(){}.;,@\"«»:]+)\.$", text[:m.start()][-200:])
            if not (before and before[1][0].isupper()) and word not in fields:
                return word
        return to
    return TOKEN.sub(one, text)


def turn_comment(text, new):
    text = re.sub(r'`[^`\n]*`', lambda m: turn_code(m[0][:1] + m[0][1:-1] + m[0][-1:], new, set()) if '-' in m[0] else m[0], text)
    return re.sub(r"[A-Za-z][\w']*", lambda m: new.get(m[0], m[0]) if re.search('[a-z][A-Z]', m[0]) else m[0], text)


def turn(text, mark, new, fields):
    out = []
    for line in text.split('\n'):
        at = re.search(r'(?<!\S)' + mark, line)
        code, comment = (line[:at.start()], line[at.start():]) if at else (line, '')
        out.append(turn_code(code, new, fields) + turn_comment(comment, new))
    return '\n'.join(out)


def main():
    if os.path.exists('docs/PORT.md'):
        sys.exit('respell: the names here are turned already')
    new, fields = table()
    for path in files('.antt', '.rt', '.edit'):
        with open(path, encoding='utf-8') as f:
            text = f.read()
        mark = '//' if path.endswith('.rt') or path.endswith('.edit') and 'file: src/' in text else '--'
        turned = turn(text, mark, new if '.antt' in path or 'file: proofs/' in text or 'file: specs/' in text else {n: to for n, to in new.items() if n not in GIVE_WAY}, fields)
        if turned != text:
            with open(path, 'w', encoding='utf-8') as f:
                f.write(turned)
    if '--table' in sys.argv:
        for name, to in sorted(new.items()):
            print(f'{name}\t{to}')


if __name__ == '__main__':
    main()
