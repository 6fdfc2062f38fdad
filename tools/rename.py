#!/usr/bin/env python3
"""Rewrites what moved: the imports of crates, and the words that they bring in.

    tools/rename.py [--dry] [--table FILE] [--root DIR] CRATE..

CRATE is the name of a crate or the path of its folder. The table (tools/renames.tsv) has a line `old<TAB>new` for each
module or word that moved or changed its name: `Rattle.ae_core.specs.Lines`, `Rattle.ae_core.specs.Sorts.or_else`,
`ae_core::laws`. The longest old path that fits decides. A second run changes nothing.
"""
import os
import re
import sys

HERE = os.path.dirname(os.path.abspath(__file__))
ROOT = os.path.dirname(HERE)


def read_table(path):
    table = {}
    with open(path, encoding='utf-8') as f:
        for line in f:
            line = line.rstrip('\n')
            if line and not line.startswith('#'):
                old, new = line.split('\t')
                table[old] = new
    return table


def moved(table, path, sep):
    """Where the path stands now: the longest entry that is the path or a front part of it decides."""
    for _ in range(9):
        parts = path.split(sep)
        for k in range(len(parts), 0, -1):
            front = sep.join(parts[:k])
            if front in table:
                path = sep.join([table[front]] + parts[k:])
                break
        else:
            return path
    return path


WORD = r'[^\s.,;:(){}\[\]`|λ]'


def token(name):
    return re.compile(r'(?<!' + WORD[:-1] + r"'])" + r'(?<!\.)' + re.escape(name) + r'(?!' + WORD[:-1] + r"'])")


USE = re.compile(r'^(?P<lead>[ \t]*(?:pub )?(?:ghost )?use )(?P<path>Rattle\.[^\s;{}]+?)(?:\.\{(?P<names>[^}\n]*)\})?(?: as (?P<alias>[^\s;]+))?(?P<end>;?)[ \t]*$')


def split_names(text):
    return [n.strip() for n in text.split(',') if n.strip()]


class File:
    def __init__(self, table, text):
        self.table = table
        self.text = text
        self.renames = {}
        self.warnings = []

    # ---- imports of specs and proofs
    def antt(self):
        lines = self.text.split('\n')
        out = []
        aliases = {}
        seen = {}
        for line in lines:
            m = USE.match(line)
            if not m:
                out.append(line)
                continue
            lead, path, names, alias, end = m['lead'], m['path'], m['names'], m['alias'], m['end']
            if names is None:
                if alias is None:
                    out.append(lead + moved(self.table, path, '.') + end)
                    continue
                new = moved(self.table, path, '.')
                aliases[alias] = (path, new, lead, end)
                out.append(lead + new + ' as ' + alias + end)
                continue
            words = [n.partition(' as ')[0].strip() for n in split_names(names)]
            if all(moved(self.table, path + '.' + w, '.') == path + '.' + w for w in words):
                seen.setdefault((lead, path), len(out))
                out.append(line)
                continue
            groups = {}
            for n in split_names(names):
                word, _, own = n.partition(' as ')
                word, own = word.strip(), own.strip()
                new = moved(self.table, path + '.' + word, '.')
                module, _, new_word = new.rpartition('.')
                if new_word != word and not own:
                    self.renames[word] = new_word
                groups.setdefault(module, []).append(new_word + (' as ' + own if own else ''))
            for module, words in groups.items():
                key = (lead, module)
                if key in seen:
                    at = seen[key]
                    old = USE.match(out[at])
                    have = split_names(old['names'])
                    have += [w for w in words if w not in have]
                    out[at] = lead + module + '.{' + ', '.join(have) + '}' + end
                else:
                    seen[key] = len(out)
                    out.append(lead + module + '.{' + ', '.join(words) + '}' + end)
        # words of a module that is imported whole
        for alias, (old, new, lead, end) in aliases.items():
            used = set(re.findall(r'(?<![\w.])' + re.escape(alias) + r'\.(' + WORD + '+)', '\n'.join(out)))
            for word in used:
                now = moved(self.table, old + '.' + word, '.')
                module, _, new_word = now.rpartition('.')
                name = alias
                if module != new:
                    name = None
                    for line in out:
                        m = USE.match(line)
                        if m and m['names'] is None and m['alias'] and m['path'] == module and m['lead'] == lead:
                            name = m['alias']
                    if name is None:
                        name = module.rpartition('.')[2].lower()
                        if re.search(r'(?<![\w.])' + name + r'\b', '\n'.join(out)):
                            name = alias + '_' + name
                        for i, line in enumerate(out):
                            m = USE.match(line)
                            if m and m['alias'] == alias and m['lead'] == lead:
                                out.insert(i + 1, lead + module + ' as ' + name + end)
                                break
                if (name, new_word) != (alias, word):
                    pattern = re.compile(r'(?<![\w.])' + re.escape(alias) + r'\.' + re.escape(word) + r'(?!' + WORD[:-1] + r"'])")
                    out = [l if USE.match(l) else pattern.sub(name + '.' + new_word, l) for l in out]
        # words with a new name
        for word, new_word in self.renames.items():
            pattern = token(word)
            out = [l if USE.match(l) else pattern.sub(new_word, l) for l in out]
        self.text = '\n'.join(out)

    # ---- paths of code
    def rust(self):
        def grouped(m):
            lead, path, names = m[1], m[2], m[3]
            words = [n.partition(' as ')[0].strip() for n in split_names(names)]
            if all(moved(self.table, path + '::' + w, '::') == path + '::' + w for w in words):
                return m[0]
            groups = {}
            for n in split_names(names):
                word, _, own = n.partition(' as ')
                new = moved(self.table, path + '::' + word.strip(), '::')
                module, _, new_word = new.rpartition('::')
                if new_word != word.strip() and not own:
                    self.renames[word.strip()] = new_word
                groups.setdefault(module, []).append(new_word + (' as ' + own.strip() if own else ''))
            texts = []
            for module, words in groups.items():
                if len(words) == 1:
                    texts.append('%s%s::%s;' % (lead, module, words[0]))
                else:
                    texts.append('%s%s::{%s};' % (lead, module, ', '.join(words)))
            return '\n'.join(texts)

        self.text = re.sub(r'^((?:pub )?use )([\w:]+)::\{([^}]*)\};', grouped, self.text, flags=re.M)

        def single(m):
            new = moved(self.table, m[0], '::')
            return new

        def plain(m):
            new = moved(self.table, m[2], '::')
            if new.rpartition('::')[2] != m[2].rpartition('::')[2]:
                self.renames[m[2].rpartition('::')[2]] = new.rpartition('::')[2]
            return m[1] + new + ';'

        self.text = re.sub(r'^((?:pub )?use )([\w:]+);', plain, self.text, flags=re.M)
        self.text = re.sub(r"(?<![\w:'])[a-z]\w*(?:::\w+)+", single, self.text)
        rust_renames = {a: b for a, b in self.renames.items()}
        for word, new_word in rust_renames.items():
            self.text = '\n'.join(
                l if l.lstrip().startswith(('use ', 'pub use ', 'ghost use ')) else token(word).sub(new_word, l)
                for l in self.text.split('\n'))


def main():
    args = sys.argv[1:]
    dry = '--dry' in args
    args = [a for a in args if a != '--dry']
    table_path, root = os.path.join(HERE, 'renames.tsv'), ROOT
    while args and args[0].startswith('--'):
        if args[0] == '--table':
            table_path = args[1]
        elif args[0] == '--root':
            root = args[1]
        else:
            sys.exit(__doc__)
        args = args[2:]
    if not args:
        sys.exit(__doc__)
    table = read_table(table_path)
    for crate in args:
        folder = crate if os.path.isdir(crate) else os.path.join(root, 'crates', crate)
        name = os.path.basename(os.path.abspath(folder))
        changed, needs = 0, set()
        for base, dirs, files in os.walk(folder):
            dirs[:] = [d for d in dirs if d not in ('out', 'declared', 'contracts')]
            for f in sorted(files):
                if not f.endswith(('.rt', '.antt')):
                    continue
                path = os.path.join(base, f)
                with open(path, encoding='utf-8') as h:
                    before = h.read()
                file = File(table, before)
                file.antt()
                if f.endswith('.rt'):
                    file.rust()
                needs.update(re.findall(r'\bRattle\.(ae_\w+)', file.text))
                needs.update(re.findall(r'(?<![\w:])(ae_\w+)::', file.text))
                if file.text != before:
                    changed += 1
                    if not dry:
                        with open(path, 'w', encoding='utf-8') as h:
                            h.write(file.text)
        needs.discard(name)
        have = set()
        with open(os.path.join(root, 'crates.txt'), encoding='utf-8') as h:
            for line in h:
                if re.match(re.escape(name) + r'\b[^:]*:', line):
                    have = set(line.partition(':')[2].split())
        print('%s: %d files changed%s' % (name, changed, ' (dry)' if dry else ''), end='')
        missing = sorted(needs - have)
        print('; crates.txt lacks: ' + ' '.join(missing) if missing else '')


main()
