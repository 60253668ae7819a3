"""The repository as tools/unused and tools/rests read it: its crates, their files, and what a name of a
file means."""
import os
import re

from antt import File, Scope, Tokens, bare, closing, items, mentioned


def module_file(path):
    """The file of a module of the repository's, by the module's whole name."""
    m = re.match(r'Rattle\.(\w+)\.(specs|proofs)\.(.*)$', path)
    return m and 'crates/%s/%s/%s.antt' % (m[1], m[2], m[3].replace('.', '/'))


def module_of(path):
    """The whole name of the module that a file of specs/ or proofs/ is."""
    return 'Rattle.' + re.sub(r'^crates/|\.antt$', '', path).replace('/', '.')


class Source:
    """A file of Rattle: its ghost imports are held to its clauses, its other ones to its code. What leads to laws
    are its clauses, and what its tactics are given."""

    HEAD = re.compile(r'\bfn\s+\w+[^({;]*\(|\b(?:requires|ensures)\b\s*\*?\s*\w*\s*\{|\bghost\s+(\w+)\s*[:=]\s*\{')
    TACTIC = re.compile(r'#!?\[\s*tactic\b[^\]]*\]')

    def __init__(self, text, crate):
        self.lines = text.split('\n')
        self.uses, self.modules, self.code_uses, code = [], {}, [], []
        for n, line in enumerate(re.sub(r'//.*', '', text).split('\n')):
            named = re.match(r'\s*ghost use (.*?)\.\{(.*)\};', line)
            whole = re.match(r'\s*ghost use (\S+?)(?: as (\S+))?;', line)
            plain = re.match(r'\s*(?:pub )?use (.*);', line)
            if named:
                self.uses.append((n, named[1], list(items(named[2]))))
            elif whole:
                self.modules[whole[2] or whole[1].split('.')[-1]] = (n, whole[1])
            elif plain:
                self.code_uses += [(n, alias) for _, alias in items(re.sub(r'(?:\w+::)*\{|\}', '', plain[1]))]
            code.append('' if named or whole or plain else line)
        code = '\n'.join(code)
        brought = {alias for _, _, names in self.uses for _, alias in names}
        scope, self.names, ghost = Scope(brought | {p for x in brought for p in x.split('◌')}), set(), []
        for start, end, bound in self.clauses(code):
            self.names |= scope.free(Tokens(bare(code[start:end])), bound)
            ghost.append((start, end))
        self.paths = scope.paths
        for m in self.TACTIC.finditer(code):
            for path in re.findall(r'\w+(?:::\w+)+', m[0]):
                self.paths.add('Rattle.' + re.sub(r'^crate\b', crate, path).replace('::', '.'))
            ghost.append(m.span())
        for start, end in ghost:
            code = code[:start] + re.sub(r'[^\n]', ' ', code[start:end]) + code[end:]
        self.code = code  # without them

    def clauses(self, code):
        """Where the text of each clause begins and ends, with its function's parameters and what else is bound there."""
        bound = set()
        for m in self.HEAD.finditer(code):
            end = closing(code, m.end() - 1)
            if m[0].endswith('('):
                bound = {'result', *re.findall(r'(\w+)\s*:(?!:)', code[m.end():end])}
            else:
                yield m.end(), end, bound
                bound = bound | {m[1]}


class Tree:
    def __init__(self, top):
        self.top = top
        self.crates = []  # (line, crate, dependencies)
        for n, line in enumerate(self.text('crates.txt').split('\n')):
            name, colon, rest = line.partition('#')[0].partition(':')
            if colon:
                self.crates.append((n, name.split()[0], rest.split()))
        texts = {p: self.text(p) for _, crate, _ in self.crates for p in self.paths(crate)}
        constructors = set()
        for p, text in texts.items():
            if p.endswith('.antt'):
                constructors |= set(File(text).owner)
            else:
                for variants in re.findall(r'\benum \w+ \{(.*?)\n\}', text, re.S):
                    constructors |= set(re.findall(r'^\s*(\w+)', variants, re.M))
        modules = {module_of(p) for p in texts if p.endswith('.antt')}
        self.antt = {p: File(t, constructors, modules) for p, t in texts.items() if p.endswith('.antt')}
        self.code = {p: Source(t, p.split('/')[1]) for p, t in texts.items() if p.endswith('.rt')}

    def text(self, path):
        with open(os.path.join(self.top, path), encoding='utf8') as f:
            return f.read()

    def paths(self, crate):
        for part in 'proofs', 'specs', 'src':
            for folder, _, names in sorted(os.walk(os.path.join(self.top, 'crates', crate, part))):
                for name in sorted(names):
                    if name.endswith(('.antt', '.rt')):
                        yield os.path.relpath(os.path.join(folder, name), self.top)

    def targets(self, path, f, names, paths):
        """What of the repository's own, as (file, declaration), these names and paths of a file mean."""
        own = {**{d: d for d in f.mentions}, **f.owner} if path in self.antt else {}
        brought = {}
        for _, p, pairs in f.uses:
            for name, alias in pairs:
                module, _, name = (p + '.' + name).rpartition('.')
                brought[alias] = module_file(module), name
        for x in {x for x in names if x in own or x in brought} | {x for x in [*own, *brought] if '◌' in x and mentioned(x, names)}:
            yield (path, own[x]) if x in own else brought[x]
        for p in paths:
            head, _, rest = p.partition('.')
            parts = (f.modules[head][1] + '.' + rest if head in f.modules else p).split('.')
            for n in range(3, len(parts)):  # behind a name stand fields, as in M.x.now
                yield module_file('.'.join(parts[:n])), parts[n]
