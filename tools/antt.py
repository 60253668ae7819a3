"""Reads antt as far as tools/unused needs it: the names that a file brings in, and for each of its
declarations the names that it mentions and does not bind itself. Names are cut, and binders reach, as
the toolchain's primer says (4.1 to 4.8); a form that it does not know counts as a mention."""
import re

TOKEN = re.compile(r'«[^»]*»|[(){};,.@]|[^\s(){}.;,@"«»]+')
MARKS = ('pattern', 'pub', 'abbrev', 'unfoldable', 'axiom')
WORDS = set('''data record deriving module where use mod pub package open as unfoldable abbrev axiom unfold
    unfolding ruleset mutual infix infixl infixr elim let in do λ ∀ → × : = ↦ | [ ] _ ←'''.split())
PUNCTUATION = '(){};,.@'


def bare(text):
    """The text with spaces for its comments and quoted texts."""
    blank = lambda m: re.sub(r'[^\n]', ' ', m[0])
    text = re.sub(r'"(?:[^"\\\n]|\\.)*"', blank, text)
    text = re.sub(r'\{-.*?-\}', blank, text, flags=re.S)
    return re.sub(r'(?m)(?:^|(?<=[\s(){}.;,]))--.*$', blank, text)


def is_name(token):
    return token not in WORDS and token not in PUNCTUATION and not token[0].isdigit()


def items(braces):
    """The items of a `use` line's braces: (name, the name that the file has for it)."""
    for item in filter(None, (x.strip() for x in braces.split(','))):
        name, _, alias = item.partition(' as ')
        yield name.strip(), alias.strip() or re.split(r'\.|::', name.strip())[-1]


def mentioned(name, names):
    """Whether the names mention this one; an operator also by its parts, `a + b`, and by a section, `(◌+ 1)`."""
    if name in names:
        return True
    parts = [p for p in name.split('◌') if p] if '◌' in name else []
    return bool(parts) and all({p, '◌' + p, p + '◌', '◌' + p + '◌'} & names for p in parts)


def closing(text, i):
    """Where the bracket that opens at i is closed, in tokens or in a text."""
    depth = 0
    for j in range(i, len(text)):
        depth += (text[j] in '({') - (text[j] in ')}')
        if depth == 0:
            return j
    return len(text)


class Tokens(list):
    def __init__(self, text):
        super().__init__()
        self.behind = set()  # places of tokens tight behind a dot: fields, later parts of a path
        self.before = set()  # places of tokens tight before one: first parts of a path
        for m in TOKEN.finditer(text):
            if m[0] not in PUNCTUATION:
                if text[m.start() - 1:m.start()] == '.':
                    self.behind.add(len(self))
                if re.match(r'\.[^\s(){}.;,@"]', text[m.end():m.end() + 2]):
                    self.before.add(len(self))
            self.append(m[0])

    def until(self, i, ends):
        """The first place from i on that has one of these tokens, or closes the bracket around i; brackets are passed over."""
        while i < len(self) and self[i] not in ends and self[i] not in ')}':
            i = closing(self, i) + 1 if self[i] in '({' else i + 1
        return min(i, len(self))

    def group(self, i):
        """The names x y of a group (x y : A) or {x y : A} that opens at i; none if it is no such group."""
        j = i + 1
        while j < len(self) and is_name(self[j]):
            j += 1
        return self[i + 1:j] if j < len(self) and self[j] == ':' else []

    def groups(self, i):
        """The names of all such groups from i on that stand in no bracket."""
        names = set()
        while i < len(self):
            if self[i] in '({':
                names.update(self.group(i))
                i = closing(self, i)
            i += 1
        return names

    def label(self, i):
        """Whether a field's label stands at i, as in record { x = a; y = b }."""
        return 0 < i < len(self) - 1 and self[i - 1] in '{;' and self[i + 1] in ('=', ':')

    def path(self, i):
        """The path, M.N.x, that begins at i."""
        parts = [self[i]]
        while i in self.before and i + 2 < len(self):
            i += 2
            parts.append(self[i])
        return '.'.join(parts)


class Scope:
    """Tells which names are free in tokens."""

    def __init__(self, constructors=frozenset()):
        self.constructors = constructors
        self.paths = set()

    def pattern(self, ts, a, e, plain=False):
        """What the pattern ts[a:e] binds: the names, and the places that are therefore no mentions. A constructor
        is none, but as a plain binder of a λ or a let."""
        names, places, i = set(), set(), a
        while i < e:
            if ts[i] in '({':
                close = closing(ts, i)
                more, there = self.pattern(ts, i + 1, min(ts.until(i + 1, (':',)), close))
                names |= more
                places |= there
                i = close
            elif is_name(ts[i]) and i not in ts.behind and i not in ts.before:
                if ts.label(i):
                    places.add(i)
                elif plain or ts[i] not in self.constructors:
                    names.add(ts[i])
                    places.add(i)
            i += 1
        return names, places

    def free(self, ts, bound, start=0):
        """The names that are free in ts from start on, where these are bound; the paths among them go to self.paths."""
        frames, typed, lets, passed, free = [set(bound)], [], [], set(), set()

        def bind(a, e):
            names, places = self.pattern(ts, a, e, ts[a - 1] in ('λ', 'let'))
            passed.update(places)
            return names

        for i in range(start, len(ts)):
            t = ts[i]
            if t in '({':
                names = ts.group(i)
                passed.update(range(i + 1, i + 1 + len(names)))
                typed.append(names)
                frames.append(set())
            elif t in ')}' and typed:
                frames.pop()
                frames[-1].update(typed.pop())
            elif t == 'λ':
                frames[-1] |= bind(i + 1, ts.until(i + 1, ('.',)))
            elif t == 'let':
                lets.append(bind(i + 1, ts.until(i + 1, ('=', ':'))))
            elif t == 'unfold':
                lets.append(set())
            elif t == 'in' and lets:
                frames[-1] |= lets.pop()
            elif t in ('[', '|'):
                arrow = ts.until(i + 1, ('↦', '|', ']'))
                if ts[arrow:arrow + 1] == ['↦']:
                    frames[-1] |= bind(i + 1, arrow)
            elif is_name(t) and i not in passed and i not in ts.behind and not ts.label(i):
                if not any(t in f for f in frames):
                    free.add(t)
                    self.paths.add(ts.path(i))
        return free


class Block:
    """Lines of one indentation: the file, what a `module _` or `mutual` holds, a `where`'s functions, fields, constructors."""

    def __init__(self, indent, kind, bound, above=None):
        self.indent, self.kind, self.bound = indent, kind, set(bound)
        self.declared = above.declared if above else None  # the declaration that the lines belong to
        self.shared = set(above.shared) if above else set()  # what the heads of the modules around mention


class File:
    def __init__(self, text, constructors=frozenset(), modules=frozenset()):
        self.lines = text.split('\n')
        self.uses = []  # (line, path, items)
        self.modules = {}  # name: (line, path), of each module brought in
        self.mentions = {}  # declaration: the names that it mentions
        self.paths = {}  # declaration: the paths that it mentions
        self.line = {}  # declaration: its line
        self.owner = {}  # constructor: its type
        body = []
        for n, line in enumerate(bare(text).split('\n')):
            named = re.match(r'(?:unfoldable )?(?:pub )?use (.*?)\.\{(.*)\}\s*$', line)
            whole = re.match(r'(?:pub )?use (\S+?)(?: as (\S+))?\s*$', line)
            if named:
                self.uses.append((n, named[1], list(items(named[2]))))
            elif whole:
                self.modules[whole[2] or whole[1].split('.')[-1]] = (n, whole[1])
            elif line.strip() and not re.match(r'(?:pub )?mod ', line):
                body.append((n, line))
        # what a module that is not the repository's brings, the kit's or one that is made, may be a constructor
        kit = {alias for _, path, names in self.uses if path not in modules for _, alias in names}
        self.scope = Scope(set(constructors) | kit | {p for x in kit for p in x.split('◌')})
        self.read(body)

    def read(self, body):
        blocks, piece, opened = [Block(0, 'file', ())], [], None
        for n, line in body:
            indent = len(line) - len(line.lstrip())
            if opened and indent > blocks[-1].indent:
                blocks.append(Block(indent, *opened, blocks[-1]))
            opened = None
            while indent < blocks[-1].indent:
                self.piece(piece, blocks[-1])
                piece = []
                blocks.pop()
            if indent == blocks[-1].indent:
                self.piece(piece, blocks[-1])
                piece = []
            piece.append((n, line))
            if line.split()[-1] in ('where', 'mutual'):
                opened = self.piece(piece, blocks[-1])
                piece = []
        self.piece(piece, blocks[-1])

    def piece(self, piece, block):
        """Takes one signature, clause or head; answers what a block that it opens is, and binds."""
        if not piece:
            return None
        ts = Tokens('\n'.join(line for _, line in piece))
        i = 0
        while i < len(ts) - 1 and ts[i] in MARKS:
            i += 1
        head, typed = ts[i], i + 1
        if head in ('infix', 'infixl', 'infixr', 'mutual'):
            return 'file', block.bound
        if head == 'module':
            block.shared |= self.scope.free(ts, block.bound, i + 2)
            return 'file', block.bound | ts.groups(i)
        if head in ('data', 'record'):
            self.declare(block, ts[i + 1], piece[0][0])
            self.mention(block, self.scope.free(ts, block.bound, i + 2))
            return 'fields' if head == 'record' else 'constructors', block.bound | ts.groups(i)
        if head == 'unfolding':
            self.mention(block, self.scope.free(ts, (), i + 1))
            return None
        if head == 'open':
            names = self.scope.free(ts, block.bound, i + 1)
            block.shared |= names
            self.mention(block, names)
            return None
        if head == 'ruleset':
            self.declare(block, ts[i + 1], piece[0][0])
            self.mention(block, self.scope.free(ts, block.bound, i + 2))
            return None
        if ts[typed:typed + 1] == ['{']:
            typed = closing(ts, typed) + 1
        if ts[typed:typed + 1] == [':']:
            if block.kind == 'file':
                self.declare(block, head, piece[0][0])
            if block.kind == 'constructors':
                self.owner[head] = block.declared
            if 'pattern' in ts[:i]:
                self.owner[head] = head
            self.mention(block, self.scope.free(ts, block.bound, typed + 1))
            if block.kind in ('fields', 'where'):
                block.bound.add(head)
            return None
        eq = ts.until(0, ('=',))
        names, places = self.scope.pattern(ts, 1, eq)
        matched = {t for k, t in enumerate(ts[:eq]) if k and k not in places and is_name(t) and k not in ts.behind}
        self.mention(block, matched | self.scope.free(ts, block.bound | names, eq + 1))
        return 'where', block.bound | names

    def declare(self, block, name, line):
        block.declared = name
        self.mentions.setdefault(name, set())
        self.paths.setdefault(name, set())
        self.line[name] = line

    def mention(self, block, names):
        if block.declared:
            self.mentions[block.declared] |= names | block.shared
            self.paths[block.declared] |= self.scope.paths
        self.scope.paths = set()
