"""Reads the project's .antt and .rt files into blocks: what a file declares, what it imports, what each declaration cites.

A library for the tools beside it (imports, layout, lint). What it reads it can write again unchanged: `File.text()`.
"""
import importlib.machinery
import importlib.util
import os
import re

RESERVED = set('data record deriving module where use mod pub package using open as unfoldable abbrev axiom unfold unfolding ruleset mutual '
               'infix infixl infixr elim let in do λ ∀ Type'.split())


def tool(name):
    """A program beside this file, as a module."""
    path = os.path.join(os.path.dirname(os.path.abspath(__file__)), name)
    loader = importlib.machinery.SourceFileLoader(name, path)
    m = importlib.util.module_from_spec(importlib.util.spec_from_loader(name, loader))
    loader.exec_module(m)
    return m


class Token:
    """A name of a text. dotted: a dot stands before it; joined: and no space before that dot (a path); leads: a path goes on after it;
    label: a field or an implicit argument that is given a value."""
    __slots__ = ('text', 'line', 'dotted', 'joined', 'leads', 'label')

    def __init__(self, text, line, dotted, joined):
        self.text, self.line, self.dotted, self.joined, self.leads, self.label = text, line, dotted, joined, False, False

    def __repr__(self):
        return self.text


LEXEME = re.compile(r'''(?P<skip>--[^\n]*|\{-.*?-\}|"(?:\\.|[^"\\])*")|(?P<name>«[^»]*»?|[^ \t\n(){}.;,@"«»]+)|(?P<mark>[.{;\n])|(?P<other>[^\S\n]+|.)''', re.S)
LABEL = re.compile(r'\s*=(\s|$)')


def tokens(text, line=1):
    """The names of an antt text, without comments and quoted texts."""
    out = []
    dotted = joined = opened = False                  # opened: a brace or semicolon stands before, and nothing between
    for m in LEXEME.finditer(text):
        kind, s = m.lastgroup, m.group()
        if kind == 'name':
            t = Token(s, line, dotted, joined)
            if opened and LABEL.match(text, m.end()):
                t.label = True
            out.append(t)
            dotted = joined = opened = False
        elif kind == 'skip':
            line += s.count('\n')
        elif s == '\n':
            line += 1
            dotted = False
        elif s == '.':
            before, after = text[m.start() - 1:m.start()], text[m.end():m.end() + 1]
            dotted = after not in ('', ' ', '\t', '\n')
            joined = dotted and before not in ('', ' ', '\t', '\n', '(', ')', '{', '}', ',', ';', '@')
            if joined and out:
                out[-1].leads = True
            opened = False
        elif kind == 'mark':
            opened, dotted = True, False
        elif not s.isspace():
            opened = dotted = False
    return out


def spelled(name):
    """The tokens under which an imported or declared name may stand in a text: its own, and the parts of an operator, whose places are `◌`."""
    if '◌' in name:
        return [p for p in name.split('◌') if p]
    return [name]


class Cited:
    """What a text cites: plain names, and names behind a path's head."""

    def __init__(self, toks):
        self.plain, self.paths, self.heads = set(), set(), set()
        path, before, let = None, None, set()
        for t in toks:
            # a name whose first use is that a `let` binds it is the file's own, and cites nothing
            if before == 'let' and t.text not in self.plain:
                let.add(t.text)
            before = t.text
            if t.text in let and not t.dotted:
                continue
            if t.label:
                path = None
                continue
            if t.dotted and not t.joined:
                path = None                                   # a projection
                continue
            if t.joined:
                if path:
                    path = path + (t.text,)
                    self.paths.add(path)
                if not t.leads:
                    path = None
                continue
            if t.leads:
                path = (t.text,)
                self.heads.add(t.text)
            else:
                path = None
            self.plain.add(t.text)
            if '◌' in t.text:
                self.plain.update(spelled(t.text))

    def has(self, name):
        """Whether the name, bare or as an operator, stands in the text."""
        if name in self.plain:
            return True
        parts = spelled(name)
        return bool(parts) and all(p in self.plain for p in parts)


class Use:
    """A `use` line: path, items [(name, as)] or None where it brings a module, alias; code: one of Rattle's own, whose path is written by `::`."""

    def __init__(self, path, items, alias, public, line, lines, ghost=False, mark='', code=False):
        self.path, self.items, self.alias, self.public, self.line, self.lines, self.ghost, self.mark = path, items, alias, public, line, lines, ghost, mark
        self.code = code

    def with_items(self, items):
        """The same line with other items; of a line of code one alone stands without braces."""
        if self.code and len(items) == 1:
            a, b = items[0]
            return Use(self.path + '::' + a, None, b, self.public, self.line, None, code=True)
        return Use(self.path, items, self.alias, self.public, self.line, None, self.ghost, self.mark, self.code)

    def names(self):
        if self.items is None:
            return [self.alias or last(self.path)]
        return [b or last(a) for a, b in self.items]

    def text(self, end=''):
        head = self.mark + ('pub ' if self.public else '') + ('ghost ' if self.ghost else '') + 'use ' + self.path
        if self.items is None:
            return head + (' as ' + self.alias if self.alias else '') + end
        return head + ('::{' if self.code else '.{') + ', '.join(a if not b else a + ' as ' + b for a, b in self.items) + '}' + end


def last(path):
    return re.split(r'[.:]+', path)[-1]


USE = re.compile(r'^(pub )?(ghost )?use (package\.)?(.*?)(?:\.\{(.*)\})?(?: as (\S+?))?;?\s*$', re.S)


def read_code_use(lines, at):
    """A `use` line of Rattle's: `use a::b;`, `use a::{b, c as d};`, with braces in braces made flat."""
    text = re.sub(r'\s+', ' ', ' '.join(l.strip() for l in lines))
    m = re.match(r'(pub )?use (.*?);', text)
    public, path = bool(m.group(1)), m.group(2).strip()
    if '{' not in path:
        path, _, alias = path.partition(' as ')
        return Use(path, None, alias or None, public, at, lines, code=True)
    head, _, inner = path.partition('::{')
    items = []

    def flat(prefix, text):
        depth, start = 0, 0
        parts = []
        for i, c in enumerate(text + ','):
            depth += {'{': 1, '}': -1}.get(c, 0)
            if c == ',' and depth == 0:
                parts.append(text[start:i].strip())
                start = i + 1
        for part in parts:
            if '::{' in part:
                flat(prefix + part.partition('::{')[0] + '::', part.partition('::{')[2].rstrip()[:-1])
            elif part:
                a, _, b = part.partition(' as ')
                items.append((prefix + a.strip(), b.strip() or None))
    flat('', inner.rstrip()[:-1])
    return Use(head, items, None, public, at, lines, code=True)


def read_use(lines, at):
    text = ' '.join(l.strip() for l in lines)
    m = USE.match(text)
    if not m:
        raise ValueError('a use line that is not understood: ' + text)
    items = None
    if m.group(5) is not None:
        items = []
        for part in m.group(5).split(','):
            part = part.strip()
            if part:
                a, _, b = part.partition(' as ')
                items.append((a.strip(), b.strip() or None))
    return Use((m.group(3) or '') + m.group(4), items, m.group(6), bool(m.group(1)), at, lines, bool(m.group(2)))


START = re.compile(r'^((?:unfoldable |abbrev |pub |axiom )*)(record|data|ruleset|module|mutual|open|infixl|infixr|infix|deriving)?(?:\b|(?=[+◌]))')   # a cycle's theorem is called +f+g_spec, and an operator begins with a place


class Block:
    """A declaration: kind (def, record, data, ruleset, module, infix, other), names, marks, the comment before it, its lines.
    A module section has members; `inner` are a record's fields or a data type's constructors."""

    def __init__(self, kind, names, marks, comment, lines, line):
        self.kind, self.names, self.marks, self.comment, self.lines, self.line = kind, names, marks, comment, lines, line
        self.header, self.members, self.inner, self.after = [], [], [], []

    @property
    def public(self):
        return 'pub' in self.marks

    @property
    def name(self):
        return self.names[0] if self.names else None

    def body(self):
        if self.kind == 'module':
            return '\n'.join(self.header) + '\n' + '\n'.join(m.body() for m in self.members)
        return '\n'.join(self.lines)

    def cited(self):
        if not hasattr(self, '_cited'):
            text = '\n'.join(self.header) if self.kind == 'module' else '\n'.join(self.lines)
            self._cited = Cited(tokens(text, self.line))
        return self._cited

    def all(self):
        """The block and, of a section, its members, however deep."""
        yield self
        for m in self.members:
            yield from m.all()

    def out(self):
        lines = list(self.comment)
        if self.kind == 'module':
            lines += self.header
            for m in self.members:
                lines += m.out()
        else:
            lines += self.lines
        return lines + self.after

    def signature(self):
        """What a definition or law states, without its proof."""
        for i, l in enumerate(self.lines):
            if i and (l.strip().startswith('unfolding ') or l.split()[:1] == [self.name]):
                return '\n'.join(self.lines[:i])
        return self.lines[0]

    def unfolded(self):
        """The names on its `unfolding` lines and in `unfold .. in`."""
        names = set()
        for l in self.lines:
            m = re.match(r'\s*unfolding (.*)$', l)
            if m:
                names.update(m.group(1).split())
        for m in re.finditer(r'\bunfold ([^\n]*?) in\b', '\n'.join(self.lines)):
            names.update(m.group(1).split())
        return names


def signature(line, indent):
    """(marks, kind, names) if a line at this indent starts a declaration, else None."""
    if len(line) - len(line.lstrip(' ')) != indent:
        return None
    s = line[indent:]
    m = START.match(s)
    marks = m.group(1).split() if m else []
    rest = s[len(m.group(1)):] if m else s
    words = rest.split()
    if not words:
        return None
    w = words[0]
    if w in ('record', 'data', 'ruleset'):
        return marks, w, [words[1]]
    if w in ('module', 'mutual'):
        return marks, 'module', []
    if w in ('infix', 'infixl', 'infixr'):
        return marks, 'infix', words[2:]
    if w in ('open', 'deriving'):
        return marks, 'other', []
    if w in ('unfolding', 'where'):
        return None
    names = []
    for x in words:
        if x == ':':
            return (marks, 'def', names) if names else None
        if x[0] in '({=' or x in ('=', 'λ'):
            return None
        names.append(x)
    return None


def is_comment(l):
    return l.lstrip().startswith('--')


def blocks(lines, first, indent=0):
    """The declarations of the lines; `first` is the number of the first of them."""
    out, comment, i, n = [], [], 0, len(lines)
    while i < n:
        l = lines[i]
        if not l.strip() or is_comment(l):
            comment.append(l)
            i += 1
            continue
        sig = signature(l, indent)
        if sig is None:
            raise ValueError('line %d is no declaration: %s' % (first + i, l))
        marks, kind, names = sig
        b = Block(kind, names, marks, comment, [], first + i)
        comment = []
        if kind == 'module':
            j = i
            while not re.search(r'\b(where|mutual)\s*$', lines[j]):
                j += 1
            b.header = lines[i:j + 1]
            k = j + 1
            while k < n and (not lines[k].strip() or len(lines[k]) - len(lines[k].lstrip(' ')) > indent):
                k += 1
            end = k
            while end > j + 1 and not lines[end - 1].strip():
                end -= 1
            inner = [l for l in lines[j + 1:end] if l.strip() and not is_comment(l)]
            deep = min(len(l) - len(l.lstrip(' ')) for l in inner) if inner else indent + 2
            b.members = blocks(lines[j + 1:end], first + j + 1, deep)
            i = end
        else:
            k = i + 1
            while k < n:
                m = lines[k]
                if not m.strip() or (is_comment(m) and len(m) - len(m.lstrip(' ')) <= indent):
                    # blank and comment lines belong to the declaration only if it goes on after them
                    j = k
                    while j < n and (not lines[j].strip() or is_comment(lines[j])):
                        j += 1
                    if j == n or signature(lines[j], indent) is not None:
                        break
                    k = j
                    continue
                if len(m) - len(m.lstrip(' ')) == indent and signature(m, indent) is not None:
                    break
                k += 1
            b.lines = lines[i:k]
            if kind in ('record', 'data'):
                b.inner = inner_names(b.lines, indent, kind)
            i = k
        out.append(b)
    if comment:
        if out:
            out[-1].after = comment
        else:
            b = Block('other', [], [], comment, [], first)
            out.append(b)
    return out


def inner_names(lines, indent, kind):
    out = []
    for l in lines[1:]:
        m = re.match(r'\s+(?:pub )?((?:[^\s:]+ )+):(\s|$)', l)
        if m and '(' not in m.group(1):
            out += m.group(1).split()
    return out


class File:
    """An .antt file: `head` the lines before its first import, `header` the uses and mods in between, `blocks` what it declares."""

    def __init__(self, root, path):
        self.root, self.path = root, path
        self.crate, self.part, self.rel = place(path)
        with open(os.path.join(root, path), encoding='utf-8') as f:
            self.source = f.read()
        self.parse()

    def parse(self):
        lines = self.source.split('\n')
        if lines and lines[-1] == '':
            lines.pop()
        self.head, self.header, i = [], [], 0
        while i < len(lines) and (is_comment(lines[i]) or not lines[i].strip()):
            i += 1
        stop = i
        if i < len(lines) and re.match(r'(pub )?(use|mod) ', lines[i]):
            self.head = lines[:i]
        else:
            # no imports: the comment up to the first blank line is the file's
            i = 0
            while i < stop and is_comment(lines[i]):
                i += 1
            self.head = lines[:i]
        self.uses, self.mods = [], []
        while i < len(lines):
            l = lines[i]
            if re.match(r'(unfoldable )?(pub )?use ', l):
                j = i
                while '{' in ''.join(lines[i:j + 1]) and '}' not in ''.join(lines[i:j + 1]):
                    j += 1
                u = read_use([re.sub(r'^unfoldable ', '', lines[i])] + lines[i + 1:j + 1], i + 1)
                u.lines, u.mark = lines[i:j + 1], re.match(r'(unfoldable )?', l).group()
                self.uses.append(u)
                self.header.append(u)
                i = j + 1
            elif re.match(r'(pub )?mod ', l):
                self.mods.append((l, i + 1))
                self.header.append(l)
                i += 1
            elif is_comment(l) or not l.strip():
                # a comment between imports belongs to the header only if imports go on after it
                j = i
                while j < len(lines) and (is_comment(lines[j]) or not lines[j].strip()):
                    j += 1
                if j < len(lines) and re.match(r'(unfoldable )?(pub )?(use|mod) ', lines[j]):
                    self.header += lines[i:j]
                    i = j
                else:
                    break
            else:
                break
        self.start = i
        self.blocks = blocks(lines[i:], i + 1)
        self._declared = None

    def text(self):
        out = list(self.head)
        for h in self.header:
            out += h.lines if isinstance(h, Use) else [h]
        for b in self.blocks:
            out += b.out()
        return '\n'.join(out) + '\n'

    def all(self):
        for b in self.blocks:
            yield from b.all()

    def declared(self):
        """name -> block, for each name that the file declares at its top level or in its sections."""
        if self._declared is not None:
            return self._declared
        out = self._declared = {}
        for b in self.all():
            if b.kind in ('infix', 'other', 'module'):
                continue
            for n in b.names:
                out[n] = b
            if b.kind == 'data':
                for n in b.inner:
                    out.setdefault(n, b)
        return out

    def cited(self):
        c = Cited([])
        for b in self.all():
            d = b.cited()
            c.plain |= d.plain
            c.paths |= d.paths
            c.heads |= d.heads
        return c


def split_comment(comment):
    """(section lines, own comment): the last line `-- ---- ..` ends the first part."""
    at = -1
    for i, l in enumerate(comment):
        if l.strip().startswith('-- ----'):
            at = i
    return [l for l in comment[:at + 1] if l.strip()], comment[at + 1:]


def parted(blocks, where):
    """(place, block, lines) for each block whose place, `where(block)`, is not None. A section's heading stands in each place that has
    a block of the section; other comments go with the block that they stand before."""
    out, section, told = [], [], set()
    for b in blocks:
        sect, own = split_comment(b.comment)
        if sect:
            section, told = sect, set()
        place = where(b)
        if place is None:
            continue
        lines = []
        if section and place not in told:
            told.add(place)
            lines += [''] + section
            if own and not own[0].strip():
                lines.append('')
                own = own[1:]
        elif b.kind != 'infix' and (not own or own[0].strip()):
            own = [''] + own
        while len(own) > 1 and not own[0].strip() and not own[1].strip():
            own = own[1:]
        lines += own + b.out()[len(b.comment):]
        while lines and not lines[-1].strip():
            lines.pop()
        out.append((place, b, lines))
    return out


CLAUSE = re.compile(r'\b(requires|ensures|ghost)\b(?:\s+\w+)?\s*\{')


class RtFile:
    """An .rt file: its uses (`use`, `ghost use`), the texts of its contracts, and its code."""

    def __init__(self, root, path):
        self.root, self.path = root, path
        self.crate, self.part, self.rel = place(path)
        with open(os.path.join(root, path), encoding='utf-8') as f:
            self.source = f.read()
        self.parse()

    def parse(self):
        lines = self.source.split('\n')
        self.uses, self.rest = [], []
        i = 0
        while i < len(lines):
            if re.match(r'(pub )?(ghost )?use ', lines[i]):
                j = i
                while ';' not in lines[j]:
                    j += 1
                if lines[i].startswith('ghost use'):
                    u = read_use(lines[i:j + 1], i + 1)
                else:
                    u = read_code_use(lines[i:j + 1], i + 1)
                u.ghost = lines[i].startswith('ghost use')
                self.uses.append(u)
                self.rest += [''] * (j - i + 1)
                i = j + 1
            else:
                self.rest.append(lines[i])
                i += 1
        text = re.sub(r'//[^\n]*', '', '\n'.join(self.rest))
        self.contracts, code, at = [], [], 0
        for m in CLAUSE.finditer(text):
            if m.start() < at:
                continue
            depth, j = 1, m.end()
            while depth and j < len(text):
                depth += {'{': 1, '}': -1}.get(text[j], 0)
                j += 1
            self.contracts.append((text.count('\n', 0, m.end()) + 1, text[m.end():j - 1]))
            code.append(text[at:m.start()])
            at = j
        code.append(text[at:])
        self.code = ''.join(code)
        # what a `#[tactic(..)]` names for the proofs: (crate, part, name below it, declaration)
        self.tactics = []
        for m in re.finditer(r'#!?\[tactic\(([^\]]*)\]', text):
            for path in re.findall(r'\w+(?:::\w+)+', m.group(1)):
                parts = path.split('::')
                if parts[1] in ('specs', 'proofs'):
                    self.tactics.append((self.crate if parts[0] == 'crate' else parts[0], parts[1], '.'.join(parts[2:-1]), parts[-1]))

    def cited(self):
        c = Cited([])
        for line, t in self.contracts:
            d = Cited(tokens(t, line))
            c.plain |= d.plain
            c.paths |= d.paths
            c.heads |= d.heads
        return c

    def words(self):
        return set(re.findall(r'[A-Za-z_][A-Za-z_0-9]*', self.code))

    def functions(self):
        """name -> line of each function; methods as Type::name."""
        out = {}
        of, depth = None, 0
        for i, l in enumerate(self.source.split('\n')):
            m = re.match(r'impl(?:<[^>]*>)? (\w+)', l)
            if m:
                of = m.group(1)
            elif l.startswith('}'):
                of = None
            m = re.match(r'\s*(?:pub )?(?:extern "C" )?fn (\w+)', l)
            if m:
                out[(of + '::' if of and l.startswith(' ') else '') + m.group(1)] = i + 1
        return out


def place(path):
    """(crate, part, name below it) of a file crates/X/specs/A/B.antt: ('X', 'specs', 'A.B')."""
    parts = path.split('/')
    at = parts.index('crates')
    crate, part = parts[at + 1], parts[at + 2]
    rel = '.'.join(parts[at + 3:])
    return crate, part, re.sub(r'\.(antt|rt)$', '', rel)


def crates(root):
    """crate -> what it rests on, in the order of crates.txt. Before the colon `staticlib` may stand after the name."""
    out = {}
    with open(os.path.join(root, 'crates.txt'), encoding='utf-8') as f:
        for l in f:
            l = l.split('#')[0]
            if ':' in l:
                a, b = l.split(':', 1)
                out[a.split()[0]] = b.split()
    return out


def paths(root, crate, part, ending):
    out = []
    top = os.path.join(root, 'crates', crate, part)
    for folder, dirs, files in os.walk(top):
        dirs.sort()
        for f in sorted(files):
            if f.endswith(ending):
                out.append(os.path.relpath(os.path.join(folder, f), root))
    return out


def of_function(path):
    """Whether a file is what was written of one function's proof: its answers, its invariants, or a whole walk."""
    crate, part, rel = place(path)
    return part == 'proofs' and '.' in rel and rel.split('.')[-1] in ('Answers', 'Invariants', 'Proof')


def generated(target):
    """Whether a module is one that the check makes of the code."""
    return target[1] == 'specs' and target[2].split('.')[0] in ('declared', 'contracts')


def module(crate, part, rel):
    """The module's path."""
    return 'Rattle.%s.%s.%s' % (crate, part, rel)


MODULE = re.compile(r'^Rattle\.([a-z_0-9]+)\.(specs|proofs)(?:\.(.*))?$')


def target(path):
    """(crate, part, name) of the path of a crate's module, which may be one of the kit's, or None if it is none."""
    m = MODULE.match(path)
    return (m.group(1), m.group(2), m.group(3) or '') if m else None


class Tree:
    """All files of the repository's crates."""

    def __init__(self, root='.'):
        self.root = root
        self.deps = crates(root)
        self.files, self.rts, self.edits = {}, {}, {}
        for c in self.deps:
            for part in ('specs', 'proofs'):
                for p in paths(root, c, part, '.antt'):
                    self.files[p] = File(root, p)
            for p in paths(root, c, 'src', '.rt'):
                self.rts[p] = RtFile(root, p)
            for p in paths(root, c, 'must-fail', '.edit'):
                with open(os.path.join(root, p), encoding='utf-8') as f:
                    self.edits[p] = f.read()
        self.index()

    def index(self):
        self.modules = {(f.crate, f.part, f.rel): f for f in self.files.values()}

    def crate_files(self, crate, part=None):
        return [f for f in self.files.values() if f.crate == crate and part in (None, f.part)]

    def edit_words(self, path):
        """What the must-fail edits put into a file: an import that only they use has to stay."""
        crate, part, rel = place(path)
        local = path.split('crates/%s/' % crate, 1)[1]
        c = Cited([])
        words = set()
        for p, text in self.edits.items():
            if place(p)[0] != crate:
                continue
            at = None
            for l in text.split('\n'):
                m = re.match(r'(file|old|new):\s?(.*)$', l)
                if m and m.group(1) == 'file':
                    at = m.group(2).strip()
                    continue
                if at == local:
                    s = m.group(2) if m else l
                    d = Cited(tokens(s))
                    c.plain |= d.plain
                    c.paths |= d.paths
                    c.heads |= d.heads
                    words |= set(re.findall(r'[A-Za-z_][A-Za-z_0-9]*', s))
        return c, words
