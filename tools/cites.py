"""Who cites whom: names resolved to the blocks that declare them, the definitions that contracts rest on, what nothing cites."""
import os
import re
import sys

sys.dont_write_bytecode = True
sys.path.insert(0, os.path.dirname(os.path.abspath(__file__)))
import source

STATEMENTS = ('arrangement', 'best_grant', 'call_guarantee', 'guarantee', 'lent_guarantee', 'message_laws', 'offer_guarantee', 'salvage_laws', 'van_guarantee')      # crates without code, whose specs/ are statements


class Cites:
    def __init__(self, tree):
        self.tree = tree
        self.owner = {}                                            # block -> file
        for f in tree.files.values():
            for b in f.all():
                self.owner[id(b)] = f
        self.tables, self.operators = {}, {}

    def table(self, f):
        """name -> (file, block), and alias -> module, for what the names of a file mean."""
        if f.path in self.tables:
            return self.tables[f.path]
        names, aliases = {}, {}
        for u in f.uses:
            if isinstance(f, source.RtFile) and not u.ghost:
                continue
            t = source.target(u.path)
            if u.items is None:
                if t:
                    aliases[u.names()[0]] = t
                continue
            m = self.tree.modules.get(t) if t else None
            if m is None:
                continue
            d = m.declared()
            for a, b in u.items:
                if a in d:
                    names[b or a] = (m, d[a])
                else:
                    # passed on by `pub use`
                    for v in m.uses:
                        if v.public and v.items:
                            for x, y in v.items:
                                if (y or x) == a:
                                    w = self.tree.modules.get(source.target(v.path))
                                    if w and x in w.declared():
                                        names[b or a] = (w, w.declared()[x])
        if isinstance(f, source.File):
            for n, b in f.declared().items():
                names[n] = (f, b)
        self.tables[f.path] = names, aliases
        self.operators[f.path] = [n for n in names if '◌' in n]
        return names, aliases

    def of(self, f, cited):
        """The blocks that a text of file f cites."""
        names, aliases = self.table(f)
        out = {}
        hits = names.keys() & cited.plain
        hits |= {n for n in self.operators[f.path] if cited.has(n)}
        for n in hits:
            m, b = names[n]
            out[id(b)] = (m, b, n)
        for p in cited.paths:
            t = aliases.get(p[0])
            if t:
                m = self.tree.modules.get(t) or self.tree.modules.get((t[0], t[1], '.'.join([t[2]] + list(p[1:-1]))))
                if m and p[-1] in m.declared():
                    b = m.declared()[p[-1]]
                    out[id(b)] = (m, b, p[-1])
        return list(out.values())

    def contracts(self):
        """The blocks that contracts cite, with a place that does."""
        out = {}
        for f in self.tree.rts.values():
            for m, b, n in self.of(f, f.cited()):
                out.setdefault(id(b), (m, b, f.path))
        return out

    def sections(self):
        """block -> the sections that it stands in."""
        out = {}
        def walk(bs, above):
            for b in bs:
                out[id(b)] = above
                if b.kind == 'module':
                    walk(b.members, above + [b])
        for f in self.tree.files.values():
            walk(f.blocks, [])
        return out

    def definitions(self):
        """id -> (file, block) of what must be believed: what contracts, statements and listed theorems say, and what that cites."""
        todo = [(m, b) for m, b, _ in self.contracts().values()]
        listed = self.theorems()
        for f in self.tree.files.values():
            for b in f.all():
                if any((f.crate, n) in listed for n in b.names):
                    todo += [(m, c) for m, c, _ in self.of(f, source.Cited(source.tokens(b.signature()))) if c is not b]
        for f in self.tree.files.values():
            if f.crate in STATEMENTS and f.part == 'specs':
                todo += [(f, b) for b in f.all() if b.kind in ('def', 'record', 'data')]
        seen = {}
        within = self.sections()
        while todo:
            f, b = todo.pop()
            if id(b) in seen or f.part != 'specs':
                continue
            seen[id(b)] = (f, b)
            for m, c, _ in self.of(f, b.cited()):
                todo.append((m, c))
            for s in within[id(b)]:
                for m, c, _ in self.of(f, s.cited()):
                    todo.append((m, c))
        # an operator's fixity goes with it
        for f in self.tree.files.values():
            for b in f.all():
                if b.kind == 'infix' and any(id(f.declared().get(n)) in seen for n in b.names):
                    seen[id(b)] = (f, b)
        return seen

    def theorems(self):
        """(crate, name) -> (line, what it says), of tools/theorems.txt."""
        out = {}
        path = os.path.join(self.tree.root, 'tools', 'theorems.txt')
        if os.path.exists(path):
            with open(path, encoding='utf-8') as f:
                for i, l in enumerate(f):
                    m = re.match(r'(\w+) (\S+): (.+)', l)
                    if m:
                        out[(m.group(1), m.group(2))] = (i + 1, m.group(3))
        return out

    def live(self):
        """ids of what is there for a reason: what contracts and `#[tactic(..)]` cite, what function proofs give, listed theorems, specimens that compute;
        and all that these cite."""
        listed = self.theorems()
        within = self.sections()
        todo = [(m, b) for m, b, _ in self.contracts().values()]
        for f in self.tree.rts.values():
            for crate, part, rel, name in f.tactics:
                m = self.tree.modules.get((crate, part, rel))
                if m and name in m.declared():
                    todo.append((m, m.declared()[name]))
        for f in self.tree.files.values():
            proof = source.of_function(f.path)
            for b in f.all():
                if proof and b.public or is_specimen(f, b) or any((f.crate, n) in listed for n in b.names):
                    todo.append((f, b))
        seen = set()
        while todo:
            f, b = todo.pop()
            if id(b) in seen:
                continue
            seen.add(id(b))
            for m, c, _ in self.of(f, b.cited()):
                todo.append((m, c))
            for s in within[id(b)]:
                seen.add(id(s))
                for m, c, _ in self.of(f, s.cited()):
                    todo.append((m, c))
        for f in self.tree.files.values():
            for b in f.all():
                if b.kind == 'infix' and any(id(f.declared().get(n)) in seen for n in b.names):
                    seen.add(id(b))
        return seen

    def dead(self):
        """(file, block) of the definitions and laws that nothing has a use for."""
        live = self.live()
        return [(f, b) for f in self.tree.files.values() for b in f.all()
                if b.kind in ('def', 'record', 'data', 'ruleset') and id(b) not in live]


ENTRIES = ('lent', 'owned', 'embed', 'embed_c')                    # crates whose public functions are the product's


def uncalled(tree):
    """(file, name, line) of the functions that no code calls and that are no entry points."""
    calls = set()
    for f in tree.rts.values():
        code = re.sub(r'\bfn\s+\w+', '', f.code)
        calls |= set(re.findall(r'(?<![A-Za-z0-9_])([A-Za-z_]\w*)\s*\(', code))
    out = []
    for f in tree.rts.values():
        lines = f.source.split('\n')
        for name, line in f.functions().items():
            last = name.split('::')[-1]
            public = 'pub ' in lines[line - 1].split('fn ')[0]
            if last in calls or last == 'main' or (public and f.crate in ENTRIES):
                continue
            out.append((f, name, line))
    return out


def is_specimen(f, b):
    """An equation that is computed, or several, in a file of specimens: `x ≡ y` by refl."""
    return (f.part == 'proofs' and f.head and f.head[0].startswith('-- Specimens:') and b.kind == 'def' and '≡' in '\n'.join(b.lines)
            and re.search(r'= (refl|\(refl(, refl)*\))$', b.lines[-1].strip()) is not None)
