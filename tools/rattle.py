"""The functions and types of a Rattle file, with their signatures and contracts."""
import collections
import re

Function = collections.namedtuple("Function", "path public line promise clauses")
# path: `name`, or `Type::name` in an impl; promise: signature and clauses, blanks squeezed; clauses: how many of each kind.
CLAUSE = re.compile(r"\b(requires|ensures|ghost)(?:\s+\w+)?\s*$")  # a clause may have a name


def blanked(text):
    """The same length, with comments, texts and characters in quotes made blank: what is left has only the braces that count."""
    def blank(found):
        return re.sub(r"[^\n]", " ", found[0])
    return re.sub(r'//[^\n]*|b?"(?:\\.|[^"\\])*"|b?\'(?:\\[^\n]|[^\\\'\n])\'', blank, text)


def close(text, brace):
    """Where the block that opens at `brace` has ended."""
    depth, at = 1, brace + 1
    while depth and at < len(text):
        depth += {"{": 1, "}": -1}.get(text[at], 0)
        at += 1
    return at


def squeezed(text):
    return re.sub(r"\s+", " ", re.sub(r"//[^\n]*", "", text)).strip()


def functions(text):
    bare = blanked(text)
    impls = [(m[1], m.end() - 1, close(bare, m.end() - 1)) for m in re.finditer(r"\bimpl\s+(?:<[^{]*?>\s*)?(\w+)[^{;]*\{", bare)]
    out, past = [], 0
    for m in re.finditer(r"\bfn\s+(\w+)", bare):
        if m.start() < past:
            continue
        start = max(bare.rfind(c, 0, m.start()) for c in "{};") + 1
        clauses, at = collections.Counter(), m.end()
        while True:
            brace, semicolon = bare.find("{", at), bare.find(";", at)
            found = CLAUSE.search(bare, at, brace) if brace >= 0 else None
            if not found:
                break
            clauses[found[1]] += 1
            at = close(bare, brace)
        # the body's brace, or the `;` of a function that C defines; the `;` of an array's type stands before either
        end = brace if brace >= 0 else semicolon
        past = close(bare, brace) if brace >= 0 else end
        inside = [name for name, opened, closed in impls if opened < m.start() < closed]
        head = bare[start : m.start()]
        out.append(Function("::".join(inside + [m[1]]), "pub" in head.split(), bare.count("\n", 0, m.start()) + 1, squeezed(text[start:end]), clauses))
    return out


def types(text):
    """The structs and enums: name -> declaration."""
    bare, out = blanked(text), {}
    for m in re.finditer(r"(?m)^\s*(?:pub\s+)?(struct|enum)\s+(\w+)[^{;]*([{;])", bare):
        end = close(bare, m.end() - 1) if m[3] == "{" else m.end()
        out["%s %s" % (m[1], m[2])] = squeezed(text[m.start() : end])
    return out


def module(path):
    """`src/a/b.rt` is the module a::b; lib.rt, main.rt and mod.rt name none."""
    parts = path[len("src/") : -len(".rt")].split("/")
    return parts[:-1] if parts[-1] in ("lib", "main", "mod") else parts
