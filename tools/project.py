"""What the tools know of the project: crates.txt, the modules of specs/ and proofs/, and the declarations of an antt file."""
import collections
import os
import re
import signal
import subprocess

signal.signal(signal.SIGPIPE, signal.SIG_DFL)  # a reader such as head may stop early

Block = collections.namedtuple("Block", "kind public name statement body")
# kind: "definition" (unfoldable, abbrev, record, data, or of a type of data), "law" (the rest, cited by its statement alone), "ruleset".


def root():
    """The folder that holds crates.txt, from the current one upwards."""
    here = os.getcwd()
    while not os.path.exists(os.path.join(here, "crates.txt")):
        if os.path.dirname(here) == here:
            raise SystemExit("no crates.txt in this folder or above it")
        here = os.path.dirname(here)
    return here


def read(path):
    with open(path, encoding="utf-8") as file:
        return file.read()


def write(path, text):
    os.makedirs(os.path.dirname(path), exist_ok=True)
    with open(path, "w", encoding="utf-8") as file:
        file.write(text)


def crates(text):
    """crates.txt: each crate with those it rests on. Before the colon `staticlib` may stand after the name."""
    found = {}
    for line in text.split("\n"):
        head, colon, below = line.split("#")[0].partition(":")
        if colon:
            found[head.split()[0]] = below.split()
    return found


def known_crate(top, name):
    listed = crates(read(os.path.join(top, "crates.txt")))
    if name not in listed:
        raise SystemExit("no crate `%s` in crates.txt" % name)
    return listed


def run(words, log, cwd):
    """Runs a command with its whole output in a file; its exit status."""
    os.makedirs(os.path.dirname(log), exist_ok=True)
    with open(log, "wb") as out:
        return subprocess.call(words, stdout=out, stderr=subprocess.STDOUT, cwd=cwd)


# ---- antt

def uncommented(text):
    return re.sub(r"(?m)(^|(?<=\s))--.*$", "", text)


def plain(text):
    """Without comments, and alike for every layout: blanks squeezed, none inside brackets, no `;` before a brace."""
    text = re.sub(r"\s+", " ", uncommented(text)).strip()
    text = re.sub(r"([(\[{]) ", r"\1", text)
    text = re.sub(r" ([)\]}])", r"\1", text)
    return text.replace(";}", "}")


HEAD = re.compile(r"(?:(unfoldable|abbrev) )?(pub )?(?:(record|data|ruleset) )?(\S+)(.*)$")
OTHER = re.compile(r"(ghost )?(use|mod|pub mod|pub use|infixl?r?|import)\b")


def signature(line):
    """The parts of a line that begins a declaration, or None: a clause, or what goes on."""
    found = HEAD.match(line)
    if not found:
        return None
    marked = found[1] or found[2] or found[3]
    if marked or re.match(r"\s*:(\s|$)", found[5]):
        return found
    return None


def of_data(head):
    """What is declared is no law: its type ends in data or in `Type`, and states nothing."""
    ends = re.split(r"→|:", plain(head))[-1].strip()
    return bool(re.match(r"(Type|ℕ|Bool|List|Option)\b", ends)) and not re.search(r" (≡|≤|<|∈) ", ends)


def declarations(text):
    """The declarations of an antt file. One inside `module _ (..) where` has the module's parameters in its statement."""
    blocks, modules = [], []
    current, header = None, None

    def end():
        if current:
            kind, public, name, above, said, proved = current
            said, proved = "\n".join(said), "\n".join(proved)
            if kind == "law" and of_data(said):
                kind = "definition"
            if kind == "definition":
                said, proved = said + "\n" + proved, ""
            elif kind == "ruleset":
                said, proved = "ruleset", said + "\n" + proved
            blocks.append(Block(kind, public, name, plain(above + said), plain(proved)))

    for line in uncommented(text).split("\n"):
        if not line.strip():
            continue
        indent = len(line) - len(line.lstrip())
        while modules and indent <= modules[-1][0]:
            modules.pop()
            header = None
        if header is not None:
            modules[-1][1] += line.strip() + " "
            header = None if line.rstrip().endswith("where") else header
            continue
        if modules and modules[-1][2] is None:
            modules[-1][2] = indent
        level = modules[-1][2] if modules else 0
        words = line.strip()
        if indent > level:
            if current:
                current[5 if current[5] else 4].append(line)
            continue
        if re.match(r"(pub )?module\b", words):
            end()
            current = None
            modules.append([indent, words + " ", None])
            header = None if words.endswith("where") else indent
            continue
        if OTHER.match(words):
            end()
            current = None
            continue
        found = signature(words)
        if found:
            end()
            kind = "ruleset" if found[3] == "ruleset" else "definition" if found[1] or found[3] else "law"
            above = "".join(m[1] for m in modules)
            current = [kind, bool(found[2]), found[4], above, [re.sub(r"^(unfoldable |abbrev )?(pub )?", "", words)], []]
        elif current:
            current[5].append(line)
    end()
    return blocks


def node_files(folder):
    """The node files of specs/ or proofs/, which hold `mod` lines alone: Lib.antt, and NAME.antt beside a folder NAME that has modules of its own."""
    found = {}
    for top, folders, names in os.walk(folder):
        folders.sort()
        for name in names:
            path = os.path.join(top, name)
            if name == "Lib.antt" and top == folder:
                found[path] = ""
            elif name.endswith(".antt") and name[:-5] in folders:
                found[path] = os.path.relpath(path, folder)[:-5].replace(os.sep, ".") + "."
    return found


def modules(folder):
    """The modules that node files declare: dotted name, path, and whether another crate can cite it."""
    nodes = node_files(folder)
    public = {}
    for path, above in nodes.items():
        for mark, name in re.findall(r"(?m)^(pub )?mod (\S+)", uncommented(read(path))):
            public[above + name] = bool(mark)
    out = []
    for name in sorted(public):
        path = os.path.join(folder, *name.split(".")) + ".antt"
        parts = name.split(".")
        if os.path.exists(path):
            out.append((name, path, all(public.get(".".join(parts[: n + 1]), True) for n in range(len(parts)))))
    return out
