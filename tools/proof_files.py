"""What a check says, as the tools read it, and the files of a function's proof: Invariants.antt with what only its author can choose, the invariants and
measures, and Answers.antt with the goals that the prover leaves open.

An answer is a line `pub NAME : goal.NAME` and a clause `NAME c = TERM`; it is found by its name.
"""
import os
import re
import subprocess

OFFER = re.compile(r"help: (?:write|add these lines to) \./(proofs/\S+\.antt)\b")
CLAUSE = re.compile(r"(?m)^(?:abbrev )?pub (\S+) : goal\.\S+$")
# an error that another error or a hole has brought about
FOLLOWS = re.compile(r"` was not admitted \(it has|because it was not admitted")
HOLE = re.compile(r"(\S+?:\d+:\d+): goal \? in `(\S+)`")
# where in the source a goal comes from
SOURCE = re.compile(r"-- src/\S+:\d+:\d+$")
# a name's modules
PREFIX = re.compile(r"(?<![\w.+-])(?:Rattle|Prim|native|mathlib|lib|borrow|denote|mir)\.(?:[\w+'-]+\.)*(?=[^\s.])")


def root():
    """The folder of crates.txt, from the working folder upwards."""
    folder = os.getcwd()
    while not os.path.exists(os.path.join(folder, "crates.txt")):
        if folder == os.path.dirname(folder):
            raise SystemExit("no crates.txt here or above")
        folder = os.path.dirname(folder)
    return folder


def checked(crate, *words):
    """What a check of the crate says, past open goals, and its status. It is kept in target/check.out."""
    if not os.path.isdir(f"crates/{crate}"):
        raise SystemExit(f"there is no crate {crate}")
    run = subprocess.run(["rt", "check", crate, "--allow-holes", *words], cwd=f"crates/{crate}", stdout=subprocess.PIPE, stderr=subprocess.STDOUT, text=True)
    output = run.stdout.replace("\n./proofs/", "\nproofs/")
    os.makedirs("target", exist_ok=True)
    write("target/check.out", output)
    return output, run.returncode


def read(path):
    """A file's text, none where there is no such file."""
    if not os.path.exists(path):
        return ""
    with open(path) as file:
        return file.read()


def write(path, text):
    os.makedirs(os.path.dirname(path), exist_ok=True)
    with open(path, "w") as file:
        file.write(text)


def chosen(name):
    """Whether its author chooses what stands under this name: an invariant or a measure."""
    return name.startswith(("invariant-", "decreases-"))


def path_of(crate, function, name):
    """The file for the answer of this name; a function of a module is MODULE/FUNCTION, as its folder is."""
    return f"crates/{crate}/proofs/{function}/{'Invariants' if chosen(name) else 'Answers'}.antt"


def item_of(function):
    """The function as the prover names it; a + before a folder's name stands for a recursion."""
    return function.replace("/", "::").replace("+", "")


def shortened(line):
    """A line without folders, and without modules but where a name is not found."""
    line = re.sub(r"\S*/crates/", "", line)
    return line if "not in scope" in line or "no `" in line else PREFIX.sub("", line)


def offers(output):
    """The files that a check offers, or adds to: path in the crate, and lines."""
    lines = output.split("\n")
    i = 0
    while i < len(lines):
        offer = OFFER.match(lines[i])
        i += 1
        if not offer:
            continue
        body = []
        while i < len(lines) and lines[i].startswith("    "):
            if not SOURCE.match(lines[i][4:]):
                body.append(lines[i][4:].rstrip())
            i += 1
        yield offer.group(1), "\n".join(body)


def parts(output):
    """The output's lines, each with the indented ones below it."""
    part = []
    for line in output.split("\n"):
        if part and not line.startswith("  "):
            yield part
            part = []
        part.append(line)
    yield part


def blocks(text):
    """The text's parts between blank lines, each with the name that it answers, None for other parts."""
    for block in text.rstrip("\n").split("\n\n"):
        clause = CLAUSE.search(block)
        yield (clause.group(1) if clause else None), block


def is_hole(name, block):
    return bool(re.search(rf"(?m)^{re.escape(name)} .*= \?$", block))


def without(text, gone):
    """The text without the answers whose name and block gone tells to leave out."""
    return "\n\n".join(block for name, block in blocks(text) if not (name and gone(name, block))) + "\n"


def put(text, name, term, unfolds=None):
    """The text with this answer; the arguments of the clause stay as they are."""
    asked = f"abbrev pub {name} : goal.{name}\n{name} l = ?" if chosen(name) else f"pub {name} : goal.{name}\n{name} c = ?"
    block = next((block for other, block in blocks(text) if other == name), asked)
    lines = block.split("\n")
    at = next(i for i, line in enumerate(lines) if CLAUSE.match(line))
    left = next(line for line in lines[at + 1 :] if line.startswith(name + " ")).split(" =")[0]
    new = "\n".join(lines[: at + 1] + ([unfolds] if unfolds else []) + [f"{left} = {term}".replace(" = \n", " =\n", 1)])
    return text.replace(block, new) if block in text else f"{text.rstrip()}\n\n{new}\n"


def with_head(text, lines):
    """The text with these comments and imports at its head, but for names that it imports already."""
    known = {name.strip() for names in re.findall(r"(?m)^use [^{\n]*\{(.*)\}$", text) for name in names.split(",")}
    comments, uses = [line for line in lines if line.startswith("-- ") and line not in text], []
    for line in lines:
        use = re.match(r"(use [^{]*)\{(.*)\}$", line)
        new = [name for name in use.group(2).split(", ") if name not in known] if use else []
        if new:
            uses.append(f"{use.group(1)}{{{', '.join(new)}}}")
        elif line.startswith("use ") and not use and line not in text:
            uses.append(line)
    own = text.split("\n")
    while own[0].startswith("-- "):
        comments.append(own.pop(0))
    return "\n".join(comments + uses + own)


def offered(crate, output):
    """Writes what the output offers into the proof files; tells whether there was any."""
    written = False
    for path, text in offers(output):
        path = f"crates/{crate}/{path}"
        old = read(path)
        if old:
            names = {name for name, _ in blocks(old)} - {None}
            head, *asked = [block for name, block in blocks(text) if name not in names]
            text = with_head(old, head.split("\n")).rstrip() + "\n\n" + "\n\n".join(asked)
        write(path, text.rstrip() + "\n")
        print("wrote to" if old else "wrote", path)
        written = True
    return written
