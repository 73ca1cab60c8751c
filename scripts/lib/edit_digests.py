"""Digests of what the must-fail edits of a crate are tried over, and the record of those that were all refused.

What decides whether an edit is refused are the crate's own src/, specs/ and must-fail/, what these use of the crates below (the files of
specs/ that they reach by imports, and of the files of src/ the public signatures with their clauses), and the kit's logic. Proofs don't
count: a contract is as strong whichever way it was proved. Nor do comments, blank lines, the ends of lines in specs/ and in clauses, the
bodies of the crates below, and names that are imported and stand nowhere else in their file.
"""
import functools
import hashlib
import os
import re
import subprocess

from built_program import ROOT

RECORD = ".ci/edits.txt"
HEAD = """\
# The crates whose must-fail edits were all refused: name, digest of what they were tried over, and the day. Only scripts/gate/edits writes it.
"""
SPECS = re.compile(r"\bRattle\.(\w+)\.specs\.(\w+(?:\.\w+)*)")
IMPORT = re.compile(r"(\s*(?:ghost )?use [^{;]*\{)([^}]*)(\};?)$")
ITEM = r"(?m)^\s*pub (?:const |unsafe )*(?:struct|enum|trait|fn|const|type|union) {0}\b"
CLAUSE = re.compile(r"\s*(requires|ensures|ghost \w+ = \{|ghost \w+: \{)")
FUNCTION = re.compile(r"(\s*)(pub |pub\([^)]*\) )?(?:const |unsafe )*fn ")


@functools.cache
def read(path):
    with open(os.path.join(ROOT, path), encoding="utf-8") as file:
        return file.read()


@functools.cache
def files(crate, part, ending):
    folder = f"crates/{crate}/{part}"
    names = os.listdir(os.path.join(ROOT, folder)) if os.path.isdir(os.path.join(ROOT, folder)) else []
    return [f"{folder}/{name}" for name in sorted(names) if name.endswith(ending)]


@functools.cache
def crates():
    return sorted(name for name in os.listdir(os.path.join(ROOT, "crates")) if files(name, "src", ".rt"))


def unbroken(text):
    """A text of specs, or a clause, without what a broken line adds to it."""
    return re.sub(r"[,;]([)}\]])", r"\1", re.sub(r" ?([(){}\[\],;]) ?", r"\1", " ".join(text.split())))


def whole_clauses(lines):
    """The lines, with each clause and each definition of a ghost in one."""
    made, is_open = [], False
    for line in lines:
        if is_open:
            made[-1] += f" {line.strip()}"
        else:
            made.append(line)
        is_open = bool(CLAUSE.match(made[-1])) and made[-1].count("{") > made[-1].count("}")
    return [unbroken(line) if CLAUSE.match(line) else line for line in made]


def plain(text):
    """The text without blank lines and lines of comment."""
    return "\n".join(whole_clauses(line for line in text.splitlines() if line.strip() and not line.lstrip().startswith(("//", "--"))))


def needed(text):
    """A plain text without the imported names that stand nowhere else in it, those of a module in one line."""
    imports, lines = {}, []
    for line in text.splitlines():
        found = IMPORT.match(line)
        if found:
            imports.setdefault((found[1], found[3]), []).extend(name.strip() for name in found[2].split(","))
        else:
            lines.append(line)
    rest = "\n".join(lines)
    kept = []
    for (before, behind), names in sorted(imports.items()):
        stand = sorted(name for name in names if all(part in rest for part in name.split(" as ")[-1].split("◌")))
        kept += [before + ", ".join(stand) + behind] if stand else []
    return "\n".join(kept + lines)


@functools.cache
def signatures(path):
    """A file of src/ without the bodies of its functions and without its private functions."""
    kept, lines, block, at = [], plain(read(path)).split("\n"), "", 0
    while at < len(lines):
        line = lines[at]
        found = FUNCTION.match(line)
        if re.match(r"(?:pub )?(?:unsafe )?(?:impl|trait)\b", line):
            block = line
        if not found:
            kept += [] if line.lstrip().startswith("#[tactic(") else [line]
            at += 1
            continue
        end = at
        while not lines[end].endswith((" {", ";", "}")) and lines[end] != f"{found[1]}{{" or lines[end].lstrip().startswith(("requires", "ensures")) and not lines[end].endswith(";"):
            end += 1
        is_seen = found[2] == "pub " or found[1] and (" for " in block or "trait " in block)
        kept += [line for line in lines[at : end + 1] if line.strip() != "{"] if is_seen else []
        if lines[end].endswith("{"):
            while lines[end] != f"{found[1]}}}":
                end += 1
        at = end + 1
    return needed("\n".join(kept))


@functools.cache
def declaring(crate, name):
    """The files of a crate's src/ that declare a public item, or implement something for it."""
    item, of_type = re.compile(ITEM.format(name)), re.compile(rf"(?m)^impl\b[^{{]*\b{name}\b")
    return [path for path in files(crate, "src", ".rt") if item.search(signatures(path)) or of_type.search(signatures(path))]


def used(crate, text):
    """The files of specs/ and of src/ that a text of a crate names."""
    for other, words in SPECS.findall(text):
        first, *rest = words.split(".")
        path = f"crates/{other}/src/{rest[0]}.rt" if first == "declared" and rest else f"crates/{other}/specs/{first}.antt"
        if os.path.isfile(os.path.join(ROOT, path)):
            yield path
    names = "|".join(crates())
    for other, group, name in re.findall(rf"\b(crate|{names})::(?:\w+::)*(?:\{{([^;]*?)\}}|(\w+))", text):
        other = crate if other == "crate" else other
        for word in re.findall(r"\w+", group or name):
            yield from declaring(other, word)


@functools.cache
def reached(path):
    text = needed(plain(read(path))) if path.endswith(".antt") else signatures(path)
    return text, sorted(set(used(path.split("/")[1], text)))


def digest(crate, logic):
    own = [path for part, ending in (("src", ".rt"), ("specs", ".antt"), ("must-fail", ".edit")) for path in files(crate, part, ending)]
    texts = {path: needed(plain(read(path))) if not path.endswith(".edit") else read(path) for path in own}
    left = [path for text in list(texts.values()) for path in used(crate, text)]
    while left:
        path = left.pop()
        if path not in texts:
            texts[path], more = reached(path)
            left += more
    sums = hashlib.sha256(logic.encode())
    for path, text in sorted(texts.items()):
        sums.update(f"\0{path}\0{unbroken(text) if path.endswith('.antt') else text}".encode())
    return sums.hexdigest()


def logic():
    """The kit's logic, by its line, as in `rattle-kit-13b logic dac8208d650f15bf`."""
    told = subprocess.run(["rt", "version"], capture_output=True, text=True, check=True).stdout
    return re.search(r"\blogic (\w+)", told)[1]


def with_edits():
    return [crate for crate in crates() if files(crate, "must-fail", ".edit")]


def digests():
    of = logic()
    return {crate: digest(crate, of) for crate in with_edits()}


def record():
    """Of each crate in the record its digest and the day."""
    path = os.path.join(ROOT, RECORD)
    lines = open(path, encoding="utf-8").read().splitlines() if os.path.isfile(path) else []
    return {name: (of, day) for name, of, day in (line.split() for line in lines if line and not line.startswith("#"))}


def write_record(lines):
    """Writes the record in one step, without the crates that are gone."""
    path = os.path.join(ROOT, RECORD)
    there = set(with_edits())
    with open(f"{path}.new", "w", encoding="utf-8") as file:
        file.write(HEAD + "".join(f"{name} {of} {day}\n" for name, (of, day) in sorted(lines.items()) if name in there))
    os.replace(f"{path}.new", path)
