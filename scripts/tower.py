"""The crates as crates.txt lists them, and copies of them, for the scripts beside this file."""
import os, re, shutil

TOP = os.path.dirname(os.path.dirname(os.path.abspath(__file__)))
LINE = re.compile(r"(\w+)((?: \w+=?[\w.-]*)*):(.*)")


def kit():
    """The folder of the kit whose `rt` is in the path."""
    found = shutil.which("rt")
    if found is None:
        raise SystemExit("rt, the command of the Rattle kit, is not in the path")
    return os.path.dirname(os.path.dirname(os.path.realpath(found)))


def crates():
    """Of each crate its words before the colon and what it stands on, in the order of crates.txt."""
    listed = {}
    with open(f"{TOP}/crates.txt", encoding="utf-8") as lines:
        for line in lines:
            found = LINE.match(line)
            if found:
                listed[found[1]] = (found[2].strip(), found[3].split())
    return listed


def with_those_below(names):
    """These crates and those of the repository that they stand on, in the order of crates.txt."""
    listed, needed, ahead = crates(), set(), list(names)
    while ahead:
        name = ahead.pop()
        if name in listed and name not in needed:
            needed.add(name)
            ahead += listed[name][1]
    return [name for name in listed if name in needed]


def copy(to, names, words=None):
    """Copies these crates into a folder, without what rt made and without wrong bodies; what rt made in that folder stays. `words` are put before
    a crate's colon."""
    os.makedirs(f"{to}/crates", exist_ok=True)
    shutil.copy2(f"{TOP}/HANDLES", to)
    for name in os.listdir(f"{to}/crates"):
        if name not in names:
            shutil.rmtree(f"{to}/crates/{name}")
    for name in names:
        folder = f"{to}/crates/{name}"
        os.makedirs(folder, exist_ok=True)
        for part in os.listdir(folder):
            if part != "out":
                remove(f"{folder}/{part}")
        for part in os.listdir(f"{TOP}/crates/{name}"):
            if part not in ("out", "must-fail", "wrong-bodies"):
                copy_part(f"{TOP}/crates/{name}/{part}", f"{folder}/{part}")
    list_crates(to, names, words)


def widen(to):
    """Sets in a folder's stark_sha256 how many texts are hashed side by side: 8, for a processor with AVX2."""
    path, line = f"{to}/crates/stark_sha256/src/eight.rt", "pub const WIDTH: usize = 4;\n"
    with open(path, encoding="utf-8") as file:
        text = file.read()
    if text.count(line) != 1:
        raise SystemExit(f"{path}: not exactly one line {line.strip()!r}")
    with open(path, "w", encoding="utf-8") as file:
        file.write(text.replace(line, line.replace("4", "8")))


def list_crates(to, names, words=None):
    """Writes a folder's crates.txt, of these crates alone."""
    listed, words = crates(), words or {}
    with open(f"{to}/crates.txt", "w", encoding="utf-8") as file:
        for name in names:
            before = " ".join(filter(None, [name, listed[name][0], words.get(name, "")]))
            file.write(f"{before}: {' '.join(listed[name][1])}\n")


def remove(path):
    if os.path.isdir(path) and not os.path.islink(path):
        shutil.rmtree(path)
    else:
        os.remove(path)


def copy_part(path, to):
    if os.path.isdir(path):
        shutil.copytree(path, to)
    else:
        shutil.copy2(path, to)
