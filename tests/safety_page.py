"""Compares docs/SAFETY.md with the public calls of each crate; tests/safety_page.sh says how."""
import glob
import os
import re
import sys

TOP = sys.argv[1]
# Modules whose calls do nothing: each states a law, or an example that the prover computes.
STATEMENTS = ("laws", "examples")


def read(*path):
    with open(os.path.join(TOP, *path), encoding="utf-8") as file:
        return file.read()


def all_crates():
    return re.findall(r"^([a-z0-9_]+)", read("crates.txt"), re.M)


def owner_of(header):
    """The type of an `impl`, and whether it is that of a trait."""
    rest, depth = header[len("impl"):].lstrip(), 0
    if rest.startswith("<"):
        for place, letter in enumerate(rest):
            depth += (letter == "<") - (letter == ">" and rest[place - 1] != "-")
            if depth == 0:
                rest = rest[place + 1:]
                break
    found = re.search(r" for (.*)", rest, re.S)
    name = re.match(r"\s*&?(?:mut )?([A-Za-z0-9_:]+)", found[1] if found else rest)
    return (name[1].split("::")[-1] if name else "", bool(found))


def calls_in(text):
    """The public functions of a file and those of its types and traits, each with the name of its type or trait; and
    the functions by which its types are of a trait."""
    owner, of_trait, found, of_traits = None, False, [], []
    lines = text.splitlines()
    for place, line in enumerate(lines):
        if re.match(r"impl\b", line):
            header = " ".join(lines[place:place + 12]).split("{")[0]
            owner, of_trait = owner_of(header)
        elif re.match(r"(pub )?trait ", line):
            owner, of_trait = re.match(r"(?:pub )?trait (\w+)", line)[1], None
        elif line.startswith("}"):
            owner = None
        elif owner is None:
            name = re.match(r"pub (?:const )?fn (\w+)", line)
            if name:
                found.append((None, name[1]))
        else:
            name = re.match(r"    pub fn (\w+)" if of_trait is False else r"    fn (\w+)", line)
            if name:
                (of_traits if of_trait else found).append((owner, name[1]))
    return found, of_traits


def module_of(path, folder):
    return os.path.relpath(path, folder)[:-3].split(os.sep)[0]


def public_calls(crate):
    """The calls that other crates can make, but for those of modules that hold statements alone, and all the names that
    the page may use for calls."""
    folder = os.path.join(TOP, "crates", crate, "src")
    if not os.path.exists(os.path.join(folder, "lib.rt")):
        return [(None, "main")], {"main"}
    lib = read("crates", crate, "src", "lib.rt")
    modules = re.findall(r"^pub mod (\w+);", lib, re.M)
    names = set()
    for listed in re.findall(r"^pub use (?:\w+::)+(\{[^}]*\}|\w+);", lib, re.M):
        names.update(re.findall(r"\w+", listed))
    found, known = [], set(modules)
    for path in sorted(glob.glob(os.path.join(folder, "**", "*.rt"), recursive=True)):
        module = module_of(path, folder)
        if module in STATEMENTS or crate.endswith("_laws"):
            continue
        with open(path, encoding="utf-8") as file:
            calls, of_traits = calls_in(file.read())
        is_open = module == "lib" or module in modules
        calls = [(owner, name) for owner, name in calls if is_open or (owner or name) in names]
        found += calls
        known.update(word for call in calls + of_traits for word in call if word)
    return found, known


def rows_of_page():
    """What the tables of calls say of each crate: the words that name calls, and those that name whole types."""
    said, crates = {}, []
    for line in read("docs", "SAFETY.md").split("\n## Numbers\n")[0].splitlines():
        cells = [cell.strip() for cell in line.strip("|").split("|")]
        if not line.startswith("|") or len(cells) != 5:
            continue
        crates = re.findall(r"`(\w+)`", cells[0]) or crates
        words = re.findall(r"`([\w:]+)`", cells[1])
        whole = "calls of" in cells[1]
        for crate in crates:
            said.setdefault(crate, []).extend((word, whole) for word in words)
    return said


def is_named(owner, name, said):
    for word, whole in said:
        front, _, last = word.rpartition("::")
        if last == name and front in ("", owner) or whole and word == owner:
            return True
    return False


def tests_alone():
    """The crates that the page says are for tests alone."""
    return set(re.findall(r"`(\w+)`", re.search(r"^The crates for tests alone.*$", read("docs", "SAFETY.md"), re.M)[0]))


def main():
    said, missing, crates = rows_of_page(), [], all_crates()
    tests, count = tests_alone(), 0
    for crate in crates:
        if crate in tests:
            continue
        calls, known = public_calls(crate)
        count += len(calls)
        missing += ["%s: %s" % (crate, "::".join(filter(None, call))) for call in sorted(set(calls), key=str)
                    if not is_named(*call, said.get(crate, []))]
        missing += ["%s has no %s any more" % (crate, word) for word, _ in said.get(crate, [])
                    if word.split("::")[-1] not in known]
    missing += ["crates.txt has no %s any more" % crate for crate in sorted(set(said) | tests) if crate not in crates]
    for line in missing:
        print(line)
    print("docs/SAFETY.md: %d calls of %d crates, %d not as they are" % (count, len(crates) - len(tests), len(missing)))
    return 1 if missing else 0


sys.exit(main())
