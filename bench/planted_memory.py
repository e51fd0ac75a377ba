"""Bodies that say for large input that memory ran out, and what refuses each; bench/planted_memory.sh says how."""
import os
import re
import shutil
import signal
import subprocess
import sys

from unproved import build

TOP, FOLDER = sys.argv[1:3]
TREE = os.path.join(FOLDER, "tree")
PROTO = "gfs_20240101_0000.nc"
ENDS = "        return Err(Fail::NoMemory);\n    }\n"
ENDS_PLAINLY = "        return Err(NoMemory);\n    }\n"


class Body:
    """Another body of a function: a text of a file of crates/, and what stands for it."""

    def __init__(self, name, file, old, new, first=()):
        self.name, self.file, self.old, self.new = name, os.path.join(TREE, "crates", file), old, new
        # What refuses it, where the rows and the limits can't. It wants a proof of the body.
        self.first = first

    def put_in(self):
        with open(self.file, encoding="utf-8") as file:
            text = file.read()
        if text.count(self.old) != 1:
            raise Broken("its text stands %d times in the file" % text.count(self.old))
        self.write(text.replace(self.old, self.new))
        return text

    def write(self, text):
        with open(self.file, "w", encoding="utf-8") as file:
            file.write(text)


def before(condition, line, ends=ENDS):
    """A line, and the same behind an end under a condition."""
    return line, "    if %s {\n" % condition + ends + line


def behind(condition, line, ends=ENDS):
    """A line, and the same with an end behind it under a condition."""
    return line, line + "    if %s {\n" % condition + ends


def instead(old, new):
    return old, new


BODIES = [
    Body("a_file_over_10_MB", "fm_load/src/loading.rt", *before(
        "bytes.len() > 10_000_000",
        "    let Taken { run, times, slots } = take(alloc, name, bytes.as_slice(), proto)?;\n")),
    Body("a_prototype_over_10_MB", "fm_proto/src/read.rt", *before(
        "bytes.len() > 10_000_000", "    prototype_in(alloc, bytes.as_slice(), site)\n")),
    Body("a_file_over_1_MB_that_arrives", "srv_ingest/src/file.rt", *instead(
        "        Found::Content(bytes) => match load(",
        "        Found::Content(bytes) if bytes.len() > 1_000_000 => Err(Fail::NoMemory),\n"
        "        Found::Content(bytes) => match load(")),
    Body("a_file_after_1000", "fm_edition/src/maps.rt", *before(
        "self.tally.files >= 1_000", "        let gone = self.gone(alloc, op)?;\n")),
    Body("operations_after_10000", "pub_snap/src/desk/publishing.rt", *before(
        "self.revision() >= 10_000", "        let edition = self.edition().after(alloc, &op)?;\n")),
    # A connection has at most 10,000 requests, so no run makes more looks.
    Body("the_look_after_9999", "pub_look/src/plain.rt", *before(
        "self.looks.len() >= 9_999", "        self.looks.push(revision)?;\n", ENDS_PLAINLY)),
    Body("steps_after_100", "srv_words/src/steps.rt", *before(
        "words.len() > 100", "    let mut steps = List::new(alloc);\n    for word in words {\n")),
    Body("workers_after_20", "srv_workers/src/workers.rt", *before(
        "passes > 20", "    let shared = proto.share()?;\n", ENDS_PLAINLY)),
    Body("passes_after_16_have_no_seat", "pub_snap/src/blank.rt", *instead(
        "    for i in 0..passes.len() {\n        passes[i].sit",
        "    for i in 0..passes.len().min(16) {\n        passes[i].sit")),
    Body("a_target_over_4_KB", "web_path/src/read.rt", *before(
        "target.len() > 4_096", "    if let Some(at) = bad_escape(target) {\n")),
    Body("clauses_after_1000", "dap_ce/src/read.rt", *instead(
        "        Some(_) => read_clauses(alloc, text),\n",
        "        Some(_) if text.iter().filter(|byte: &&u8| **byte == b',').count() >= 1_000 => Err(Fail::NoMemory),\n"
        "        Some(_) => read_clauses(alloc, text),\n")),
    Body("declarations_after_500", "dap_project/src/projection.rt", *before(
        "decls.len() > 500", "    if clauses.is_empty() {\n")),
    Body("an_attribute_text_over_64_KB", "dap_das/src/text.rt", *behind(
        "whole.len() > 65_536", "    put_last_line(&mut whole)?;\n", ENDS_PLAINLY)),
    Body("data_over_100_MB", "dap_reply/src/asked.rt", *behind(
        "len > 100_000_000", "    let len = layout.len + begin;\n")),
    Body("a_reply_over_1_MB", "srv_conn/src/answer.rt", *instead(
        "        Ok((plan, revision)) => {\n",
        "        Ok((plan, revision)) => {\n"
        "            if plan.len() > 1_000_000 {\n"
        "                leave(session, doing);\n"
        "                return Err(NoMemory);\n"
        "            }\n")),
    Body("a_name_that_changed_meanwhile", "srv_verdict/src/deciding.rt", *instead(
        "        Ok((false, _)) => None,\n", "        Ok((false, _)) => Some(change.when_short()),\n")),
    Body("no_spare_room_at_a_desk", "pub_snap/src/desk.rt", *instead(
        "            level: false,\n", "            level: true,\n"), first=("publisher",)),
    # Two that go wrong once memory runs out.
    Body("a_change_is_tried_until_there_is_memory", "srv_verdict/src/deciding.rt", *instead(
        "            Attempt::Short => return change.when_short(),\n", "            Attempt::Short => {}\n"),
        first=("memory",)),
    Body("a_file_takes_memory_of_the_limit", "dev_std/src/content.rt", *instead(
        "    let room = (len as usize).saturating_add(1);\n",
        "    let room = (limit as usize).saturating_add(len as usize);\n"), first=("memory",)),
]


class Broken(Exception):
    """Nothing can be said of a body, since it can't be put in or built, or a check came to no end."""


def run(words, folder=TREE):
    """What a command prints."""
    ran = subprocess.run(words, cwd=folder, stdin=subprocess.DEVNULL, capture_output=True, text=True,
                         errors="replace", check=False)
    return ran.stdout + ran.stderr


def counted(said, form, wrong, count=1):
    """What is wrong by the text of a check, whose last lines count it."""
    ends = re.findall(form, said, re.M)
    if len(ends) != count:
        raise Broken("no count:\n" + said[-2000:])
    if not any(map(int, ends)):
        return None
    found = re.findall(wrong, said, re.M)
    return found[0] if found else "%s wrong" % sum(map(int, ends))


def words_of(crate):
    """The words of a crate's stored run, but for those that are slow."""
    with open(os.path.join(crate, "args")) as args, open(os.path.join(crate, "slow")) as slow:
        left_out = slow.read().split()
        return [word for word in args.read().split() if word not in left_out]


def rows(_program):
    crate = os.path.join(TREE, "crates", "rows")
    words = words_of(crate)
    given = []
    for word in words:
        given += ["--data", "%s=data/%s" % (word, word)]
    said = run(["rt", "try", "--seconds", "600"] + given + ["--"] + words, crate)
    return counted(said, r"^\d+ rows, (\d+) wrong$", r"^\w+/\w+\.rows:\d+: .*$")


def limits(program):
    said = run([os.path.join(TOP, "tests", "limits.sh"), program()])
    return counted(said, r"^\d+ cases, (\d+) wrong$", r"^.*: WRONG: .{0,80}", 2)


def memory(_program):
    """With the proved program, since one with checks takes memory in a way of its own, which can't be refused."""
    crate = os.path.join(TREE, "crates", "fmrcd")
    said = run(["rt", "run", "--", "--version"], crate)
    program = os.path.join(crate, "out", "fmrcd")
    if not os.path.exists(program):
        raise Broken("it isn't proved:\n" + said[-2000:])
    said = run([os.path.join(TOP, "bench", "out_of_memory.sh"), program])
    return counted(said, r"^(\d+) wrong$", r"^WRONG: .{0,120}", 2)


def publisher(_program):
    said = run([os.path.join(TREE, "bench", "refused_publisher.sh")])
    return counted(said, r"refused.*: (\d+) wrong$", r"^.* refused: .{0,80}", 2)


CHECKS = {"rows": rows, "limits": limits, "memory": memory, "publisher": publisher}
USUAL = ("rows", "limits")


class Program:
    """The program of the tree as it is, which is built once, where a check asks for it."""

    def __init__(self):
        self.path = None

    def __call__(self):
        if self.path is None:
            self.path = os.path.join(FOLDER, "fmrcd")
            words = ["serve", "--name", "gfs", "--proto", PROTO, "--listen", "127.0.0.1:0", "--workers", "1", "."]
            said = build(os.path.join(TREE, "crates", "fmrcd"), self.path, words, ["%s=data/%s" % (PROTO, PROTO)])
            if said:
                raise Broken("it isn't built:\n" + said[-2000:])
        return self.path


def first_that_refuses(names):
    """The first of some checks that refuses the tree as it is, and by what; None where each passes."""
    program = Program()
    if os.path.exists(os.path.join(TREE, "crates", "fmrcd", "out")):
        shutil.rmtree(os.path.join(TREE, "crates", "fmrcd", "out"))
    for name in names:
        wrong = CHECKS[name](program)
        if wrong:
            return "%s: %s" % (name, wrong)
    return None


def try_body(body):
    """Whether a body is refused."""
    whole = body.put_in()
    try:
        found = first_that_refuses(body.first + USUAL)
    finally:
        body.write(whole)
    print("%s: %s" % (body.name, "refused by " + found if found else "NOT REFUSED"), flush=True)
    return bool(found)


def main():
    signal.signal(signal.SIGTERM, lambda *_: sys.exit(1))
    named = sys.argv[3:]
    bodies = [body for body in BODIES if (body.name in named if named else not body.first)]
    if len(bodies) < len(named):
        sys.exit("there are these bodies: " + " ".join(body.name for body in BODIES))
    needed = USUAL + tuple(name for name in ("memory", "publisher") if any(name in body.first for body in bodies))
    try:
        found = first_that_refuses(needed)
    except Broken as broken:
        found = broken
    if found:
        sys.exit("without a body: %s" % found)
    print("without a body: %s pass" % ", ".join(needed), flush=True)
    failed = 0
    for body in bodies:
        try:
            failed += not try_body(body)
        except Broken as broken:
            print("%s: NOTHING TO SAY: %s" % (body.name, broken), flush=True)
            failed += 1
    print("%d bodies, %d not refused" % (len(bodies), failed))
    return 1 if failed else 0


if __name__ == "__main__":
    sys.exit(main())
