"""Wrong bodies of dev_net that a row has to refuse; bench/planted_links.sh says how."""
import os
import subprocess
import sys

# How rows are run. What doesn't end is stopped after two minutes.
TRY = ["rt", "try", "--seconds", "120", "--"]
LOOPBACK, ROWS = TRY + ["machine/doors.rows"], TRY + ["devices/links.rows", "devices/accepts.rows"]


class Body:
    """A wrong body: its name, the file and the text that it changes, and the row that has to refuse it."""

    def __init__(self, name, file, old, new, run, refuser):
        self.name, self.file, self.old, self.new, self.run, self.refuser = name, file, old, new, run, refuser

    def is_refused(self, said):
        """Whether a run says so. One of a body that doesn't compile doesn't."""
        return ": %s\n-- got\n" % self.refuser in said


TAKES = """            Err(Failed) => %s,
        }
    }

    fn put("""
REFUSAL = "a refusal reaches a client that still sends"
SHORT = "            Accepting::Short => %s,\n"
BODIES = [
    Body("the_write_side_is_never_shut", "closing.rt",
         "let _ = stream.end_sending();", "let _ = &stream;", LOOPBACK, REFUSAL),
    Body("both_sides_are_shut", "socket.rt",
         "self.shutdown(Shutdown::Write)", "self.shutdown(Shutdown::Both)", LOOPBACK, REFUSAL),
    Body("nothing_is_waited_for_at_the_end", "closing.rt",
         "pub const LINGER: u64 = 2_000;", "pub const LINGER: u64 = 0;", LOOPBACK, REFUSAL),
    Body("small_puts_wait_for_more", "socket.rt",
         "self.set_nodelay(true)", "self.set_nodelay(false)", LOOPBACK, "what is put is sent at once"),
    Body("each_take_begins_the_time_again", "link.rt",
         "self.pace = self.pace.taking();", "self.pace = Pace::new(present(&self.rt));", LOOPBACK,
         "a client that drips is given up"),
    Body("a_reset_is_the_end", "link.rt",
         TAKES % "Err(count_fault(&mut self.faults))", TAKES % "Ok(Taken::End)", LOOPBACK,
         "a reset while a link waits for bytes is a fault"),
    Body("a_turn_that_had_enough_is_never_watched_anew", "reactor.rt",
         "        if waits {\n", "        if waits || key < usize::MAX {\n", LOOPBACK,
         "a link that rests before it had to wait goes on"),
    Body("a_slow_reader_is_waited_for_for_ever", "link.rt",
         "Ok(Sent::Later) if now < self.due() => {", "Ok(Sent::Later) if now < u64::MAX => {", LOOPBACK,
         "a client that reads nothing is given up"),
    Body("a_silent_peer_is_waited_for_for_ever", "link.rt",
         "Ok(Taken::Later) if !self.is_over() => {", "Ok(Taken::Later) if self.faults < u64::MAX => {", ROWS,
         "a peer that drips is given up half a minute after it came"),
    Body("a_put_does_not_begin_the_time_again", "link.rt",
         "                self.pace = self.pace.put(now, count as u64);\n", "", ROWS,
         "a peer that takes a byte now and then is given up after a minute"),
    Body("a_shortage_ends_all_accepts", "entry.rt",
         SHORT % "self.lacks(now, error)", SHORT % "self.next = Next::Never", ROWS,
         "too many files of the process"),
    Body("a_shortage_waits_for_an_event", "entry.rt",
         SHORT % "self.lacks(now, error)", SHORT % "self.next = Next::Event", ROWS,
         "too many files of the process"),
]


def ran(crates, words):
    """Whether the rows pass, and what they say."""
    done = subprocess.run(words, cwd=os.path.join(crates, "planted"), stdout=subprocess.PIPE,
                          stderr=subprocess.STDOUT, text=True, errors="replace")
    return done.returncode == 0, done.stdout


def end_of(said):
    """The last lines of what a run says."""
    return "\n".join(said.splitlines()[-20:])


def what_is_wrong(crates, body):
    """Why a wrong body isn't refused as it has to be, or None."""
    path = os.path.join(crates, "dev_net", "src", body.file)
    with open(path) as file:
        whole = file.read()
    if whole.count(body.old) != 1:
        return "its text stands %d times in %s" % (whole.count(body.old), body.file)
    try:
        with open(path, "w") as file:
            file.write(whole.replace(body.old, body.new))
        passes, said = ran(crates, body.run)
    finally:
        with open(path, "w") as file:
            file.write(whole)
    if passes:
        return "nothing refuses it"
    if not body.is_refused(said):
        return "'%s' didn't refuse it:\n%s" % (body.refuser, end_of(said))
    return None


def main():
    crates, words = sys.argv[1], sys.argv[2:]
    bodies = [body for body in BODIES if not words or body.name in words]
    if len(bodies) < len(words):
        sys.exit("the wrong bodies are: %s" % " ".join(body.name for body in BODIES))
    for run in (LOOPBACK, ROWS):
        passes, said = ran(crates, run)
        if not passes:
            sys.exit("without a wrong body '%s' fails:\n%s" % (" ".join(run), end_of(said)))
    wrong = 0
    for body in bodies:
        fault = what_is_wrong(crates, body)
        wrong += fault is not None
        print("%s: %s" % (body.name, fault or "refused by '%s'" % body.refuser), flush=True)
    print("%d wrong bodies, %d not refused" % (len(bodies), wrong))
    sys.exit(1 if wrong else 0)


main()
