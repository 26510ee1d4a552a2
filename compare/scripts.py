"""Scripts, the two programs that answer them, and what is equal in their answers."""
import re
import subprocess
import urllib.parse

SECONDS = 60    # a program that takes longer has failed
SEPARATORS = re.compile(rb"[ \t\r]+")


def words(line):
    """The words of a line, which is bytes."""
    return [word for word in SEPARATORS.split(line) if word]


def is_call(line):
    """Whether a line is answered: it is neither blank nor a comment."""
    first = words(line)[:1]
    return bool(first) and not first[0].startswith(b"#")


def run(command, script, seconds=SECONDS):
    """Exit status, standard output and standard error; status None where the time is over."""
    try:
        done = subprocess.run(command, input=script, capture_output=True, timeout=seconds)
    except subprocess.TimeoutExpired as late:
        return None, late.stdout or b"", late.stderr or b""
    return done.returncode, done.stdout, done.stderr


def lines_of(data):
    """The lines of some bytes; the last one may lack its line feed."""
    lines = data.split(b"\n")
    return lines[:-1] if lines[-1] == b"" else lines


def joined(lines):
    return b"".join(line + b"\n" for line in lines)


# ---- the driver

def driver_answers(driver, lines):
    """The first line of the driver's answer to each line of the script, by the line's place."""
    _, out, _ = run([driver, "--lines"], joined(lines))
    answers, place = {}, None
    for line in lines_of(out):
        if line.startswith(b"line "):
            place = int(line[5:])
        elif place is not None:
            answers.setdefault(place, line.decode())
    return answers


def comparable(driver, lines):
    """The script without the lines that the driver answers with `outside 0`, and the driver's answers to the rest."""
    while True:
        answers = driver_answers(driver, lines)
        left_out = {place for place, answer in answers.items() if answer.startswith("outside 0")}
        if not left_out:
            return lines, answers
        lines = [line for place, line in enumerate(lines) if place not in left_out]


# ---- equal answers

def decoded(text):
    return b"" if text == b"%" else urllib.parse.unquote_to_bytes(text)


def content(line):
    """What a `clause` or `tree` line enters, in whichever way its texts are written."""
    head, *rest = words(line)
    if head == b"clause":
        return decoded(rest[0])
    nodes = [node.partition(b":") for node in rest]
    return tuple((kind, tuple(decoded(part) for part in argument.split(b"/"))) for kind, _, argument in nodes)


def first_equal(lines, answers):
    """For each clause's number that of the first clause with an equal content: the Rust has contents and no numbers."""
    seen, first = {}, {}
    for place, answer in sorted(answers.items()):
        if answer.startswith("clause "):
            number = answer.split()[1]
            first[number] = seen.setdefault(content(lines[place]), number)
    return first


def plain(answer, first):
    """An answer without what may differ: the wording of an error, `outside` for `refused`, clauses of equal content."""
    w = answer.split(" ")
    if w[0] == "error":
        return "error"
    if w[0] == "outside":
        w[0] = "refused"
    if w[0] == "template" or w[:2] in (["ok", "template"], ["ok", "policy"]):
        w[-2] = first.get(w[-2], w[-2])
    return " ".join("clause:" + first.get(x[7:], x[7:]) if x.startswith("clause:") else x for x in w)


class Compared:
    """One script, given to both programs."""

    def __init__(self, driver, console, lines):
        self.lines, self.answers = comparable(driver, lines)
        first = first_equal(self.lines, self.answers)
        status, out, err = run([driver, "--stats"], joined(self.lines))
        self.rust = [plain(x, first) for x in out.decode().split("\n")]
        self.stats = dict(reversed(x.split(" ", 1)) for x in err.decode().split("\n") if re.match(r"\d+ ", x))
        self.status, out, self.err = run([console], joined(self.lines))
        self.out = out
        self.console = [plain(x, first) for x in out.decode(errors="replace").split("\n")]
        self.calls = sum(map(is_call, self.lines))
        self.driver_status = status

    def difference(self):
        """Where the two differ first, in words; none where they agree."""
        if self.driver_status != 0:
            end = [x for x in self.rust if x.startswith(("finding", "panic"))]
            return f"the driver ended with {self.driver_status}: {end[:1]}"
        if self.status != 0:
            return f"the console ended with {self.status}: {self.err[:200]!r}"
        both = max(len(self.rust), len(self.console))
        at = next((i for i in range(both) if self.rust[i:i + 1] != self.console[i:i + 1]), None)
        if at is None:
            return None
        return f"answer line {at + 1}: Rust {self.rust[at:at + 1]}, console {self.console[at:at + 1]}{self.place(at)}"

    def place(self, at):
        """The line of the script that the answer line at this place belongs to, in words."""
        groups = grouped(self.lines, self.out)[0]
        for line, answer in groups:
            if at < len(answer):
                return f", to {line[:200]!r}"
            at -= len(answer)
        return ""


# ---- the console's answers, line by line

def grouped(lines, out):
    """Each line of the script that is answered, with the lines of its answer; then what is left of the output.

    An answer is one line, but for a dump, which says itself how many lines it has."""
    rest, groups = lines_of(out), []
    for line in filter(is_call, lines):
        count = dump_length(rest[0]) if rest and words(line)[0] == b"dump" else 1
        groups.append((line, rest[:count]))
        rest = rest[count:]
    return groups, rest


def dump_length(first):
    """How many lines a dump has that begins with this line; 1 where it begins none."""
    counts = re.fullmatch(rb"dump [AB] (\d+) (\d+)", first)
    return 1 if counts is None else 1 + 2 * int(counts[1]) + int(counts[2])
