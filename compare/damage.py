#!/usr/bin/env python3
"""damage.py CONSOLE FIRST COUNT [--jobs N] [--seconds S] [--keep FOLDER]: damaged scripts, given to the console alone.

Each script, made from its seed, is bytes that are no good script any more. The console has to end by itself with status 0
within the time, with nothing on standard error, and to print what docs/FORMATS.md says: one answer to each line that is
neither blank nor a comment, a dump having the lines that it announces, and then the dumps of both sets; each answer of a
form that its line may have, each refusal with a number that its call may give. Without its refused lines and its errors
a script has to leave the same sets. A script that fails is written to FOLDER. Exit status 0 where none fails.
"""
import argparse
import collections
import os
import random
import re
import time
from concurrent.futures import ThreadPoolExecutor

import gen
import scripts

# ---- damaged scripts

MEGABYTE = 1 << 20


def good(r):
    """A generated script, as bytes."""
    lines = gen.script(r.randrange(1 << 20), r.choice([5, 20, 60, 150]))
    return "\n".join(lines).encode() + b"\n"


def cut(r, script):
    return script[:r.randrange(len(script) + 1)]


def cut_front(r, script):
    return script[r.randrange(len(script) + 1):]


def flip_bits(r, script):
    data = bytearray(script)
    for _ in range(r.choice([1, 3, 10, 100, 1000])):
        data[r.randrange(len(data))] ^= 1 << r.randrange(8)
    return bytes(data)


def other_bytes(r, script):
    data = bytearray(script)
    for _ in range(r.choice([1, 3, 10, 100, 1000])):
        at = r.randrange(len(data))
        data[at:at + r.randrange(3)] = r.randbytes(r.randrange(4))
    return bytes(data)


def control_bytes(r, script):
    data = bytearray(script)
    for _ in range(r.choice([1, 10, 300])):
        data.insert(r.randrange(len(data) + 1), r.choice(b"\0\r\n\t\x0b\x0c\x1a\x1b\x7f\x80\x85\xa0\xc3\xff"))
    return bytes(data)


def percent_signs(r, script):
    data = bytearray(script)
    for _ in range(r.choice([1, 10, 300])):
        data[r.randrange(len(data))] = ord("%")
    return bytes(data)


def no_last_feed(r, script):
    return script.rstrip(b"\n") + r.choice([b"", b"\r", b" ", b"\0", b"\n\n\n", b"\n ", b"\n#", b"\n\r"])


def other_feeds(r, script):
    return script.replace(b"\n", r.choice([b"\r\n", b"\n\r", b"\r", b"\n\n", b"\0\n", b" \t\r\n", b"\x0b\n"]))


def random_bytes(r, _):
    kinds = [bytes(range(256)), b" \t\r\n%", b"ab \n", b"%0123456789abcdefABCDEF\n ", b"\0", b"\n"]
    return bytes(r.choices(r.choice(kinds), k=r.choice([0, 1, 2, 50, 1000, 30000])))


def random_words(r, script):
    """Lines of words that stand in good lines, in any order and number."""
    stock = sorted(set(script.split())) + [word.encode() for word in gen.STRAY]
    lines = [b" ".join(r.choices(stock, k=r.randrange(9))) for _ in range(200)]
    return b"\n".join(lines)


def shuffled_lines(r, script):
    lines = script.split(b"\n")
    r.shuffle(lines)
    return b"\n".join(lines)


def two_scripts(r, script):
    """One script behind the other's half, without a line feed between."""
    return cut(r, script) + cut_front(r, good(r))


def repeated_lines(r, script):
    """Many of the same, until tables and books are full."""
    lines = script.split(b"\n")
    return b"\n".join(r.choices(lines, k=2000))


LONG_HEADS = [b"", b"#", b"name ", b"type ", b"text ", b"clause ", b"tree ", b"condition permit eq:", b"link A t ",
              b"condition permit any in:[", b"template A ", b"add A link l ", b"merge A B rename ", b"dump A ", b"\0"]
LONG_PARTS = [b"x", b"%41", b"%", b" ", b"\t", b"\r", b"\0", b"\xff", b"a/b,", b"not ", b"principal ", b"entity:a/b ", b"9", b":",
              b"[", b"/", b",", b"?", b"any ", b"%4"]


def long_line(r, script):
    """A line of a megabyte in the script."""
    part = r.choice(LONG_PARTS)
    line = r.choice(LONG_HEADS) + part * (MEGABYTE // len(part)) + r.choice([b"", b"]", b" -", b" A"])
    lines = script.split(b"\n")
    lines.insert(r.randrange(len(lines) + 1), line)
    return b"\n".join(lines)


def many_words(r, script):
    """A line of thousands of words in the script."""
    lines = script.split(b"\n")
    at = r.randrange(len(lines))
    stock = sorted(set(script.split()))
    lines[at] = b" ".join([lines[at]] + r.choices(stock, k=r.choice([1000, 5000, 50000])))
    return b"\n".join(lines)


DAMAGES = [cut, cut_front, flip_bits, other_bytes, control_bytes, percent_signs, no_last_feed, other_feeds, random_bytes,
           random_words, shuffled_lines, two_scripts, repeated_lines, long_line, many_words]


def damaged(seed):
    """The kind of the damage, and the script."""
    r = random.Random(seed)
    damage = DAMAGES[seed % len(DAMAGES)]
    return damage.__name__, damage(r, good(r))


# ---- what an answer may be

TEXT = r"(?:%|(?:[A-Za-z0-9_.]|%[0-9A-F]{2})+)"
TYPE = r"(?:%|(?:[A-Za-z0-9_.:]|%[0-9A-F]{2})+)"
ENTITY = rf"{TYPE}/{TEXT}"
REF = rf"(?:\?|{ENTITY})"
SCOPE = rf"(?:any|eq:{REF}|in:{REF}|is:{TYPE}|isin:{TYPE}:{REF})"
ACTION = rf"(?:any|eq:{ENTITY}|in:\[(?:{ENTITY}(?:,{ENTITY}){{0,7}})?\])"
FIELDS = rf"(?:permit|forbid) {SCOPE} {ACTION} {SCOPE} (?:-|\d+) [0-3]"
VALUES = rf"(?:-|{ENTITY}) (?:-|{ENTITY})"
POLICY = rf"{TEXT} {TEXT} (?:static - -|link {VALUES})"
NODE = (rf"(?:true|false|principal|action|resource|\?principal|\?resource|entity:{ENTITY}|is:{TYPE}|and|eq|in"
        r"|set:[0-8]|clause:\d+)")


def listing(item):
    return rf"ok \d+(?: {item})*"


PAIR_LISTING = listing(f"{TEXT},{TEXT}")
HANDED_POLICY = f"ok policy {POLICY} {FIELDS}"
# For each call: what it answers when it is accepted, and the numbers of its refusals.
CALLS = {
    "name": (r"name \d+", "3 4"),
    "text": (f"text {TEXT}", "1"),
    "type": ("yes|no", ""),
    "action": ("yes|no", "3 4"),
    "clause": (r"clause \d+", "3 4"),
    "tree": (r"clause \d+", "3 4 5 7"),
    "condition": (listing(NODE), "2 3 4 5 6 24"),
    "binding": ("ok", "2 3 4 5 6 12"),
    "template": ("ok", "2 3 4 5 6 10 25 27"),
    "static": ("ok", "2 3 4 5 6 8 10 27"),
    "add": ("ok", "2 3 4 5 6 8 10 12 25 26 27"),
    "link": (f"ok link {TEXT} {TEXT} {VALUES}", "3 4 11 12 13 25 27"),
    "unlink": (HANDED_POLICY, "3 4 14 15"),
    "remove_static": (HANDED_POLICY, "3 4 16 17"),
    "remove_template": (f"ok template {TEXT} {FIELDS}", "3 4 18 19 20"),
    "merge": (listing(f"{TEXT}>{TEXT}"), "4 10 24 27"),
    "policies": (PAIR_LISTING, ""),
    "static_policies": (PAIR_LISTING, ""),
    "templates": (listing(TEXT), ""),
    "links": (listing(TEXT), "3 4 21"),
    "filled": (f"ok {SCOPE} {SCOPE}|none", "3 4"),
    "validate": ("ok", "22 23"),
    "dump": (r"dump [AB] \d+ \d+", ""),
}
# The values of a refusal, by its number.
REFUSALS = {4: "", 5: f" {TEXT}", 8: " [12]", 12: " [0-3] [0-3]", 22: f" {TEXT} [12]", 23: rf" {TEXT} \d+",
            27: " (?:templates|policies)"}
REFUSALS.update({n: r" \d+" for n in (1, 2, 3, 6, 7, 24)})
REFUSALS.update({n: f" {TEXT}" for n in [9, 10, 11, *range(13, 22), 25, 26]})


def answer_form(head):
    """The form of the first line of an answer to a line with this first word."""
    accepted, numbers = CALLS.get(head, (None, ""))
    forms = [r"error [ -~]+"] + [accepted] * (accepted is not None)
    forms += [f"refused {n}{REFUSALS[int(n)]}" for n in numbers.split()]
    return re.compile("|".join(f"(?:{form})" for form in forms))


FORMS = {head: answer_form(head) for head in [*CALLS, None]}
DUMP_LINES = [re.compile(form) for form in (f"template {TEXT} {FIELDS}", f"policy {POLICY}", listing(TEXT).replace("ok", f"reverse {TEXT}"))]


def counted(line, words_before):
    """Whether a line has as many words as it says behind those before."""
    words = line.split(" ")[words_before:]
    return int(words[0]) == len(words) - 1


def dump_fault(lines):
    """What is wrong with a dump; none where nothing is."""
    _, _, templates, policies = lines[0].split(" ")
    counts = [int(templates), int(policies), int(templates)]
    if len(lines) != 1 + sum(counts):
        return "dump too short"
    kinds = [form for form, count in zip(DUMP_LINES, counts) for _ in range(count)]
    for line, form in zip(lines[1:], kinds):
        if not form.fullmatch(line) or (form is DUMP_LINES[2] and not counted(line, 2)):
            return f"dump line {line[:80]!r}"
    return None


def answer_fault(line, answer):
    """What is wrong with the answer to a line; none where nothing is."""
    if not answer:
        return "no answer"
    head = scripts.words(line)[0].decode(errors="replace")
    if not FORMS[head if head in CALLS else None].fullmatch(answer[0]):
        return f"answer {answer[0][:80]!r}"
    if re.match(r"ok \d", answer[0]) and not counted(answer[0], 1):
        return f"count in {answer[0][:80]!r}"
    return dump_fault(answer) if answer[0].startswith("dump ") else None


def output_fault(script, out):
    """What is wrong with the output to a script; none where nothing is. Also how many lines were answered."""
    lines = scripts.lines_of(script)
    if not out.endswith(b"\n") or not out.isascii():
        return "output is not lines of ASCII", 0
    groups, rest = scripts.grouped(lines + [b"dump A", b"dump B"], out)
    if rest:
        return f"{len(rest)} lines too many", len(groups) - 2
    for line, answer in groups:
        fault = answer_fault(line, [x.decode() for x in answer])
        if fault:
            return f"{fault} to {line[:80]!r}", len(groups) - 2
    if [answer[0][:7] for _, answer in groups[-2:]] != [b"dump A ", b"dump B "]:
        return "dumps of both sets are not at the end", len(groups) - 2
    return None, len(groups) - 2


def without_refused(script, out):
    """The script without the lines on sets that were refused or no call; 17 moves a link, and what comes before the
    first accepted line on a set may say which clauses there are."""
    groups, _ = scripts.grouped(scripts.lines_of(script), out)
    kept, started = [], False
    for line, answer in groups:
        quiet = re.match(rb"error |refused (?!17 )", answer[0]) and started
        started = started or (answer[0][:5] not in (b"error", b"refus") and scripts.words(line)[1:2] in ([b"A"], [b"B"]))
        if not quiet:
            kept.append(line)
    return scripts.joined(kept)


def final_dumps(out):
    lines = scripts.lines_of(out)
    starts = [i for i, line in enumerate(lines) if line.startswith(b"dump ")]
    return lines[starts[-2]:]


def fault_of(console, script, seconds):
    """What is wrong with the console's run on a script; and how many lines it answered."""
    status, out, err = scripts.run([console], script, seconds)
    if status != 0:
        return ("not over in time" if status is None else f"status {status}: {err[:80]!r}"), 0
    if err:
        return f"standard error {err[:80]!r}", 0
    fault, count = output_fault(script, out)
    if fault is None and b"\nrefused 4\n" not in b"\n" + out:
        status, again, _ = scripts.run([console], without_refused(script, out), seconds)
        if status != 0 or final_dumps(again) != final_dumps(out):
            fault = "a refused line left something behind"
    return fault, count


def main():
    parser = argparse.ArgumentParser(usage=__doc__)
    parser.add_argument("console")
    parser.add_argument("first", type=int)
    parser.add_argument("count", type=int)
    parser.add_argument("--jobs", type=int, default=1)
    parser.add_argument("--seconds", type=float, default=20)
    parser.add_argument("--keep")
    args = parser.parse_args()
    start, size, answered = time.time(), 0, 0
    kinds, failures = collections.Counter(), collections.Counter()

    def one(seed):
        kind, script = damaged(seed)
        return seed, kind, script, *fault_of(args.console, script, args.seconds)

    with ThreadPoolExecutor(args.jobs) as pool:
        for seed, kind, script, fault, count in pool.map(one, range(args.first, args.first + args.count)):
            kinds[kind] += 1
            size += len(script)
            answered += count
            if fault is None:
                continue
            failures[kind] += 1
            print(f"damaged script {seed} ({kind}): {fault}", flush=True)
            if args.keep:
                os.makedirs(args.keep, exist_ok=True)
                with open(os.path.join(args.keep, f"{seed}.txt"), "wb") as f:
                    f.write(script)
    print("  " + ", ".join(f"{kind} {count}" for kind, count in kinds.items()))
    bad = sum(failures.values())
    print(f"damaged: {args.count} scripts, {size} bytes, {answered} lines answered, {bad} failures, {time.time() - start:.0f} s")
    raise SystemExit(bad != 0)


if __name__ == "__main__":
    main()
