#!/usr/bin/env python3
"""sample.py DRIVER NAME < SCRIPT, or sample.py DRIVER NAME SEED NCALLS: writes NAME.txt and NAME.answers.

NAME.txt is the script (that of `gen.py SEED NCALLS --distinct`, without its comment) less the lines to which the Rust itself
gives no answer: those on names, and those that the driver answers with `outside` or `error`. NAME.answers is what the
driver prints for it. No clause stands in it twice, so the console has to print the same, letter by letter. The console has
no part in making them.
"""
import sys

import gen
import scripts


ON_NAMES = (b"name", b"text", b"type", b"action")


def without_others(driver, lines):
    """The lines, without those that the Rust itself does not answer."""
    lines = [line for line in lines if not scripts.words(line)[:1] or scripts.words(line)[0] not in ON_NAMES]
    while True:
        answers = scripts.driver_answers(driver, lines)
        others = {place for place, answer in answers.items() if answer.split(" ")[0] in ("outside", "error")}
        if not others:
            return lines
        lines = [line for place, line in enumerate(lines) if place not in others]


def main():
    if len(sys.argv) not in (3, 5):
        sys.exit(__doc__)
    driver, name = sys.argv[1:3]
    if len(sys.argv) == 5:
        lines = [line.encode() for line in gen.script(int(sys.argv[3]), int(sys.argv[4]), distinct=True)[1:]]
    else:
        lines = scripts.lines_of(sys.stdin.buffer.read())
    lines = without_others(driver, lines)
    status, out, _ = scripts.run([driver], scripts.joined(lines))
    answers = scripts.driver_answers(driver, lines)
    if status != 0 or any(x != y for x, y in scripts.first_equal(lines, answers).items()):
        sys.exit(f"{name}: the driver ended with {status}, or a clause stands in it twice")
    with open(name + ".txt", "wb") as f:
        f.write(scripts.joined(lines))
    with open(name + ".answers", "wb") as f:
        f.write(out)
    print(f"{name}: {sum(map(scripts.is_call, lines))} calls, {len(lines)} lines, {len(scripts.lines_of(out))} lines of answers")


if __name__ == "__main__":
    main()
