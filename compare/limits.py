#!/usr/bin/env python3
"""limits.py DRIVER CONSOLE [NAME ...]: scripts at the limits of docs/RULES.md and one past each, answered by both programs.

The whole answers have to be equal, as in compare.py; and where a script says what the rules answer to a line, the console
has to answer that. Without NAMEs all scripts are run. `--print NAME` prints a script instead. Exit status 0 where all agree.
"""
import sys
import time

import scripts

TEMPLATES, POLICIES, PAIRS = 64, 256, 320
NAMES, BYTES, LONGEST = 1024, 65535, 64
CLAUSES, CLAUSE_BYTES, NODES = 256, 512, 64
ACTIONS, CONDITION = 8, 27

SLOTTED = "permit eq:? any any -"
OTHER = "forbid eq:? any any -"
PLAIN = "permit any any any -"
VALUE = "User/1"


class Script(list):
    """Lines, each with the answer that the rules give, or None where only the two programs are compared."""

    def __init__(self, *lines):
        super().__init__((line, None) for line in lines)

    def say(self, line, wanted=None):
        self.append((line, wanted))

    def all(self, lines, wanted=None):
        for line in lines:
            self.say(line, wanted)


def links(side, first, count, template="t", value=VALUE):
    return [f"link {side} {template} l{i} {value} -" for i in range(first, first + count)]


def templates(side, first, count, body=SLOTTED):
    return [f"template {side} t{i} {body}" for i in range(first, first + count)]


# ---- the tables of a set

def full_templates():
    s = Script()
    s.all(templates("A", 0, TEMPLATES - 1), "ok")
    s.say(f"static A s {PLAIN}", "ok")
    s.say(f"template A more {SLOTTED}", "refused 27 templates")
    s.say(f"static A more {PLAIN}", "refused 27 templates")
    s.say(f"add A static more {PLAIN}", "refused 27 templates")
    s.say(f"add A link l {VALUE} - more {SLOTTED}", "refused 27 templates")
    s.say(f"add A link l {VALUE} - t0 {SLOTTED}", "ok")
    s.say(f"template A t0 {SLOTTED}", "refused 10 t0")
    s.say(f"template A more {PLAIN}", "refused 25 more")
    s.say("remove_template A t0", "refused 20 t0")
    s.say("remove_template A t5")
    s.say(f"add A link m {VALUE} - more {SLOTTED}", "ok")
    s.say(f"template A again {SLOTTED}", "refused 27 templates")
    s.say("remove_static A s")
    s.say(f"template A again {SLOTTED}", "ok")
    s.say(f"template A last {SLOTTED}", "refused 27 templates")
    s.all(["templates A", "policies A", "static_policies A", "links A more"])
    return s


def full_statics():
    s = Script()
    s.all([f"static A s{i} {PLAIN}" for i in range(TEMPLATES)], "ok")
    s.say(f"static A more {PLAIN}", "refused 27 templates")
    s.say(f"add A static s0 {PLAIN}", "refused 10 s0")
    s.say("remove_static A s63")
    s.say(f"add A static more {PLAIN}", "ok")
    s.say("static_policies A")
    return s


def full_policies():
    s = Script(f"template A t {SLOTTED}", f"template A u {SLOTTED}")
    s.all(links("A", 0, POLICIES - 3))
    s.say(f"add A link x {VALUE} - t {SLOTTED}", "ok")
    s.say(f"add A static y {PLAIN}", "ok")
    s.say(f"static A z {PLAIN}", "ok")
    s.say(f"link A t more {VALUE} -", "refused 27 policies")
    s.say(f"add A link more {VALUE} - t {SLOTTED}", "refused 27 policies")
    s.say(f"add A link more {VALUE} - new {SLOTTED}", "refused 27 policies")
    s.say(f"static A more {PLAIN}", "refused 27 policies")
    s.say(f"add A static more {PLAIN}", "refused 27 policies")
    s.say(f"template A v {SLOTTED}", "ok")
    s.say(f"link A t l0 {VALUE} -", "refused 13 l0")
    s.say("link A t more - -", "refused 12 1 0")
    s.say("unlink A l100")
    s.say(f"link A u more {VALUE} -", f"ok link more u {VALUE} -")
    s.say(f"link A u l100 {VALUE} -", "refused 27 policies")
    s.say("remove_static A y")
    s.say(f"link A u l100 {VALUE} -", f"ok link l100 u {VALUE} -")
    s.all(["policies A", "links A t", "links A u", "validate A", "dump A"])
    return s


def full_both():
    """Both tables full: templates are named first."""
    s = Script(*templates("A", 0, TEMPLATES), *[f"link A t{i % TEMPLATES} l{i} {VALUE} -" for i in range(POLICIES)])
    s.say(f"static A more {PLAIN}", "refused 27 templates")
    s.say(f"add A static more {PLAIN}", "refused 27 templates")
    s.say(f"add A link x {VALUE} - more {SLOTTED}", "refused 27 templates")
    s.say(f"add A link x {VALUE} - t7 {SLOTTED}", "refused 27 policies")
    s.say(f"add A link more {VALUE} - more {SLOTTED}", "refused 26 more")
    s.say(f"link A t7 more {VALUE} -", "refused 27 policies")
    s.all([f"unlink A l{i}" for i in range(0, POLICIES, 5)])
    s.all([f"links A t{i}" for i in range(TEMPLATES)])
    s.all([f"link A t{i % 7} again{i} {VALUE} -" for i in range(POLICIES // 5 + 2)])
    return s


# ---- merges

def most_pairs():
    """320 ids to rename: the buffer is asked first, then the templates, of which there would be 128."""
    s = Script(*templates("A", 0, TEMPLATES), *links("A", 0, POLICIES, "t0"))
    s.all(templates("B", 0, TEMPLATES, OTHER) + links("B", 0, POLICIES, "t0"), None)
    s.say("merge A B refuse", "refused 10 t0")
    s.say(f"merge A B rename {PAIRS - 1}", f"refused 24 {PAIRS}")
    s.say("merge A B rename 0", f"refused 24 {PAIRS}")
    s.say(f"merge A B rename {PAIRS}", "refused 27 templates")
    s.say(f"merge A B rename {PAIRS + 1}", "refused 27 templates")
    s.say("merge B A rename", "refused 27 templates")
    return s


def most_accepted():
    """160 pairs, half of each table: no accepted merge has more, since each pair has a row here and gets one."""
    half = TEMPLATES // 2, POLICIES // 2
    s = Script(*templates("A", 0, half[0]), *links("A", 0, half[1], "t0"))
    s.all(templates("B", 0, half[0], OTHER) + links("B", 0, half[1], "t31"))
    s.say("merge A B rename 159", "refused 24 160")
    s.say("merge A B rename 1x", "error")
    s.say("merge A B rename 160")
    s.say(f"template A more {SLOTTED}", "refused 27 templates")
    s.say(f"link A t0 more {VALUE} -", "refused 27 policies")
    s.say("merge A B rename", "refused 27 templates")
    s.say("filled A policy159", f"ok eq:{VALUE} any")
    s.say("links A policy31")
    s.all([f"unlink A policy{i}" for i in range(32, 160)])
    s.all([f"remove_template A policy{i}" for i in range(32)])
    s.say("merge A B rename")
    return s


def crossed_pairs():
    """The ids of the one set's templates are links in the other, and the other way round."""
    s = Script("template A base permit eq:? any any -", "template B base permit eq:? any any -")
    s.all(templates("A", 0, 31) + links("A", 0, 31, "base"))
    s.all([f"template B l{i} {SLOTTED}" for i in range(31)] + [f"link B base t{i} {VALUE} -" for i in range(31)])
    s.say("merge A B refuse", "refused 10 l0")
    s.say("merge A B rename 61", "refused 24 62")
    s.say("merge A B rename 62")
    s.all(["templates A", "policies A", "links A base", "merge B A refuse", "merge B A rename"])
    return s


def static_pairs():
    s = Script(*[f"static A s{i} {PLAIN}" for i in range(32)], *[f"static B s{i} forbid any any any -" for i in range(32)])
    s.say("merge A B rename 31", "refused 24 32")
    s.say("merge A B rename 32")
    s.say("static_policies A")
    s.say(f"static B more {PLAIN}", "ok")
    s.say("merge A B rename", "refused 27 templates")
    return s


def equal_full_sets():
    """Two full sets with the same rows: rows that both have count once, and move last."""
    first = [f"template {{}} t{i} {SLOTTED}" for i in range(TEMPLATES)]
    then = [f"link {{}} t{i % TEMPLATES} l{i} {VALUE} -" for i in range(POLICIES)]
    s = Script(*[row.format("A") for row in first + then], *[row.format("B") for row in first[::-1] + then[::-1]])
    s.say("merge A B refuse", "ok 0")
    s.say("policies A")
    s.say("merge A B rename 0", "ok 0")
    s.say("unlink B l3")
    s.say("remove_template B t9", "refused 20 t9")
    s.say(f"link B t9 l3 {VALUE} -")
    s.say("merge A B refuse", "refused 10 l3")
    s.say("merge A B rename 0", "refused 24 1")
    s.say("merge A B rename 1", "refused 27 policies")
    return s


def rows_of_a_merge():
    """Rows without pairs, up to the limits of both tables and one past each."""
    s = Script(*templates("A", 0, 32), *links("A", 0, 128, "t0"))
    s.all(templates("B", 100, 33) + links("B", 200, 129, "t100"))
    s.say("merge A B refuse", "refused 27 templates")
    s.say("remove_template B t132")
    s.say("merge A B refuse", "refused 27 policies")
    s.say("unlink B l328")
    s.say("merge A B refuse", "ok 0")
    s.say("merge A B refuse", "ok 0")
    s.say(f"template B more {SLOTTED}", "ok")
    s.say("merge A B rename", "refused 27 templates")
    s.all(["policies A", "merge B A rename"])
    return s


def taken_names():
    """The counter passes by what either set binds, whether or not the book has it."""
    s = Script(*[f"template A policy{i} {SLOTTED}" for i in range(0, 20, 2)])
    s.all([f"template B policy{i} {OTHER}" for i in range(0, 20, 3)])
    s.all(["name policy23", "name policy24", "merge A B rename", "name policy25", "templates A", "merge B A rename"])
    return s


# ---- names

def fill(s, count, size=0):
    """Enters numbered names until the book has so many; the script has entered none yet."""
    for i in range(count):
        s.say(f"name {'n%d' % i:x<{size}}", f"name {i}")


def most_names():
    s = Script()
    fill(s, NAMES)
    s.say("name more", "refused 4")
    s.say("name n77", "name 77")
    s.say(f"name {'x' * (LONGEST + 1)}", "refused 3 65")
    s.say("name %", "refused 4")
    s.say("action n5", "no")
    s.say("action Action", "refused 4")
    s.say("type Action", "yes")
    s.say("text 1023", "text n1023")
    s.say("text 1024", "refused 1 1024")
    s.say("unlink A n9", "refused 15 n9")
    s.say("unlink A more", "refused 4")
    s.say(f"template A more {SLOTTED}", "refused 4")
    s.say("template A n9 permit eq:? any in:n1/n2 -", "ok")
    s.say("template A n10 permit eq:? any in:n1/more -", "refused 4")
    s.say("link A n9 n10 n3/more -", "refused 4")
    s.say("link A n9 n10 n3/n4 -", "ok link n10 n9 n3/n4 -")
    s.say(f"condition {PLAIN}", "ok 1 true")
    s.say(f"condition permit in:n1/n2 any is:more -", "refused 4")
    return s


def names_of_calls():
    """The texts of calls on sets enter the book too, refused or not."""
    s = Script("name first")
    s.all([f"unlink A n{i}" for i in range(NAMES - 2)])
    s.say("links B t", "refused 21 t")
    s.say("links B u", "refused 4")
    s.say("filled B n3", "none")
    s.say("filled B u", "refused 4")
    s.say("name u", "refused 4")
    return s


def most_bytes():
    """1,023 names of 64 bytes leave 63: the next of 64 is one byte too much."""
    s = Script()
    fill(s, NAMES - 1, LONGEST)
    s.say(f"name {'y' * LONGEST}", "refused 4")
    s.say(f"unlink A {'y' * LONGEST}", "refused 4")
    s.say(f"name {'y' * (LONGEST - 1)}", "name 1023")
    s.say("name %", "refused 4")
    s.say(f"name {'y' * (LONGEST - 1)}", "name 1023")
    s.say(f"text 1023", f"text {'y' * (LONGEST - 1)}")
    return s


def names_of_a_merge():
    """A full book: new ids are those that it has already, and 4 comes with the first that it lacks. Bytes are never what a
    merge lacks: a free place means 63 free bytes, more than a new id has."""
    s = Script(*[f"template A t{i} {SLOTTED}" for i in range(3)], *[f"template B t{i} {OTHER}" for i in range(2)])
    s.all(["name policy0", "name policy2", "name policy1"])
    s.all([f"name n{i}" for i in range(NAMES - 6)])
    s.say("name more", "refused 4")
    s.say("merge A B rename", "ok 2 t0>policy0 t1>policy1")
    s.say(f"template B t2 {OTHER}", "ok")
    s.say("merge A B rename", "refused 4")
    s.say("remove_template B t1")
    s.say("remove_template B t0")
    s.say("merge A B rename", "ok 1 t2>policy2")
    s.say("merge A B rename", "refused 4")
    return s


def sizes_of_names():
    s = Script("name first")
    for size in (0, 1, LONGEST - 1, LONGEST, LONGEST + 1, 1000):
        name = "a" * size or "%"
        past = f"refused 3 {size}" if size > LONGEST else None
        s.say(f"name {name}", past)
        s.say(f"name {'%61' * size or '%'}", past)
        s.say(f"action {name}", past or "no")
        s.say(f"type {name}", "yes" if size else "no")
        s.say(f"template A {name} {SLOTTED}", past or "ok")
        s.say(f"link A {name} {name} {VALUE} -", past or f"refused 13 {name}")
        s.say(f"condition permit is:{name} any any -", past or ("refused 5 %" if not size else None))
        s.say(f"condition permit eq:User/{name} any any -", past)
        s.say(f"binding permit eq:? any any - User/{name} -", past or "ok")
    return s


# ---- clauses

def sealed_text(i, size):
    """A text of so many bytes, of one of several kinds."""
    end = ["?principal", "?resource", '"?principal"', "?principals", "?resource in ?principal", "true"][i % 6]
    return ("%d %s" % (i, "." * size))[:size - len(end) - 1] + " " + end


def clause_line(text):
    return "clause " + "".join(c if c.isalnum() or c in "._" else "%%%02X" % ord(c) for c in text)


def most_clauses():
    s = Script()
    for i in range(CLAUSES):
        s.say(clause_line(sealed_text(i, CLAUSE_BYTES)), f"clause {i}")
    s.say("clause more", "refused 4")
    s.say("clause %", "refused 4")
    s.say(clause_line(sealed_text(0, CLAUSE_BYTES + 1)), f"refused 3 {CLAUSE_BYTES + 1}")
    s.say("tree principal", "error")
    s.say("name first")
    for i in range(CLAUSES):
        s.say(f"binding permit any any any {i} - -", ["refused 12 1 0", "refused 12 2 0", "ok", "ok", "refused 12 3 0", "ok"][i % 6])
    s.all([f"condition permit any any any {i}" for i in (0, 1, 2, 254, 255)])
    s.say(f"condition permit any any any {CLAUSES}", f"refused 2 {CLAUSES}")
    s.say("condition permit any any any 65535", "refused 2 65535")
    s.say("condition permit any any any 65536", "error")
    s.all([f"template A t{i} permit eq:? any any {i * 6}" for i in range(40)], "ok")
    s.all([f"template B t{i} permit eq:? any any {i * 6 if i % 2 else i * 6 + 1}" for i in range(24)])
    s.all(["validate A", "merge A B refuse", "merge A B rename", "templates A"])
    return s


def sizes_of_clauses():
    s = Script()
    n = 0
    for size in (0, 1, CLAUSE_BYTES - 1, CLAUSE_BYTES, CLAUSE_BYTES + 1, 5000):
        if size > CLAUSE_BYTES:
            s.say(f"clause {'z' * size}", f"refused 3 {size}")
            s.say(f"clause {'%7A' * size}", f"refused 3 {size}")
            continue
        s.say(f"clause {'z' * size or '%'}", f"clause {n}")
        s.say(f"clause {'%7A' * size or '%'}", f"clause {n + 1}")
        n += 2
    s.say(f"clause {'z' * (CLAUSE_BYTES - 10)}%3Fprincipal", f"clause {n}")
    s.say(f"clause {'z' * (CLAUSE_BYTES - 10)}%3Fprincipals", f"refused 3 {CLAUSE_BYTES + 1}")
    s.say(f"clause {'z' * (CLAUSE_BYTES - 9)}%3Fresource", f"clause {n + 1}")
    s.say("name first")
    s.all([f"condition permit any any any {i}" for i in range(n + 3)])
    s.say(f"binding permit any any any {n} - -", "refused 12 1 0")
    s.say(f"binding permit any any any {n + 1} - -", "refused 12 2 0")
    return s


def deep_tree(nodes):
    return ["principal"] + ["not"] * (nodes - 1)


def left_tree(leaves, op="and"):
    return ["principal"] + ["?resource", op] * (leaves - 1)


def right_tree(leaves, op="and"):
    return ["principal"] * leaves + [op] * (leaves - 1)


def even_tree(leaves, op):
    if leaves == 1:
        return ["action"]
    return even_tree(leaves // 2, op) + even_tree(leaves - leaves // 2, op) + [op]


def full_trees():
    """Trees of 64 nodes, one for each way to grow."""
    shapes = [deep_tree(NODES)]
    for op in ("and", "or", "eq", "in"):
        shapes += [left_tree(32, op) + ["not"], right_tree(32, op) + ["is:N::User"], even_tree(32, op) + ["not"]]
    shapes.append(["entity:N::Box/1"] * 32 + ["eq"] * 31 + ["not"])
    return shapes


def most_nodes():
    s = Script("name first")
    for n, nodes in enumerate(full_trees()):
        assert len(nodes) == NODES
        s.say(" ".join(["tree"] + nodes), f"clause {2 * n}")
        s.say(" ".join(["tree"] + nodes + ["not"]), f"refused 3 {NODES + 1}")
        s.say(" ".join(["tree"] + nodes[:-1]), f"clause {2 * n + 1}")
    s.say(" ".join(["tree"] + deep_tree(NODES - 1)))
    s.say(" ".join(["tree"] + ["principal"] * NODES), f"refused 7 {NODES}")
    s.say(" ".join(["tree"] + ["not"] * NODES), "refused 7 0")
    s.say(" ".join(["tree"] + ["and"] * (NODES + 1)), f"refused 3 {NODES + 1}")
    s.say(" ".join(["tree", "is:1a"] + deep_tree(NODES)), f"refused 3 {NODES + 1}")
    s.say(" ".join(["tree", "is:1a"] + deep_tree(NODES - 1)), "refused 5 1a")
    s.say(" ".join(["tree"] + ["principal"] * 1000), "refused 3 1000")
    s.say("tree", "refused 7 0")
    s.all([f"condition permit eq:? any any {n}" for n in range(20)])
    s.all([f"template A t{n} permit eq:? any any {n}" for n in range(12)])
    s.say("validate A")
    return s


def most_trees():
    """256 trees of 64 nodes."""
    s = Script()
    shapes = full_trees()
    for n in range(CLAUSES):
        nodes = list(shapes[n % len(shapes)])
        nodes[0] = ["principal", "resource", "?principal", "action", "entity:User/%d" % n][n // len(shapes) % 5]
        if nodes[1] == "not" and nodes[0].startswith("entity"):
            nodes[0] = "?resource"
        if nodes[0].startswith("entity") and nodes[-2] in ("and", "or"):
            nodes[0] = "?principal"
        s.say(" ".join(["tree"] + nodes), f"clause {n}")
    s.say("tree principal", "refused 4")
    s.say("tree", "refused 7 0")
    s.say("tree is:1a", "refused 5 1a")
    s.say(" ".join(["tree"] + deep_tree(NODES + 1)), "refused 3 65")
    s.say("clause more", "error")
    s.say("name first")
    s.all([f"binding permit any any any {n} - -" for n in range(CLAUSES)])
    s.say(f"condition permit any any any {CLAUSES}", f"refused 2 {CLAUSES}")
    s.all([f"template A t{n} permit eq:? any any {n}" for n in range(60)], "ok")
    s.all([f"template B t{n} permit eq:? any any {n + 14}" for n in range(10)], "ok")
    s.say("merge A B rename 3", None)
    s.say("merge A B refuse")
    return s


# ---- actions and conditions

def actions(count):
    return "in:[" + ",".join(f"Action/{i}" for i in range(count)) + "]"


def most_actions():
    s = Script("clause context.n", "name first")
    for count in (0, 1, ACTIONS - 1, ACTIONS, ACTIONS + 1, 100):
        past = f"refused 6 {count}" if count > ACTIONS else None
        body = f"permit any {actions(count)} any -"
        slotted = f"permit eq:? {actions(count)} any 0"
        s.say(f"condition {body}", past)
        s.say(f"binding {slotted} {VALUE} -", past or "ok")
        s.say(f"template A t{count} {slotted}", past or "ok")
        s.say(f"static A s{count} {body}", past or "ok")
        s.say(f"add B static s{count} {body}", past or "ok")
        s.say(f"add B link l{count} {VALUE} - t{count} {slotted}", past or "ok")
    s.say(f"condition permit is:1a {actions(9)} any 7", "refused 6 9")
    s.say(f"condition permit is:1a {actions(8)} any 7", "refused 2 7")
    s.say(f"condition permit is:1a {actions(8)} any 0", "refused 5 1a")
    bad = ",".join(["User/1"] * ACTIONS)
    s.say(f"template B bad permit eq:? in:[{bad}] any 0", "ok")
    s.say("validate A", "ok")
    s.say("validate B", "refused 23 bad 255")
    s.all(["merge A B refuse", "merge A B rename"])
    return s


def most_of_a_condition():
    s = Script("clause context.n", "clause true", "name first")
    body = f"permit isin:N::User:? {actions(ACTIONS)} isin:N::Box:? "
    for clause, count in (("0", CONDITION), ("1", CONDITION), ("-", CONDITION)):
        s.say(f"condition {body}{clause}")
        for room in (0, 1, count - 1):
            s.say(f"condition {body}{clause} {room}", f"refused 24 {count}")
        for room in (count, count + 1, 65536):
            s.say(f"condition {body}{clause} {room}")
    s.say(f"condition {PLAIN} 0", "refused 24 1")
    s.say(f"condition {PLAIN} 1", "ok 1 true")
    s.say(f"condition {PLAIN} 4294967295", "ok 1 true")
    s.say(f"condition {PLAIN} 4294967296", "ok 1 true")
    s.say(f"condition {PLAIN} 99999999999999999999", "ok 1 true")
    s.say(f"condition {PLAIN} 1x", "error")
    s.say(f"condition {PLAIN} -1", "error")
    return s


def numbers():
    s = Script("clause context.n", "name first")
    for number, wanted in (("0", "text first"), ("00000", "text first"), ("1", "refused 1 1"), ("65535", "refused 1 65535"),
                           ("65536", "error"), ("4294967296", "error"), ("99999999999999999999", "error"), ("-0", "error"),
                           ("+0", "error"), ("0x0", "error"), ("%30", "error"), ("%", "error")):
        s.say(f"text {number}", wanted)
    for number, wanted in (("00000", None), ("1", "refused 2 1"), ("65535", "refused 2 65535"), ("65536", "error"),
                           ("18446744073709551616", "error"), ("+0", "error"), ("--", "error"), ("%30", "error")):
        s.say(f"condition permit any any any {number}", wanted)
        s.say(f"static A s permit any any any {number}", wanted)
        s.say("remove_static A s")
    return s


SCRIPTS = {
    "64 templates": full_templates,
    "64 static policies": full_statics,
    "256 policies": full_policies,
    "64 templates, 256 policies": full_both,
    "320 pairs": most_pairs,
    "160 pairs accepted": most_accepted,
    "crossed pairs": crossed_pairs,
    "static pairs": static_pairs,
    "equal full sets": equal_full_sets,
    "rows of a merge": rows_of_a_merge,
    "taken names": taken_names,
    "1,024 names": most_names,
    "1,024 names of calls": names_of_calls,
    "65,535 bytes": most_bytes,
    "names of a merge": names_of_a_merge,
    "sizes of names": sizes_of_names,
    "256 clauses of 512 bytes": most_clauses,
    "sizes of clauses": sizes_of_clauses,
    "trees of 64 nodes": most_nodes,
    "256 trees of 64 nodes": most_trees,
    "8 actions": most_actions,
    "27 nodes of a condition": most_of_a_condition,
    "numbers": numbers,
}


def unmet(done, script):
    """The lines that the console does not answer as the script wants; and how many it says."""
    groups, _ = scripts.grouped(done.lines, done.out)
    wanted = [wanted for line, wanted in script if scripts.is_call(line.encode())]
    if len(groups) != len(wanted):
        return ["a line was left out"], 0
    wrong = []
    for (line, answer), want in zip(groups, wanted):
        first = answer[0].decode() if answer else "nothing"
        if want is not None and (first.split(" ")[0] if want == "error" else first) != want:
            wrong.append(f"{line[:100].decode()!r}: console {first!r}, the rules {want!r}")
    return wrong, sum(want is not None for want in wanted)


def main():
    if sys.argv[1:2] == ["--print"]:
        print("\n".join(line for line, _ in SCRIPTS[sys.argv[2]]()))
        return
    if len(sys.argv) < 3:
        sys.exit(__doc__)
    driver, console = sys.argv[1:3]
    start, calls, said, bad = time.time(), 0, 0, 0
    for name in sys.argv[3:] or SCRIPTS:
        script = SCRIPTS[name]()
        done = scripts.Compared(driver, console, [line.encode() for line, _ in script])
        wrong, count = unmet(done, script)
        faults = wrong + [difference for difference in [done.difference()] if difference]
        calls, said, bad = calls + done.calls, said + count, bad + bool(faults)
        for fault in faults:
            print(f"{name}: {fault}", flush=True)
    count = len(sys.argv[3:] or SCRIPTS)
    print(f"limits: {count} scripts, {calls} calls, of {said} the rules' answer, {bad} scripts differ, {time.time() - start:.0f} s")
    sys.exit(bad != 0)


if __name__ == "__main__":
    main()
