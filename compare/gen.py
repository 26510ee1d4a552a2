#!/usr/bin/env python3
"""gen.py SEED NCALLS [--distinct]: prints a random script of calls, the same one for the same words.

Few ids, few bodies and few values, so that calls meet. The seed also picks
- a manner: narrow (most), apart (two sets grown apart, then merged), wide (many ids, towards 64 templates) or tall (few
  templates, towards 256 policies);
- the clauses: seeds that leave 3 on division by 4 enter trees, every eighth of them until the book is full, the others
  sealed texts;
- the writing: seeds that leave 1 on division by 5 are written loosely (bytes percent-encoded that need not be, small
  hexadecimal digits, bytes of UTF-8 as they are, tabs, carriage returns, blank lines, comments); seeds that leave 2 have
  lines with broken words among them.
With --distinct no clause is entered twice.
"""
import random
import sys

# A text of the script stands between these two until the end, so that it can be written in more than one way.
OPEN, CLOSE = "\x01", "\x02"

IDS = ["a", "b", "c", "t", "u", "policy0", "policy1", "policy2", "policy3"]
ODD_IDS = ["", "-", "policy", "policy00", "policy10", "é →", "a b", "%41", "x" * 64, "\x0b\x0c", "\x00", "#", "?", "A/b:c,d"]
TYPES = ["User", "N::User", "Action", "N::Action", "ActionX"]
EIDS = ["1", "2", "", "a b"]
CLAUSES = ["true", "false", "principal == ?principal", "?resource in ?principal", '"?principal" == context.s',
           "context.n > 1", "context.n > 1", "true", "resource.o == ?resource", 'context.\\"x', "?principals",
           '"\\"?resource']
TYPE_TEXTS = TYPES + ["", "A::", "::A", "A:B", "1a", "_a1", "A b", "N::Action::X", "XAction", "N::Action"]

KINDS = ["template", "static", "add static", "add link", "link", "unlink", "remove_static", "remove_template", "merge",
         "links", "policies", "static_policies", "templates", "validate", "condition", "dump", "filled", "binding",
         "name", "text", "type", "action"]
WEIGHTS = {
    "narrow": [10, 9, 6, 10, 16, 7, 5, 5, 8, 3, 1, 1, 1, 3, 1, 1, 1, 1, 1, 1, 1, 1],
    "apart": [10, 9, 6, 10, 16, 7, 5, 5, 0, 3, 1, 1, 1, 3, 1, 1, 1, 1, 1, 1, 1, 1],
    "wide": [14, 6, 4, 8, 60, 2, 1, 1, 3, 1, 0, 0, 0, 1, 0, 0, 0, 0, 0, 0, 0, 0],
    "tall": [3, 2, 1, 20, 100, 2, 1, 0, 1, 1, 0, 0, 0, 1, 0, 0, 0, 0, 0, 0, 0, 0],
}
# Words that break a line, or don't.
STRAY = ["x", "any", "-", "?", "%", "%%", "%4", "%zz", "A", "B", "C", "eq:", "eq:a", "in:", "in:[", "in:[]", "in:[a/b,]",
         "is:", "isin:User:", "isin:User::?", "isin::?", "/", "a/", "/b", "65535", "65536", "99999999999999999999", "-1",
         "+1", "0x1", "permit", "static", "link", "rename", "#", "entity:a/b", "set:1", "clause:0", "not"]


def plain_code(text):
    """A text, percent-encoded as the console prints it."""
    if text == "":
        return "%"
    return "".join(chr(b) if chr(b).isalnum() and b < 128 or b in b"_." else "%%%02X" % b for b in text.encode())


def text(s):
    return OPEN + s + CLOSE


def type_text(s):
    return "::".join(text(part) for part in s.split("::")) if s else text("")


class Gen:
    def __init__(self, seed, distinct=False):
        self.r = r = random.Random(seed)
        self.distinct = distinct
        self.loose = seed % 5 == 1
        self.broken = seed % 5 == 2
        self.trees = seed % 4 == 3
        self.manner = r.choices(["narrow", "apart", "wide", "tall"], [58, 32, 5, 5])[0]
        if self.manner == "wide":
            self.ids = ["n%d" % i for i in range(420)] + ["policy%d" % i for i in range(30)]
        elif self.manner == "tall":
            self.ids = ["n%d" % i for i in range(380)]
        else:
            self.ids = r.sample(IDS, r.randint(4, len(IDS))) + r.sample(ODD_IDS, r.randint(0, 2))
        self.unknown = "99"
        if self.trees:
            self.plant(full=seed % 32 == 3)
        else:
            self.clauses = list(dict.fromkeys(CLAUSES)) if distinct else list(CLAUSES)
            r.shuffle(self.clauses)
            self.lines = ["clause " + text(c) for c in self.clauses]
        self.template_ids = IDS[:6] if self.manner == "tall" else self.ids
        # A small stock of bodies and values, drawn on again and again.
        self.bodies = [self.body() for _ in range(40 if self.manner == "wide" else r.randint(3, 7))]
        self.values = [self.entity() for _ in range(2)]

    # ---- words

    def entity(self, action=False):
        ty = self.r.choice(["Action", "Action", "N::Action", "User"] if action else TYPES)
        return type_text(ty) + "/" + text(self.r.choice(EIDS))

    def reference(self):
        return "?" if self.r.random() < 0.6 else self.entity()

    def scope(self):
        kind = self.r.choice(["any", "any", "any", "eq", "eq", "in", "is", "isin"])
        if kind == "any":
            return kind
        if kind == "is":
            return "is:" + type_text(self.r.choice(TYPES))
        if kind == "isin":
            return "isin:%s:%s" % (type_text(self.r.choice(TYPES)), self.reference())
        return kind + ":" + self.reference()

    def action(self):
        kind = self.r.choice(["any", "any", "eq", "in"])
        if kind == "any":
            return kind
        if kind == "eq":
            return "eq:" + self.entity(True)
        return "in:[%s]" % ",".join(self.entity(True) for _ in range(self.r.choice([0, 1, 2, 3, 8])))

    def clause(self):
        none = self.r.random() < (0.25 if self.trees else 0.5)
        return "-" if none else str(self.r.randrange(len(self.clauses)))

    def body(self):
        return [self.r.choice(["permit", "forbid"]), self.scope(), self.action(), self.scope(), self.clause()]

    def id(self):
        return text(self.r.choice(self.ids))

    def template_id(self):
        return text(self.r.choice(self.template_ids))

    # ---- trees

    def leaf(self, slots):
        k = self.r.randrange(10)
        if k < 4:
            return self.r.choice(["principal", "action", "resource"])
        if k < 7 and slots:
            return self.r.choice(["?principal", "?resource"])
        return "entity:" + self.entity() if k < 9 else self.r.choice(["true", "false"])

    def tree(self, depth, slots, literal=True):
        """The nodes of a random tree, with no literal at its root if so asked."""
        kind = self.r.choice(["leaf", "eq", "eq", "in", "is", "not", "and", "or"] if depth else ["leaf"])
        if kind == "leaf":
            node = self.leaf(slots)
            return [node] if literal or node[0] not in "tfe" else ["resource"]
        if kind == "is":
            return self.tree(depth - 1, slots) + ["is:" + type_text(self.r.choice(TYPES))]
        under = kind in ("eq", "in")
        nodes = self.tree(depth - 1, slots, under)
        return nodes + [kind] if kind == "not" else nodes + self.tree(depth - 1, slots, under) + [kind]

    def refused_tree(self):
        """Nodes that take no number: 7 mostly, 5, 3, or what the Rust may fold."""
        nodes = self.tree(2, True)
        k = self.r.randrange(8)
        if k == 0:
            return nodes + [self.r.choice(["and", "or", "eq", "in"])]
        if k == 1:
            return nodes + self.tree(1, True)
        if k == 2:
            return []
        if k == 3:
            i = self.r.randrange(len(nodes) + 1)
            return nodes[:i] + ["and"] * (i + 1) + nodes[i:] if i else ["not"] + nodes
        if k == 4:
            bad = self.r.choice(["1a", "%", "A::", "A%3AB", "A%20", "::A"])
            return nodes + self.r.choice([["is:" + bad], ["entity:" + bad + "/1", "eq"], ["is:User", "is:" + bad, "and"]])
        if k == 5:
            return ["principal"] + ["not"] * self.r.choice([64, 70]) + self.r.choice([[], ["is:1a"], ["and"]])
        if k == 6:
            return ["principal", self.r.choice(["true", "entity:User/1"]), self.r.choice(["and", "or"])]
        return self.r.choice([["principal", "is:has"], ["entity:User/" + "y" * 65], ["true", "not"]])

    def some_tree(self):
        k = self.r.random()
        if k < 0.2 and self.clauses:
            return self.r.choice(self.clauses)
        if k < 0.25:
            return ["principal"] + ["not"] * 63
        if k < 0.35:
            return [self.r.choice(["true", "false", "principal", "?principal", "?resource",
                                   "entity:" + type_text("User") + "/" + text("1")])]
        if k < 0.45:    # what a scope writes too
            return ["principal", "?principal", self.r.choice(["eq", "in"])]
        return self.tree(self.r.randint(1, 3), self.r.random() < 0.5)

    def plant(self, full):
        """Trees: small ones, deep ones, some twice, refused ones between."""
        self.clauses, entered = [], []
        while len(self.clauses) < (256 if full else 12):
            if self.r.random() < 0.15:
                entered.append(self.refused_tree())
                continue
            nodes = self.some_tree()
            if self.distinct and nodes in self.clauses:
                nodes = self.tree(4, True)
                if nodes in self.clauses:
                    continue
            self.clauses.append(nodes)
            entered.append(nodes)
        if full:
            entered += [self.clauses[0], self.tree(2, True), self.refused_tree()]
            self.unknown = "256"
        self.lines = [" ".join(["tree"] + nodes) for nodes in entered]

    # ---- bodies

    def refused_body(self, body):
        """A body that making a template refuses, or that the Rust cannot hold."""
        body = list(body)
        k = self.r.randrange(5)
        if k == 0:
            body[2] = "in:[%s]" % ",".join(self.entity(True) for _ in range(9))
        elif k == 1:
            body[1] = "is:" + self.r.choice(["1a", "%", "A::", "A%3AB", "has", "A%20"])
        elif k == 2:
            body[4] = self.unknown
        elif k == 3:
            body[3] = "eq:User/" + "y" * 65
        else:
            body[3] = "in:" + self.r.choice(["N::__cedar/1", "9/1", "::A/1"])
        return body

    def slots(self, body):
        if body[4] == self.unknown:
            return 0
        bits = body[1].endswith("?") | 2 * body[3].endswith("?")
        clause = "" if body[4] == "-" else self.clauses[int(body[4])]
        if isinstance(clause, list):
            return bits | ("?principal" in clause) | 2 * ("?resource" in clause)
        if clause in ("principal == ?principal", "?resource in ?principal"):
            bits |= 1
        if clause in ("?resource in ?principal", "resource.o == ?resource"):
            bits |= 2
        return bits

    def pick(self, slotted):
        """A body of the stock, mostly with or without slots as asked."""
        body = self.r.choice(self.bodies)
        for _ in range(8):
            if bool(self.slots(body)) == slotted or self.r.random() < 0.05:
                break
            body = self.r.choice(self.bodies) if self.r.random() < 0.7 else self.body()
        if self.trees and body[4] != "-" and self.r.random() < 0.3:    # an equal clause, or any other
            nodes = self.clauses[int(body[4])]
            same = [str(n) for n, other in enumerate(self.clauses) if other == nodes]
            body = body[:4] + [self.r.choice(same) if self.r.random() < 0.8 else self.clause()]
        return self.refused_body(body) if self.r.random() < 0.01 else body

    def bind(self, bits):
        if self.r.random() < 0.06:
            bits = self.r.randrange(4)
        return [self.r.choice(self.values) if bits & bit else "-" for bit in (1, 2)]

    # ---- lines

    def added(self, kind, x):
        """A template or a static policy, now and then under the same id in the other set too."""
        body = self.pick(kind == "template")
        id = self.template_id() if kind == "template" else self.id()
        both = body[4] != self.unknown and self.r.random() < 0.3
        for y in [x, 1 - x] if both else [x]:
            head = ["add", "AB"[y], "static", id] if kind == "add static" else [kind, "AB"[y], id]
            self.known[y].setdefault(id, self.slots(body))
            yield head + body

    def added_link(self, x):
        body = self.pick(True)
        id, template = self.id(), self.template_id()
        self.known[x].setdefault(template, self.slots(body))
        return ["add", "AB"[x], "link", id] + self.bind(self.slots(body)) + [template] + body

    def link(self, x):
        slotted = [id for id, bits in self.known[x].items() if bits]
        template = self.r.choice(slotted) if slotted and self.r.random() < 0.85 else self.template_id()
        return ["link", "AB"[x], template, self.id()] + self.bind(self.known[x].get(template, 1))

    def merge(self, x):
        self.known[x].update({id: bits for id, bits in self.known[1 - x].items() if id not in self.known[x]})
        return ["merge", "AB"[x], "AB"[1 - x], self.r.choice(["rename", "rename", "refuse"])] + self.room(3)

    def room(self, most):
        return [str(self.r.randint(0, most))] if self.r.random() < 0.15 else []

    def call(self, kind, x):
        """The lines of one call, two where a record goes to both sets; each a list of words."""
        if kind in ("template", "static", "add static"):
            return list(self.added(kind, x))
        if kind == "add link":
            return [self.added_link(x)]
        if kind == "link":
            return [self.link(x)]
        if kind == "merge":
            return [self.merge(x)]
        if kind == "condition":
            return [[kind] + self.body() + self.room(27)]
        if kind == "binding":
            body = self.body()
            return [[kind] + body + self.bind(self.slots(body))]
        if kind in ("name", "text") and self.broken:    # what a broken line enters is not fixed, so numbers are not
            return [["type", text(self.r.choice(TYPE_TEXTS))]]
        if kind == "name":
            return [[kind, text(self.r.choice(self.ids + ODD_IDS))]]
        if kind == "text":
            return [[kind, str(self.r.randrange(20))]]
        if kind in ("type", "action"):
            return [[kind, text(self.r.choice(TYPE_TEXTS))]]
        if kind in ("unlink", "remove_static", "remove_template", "links", "filled"):
            return [[kind, "AB"[x], self.id()]]
        return [[kind, "AB"[x]]]

    def calls(self, count):
        weights = list(WEIGHTS[self.manner])
        if self.trees:
            weights[KINDS.index("condition")] += 4
        self.known = [{}, {}]    # guesses: template id -> slots
        for i in range(count):
            kind = self.r.choices(KINDS, weights)[0]
            if self.manner == "apart" and i % 25 >= 22:
                kind = "merge"
            for words in self.call(kind, self.r.randrange(2)):
                yield " ".join(words)

    # ---- writing

    def coded(self, s):
        """A text, written in one of its ways."""
        if not self.loose or s == "":
            return plain_code(s)
        return "".join(self.coded_char(c) for c in s)

    def coded_char(self, c):
        code = "".join("%%%02X" % b for b in c.encode())
        if self.r.random() < 0.5:
            code = code.lower()
        if c.isalnum() and c.isascii() or c in "_.":
            return code if self.r.random() < 0.1 else c
        if c not in " \t\r\n%/,:[]?-#" and self.r.random() < 0.5:
            return c
        return code

    def written(self, line):
        """A line with its texts written out."""
        parts = line.split(OPEN)
        line = parts[0]
        for part in parts[1:]:
            s, _, rest = part.partition(CLOSE)
            line += self.coded(s) + rest
        if self.loose:
            words = line.split(" ")
            gaps = [self.r.choice([" "] * 12 + ["\t", "  ", " \t ", "\r"]) for _ in words]
            line = self.r.choice(["", "", "", " ", "\t"]) + "".join(w + g for w, g in zip(words, gaps[1:] + [""]))
            line += self.r.choice(["", "", "", "\r", " ", "\t\r"])
        return line

    def break_line(self, line):
        """A line with a broken word, or with one too few or too many. A line that has too long a text as well may be
        answered by 3 or by an error, so lines with long words stay whole."""
        words = line.split(" ")
        if self.r.random() > 0.12 or any(len(word.encode()) > 64 for word in words):
            return line
        i = self.r.randrange(len(words))
        k = self.r.randrange(6)
        if words[0] == "clause" and k in (2, 4, 5):    # Cedar might read another text as a literal, or like one there is
            i = 0
        if k == 0:
            del words[i]
        elif k == 1:
            words.insert(i + 1, self.r.choice(STRAY))
        elif k == 2:
            words[i] = self.r.choice(STRAY) if i else words[0].upper()
        elif k == 3:
            words.insert(i, words[i])
        else:
            j = self.r.randrange(len(words[i]))
            other = "" if k == 4 else self.r.choice(":/%,[]?-=1aA")
            words[i] = words[i][:j] + other + words[i][j + 1:]
        return " ".join(words)

    def script(self, count):
        """The lines of the script."""
        # With a name in the book, the console takes no name of its own for the template of a condition.
        out = ["# manner " + self.manner, "name first"]
        for line in self.lines + list(self.calls(count)):
            if self.loose and self.r.random() < 0.03:
                out.append(self.r.choice(["", " \t", "#", "# template A x", "\t#x", "\r"]))
            line = self.written(line)
            out.append(self.break_line(line) if self.broken else line)
        return out


def script(seed, count, distinct=False):
    return Gen(seed, distinct).script(count)


def main():
    words = [word for word in sys.argv[1:] if word != "--distinct"]
    if len(words) != 2:
        sys.exit(__doc__)
    for line in script(int(words[0]), int(words[1]), "--distinct" in sys.argv):
        sys.stdout.buffer.write(line.encode() + b"\n")


if __name__ == "__main__":
    main()
