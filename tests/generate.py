"""Random trees and files, mostly sound, some damaged. The same seed gives the same texts."""

import random

LOGICAL = ("bool", "tristate")
JUNK = ("endif", "endmenu", "if y", 'menu "M"', "\tbool", "\tdefault y", "config A", "x", "=", '"', "\tdepends on (A", "\trange 1 2")


class Generator:
    def __init__(self, seed):
        self.random = random.Random(seed)
        self.kinds = {}

    def chance(self, percent):
        return self.random.randrange(100) < percent

    def pick(self, items):
        return self.random.choice(list(items))

    def form(self, kind):
        r = self.random
        if self.chance(6):
            return self.pick(["", "y", "m", "7", "0x7", '"t"', '"', "abc", "-", "0x", "2147483648", '"\\"'])
        if kind in LOGICAL:
            return self.pick("nmy" if kind == "tristate" else "ny")
        if kind == "int":
            return self.pick([str(r.randrange(-12, 40)), "00" + str(r.randrange(9)), "-0", "2147483647"])
        if kind == "hex":
            return self.pick(["0x%x" % r.randrange(64), "0X0%X" % r.randrange(64), "0xFFFFFFFF"])
        return self.pick(['""', '"t"', '"a b"', '"q\\"q"', '"b\\\\"', '"\\x#"'])

    def word(self, below):
        """A word of an expression: mostly a logical symbol of those below."""
        names = [n for n in below if self.kinds[n] in LOGICAL]
        if self.chance(2):
            return self.pick(self.kinds)
        if names and self.chance(80):
            return self.pick(names)
        return self.pick(["y", "m", "n", "UNKNOWN", "12", "-"] + list(below)[:1])

    def expression(self, below, depth=3):
        shape = self.random.randrange(10)
        if depth == 0 or shape < 5:
            return self.word(below)
        if shape == 5:
            return "!" + self.expression(below, depth - 1)
        if shape == 6:
            return "(" + self.expression(below, depth - 1) + ")"
        mark = self.pick(["&&", "||"])
        space = self.pick(["", " "])
        return self.expression(below, depth - 1) + space + mark + space + self.expression(below, depth - 1)

    def condition(self, below, percent):
        return " if " + self.expression(below) if self.chance(percent) else ""

    def value(self, kind, below):
        same = [n for n in below if self.kinds[n] == kind]
        if same and self.chance(30):
            return self.pick(same)
        if kind == "string":
            return self.form(kind)
        form = self.form(kind)
        return form if form and form != '"' else "0"

    def attributes(self, name, below, above):
        kind = self.kinds[name]
        prompted = self.chance(65)
        rows = [kind + (' "P"' + self.condition(below, 35) if prompted else "")]
        if kind in LOGICAL:
            for _ in range(self.random.choice([0, 1, 1, 2])):
                rows.append("default " + self.expression(below) + self.condition(below, 40))
            targets = [n for n in above if self.kinds[n] in LOGICAL]
            for word in ("select", "imply"):
                if targets and self.chance(25):
                    rows.append(word + " " + self.pick(targets) + self.condition(below, 40))
        else:
            for _ in range(self.random.choice([0, 1, 2])):
                rows.append("default " + self.value(kind, below) + self.condition(below, 40))
            if kind != "string" and self.chance(50):
                rows.append("range %s %s" % (self.value(kind, below), self.value(kind, below)) + self.condition(below, 40))
        if self.chance(25):
            rows.append("depends on " + self.expression(below))
        if self.chance(20):
            self.random.shuffle(rows)
        return rows

    def symbols(self):
        count = self.random.randrange(1, 9)
        names = ["A", "B", "C", "D", "E_1", "F", "7", "long_name"][:count]
        self.kinds = {n: self.pick(["bool", "bool", "tristate", "tristate", "tristate", "int", "hex", "string"]) for n in names}
        ranked = list(names)
        self.random.shuffle(ranked)
        return names, ranked

    def tree(self):
        names, ranked = self.symbols()
        rows, open_rows, floors = [], [], []
        for name in names:
            place = ranked.index(name)
            # what stands around a symbol may only speak of those below all that it encloses
            while open_rows and (floors[-1] > place or self.chance(30)):
                rows.append(open_rows.pop())
                floors.pop()
            if self.chance(20):
                floor = self.random.randrange(place + 1)
                expression = self.expression(ranked[:floor])
                if self.chance(50):
                    rows.append("if " + expression)
                    open_rows.append("endif")
                else:
                    rows += ['menu "M"', "\tdepends on " + expression]
                    open_rows.append("endmenu")
                floors.append(floor)
            rows.append("config " + name)
            rows += ["\t" + row for row in self.attributes(name, ranked[:place], ranked[place + 1 :])]
            if self.chance(10):
                rows.append(self.pick(["", "# comment", "   # c"]))
        rows += reversed(open_rows)
        if self.chance(25):
            self.damage_rows(rows)
        text = "".join(row + "\n" for row in rows).encode()
        return self.damage_bytes(text, 10)

    def damage_rows(self, rows):
        at = self.random.randrange(len(rows))
        shape = self.random.randrange(4)
        if shape == 0:
            del rows[at]
        elif shape == 1:
            rows.insert(at, self.pick(rows))
        elif shape == 2:
            rows.insert(at, self.pick(JUNK))
        else:
            other = self.random.randrange(len(rows))
            rows[at], rows[other] = rows[other], rows[at]

    def damage_bytes(self, text, percent):
        if not text or not self.chance(percent):
            return text
        at = self.random.randrange(len(text))
        new = self.pick([b"", b" ", b"(", b")", b"!", b'"', b"\\", b"#", b"=", b"&", b"\n", b"\x80", b"\t", b"y", b"if"])
        return text[:at] + new + text[at + self.random.randrange(2) :]

    def file(self):
        rows = []
        for name, kind in self.kinds.items():
            for _ in range(self.pick([0, 1, 1, 1, 2])):
                if self.chance(15):
                    rows.append("# CONFIG_%s is not set" % name)
                else:
                    rows.append("CONFIG_%s=%s" % (name, self.form(kind)))
        rows += self.pick([[], [], ["# comment"], [""], ["CONFIG_UNKNOWN=1"], ["# CONFIG_A is not set "], ["#CONFIG_A is not set"]])
        self.random.shuffle(rows)
        text = "".join(row + "\n" for row in rows).encode()
        return self.damage_bytes(text, 4)
