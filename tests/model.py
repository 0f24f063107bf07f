"""An independent model of the engine in Python, written from the rules alone: it shares nothing with the code under test.

run(number, tree, file, answers) gives the bytes of the written file, or raises Refused.
"""

WORD = frozenset(b"ABCDEFGHIJKLMNOPQRSTUVWXYZabcdefghijklmnopqrstuvwxyz0123456789_-")
KINDS = ("bool", "tristate", "int", "hex", "string")
LEVELS = {"n": 0, "m": 1, "y": 2}
LETTERS = "nmy"
MAX_TEXT, MAX_SYMBOLS, MAX_ATTRIBUTES, MAX_PARTS, MAX_NESTING = 49152, 256, 1024, 2048, 16


class Refused(Exception):
    def __init__(self, number, line=0, text=None):
        super().__init__(number, line, text)
        self.number, self.line, self.text = number, line, text


def lines_of(text):
    lines = text.split(b"\n")
    return lines[:-1] if lines[-1] == b"" else lines


def is_name(word):
    return 1 <= len(word) <= 40 and all(c in WORD for c in word.encode()) and "-" not in word and word not in ("y", "m", "n", "if")


# Tokens: ("word", text), ("text", bytes) or ("mark", text).


def unquote(raw):
    """The bytes of a quoted text that begins at raw[0], and how many bytes it takes; None without a closing quote."""
    out, i = bytearray(), 1
    while i < len(raw):
        if raw[i : i + 1] == b'"':
            return bytes(out), i + 1
        if raw[i : i + 1] == b"\\":
            i += 1
            if i == len(raw):
                return None
        out += raw[i : i + 1]
        i += 1
    return None


def tokens_of(line, number):
    if any(not (0x20 <= c <= 0x7E or c == 9) for c in line):
        raise Refused(2, number)
    tokens, i = [], 0
    while i < len(line):
        c = line[i : i + 1]
        if c in b" \t":
            i += 1
        elif c == b"#":
            break
        elif c == b'"':
            quoted = unquote(line[i:])
            if quoted is None or len(quoted[0]) > 64:
                raise Refused(3, number)
            tokens.append(("text", quoted[0]))
            i += quoted[1]
        elif line[i] in WORD:
            end = i
            while end < len(line) and line[end] in WORD:
                end += 1
            if end - i > 40:
                raise Refused(3, number)
            tokens.append(("word", line[i:end].decode()))
            i = end
        elif c in b"()!":
            tokens.append(("mark", c.decode()))
            i += 1
        elif line[i : i + 2] in (b"&&", b"||"):
            tokens.append(("mark", line[i : i + 2].decode()))
            i += 2
        else:
            raise Refused(3, number)
    return tokens


class Parser:
    """The tokens of one line; every way off the grammar is number 4."""

    def __init__(self, tokens, number):
        self.tokens, self.at, self.number, self.parts = tokens, 0, number, 0

    def peek(self):
        return self.tokens[self.at] if self.at < len(self.tokens) else (None, None)

    def fail(self):
        raise Refused(4, self.number)

    def take(self, sort):
        token = self.peek()
        if token[0] != sort:
            self.fail()
        self.at += 1
        return token[1]

    def name(self):
        word = self.take("word")
        if not is_name(word):
            self.fail()
        return word

    def bound(self):
        word = self.take("word")
        if word == "if":
            self.fail()
        self.parts += 1
        return word

    def mark(self, mark):
        if self.peek() == ("mark", mark):
            self.at += 1
            return True
        return False

    def expression(self, room=MAX_NESTING):
        return self.chain("||", lambda: self.chain("&&", lambda: self.unary(room)))

    def chain(self, mark, operand):
        left = operand()
        while self.mark(mark):
            self.parts += 1
            left = (mark, left, operand())
        return left

    def unary(self, room):
        if self.mark("!"):
            self.parts += 1
            if room == 0:
                self.fail()
            return ("!", self.unary(room - 1))
        if self.mark("("):
            if room == 0:
                self.fail()
            inner = self.expression(room - 1)
            if not self.mark(")"):
                self.fail()
            return inner
        return ("word", self.bound())

    def value(self):
        if self.peek()[0] == "text":
            self.parts += 1
            return ("text", self.take("text"))
        return self.expression()

    def condition(self):
        """An optional `if E`, and then the end of the line."""
        found = None
        if self.peek() == ("word", "if"):
            self.at += 1
            found = self.expression()
        self.end()
        return found

    def end(self):
        if self.at != len(self.tokens):
            self.fail()


def words_of(expression):
    if expression is None or expression[0] == "text":
        return set()
    if expression[0] == "word":
        return {expression[1]}
    return set().union(*(words_of(part) for part in expression[1:]))


class Attribute:
    def __init__(self, sort, line, value=None, condition=None):
        self.sort, self.line, self.value, self.condition = sort, line, value, condition


class Symbol:
    def __init__(self, name, line, around):
        self.name, self.line, self.around, self.attributes, self.kind = name, line, around, [], None

    def all(self, sort):
        return [a for a in self.attributes if a.sort == sort]


def parse_attribute(parser, word, line):
    """One attribute line. A kind with a prompt gives two attributes."""
    if word in KINDS:
        if parser.peek()[0] is None:
            return [Attribute("kind", line, word)]
        parser.take("text")
        return [Attribute("kind", line, word), Attribute("prompt", line, None, parser.condition())]
    if word == "prompt":
        parser.take("text")
        return [Attribute("prompt", line, None, parser.condition())]
    if word == "default":
        value = parser.value()
        return [Attribute("default", line, value, parser.condition())]
    if word == "depends":
        if parser.take("word") != "on":
            parser.fail()
        value = parser.expression()
        parser.end()
        return [Attribute("depends", line, value)]
    if word in ("select", "imply"):
        target = parser.name()
        return [Attribute(word, line, target, parser.condition())]
    if word == "range":
        low, high = parser.bound(), parser.bound()
        return [Attribute("range", line, (low, high), parser.condition())]
    parser.fail()


class Tree:
    def __init__(self, text):
        if len(text) > MAX_TEXT:
            raise Refused(1)
        self.symbols, self.named = [], {}
        self.openers = []  # (word, line, list of the conditions that it puts around symbols)
        self.entry = None  # the symbol, the opener of a menu, or None where no attribute may stand
        self.attribute_lines = self.parts = 0
        for number, line in enumerate(lines_of(text), 1):
            tokens = tokens_of(line, number)
            if tokens:
                self.read_line(Parser(tokens, number), number)
        if self.openers:
            raise Refused(5, self.openers[-1][1])
        breaches = [line for symbol in self.symbols for line in self.breaches(symbol)]
        if breaches:
            raise Refused(8, min(breaches))
        self.check_circles()

    def read_line(self, parser, number):
        word = parser.take("word")
        if word in ("config", "menu", "endmenu", "if", "endif"):
            self.read_entry(parser, word, number)
        else:
            self.read_attribute(parser, word, number)

    def count(self, number, parts, attributes=0, symbols=0):
        self.parts += parts
        self.attribute_lines += attributes
        over = self.parts > MAX_PARTS or self.attribute_lines > MAX_ATTRIBUTES
        if over or len(self.symbols) + symbols > MAX_SYMBOLS:
            raise Refused(6, number)

    def read_entry(self, parser, word, number):
        name, condition = None, None
        if word == "config":
            name = parser.name()
        elif word == "menu":
            parser.take("text")
        elif word == "if":
            condition = parser.expression()
        parser.end()
        if word in ("menu", "if"):
            if len(self.openers) == MAX_NESTING:
                raise Refused(5, number)
            self.count(number, parser.parts)
            opener = (word, number, [] if condition is None else [condition])
            self.openers.append(opener)
            self.entry = opener if word == "menu" else None
        elif word == "config":
            if name in self.named:
                raise Refused(7, number)
            self.count(number, 0, symbols=1)
            around = [c for opener in self.openers for c in [opener[2]]]
            self.entry = Symbol(name, number, around)
            self.symbols.append(self.entry)
            self.named[name] = self.entry
        else:
            if not self.openers or self.openers[-1][0] != word[3:]:
                raise Refused(5, number)
            self.openers.pop()
            self.entry = None

    def read_attribute(self, parser, word, number):
        found = parse_attribute(parser, word, number)
        parser.end()
        if self.entry is None:
            raise Refused(4, number)
        if not isinstance(self.entry, Symbol):
            if found[0].sort != "depends":
                raise Refused(4, number)
            self.count(number, parser.parts, attributes=1)
            self.entry[2].append(found[0].value)
            return
        for attribute in found:
            if attribute.sort in ("kind", "prompt") and self.entry.all(attribute.sort):
                raise Refused(4, number)
        self.count(number, parser.parts, attributes=1)
        self.entry.attributes += found
        if found[0].sort == "kind":
            self.entry.kind = found[0].value

    # Kind rules

    def is_fit(self, kind, word):
        """Whether a bare word is a symbol of the kind or one of its forms."""
        other = self.named.get(word)
        return (other is not None and other.kind == kind) or read_form(kind, word.encode()) is not None

    def breaches(self, symbol):
        if symbol.kind is None:
            yield symbol.line
        logical = symbol.kind in ("bool", "tristate")
        for a in symbol.attributes:
            if a.sort == "range":
                if symbol.kind not in ("int", "hex") or not all(self.is_fit(symbol.kind, w) for w in a.value):
                    yield a.line
            elif a.sort == "default" and symbol.kind is not None:
                if logical:
                    if a.value[0] == "text":
                        yield a.line
                elif a.value[0] == "text":
                    if symbol.kind != "string" or any(not 0x20 <= c <= 0x7E for c in a.value[1]):
                        yield a.line
                elif a.value[0] != "word" or not self.is_fit(symbol.kind, a.value[1]):
                    yield a.line
            elif a.sort in ("select", "imply"):
                target = self.named.get(a.value)
                if not logical or target is None or target.kind not in ("bool", "tristate"):
                    yield a.line

    # What rests on what

    def dependencies(self, symbol):
        return [c for around in symbol.around for c in around] + [a.value for a in symbol.all("depends")]

    def rests_on(self, symbol):
        words = set()
        for c in self.dependencies(symbol):
            words |= words_of(c)
        for a in symbol.attributes:
            words |= words_of(a.condition)
            if a.sort == "default":
                words |= words_of(a.value)
            elif a.sort == "range":
                words |= set(a.value)
        for other in self.symbols:
            for a in other.all("select") + other.all("imply"):
                if a.value == symbol.name:
                    words |= {other.name} | words_of(a.condition)
                    for c in self.dependencies(other):
                        words |= words_of(c)
        return [self.named[w] for w in words if w in self.named]

    def check_circles(self):
        rests = {s.name: [o.name for o in self.rests_on(s)] for s in self.symbols}
        for symbol in self.symbols:
            reached, front = set(), list(rests[symbol.name])
            while front:
                name = front.pop()
                if name not in reached:
                    reached.add(name)
                    front += rests[name]
            if symbol.name in reached:
                raise Refused(9, symbol.line)


# Forms


def read_form(kind, form):
    if kind in ("bool", "tristate"):
        letter = form.decode("latin-1")
        return LEVELS.get(letter) if letter in ("y", "n") or (letter == "m" and kind == "tristate") else None
    if kind == "int":
        digits = form[1:] if form[:1] == b"-" else form
        if not 1 <= len(digits) <= 10 or any(c not in b"0123456789" for c in digits):
            return None
        number = int(form)
        return number if -(2**31) <= number < 2**31 else None
    if kind == "hex":
        digits = form[2:]
        if form[:2] not in (b"0x", b"0X") or not 1 <= len(digits) <= 8:
            return None
        return int(digits, 16) if all(c in b"0123456789abcdefABCDEF" for c in digits) else None
    if form[:1] != b'"':
        return None
    quoted = unquote(form)
    if quoted is None or quoted[1] != len(form) or len(quoted[0]) > 64 or any(not 0x20 <= c <= 0x7E for c in quoted[0]):
        return None
    return quoted[0]


def write_form(kind, value):
    if kind in ("bool", "tristate"):
        return LETTERS[value].encode()
    if kind == "int":
        return b"%d" % value
    if kind == "hex":
        return b"0x%x" % value
    return b'"' + value.replace(b"\\", b"\\\\").replace(b'"', b'\\"') + b'"'


# Sources: functions from a name and a kind to a form or None


def file_source(text):
    if len(text) > MAX_TEXT:
        raise Refused(1)
    answers = {}
    for number, line in enumerate(lines_of(text), 1):
        if any(not 0x20 <= c <= 0x7E for c in line):
            raise Refused(10, number)
        if line[:1] == b"#":
            name = line[9 : -len(b" is not set")].decode()
            if line == b"# CONFIG_" + name.encode() + b" is not set" and is_name(name):
                answers[name] = b"n"
        elif line:
            name, equals, form = line.partition(b"=")
            if not name.startswith(b"CONFIG_") or not equals or not is_name(name[7:].decode()):
                raise Refused(10, number)
            answers[name[7:].decode()] = form
    return lambda name, kind: answers.get(name)


def preset(logical):
    return lambda name, kind: logical.get(kind)


def over(upper, lower):
    return lambda name, kind: upper(name, kind) if upper(name, kind) is not None else lower(name, kind)


# Values


class Values:
    """The values of a tree's symbols under given values; those in `fixed` are not worked out."""

    def __init__(self, tree, given, fixed=None):
        self.tree, self.given, self.known = tree, given, dict(fixed or {})

    def level(self, expression):
        if expression[0] == "word":
            word = expression[1]
            if word in LEVELS:
                return LEVELS[word]
            symbol = self.tree.named.get(word)
            return self.value(symbol) if symbol and symbol.kind in ("bool", "tristate") else 0
        if expression[0] == "!":
            return 2 - self.level(expression[1])
        return (min if expression[0] == "&&" else max)(self.level(expression[1]), self.level(expression[2]))

    def dependency(self, symbol):
        return min([2] + [self.level(c) for c in self.tree.dependencies(symbol)])

    def condition(self, symbol, attribute):
        own = 2 if attribute.condition is None else self.level(attribute.condition)
        return min(own, self.dependency(symbol))

    def visibility(self, symbol):
        level = max([0] + [self.condition(symbol, a) for a in symbol.all("prompt")])
        return self.settled(symbol, level)

    def settled(self, symbol, level):
        return 2 if symbol.kind == "bool" and level == 1 else level

    def raised(self, symbol, sort):
        """The select or the imply level."""
        level = 0
        for other in self.tree.symbols:
            for a in other.all(sort):
                if a.value == symbol.name:
                    level = max(level, min(self.value(other), self.condition(other, a)))
        return self.settled(symbol, level)

    def applying(self, symbol, sort):
        for a in symbol.all(sort):
            condition = self.condition(symbol, a)
            if condition != 0:
                return a, condition
        return None, 0

    def value(self, symbol):
        if symbol.name not in self.known:
            work = self.logical if symbol.kind in ("bool", "tristate") else self.scalar
            self.known[symbol.name] = work(symbol)
        return self.known[symbol.name]

    def logical(self, symbol):
        visibility, given = self.visibility(symbol), self.given.get(symbol.name)
        if given is not None and visibility != 0:
            base = min(given, visibility)
        else:
            default, condition = self.applying(symbol, "default")
            base = 0 if default is None else self.settled(symbol, min(self.level(default.value), condition))
            imply = self.raised(symbol, "imply")
            if imply != 0:
                base = min(max(base, imply), self.settled(symbol, self.dependency(symbol)))
            if visibility != 0:
                base = min(base, visibility)
        return max(base, self.raised(symbol, "select"))

    def operand(self, kind, word):
        other = self.tree.named.get(word)
        return self.value(other) if other is not None and other.kind == kind else read_form(kind, word.encode())

    def scalar(self, symbol):
        given = self.given.get(symbol.name)
        if given is not None and self.visibility(symbol) != 0:
            value = given
        else:
            default, _ = self.applying(symbol, "default")
            if default is None:
                value = b"" if symbol.kind == "string" else 0
            elif default.value[0] == "text":
                value = default.value[1]
            else:
                value = self.operand(symbol.kind, default.value[1])
        bounds, _ = self.applying(symbol, "range")
        if bounds is not None:
            low, high = (self.operand(symbol.kind, word) for word in bounds.value)
            if value < low or low > high:
                value = low
            elif value > high:
                value = high
        return value


def file_line(symbol, value):
    name = b"CONFIG_" + symbol.name.encode()
    if symbol.kind in ("bool", "tristate") and value == 0:
        return b"# " + name + b" is not set\n"
    return name + b"=" + write_form(symbol.kind, value) + b"\n"


def full_file(tree, given):
    values, out = Values(tree, given), b""
    for symbol in tree.symbols:
        value = values.value(symbol)
        if symbol.kind in ("bool", "tristate"):
            stands = values.visibility(symbol) != 0 or value != 0
        else:
            stands = values.visibility(symbol) != 0 or values.applying(symbol, "default")[0] is not None
        if stands:
            out += file_line(symbol, value)
    return out


def minimal_file(tree, given):
    values, out = Values(tree, given), b""
    everyone = {s.name: values.value(s) for s in tree.symbols}
    for symbol in tree.symbols:
        others = {name: value for name, value in everyone.items() if name != symbol.name}
        ungiven = {name: value for name, value in given.items() if name != symbol.name}
        if Values(tree, ungiven, others).value(symbol) != everyone[symbol.name]:
            out += file_line(symbol, everyone[symbol.name])
    return out


def load(tree, source):
    given = {}
    for symbol in tree.symbols:
        form = source(symbol.name, symbol.kind)
        value = None if form is None else read_form(symbol.kind, form)
        if value is not None:
            given[symbol.name] = value
    return given


def turn(text, read, data):
    """Reads a text; None stands for a file that cannot be read."""
    if data is None:
        raise Refused(12, 0, text)
    try:
        return read(data)
    except Refused as refusal:
        raise Refused(refusal.number, refusal.line, text) from None


def run(number, tree, file, answers):
    if number not in range(1, 7):
        raise Refused(11, 0, 0)
    tree, file, answers = turn(1, Tree, tree), turn(2, file_source, file), turn(3, file_source, answers)
    lower = {
        2: answers,
        3: preset({"bool": b"y", "tristate": b"y"}),
        4: preset({"bool": b"n", "tristate": b"n"}),
        5: preset({"bool": b"y", "tristate": b"m"}),
    }.get(number)
    given = load(tree, file if lower is None else over(file, lower))
    return minimal_file(tree, given) if number == 6 else full_file(tree, given)
