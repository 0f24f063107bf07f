"""The table of cases: each with a run, three texts and what comes out, a file or (number, text, line)."""

WORKED = b"""config TRACE
\ttristate "Trace"
\tdefault m
config LOG
\tbool "Log"
\tdepends on TRACE
\tselect CLOCK
config CLOCK
\tbool
config GRAMS
\tint "Limit"
\trange 5 80
\tdefault 30
"""
FILE = b"CONFIG_TRACE=y\nCONFIG_LOG=y\nCONFIG_GRAMS=95\n"
NUMBERS = {"defconfig": 1, "oldconfig": 2, "allyes": 3, "allno": 4, "allmod": 5, "savedefconfig": 6}


def lines(*rows):
    return "".join(row + "\n" for row in rows).encode()


def symbol(name, *attributes):
    return lines("config " + name, *("\t" + a for a in attributes))


def bools(count):
    return b"".join(symbol("S%d" % i, "bool") for i in range(count))


def padded(text, size):
    """The text with a comment behind it that makes it this long."""
    return text + b"#" + b"x" * (size - len(text) - 1)


def nested(depth):
    return b"if y\n" * depth + symbol("A", "bool", "default y") + b"endif\n" * depth


def attributes(count):
    """A bool with this many attribute lines, its kind among them."""
    return symbol("A", "bool", *["default y"] * (count - 1))


def parts(count):
    """A bool with this many expression parts, all in defaults of at most 99 parts each."""
    rows, left = [], count
    while left:
        some = min(left, 99)
        rows.append("default " + "!" * (1 - some % 2) + " && ".join(["y"] * ((some + some % 2) // 2)))
        left -= some
    return symbol("A", "bool", *rows)


def tree_case(label, text, number, line):
    return (label, "defconfig", text, b"", b"", (number, 1, line))


def file_case(label, text, number, line):
    return (label, "defconfig", WORKED, text, b"", (number, 2, line))


def one(label, tree, file, out, run="defconfig", answers=b""):
    return (label, run, tree, file, answers, out)


def value(label, attrs, form, out):
    """A single visible symbol A, given a form."""
    return one(label, symbol("A", *attrs), b"CONFIG_A=" + form + b"\n" if form else b"", b"CONFIG_A=" + out + b"\n")


LONG40, LONG41 = "N" * 40, "N" * 41
SAVED = b"CONFIG_TRACE=y\nCONFIG_LOG=y\nCONFIG_GRAMS=80\n"

CASES = [
    # The worked examples
    one("worked, savedefconfig", WORKED, FILE, SAVED, "savedefconfig"),
    one("worked, defconfig", WORKED, FILE, b"CONFIG_TRACE=y\nCONFIG_LOG=y\nCONFIG_CLOCK=y\nCONFIG_GRAMS=80\n"),
    one("worked, empty file", WORKED, b"", b"CONFIG_TRACE=m\n# CONFIG_LOG is not set\nCONFIG_GRAMS=30\n"),
    one("worked, allmod", WORKED, b"", b"CONFIG_TRACE=m\nCONFIG_LOG=y\nCONFIG_CLOCK=y\nCONFIG_GRAMS=30\n", "allmod"),
    one("worked, allyes", WORKED, b"", b"CONFIG_TRACE=y\nCONFIG_LOG=y\nCONFIG_CLOCK=y\nCONFIG_GRAMS=30\n", "allyes"),
    one("worked, allno", WORKED, b"", b"# CONFIG_TRACE is not set\nCONFIG_GRAMS=30\n", "allno"),
    one("file over the preset", WORKED, b"# CONFIG_LOG is not set\n", b"CONFIG_TRACE=y\n# CONFIG_LOG is not set\nCONFIG_GRAMS=30\n", "allyes"),
    one("file over answers", WORKED, b"CONFIG_TRACE=y\n", b"CONFIG_TRACE=y\n# CONFIG_LOG is not set\nCONFIG_GRAMS=7\n", "oldconfig", b"CONFIG_TRACE=n\nCONFIG_GRAMS=7\n"),
    one("answers are not used by defconfig", WORKED, b"", b"CONFIG_TRACE=m\n# CONFIG_LOG is not set\nCONFIG_GRAMS=30\n", "defconfig", b"CONFIG_GRAMS=7\n"),
    one("saved from the file of allmod", WORKED, b"CONFIG_TRACE=m\nCONFIG_LOG=y\nCONFIG_CLOCK=y\nCONFIG_GRAMS=30\n", b"CONFIG_LOG=y\n", "savedefconfig"),
    value("range with low above high, below", ['int "A"', "range 10 5"], b"7", b"10"),
    value("range with low above high, above", ['int "A"', "range 10 5"], b"20", b"10"),
    value("leading zeros", ['int "A"'], b"007", b"7"),
    value("hex in lower case", ['hex "A"'], b"0X1F", b"0x1f"),
    value("hex without leading zeros", ['hex "A"'], b"0x00000000", b"0x0"),
    value("largest hex", ['hex "A"'], b"0xFFFFFFFF", b"0xffffffff"),
    value("hex compares without a sign", ['hex "A"', "range 0x1 0x7fffffff"], b"0xffffffff", b"0x7fffffff"),
    value("past the largest int", ['int "A"', "default 3"], b"2147483648", b"3"),
    value("largest int", ['int "A"'], b"2147483647", b"2147483647"),
    value("smallest int", ['int "A"'], b"-2147483648", b"-2147483648"),
    value("below the smallest int", ['int "A"', "default 3"], b"-2147483649", b"3"),
    value("minus zero", ['int "A"'], b"-0", b"0"),
    value("11 digits", ['int "A"', "default 3"], b"00000000001", b"3"),
    value("quotes and backslashes are escaped", ['string "A"'], b'"a\\"b\\\\c\\d"', b'"a\\"b\\\\cd"'),
    value("64 bytes of text", ['string "A"'], b'"' + b"t" * 64 + b'"', b'"' + b"t" * 64 + b'"'),
    value("65 bytes of text", ['string "A"', 'default "d"'], b'"' + b"t" * 65 + b'"', b'"d"'),
    value("64 bytes after unescaping", ['string "A"'], b'"' + b"\\t" * 64 + b'"', b'"' + b"t" * 64 + b'"'),
    value("a quote not at the end", ['string "A"', 'default "d"'], b'"a"b', b'"d"'),
    value("no quotes", ['string "A"', 'default "d"'], b"abc", b'"d"'),
    value("nothing given", ['string "A"'], b"", b'""'),
    value("m for a bool does not read", ['bool "A"', "default y"], b"m", b"y"),
    one("a default is bounded by visibility", symbol("M", "tristate", "default m") + symbol("A", 'tristate "A" if M', "default y"), b"", b"CONFIG_M=m\nCONFIG_A=m\n"),
    one("and then not written as a difference", symbol("M", "tristate", "default m") + symbol("A", 'tristate "A" if M', "default y"), b"CONFIG_A=m\n", b"", "savedefconfig"),
    one("imply at most the dependency", symbol("I", "tristate", "default y", "imply A") + symbol("M", "tristate", "default m") + symbol("A", "tristate", "depends on M"), b"", b"CONFIG_I=y\nCONFIG_M=m\nCONFIG_A=m\n"),
    one("imply gives way to a given value", symbol("I", "tristate", "default y", "imply A") + symbol("A", 'tristate "A"'), b"# CONFIG_A is not set\n", b"CONFIG_I=y\n# CONFIG_A is not set\n"),
    one("select does not", symbol("I", "tristate", "default y", "select A") + symbol("A", 'tristate "A"'), b"# CONFIG_A is not set\n", b"CONFIG_I=y\nCONFIG_A=y\n"),
    one("m counts as y for a bool", symbol("M", "tristate", "default m") + symbol("A", "bool", "default M"), b"", b"CONFIG_M=m\nCONFIG_A=y\n"),
    one("the last line for a name counts", WORKED, b"CONFIG_GRAMS=7\nCONFIG_GRAMS=8\n", b"CONFIG_TRACE=m\n# CONFIG_LOG is not set\nCONFIG_GRAMS=8\n"),
    one("also where it does not read", WORKED, b"CONFIG_GRAMS=7\nCONFIG_GRAMS=x\n", b"CONFIG_TRACE=m\n# CONFIG_LOG is not set\nCONFIG_GRAMS=30\n"),
    one("a menu's dependency", lines('menu "M"', "depends on n", "config A", 'bool "A"', "default y", "endmenu"), b"", b""),
    one("a name that is a number", symbol("5", "int", "default 9") + symbol("A", 'int "A"', "default 5"), b"", b"CONFIG_5=9\nCONFIG_A=9\n"),
    one("but not of another kind", symbol("5", "bool") + symbol("A", 'int "A"', "default 5"), b"", b"CONFIG_A=5\n"),
    one("an empty tree", b"", b"CONFIG_A=y\n", b""),
    one("comments, blanks and no last line feed", b"# c\n\nconfig A # c\n  bool\"A\"if(y)&&!n#c\n\n\tdefault y", b"\n# c\n#\nCONFIG_A=y", b"CONFIG_A=y\n"),
    one("keywords as names", lines("config config", "bool", "default y", "config bool", "bool", "default config"), b"", b"CONFIG_config=y\nCONFIG_bool=y\n"),
    # 1
    one("49,152 bytes of tree", padded(WORKED, 49152), FILE, SAVED, "savedefconfig"),
    tree_case("49,153 bytes of tree", padded(WORKED, 49153), 1, 0),
    one("49,152 bytes of file", WORKED, padded(FILE, 49152), SAVED, "savedefconfig"),
    file_case("49,153 bytes of file", padded(FILE, 49153), 1, 0),
    one("49,152 bytes of answers", WORKED, FILE, SAVED, "savedefconfig", padded(b"", 49152)),
    ("49,153 bytes of answers", "savedefconfig", WORKED, FILE, padded(b"", 49153), (1, 3, 0)),
    tree_case("length before bytes", padded(b"\x80", 49153), 1, 0),
    # 2
    tree_case("a byte above 0x7e", lines("config A", "\tbool") + b"\x7f\n", 2, 3),
    tree_case("a carriage return", b"config A\r\n", 2, 1),
    tree_case("a bad byte in a comment", b"# \x80\n", 2, 1),
    tree_case("a bad byte behind a bad token", b"config A\n= \x00\n", 2, 2),
    # 3
    tree_case("unclosed quote", lines("config A", '\tbool "A'), 3, 2),
    tree_case("a backslash at the end", lines("config A", '\tbool "A\\'), 3, 2),
    tree_case("an escaped closing quote", lines("config A", '\tbool "A\\"'), 3, 2),
    one("64 bytes in quotes", symbol("A", 'bool "%s"' % ("q" * 64)), b"", b"# CONFIG_A is not set\n"),
    one("64 bytes in quotes after unescaping", symbol("A", 'bool "%s"' % ("\\q" * 64)), b"", b"# CONFIG_A is not set\n"),
    tree_case("65 bytes in quotes", symbol("A", 'bool "%s"' % ("q" * 65)), 3, 2),
    one("a word of 40 bytes", symbol("A", "bool", "default " + "w" * 40 + " || y"), b"", b"CONFIG_A=y\n"),
    tree_case("a word of 41 bytes", symbol("A", "bool", "default " + "w" * 41 + " || y"), 3, 3),
    one("a name of 40 bytes", symbol(LONG40, "bool", "default y"), b"", ("CONFIG_" + LONG40 + "=y\n").encode()),
    tree_case("a name of 41 bytes", symbol(LONG41, "bool", "default y"), 3, 1),
    tree_case("a single &", symbol("A", "bool", "default y & y"), 3, 3),
    tree_case("a single |", symbol("A", "bool", "default y | y"), 3, 3),
    tree_case("an equals sign", symbol("A", "bool", "default A=y"), 3, 3),
    tree_case("a single quote", symbol("A", "bool 'A'"), 3, 2),
    tree_case("a bad token behind a bad form", symbol("A", "bool bool ="), 3, 2),
    # 4
    tree_case("an unknown keyword", lines("config A", "\tboolean"), 4, 2),
    tree_case("config without a name", lines("config"), 4, 1),
    tree_case("a name with a hyphen", lines("config A-B"), 4, 1),
    tree_case("a reserved name", lines("config if"), 4, 1),
    tree_case("select of a reserved name", symbol("A", "bool", "select y"), 4, 3),
    tree_case("two names", lines("config A B"), 4, 1),
    tree_case("a kind twice", symbol("A", "bool", "bool"), 4, 3),
    tree_case("a prompt twice", symbol("A", 'bool "A"', 'prompt "B"'), 4, 3),
    tree_case("a kind with a condition alone", symbol("A", "bool if y"), 4, 2),
    tree_case("an attribute at the start", lines("\tbool"), 4, 1),
    tree_case("an attribute after if", lines("if y", "\tdepends on y", "endif"), 4, 2),
    tree_case("an attribute after endif", lines("config A", "bool", "if y", "endif", "default y"), 4, 5),
    tree_case("an attribute after endmenu", lines("config A", "bool", 'menu "M"', "endmenu", "default y"), 4, 5),
    tree_case("a menu with a kind", lines('menu "M"', "bool", "endmenu"), 4, 2),
    tree_case("a menu with a condition", lines('menu "M" if y', "endmenu"), 4, 1),
    tree_case("depends on with a condition", symbol("A", "bool", "depends on y if y"), 4, 3),
    tree_case("depends without on", symbol("A", "bool", "depends y"), 4, 3),
    tree_case("if as an operand", symbol("A", "bool", "default y && if"), 4, 3),
    tree_case("a text as an operand", symbol("A", "bool", 'default y && "a"'), 4, 3),
    tree_case("if as a bound", symbol("A", "int", "range if 5"), 4, 3),
    tree_case("one bound", symbol("A", "int", "range 5"), 4, 3),
    tree_case("a text as a bound", symbol("A", "int", 'range "1" 5'), 4, 3),
    tree_case("an open parenthesis", symbol("A", "bool", "default (y"), 4, 3),
    tree_case("a closed parenthesis", symbol("A", "bool", "default y)"), 4, 3),
    tree_case("empty parentheses", symbol("A", "bool", "default ()"), 4, 3),
    tree_case("a condition without an expression", symbol("A", "bool", "default y if"), 4, 3),
    tree_case("a line that begins with a mark", lines("! config A"), 4, 1),
    tree_case("a line that begins with a text", lines('"config" A'), 4, 1),
    one("16 negations", symbol("A", "bool", "default " + "!" * 16 + "y"), b"", b"CONFIG_A=y\n"),
    tree_case("17 negations", symbol("A", "bool", "default " + "!" * 17 + "y"), 4, 3),
    one("16 parentheses", symbol("A", "bool", "default " + "(" * 16 + "y" + ")" * 16), b"", b"CONFIG_A=y\n"),
    tree_case("17 parentheses", symbol("A", "bool", "default " + "(" * 17 + "y" + ")" * 17), 4, 3),
    one("16 of both", symbol("A", "bool", "default " + "!(" * 8 + "y" + ")" * 8), b"", b"CONFIG_A=y\n"),
    tree_case("17 of both", symbol("A", "bool", "default !" + "!(" * 8 + "y" + ")" * 8), 4, 3),
    one("16 deep beside 16 deep", symbol("A", "bool", "default " + "!" * 16 + "y && " + "!" * 16 + "y"), b"", b"CONFIG_A=y\n"),
    # 5
    tree_case("endif without an opener", lines("endif"), 5, 1),
    tree_case("endmenu for an if", lines("if y", "endmenu", "endif"), 5, 2),
    tree_case("a text that ends inside a menu", lines('menu "M"', "if y", "config A", "bool"), 5, 2),
    one("16 openers", nested(16), b"", b"CONFIG_A=y\n"),
    tree_case("17 openers", nested(17), 5, 17),
    tree_case("nesting before the budget", b"if y\n" * 16 + symbol("A", *["default " + " && ".join(["y"] * 64)] * 16) + b"if y || y || y || y || y || y || y || y || y\n", 5, 34),
    tree_case("an unknown line before an open menu", lines('menu "M"', "x"), 4, 2),
    # 6
    one("256 symbols", bools(256), b"", b""),
    tree_case("257 symbols", bools(257), 6, 513),
    tree_case("redeclared with 256 symbols", bools(256) + b"config S0\n", 7, 513),
    one("1,024 attribute lines", attributes(1024), b"", b"CONFIG_A=y\n"),
    tree_case("1,025 attribute lines", attributes(1025), 6, 1026),
    tree_case("a menu's dependency counts", attributes(1024) + lines('menu "M"', "depends on y", "endmenu"), 6, 1027),
    one("2,048 expression parts", parts(2048), b"", b"CONFIG_A=y\n"),
    tree_case("2,049 expression parts", parts(2049), 6, 23),
    tree_case("the form before the budget", attributes(1024) + lines("\tdefault y y"), 4, 1026),
    # 7
    tree_case("a name declared again", symbol("A", "bool") + symbol("A", "bool"), 7, 3),
    tree_case("before a later fault", symbol("A", "bool") + symbol("A", "bool") + b"=\n", 7, 3),
    # 8
    tree_case("no kind", symbol("A") + symbol("B", "bool"), 8, 1),
    tree_case("no kind, later", symbol("B", "bool") + symbol("A", 'prompt "A"'), 8, 3),
    tree_case("range of a bool", symbol("A", "bool", "range 1 2"), 8, 3),
    tree_case("range of a string", symbol("A", "string", "range 1 2"), 8, 3),
    tree_case("a hex bound of an int", symbol("A", "int", "range 0x1 2"), 8, 3),
    tree_case("a bound that is a bool", symbol("B", "bool") + symbol("A", "int", "range 1 B"), 8, 5),
    tree_case("a default that is no form", symbol("A", "int", "default abc"), 8, 3),
    tree_case("a quoted default of an int", symbol("A", "int", 'default "5"'), 8, 3),
    tree_case("a compound default of an int", symbol("A", "int", "default 5 || 6"), 8, 3),
    one("a default in parentheses", symbol("A", "int", "default ((5))"), b"", b"CONFIG_A=5\n"),
    tree_case("a bare default of a string", symbol("A", "string", "default abc"), 8, 3),
    tree_case("a tab in a string's default", symbol("A", "string", 'default "a\tb"'), 8, 3),
    tree_case("a quoted default of a bool", symbol("A", "bool", 'default "y"'), 8, 3),
    tree_case("select in an int", symbol("B", "bool") + symbol("A", "int", "select B"), 8, 5),
    tree_case("select of an int", symbol("B", "int") + symbol("A", "bool", "select B"), 8, 5),
    tree_case("select of nothing", symbol("A", "bool", "select B"), 8, 3),
    tree_case("imply of a string", symbol("B", "string") + symbol("A", "bool", "imply B"), 8, 5),
    tree_case("the lowest line", symbol("A", "bool", "select B") + symbol("B"), 8, 3),
    tree_case("8 before 9", symbol("A", "bool", "default A", 'default "y"'), 8, 4),
    # 9
    tree_case("a default on itself", symbol("A", "bool", "default A"), 9, 1),
    tree_case("a circle of two", symbol("X", "bool", "default A") + symbol("A", "bool", "default B") + symbol("B", "bool", "depends on A"), 9, 4),
    tree_case("a circle by select", symbol("A", "bool", "select B", "depends on B") + symbol("B", "bool"), 9, 1),
    tree_case("a circle by a select's condition", symbol("A", "bool", "select B if C") + symbol("C", "bool", "depends on B") + symbol("B", "bool"), 9, 1),
    tree_case("a circle by imply", symbol("A", 'bool "A" if B', "imply B") + symbol("B", "bool"), 9, 1),
    tree_case("a circle by range", symbol("A", "int", "range A 5"), 9, 1),
    tree_case("a circle by an enclosing if", lines("if A", "config A", "bool", "endif"), 9, 2),
    tree_case("a circle by the name of a string", symbol("A", 'string "A" if A'), 9, 1),
    # 10
    file_case("no equals sign", b"CONFIG_A\n", 10, 1),
    file_case("another name", b"CONFIG_A=y\nA=y\n", 10, 2),
    file_case("blanks", b"\n \n", 10, 2),
    file_case("a reserved name in a file", b"CONFIG_y=y\n", 10, 1),
    file_case("an empty name", b"CONFIG_=y\n", 10, 1),
    file_case("a name of 41 bytes in a file", b"CONFIG_" + LONG41.encode() + b"=y\n", 10, 1),
    file_case("a tab in a file", b"CONFIG_A=y\n#\t\n", 10, 2),
    file_case("a byte above 0x7e in a file", b"#\xc3\xa4\n", 10, 1),
    file_case("a blank before a line", b" CONFIG_A=y\n", 10, 1),
    ("a bad line of the answers, not used", "defconfig", WORKED, b"", b"x\n", (10, 3, 1)),
    # The turns
    ("the tree before the file", "defconfig", b"=\n", b"x\n", b"x\n", (3, 1, 1)),
    ("the file before the answers", "defconfig", WORKED, b"x\n", b"\nx\n", (10, 2, 1)),
    # 12
    ("no such tree", "defconfig", None, b"x\n", b"", (12, 1, 0)),
    ("no such file", "defconfig", WORKED, None, b"x\n", (12, 2, 0)),
    ("no such answers", "savedefconfig", WORKED, FILE, None, (12, 3, 0)),
    ("a bad tree before a file that is not there", "defconfig", b"=\n", None, None, (3, 1, 1)),
]

SHEET = b"run=savedefconfig\ntree=Kconfig\nfile=.config\nanswers=\n"
JOB = (11, 0, 0)

# Job sheets, run where Kconfig and .config are the worked example
SHEETS = [
    ("the worked sheet", SHEET, SAVED),
    ("no last line feed", SHEET[:-1], SAVED),
    ("an empty sheet", b"", JOB),
    ("a line too many", SHEET + b"\n", JOB),
    ("a line too few", b"run=savedefconfig\ntree=Kconfig\nfile=.config\n", JOB),
    ("another order", b"tree=Kconfig\nrun=savedefconfig\nfile=.config\nanswers=\n", JOB),
    ("an unknown run", SHEET.replace(b"savedefconfig", b"menuconfig"), JOB),
    ("a run by number", SHEET.replace(b"savedefconfig", b"6"), JOB),
    ("a blank before the run", SHEET.replace(b"=save", b"= save"), JOB),
    ("a carriage return", SHEET.replace(b"\n", b"\r\n"), JOB),
    ("a path of 200 bytes", SHEET.replace(b".config", b"./" * 96 + b"/.config"), SAVED),
    ("a path of 201 bytes", SHEET.replace(b".config", b"./" * 97 + b".config"), JOB),
    ("a long input", SHEET + b"x" * 100000, JOB),
    ("an empty tree path", SHEET.replace(b"Kconfig", b""), b""),
    ("an empty file path", SHEET.replace(b".config", b""), b""),
    ("a path with a zero byte", SHEET.replace(b".config", b".config\x00"), (12, 2, 0)),
    ("a path that is no UTF-8", SHEET.replace(b".config", b"\xff"), (12, 2, 0)),
    ("a folder as a file", SHEET.replace(b".config", b"."), (12, 2, 0)),
    ("a missing tree before a missing file", SHEET.replace(b"Kconfig", b"no").replace(b".config", b"no"), (12, 1, 0)),
]
