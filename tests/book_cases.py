#!/usr/bin/env python3
"""Writes the book texts of crates/book_cases/data/cases.txt, and what the program must say of them.

The answers come from the reading of book text written here a second time, from docs/TEXTS.md, docs/FTPL.md and
docs/DECISIONS.md: a text is cut into words, signs and line ends, and each of them is asked for in turn by what may
stand there. Nothing is taken from the library."""
import os
import re

SIGNS = "()[],:!&|"
WORD = re.compile(r"[^ \n()\[\],:!&|]+")
INTEGER = re.compile(r"0|-?[1-9][0-9]*")
NAME = re.compile(r"[A-Za-z0-9]{1,8}")
# tokens beside words and signs; each of them is told as the empty word
LINE_END, TEXT_END, MISPLACED = "\n", "", " "


class Token:
    def __init__(self, says, line, byte):
        self.says, self.line, self.byte = says, line, byte
        self.shown = "" if says in (LINE_END, TEXT_END, MISPLACED) else says


class Wrong(Exception):
    pass


def cut(text):
    """The tokens of a text, up to the first blank that stands where none may."""
    tokens, line, start, at = [], 1, 0, 0
    while at < len(text):
        byte = text[at]
        if byte == " ":
            if at == start:
                return tokens + [Token(MISPLACED, line, 0)]
            behind = text[at + 1:at + 2]
            if behind in ("", " ") or (behind == "\n" and text[at - 1] not in SIGNS):
                return tokens + [Token(MISPLACED, line, at + 1 - start)]
            at += 1
            continue
        says = byte if byte == "\n" or byte in SIGNS else WORD.match(text, at).group()
        tokens.append(Token(says, line, at - start))
        at += len(says)
        if byte == "\n":
            line, start = line + 1, at
    return tokens + [Token(TEXT_END, line, at - start)]


def numbers(least, most):
    """The spellings of the numbers from least to most."""
    return [str(n) for n in range(least, most + 1)]


def million(word):
    return INTEGER.fullmatch(word) is not None and -1_000_000 <= int(word) <= 1_000_000


def grouped(items, sign):
    """Written out in pairs: the items of a group, joined by this sign, or by `&` below `|`."""
    parts, part = [], []
    for item in items:
        if item == sign:
            parts.append(part)
            part = []
        else:
            part.append(item)
    parts.append(part)
    said = [grouped(p, "&") if sign == "|" else p[0] for p in parts]
    whole = said.pop()
    while said:
        whole = f"({said.pop()} {sign} {whole})"
    return whole


class Reader:
    def __init__(self, text):
        self.tokens, self.at = cut(text), 0

    def next(self):
        return self.tokens[self.at].says

    def take(self, says):
        """Goes on if the next token is this one."""
        if self.next() != says:
            return False
        self.at += 1
        return True

    def demand(self, choice):
        """The next token, which has to be one of a choice."""
        says = self.next()
        if says not in choice:
            raise Wrong(self.tokens[self.at])
        self.at += 1
        return says

    def demand_that(self, fits):
        """The next token, which has to be a word that fits."""
        says = self.next()
        if not fits(says):
            raise Wrong(self.tokens[self.at])
        self.at += 1
        return says

    def joined(self, operand, limit, may_turn):
        """Operands joined by `&` and `|`, in parentheses or not."""
        groups, turned, count = [[]], [""], 0
        while True:
            turn = "!" if may_turn and self.take("!") else ""
            if len(groups) <= 8 and self.take("("):
                groups.append([])
                turned.append(turn)
                continue
            groups[-1].append(turn + operand())
            count += 1
            while len(groups) > 1 and self.take(")"):
                inner = turned.pop() + grouped(groups.pop(), "|")
                groups[-1].append(inner)
            if count < limit and self.next() in ("&", "|"):
                groups[-1].append(self.demand(["&", "|"]))
            elif len(groups) > 1:
                self.demand([])
            else:
                return grouped(groups[0], "|")

    def test(self, kinds):
        """One test, where the variables run over these kinds."""
        def of(kind):
            return [v for v in kinds if kinds[v] == kind]
        heads = ["name", "in", "child", "same"]
        heads += ["bound"] if of("prov") and of("req") else []
        heads += ["up"] if of("comp") else []
        heads += ["atmost"] if of("par") else []
        head = self.demand(heads)
        if head in ("name", "in"):
            rest = [self.demand(kinds), self.demand_that(lambda w: NAME.fullmatch(w) is not None)]
        elif head == "bound":
            rest = [self.demand(of("prov")), self.demand(of("req"))]
        elif head == "up":
            rest = [self.demand(of("comp"))]
        elif head == "atmost":
            rest = [self.demand(of("par")), self.demand_that(lambda w: w in of("par") or million(w))]
        else:
            rest = [self.demand(kinds), self.demand(kinds)]
        return " ".join([head] + rest)

    def property(self):
        """The rule of a property."""
        kinds, said = {}, ""
        choice = ["rule=all", "rule=some"]
        for variable in "vw":
            how = self.demand(choice).removeprefix("rule=")
            if how == ":":
                break
            self.demand([variable])
            self.demand([":"])
            kinds[variable] = self.demand(["comp", "prov", "req", "par"])
            said += f"{how} {variable}:{kinds[variable]} "
            choice = ["all", "some", ":"]
        else:
            self.demand([":"])
        return f"{said}: " + self.joined(lambda: self.test(kinds), 16, True)

    def events(self):
        """An event list, written out by operation."""
        happened = set()
        self.demand(["["])
        while True:
            operation = int(self.demand(numbers(1, 63)))
            event = self.demand(["called", "normal", "exceptional", "terminates"])
            happened.update((operation, e) for e in (["normal", "exceptional"] if event == "terminates" else [event]))
            if self.demand([",", "]"]) == "]":
                break
        said = []
        for operation in range(1, 64):
            events = [e for e in ("called", "normal", "exceptional") if (operation, e) in happened]
            events = [e for e in events if e == "called"] + ["terminates"] if "normal" in events and "exceptional" in events else events
            said += [f"{operation} {e}" for e in events]
        return "[" + ", ".join(said) + "]"

    def leaf(self, properties):
        return self.demand(["always", "eventually", "never"]) + " " + self.demand(numbers(1, properties))

    def formula(self, properties):
        """The rule of a formula."""
        starts = ["after", "before", "always", "eventually", "never"]
        first = self.demand(["rule="] + ["rule=" + s for s in starts]).removeprefix("rule=")
        if first != "":
            self.at -= 1
            self.tokens[self.at].says = first
        elif self.next() != "(":
            self.demand([])
        said, afters = "", 0
        while afters < 3 and self.take("after"):
            said += f"after {self.events()} "
            afters += 1
        before = self.take("before")
        if before:
            said += f"before {self.events()} "
        said += self.joined(lambda: self.leaf(properties), 4, False)
        if not before and self.take("until"):
            said += f" until {self.events()}"
        return said

    def book(self):
        """A whole book: its properties, standing conditions and formulas."""
        properties, conditions, formulas = [], [], []
        while self.next() != TEXT_END:
            p, h, f = len(properties), len(conditions), len(formulas)
            choice = [f"prop={p + 1}"] if p < 64 and h == 0 and f == 0 else []
            if h < 16 and f == 0:
                choice += ["hold=" + n for n in numbers(conditions[-1] + 1 if h else 1, p)]
            choice += [f"form={f + 1}"] if p > 0 and f < 32 else []
            head = self.demand(choice)
            if head.startswith("prop="):
                properties.append(self.property())
            elif head.startswith("hold="):
                conditions.append(int(head[5:]))
            else:
                formulas.append(self.formula(p))
            self.demand([LINE_END])
        return properties, conditions, formulas


def judge(text):
    try:
        properties, conditions, formulas = Reader(text).book()
    except Wrong as wrong:
        token = wrong.args[0]
        return f'line {token.line}, byte {token.byte}: "{token.shown}"'
    held = "conditions " + " ".join(str(n) for n in conditions) if conditions else "no conditions"
    said = [f"{len(properties)} properties, {held}, {len(formulas)} formulas"]
    said += [f"prop {n}: {rule}" for n, rule in enumerate(properties, 1)]
    said += [f"form {n}: {rule}" for n, rule in enumerate(formulas, 1)]
    return "; ".join(said)


# The two books of the documents.
TEXTS_BOOK = """prop=1 rule=all v:par : atmost v 4096
prop=2 rule=some v:comp : name v sweep & up v
hold=1
form=1 rule=always 1
form=2 rule=after [5 normal, 6 called] (always 1 | never 2) until [7 terminates]
"""
SEASON_BOOK = """prop=1 rule=all v:par all w:par : !name v len | !name w buf | atmost v w
hold=1
form=1 rule=always 1
form=2 rule=after [5 normal] always 1
"""
# Every word of the language.
WORDS_BOOK = """prop=1 rule=all v:prov some w:req : bound v w | child w v & same v w
prop=2 rule=some v:comp all w:par : name v a | in w b | up v | atmost w 3
hold=2
form=1 rule=after [5 called, 6 normal] after [7 exceptional] before [8 terminates] always 1
form=2 rule=eventually 2 & never 1 until [5 called]
"""
WORDS = ("prop=1 rule=all v prov some w req bound child same rule=some comp all par name in up atmost hold=2 form=1 rule=after called normal after "
         "exceptional before terminates always rule=eventually never until").split()
# Two properties, to stand before conditions and formulas; one line of each kind.
TWO = "prop=1 rule=all v:par : atmost v 9\nprop=2 rule=some v:comp : up v\n"
PROP, HOLD, FORM = "prop=1 rule=all v:par : atmost v 1\n", "hold=1\n", "form=1 rule=always 1\n"


def prop(rule):
    return f"prop=1 rule={rule}\n"


def form(rule):
    return f"{TWO}form=1 rule={rule}\n"


def tests(said):
    """A property over two components."""
    return prop("all v:comp all w:comp : " + said)


def laid(tokens):
    """A line with blanks only where they have to stand."""
    text = ""
    for token in tokens:
        text += " " if text and text[-1] not in SIGNS and token not in SIGNS else ""
        text += token
    return text


def documents():
    yield from ("", TEXTS_BOOK, SEASON_BOOK, WORDS_BOOK)
    yield prop("all v:par : up v")
    yield prop("all v:comp : !!up v")
    yield "prop=1 rule=all v:par :\n"
    yield form("always 3")
    yield form("before [5 called] always 1 until [6 normal]")
    yield form("after [0 normal] always 1")


def order_of_lines():
    more = PROP.replace("1", "2")
    yield from (PROP, PROP + HOLD, PROP + FORM, PROP + HOLD + FORM, HOLD, FORM, HOLD + PROP, PROP + HOLD + more, PROP + FORM + more, PROP + FORM + HOLD, PROP + PROP, PROP + FORM + FORM)
    for n in ("0", "2", "01", "+1", "", "257", "18446744073709551617"):
        yield f"prop={n} rule=all v:par : atmost v 1\n"
        yield f"{PROP}form={n} rule=always 1\n"
        yield f"{PROP}hold={n}\n"
    for first, second in ("12", "11", "21", "22", "23"):
        yield f"{TWO}hold={first}\nhold={second}\n"
    for line in ("hold=1 x", "hold=1 hold=2", "hold=1(", "hold = 1", "x"):
        yield f"{TWO}{line}\n"


def most_lines():
    """64 properties, 16 conditions, 32 formulas, and one more of each."""
    properties = "".join(f"prop={n} rule=all v:par : atmost v {n}\n" for n in range(1, 65))
    conditions = "".join(f"hold={n}\n" for n in range(2, 34, 2))
    formulas = "".join(f"form={n} rule=never {1 + n % 2}\n" for n in range(1, 33))
    yield properties + "hold=64\nform=1 rule=always 64\n"
    yield properties + "prop=65 rule=all v:par : atmost v 65\n"
    yield properties + "form=1 rule=always 65\n"
    yield properties + conditions + FORM
    yield properties + conditions + "hold=40\n"
    yield TWO + formulas
    yield TWO + formulas + "form=33 rule=never 1\n"


def starts_of_rules():
    for rule in ("(always 1)", " (always 1)", "( always 1 )", " always 1", "[5 normal]", "!always 1", "", " ", "until [5 normal]", "1", "all v:par : atmost v 1", "rule=always 1",
                 "(after [5 normal] always 1)", "(always 1 until [5 normal])"):
        yield form(rule)
    for rule in ("(all v:par : atmost v 1)", "", " all v:par : atmost v 1", "always 1", "v:par : atmost v 1", "all w:par : atmost w 1", "all v:par all v:par : atmost v 1",
                 "all v:par all w:par all x:par : atmost v 1", "some v:prov some w:req : in v rec", "all v:any : up v", "all v:par, all w:par : atmost v 1", "all v par : atmost v 1",
                 "all v:par all w:par atmost v 1"):
        yield prop(rule)
    for line in ("prop=1 all v:par : atmost v 1", "prop=1 rul=all v:par : atmost v 1", "prop=1 rule =all v:par : atmost v 1", "prop=1: rule=all v:par : atmost v 1"):
        yield line + "\n"
    yield TWO + "form=1 always 1\n"


def variables():
    """Which tests and variables fit which kinds."""
    for kind in ("comp", "prov", "req", "par"):
        for test in ("bound v v", "up v", "atmost v 7"):
            yield prop(f"all v:{kind} : {test}")
    for v, w in (("prov", "req"), ("req", "prov"), ("prov", "prov"), ("req", "req"), ("comp", "req")):
        yield prop(f"all v:{v} some w:{w} : bound v w")
    for rest in ("v v", "v x", "w v"):
        yield prop(f"all v:prov all w:req : bound {rest}")
    yield prop("all v:req all w:prov : bound w v")
    for v, w in (("par", "par"), ("par", "comp"), ("comp", "par")):
        yield prop(f"all v:{v} all w:{w} : atmost v w")
        yield prop(f"all v:{v} all w:{w} : up w")
    yield prop("all v:par all w:par : atmost w v & atmost w w & atmost w 3")
    yield prop("all v:par all w:comp : child v w & same v w & child w w & same w v & in w v & name v w")
    for test in ("name w a", "in w a", "child w v", "child v w", "same v w", "up w", "name x a"):
        yield prop(f"all v:comp : {test}")
    yield prop("all v:par : atmost v w")
    yield prop("all v:par : atmost w 4")


def joined_tests():
    a, b, c, d = "name v a", "name w b", "in v c", "up w"
    for said in (f"{a} & {b} | {c} & {d}", f"{a} | {b} & {c} | {d}", f"{a} & {b} & {c}", f"{a} | {b} | {c}", f"({a} | {b}) & {c}", f"{a} & ({b} | {c})", f"({a} | {b}) | {c}", f"({a} & {b}) & {c}",
                 f"!{a} & !{b} | !{c}", f"!({a} & {b}) | {c}", f"!(!{a})", f"!(!(!{a} | {b}) & {c})", f"(({a}))", f"! !{a}", f"!(!!{a})", f"{a}!", "!", "()", f"({a}", f"{a})", f"({a} {b})",
                 f"& {a}", f"{a} && {b}", f"{a} {b}", f"{a}, {b}", f"({a}) ({b})"):
        yield tests(said)
    for sign in ("&", "|"):
        yield tests(f" {sign} ".join(["up v"] * 16))
        yield tests(f" {sign} ".join(["up v"] * 17))
    half = " | ".join(["up v"] * 8)
    yield tests(f"({half}) & !({half})")
    yield tests(f"({half}) & !({half} | up w)")
    yield tests(f"({half} & ({half})\n")
    for depth in (8, 9):
        yield tests("(" * depth + "up v" + ")" * depth)
        yield tests("!(" * depth + "up v" + ")" * depth)
    yield tests("((((((((up v)))))))) | ((((((((up w))))))))")
    yield tests("((((((((up v))))))) & ((((((((up w))))))))")
    yield tests("((((((((up v)))))))))")


def joined_leaves():
    for said in ("always 1 & eventually 2 | never 1 & always 2", "always 1 | eventually 2 & never 1 | always 2", "always 1 & always 2 & never 1", "always 1 | always 2 | never 1",
                 "(always 1 | always 2) & never 1", "always 1 & (always 2 | never 1)", "((always 1 & always 2) & never 1) & never 2", "!always 1", "always (1)", "always 1)", "()", "always 1 never 2",
                 "always 1 & after [5 normal] always 1"):
        yield form(said)
    for sign in ("&", "|"):
        yield form(f" {sign} ".join(["never 1"] * 4))
        yield form(f" {sign} ".join(["never 1"] * 5))
    yield form("(always 1 & always 2) | (never 1 & never 2) until [5 normal]")
    yield form("(always 1 & always 2 & never 1 & never 2) | always 1")
    for depth in (8, 9):
        yield form("(" * depth + "always 1" + ")" * depth)
    yield form("((((((((always 1)))))))) & ((((((((never 2))))))))")
    for n in ("0", "2", "3", "01", "+1", "257", "x"):
        yield form(f"eventually {n}")


def events():
    for said in ("1 called", "63 called", "0 called", "64 called", "05 called", "+5 called", "261 called", "5 exceptional, 5 normal", "7 normal, 5 called, 5 terminates, 63 exceptional, 1 normal",
                 "5 called, 5 called", "called 5", "5 called,", ", 5 called", "5 called 6 called", "5called", "5 : called", "(5 called)", "[5 called", ""):
        yield form(f"after [{said}] always 1")
    every = ", ".join(f"{n} {event}" for n in range(63, 0, -1) for event in ("exceptional", "called"))
    yield form(f"always 1 until [{every}]")


def cores():
    """`after`, `before` and `until`."""
    for said in ("after 5 called always 1", "after [5 called]] always 1", "after always 1", "before always 1", "always 1 until", "always 1 until 5 called", "after [5 called]",
                 "before [5 called]", "after [5 called] until [6 called]", "after [5 called], always 1", "before [1 called] after [2 called] always 1", "before [1 called] (always 1) until [2 called]",
                 "always 1 until [1 called] until [2 called]", "always 1 until [1 called] & always 2", "always 1 & until [1 called]", "always 1 after [1 called]", "always 1 before [1 called]"):
        yield form(said)
    three = "after [1 called] after [2 normal] after [3 exceptional] "
    for said in ("always 1", "after [4 called] always 1", "before [4 called] always 1", "(always 1 & never 2) until [4 called]"):
        yield form(three + said)
    yield form("after [1 called] after [2 normal] before [4 called] (always 1 | never 2)")


def numbers_and_names():
    for n in ("0", "-1", "1000000", "-1000000", "1000001", "-1000001", "00", "-0", "+5", "05", "-", "5.0", "2147483648", "18446744073709551621"):
        yield prop(f"all v:par : atmost v {n}")
    for name in ("a", "Z9", "abcdefgh", "abcdefghi", "name", "a-b", "é", "a:b", "!a"):
        yield prop(f"all v:par : name v {name}")
    yield prop("all v:par : in v abcdefgh | in v abcdefghi")


def misspelt():
    """Each word of the language with a letter too few, and in upper case."""
    for word in WORDS:
        found = re.search(rf"(?<![A-Za-z0-9=]){re.escape(word)}(?![A-Za-z0-9=])", WORDS_BOOK)
        for other in (re.sub(r"[a-z]([^a-z]*)$", r"\1", word), word.upper()):
            yield WORDS_BOOK[:found.start()] + other + WORDS_BOOK[found.end():]


def lost_and_doubled():
    """Each token removed, doubled, and the line cut behind it, with the newline and without."""
    for before, line in (("", "prop=1 rule=all v : par : ! ( atmost v 5 )"), (TWO, "form=1 rule=after [ 5 normal , 6 called ] always 1 | never 2")):
        tokens = line.split(" ")
        for i in range(len(tokens)):
            yield before + " ".join(tokens[:i] + tokens[i + 1:]) + "\n"
            yield before + laid(tokens[:i + 1] + tokens[i:]) + "\n"
            yield before + laid(tokens[:i + 1]) + "\n"
            yield before + " ".join(tokens[:i + 1])


def blanks():
    for before, line in (("", "prop=1 rule=all v : par : ! ( name v a ) & atmost v 5"), (TWO, "form=1 rule= ( always 1 ) until [ 5 normal , 6 called ]")):
        tokens = line.split(" ")
        yield before + laid(tokens) + "\n"
        yield before + line + "\n"
        for i in range(1, len(tokens)):
            yield before + laid(tokens[:i]) + "  " + " ".join(tokens[i:]) + "\n"
    word, sign = "prop=1 rule=all v:par : !(atmost v 2) & atmost v 5", "prop=1 rule=all v:par : !(atmost v 5)"
    for end in (" \n", "  \n", " ", "  ", " x\n", "  x\n", " \n\n", ""):
        yield word + end
        yield sign + end
    for text in (" ", "  ", " \n", " " + PROP, PROP + " ", PROP + " hold=1\n", PROP + "hold=1 \n", PROP + "hold=1  \n", PROP + "hold=1 ", "prop=1 ", "prop=1 \n", "prop=1 rule=all v:par \n",
                 "prop=1 rule=all v:par : \n", "prop=1 rule=all v:par :  \n", "prop=1 rule=all v:par : ", "prop=1 rule=any  v\n", "prop=1  rule=any v\n", " x\n", "x \n", "(  \n"):
        yield text


def newlines_and_bytes():
    line = "prop=1 rule=all v:par : name v a & atmost v 5"
    yield from ("\n", "\n" + PROP, PROP + "\n", PROP + "\nhold=1\n", PROP + "hold=1\n\n", PROP + "hold=1", PROP + "form=1 rule=always 1")
    yield line.replace(" : ", "\n: ") + "\n"
    yield line.replace(" & ", " &\n") + "\n"
    yield PROP + "hold=1\nform=1 rule=always 1\nform=2 rule=always 2\nform=4 rule=always 3\n"
    for byte in ("\t", "\r", "\0", "é"):
        yield f"{line}{byte}\n"
        yield line.replace(" v:", byte + "v:") + "\n"
        yield line.replace(" a ", f" a{byte} ") + "\n"
        yield f"{byte}{line}\n"
    yield line + "\n\0"


def cases():
    """Every text once."""
    groups = (documents, order_of_lines, most_lines, starts_of_rules, variables, joined_tests, joined_leaves, events, cores, numbers_and_names, misspelt, lost_and_doubled, blanks, newlines_and_bytes)
    seen = set()
    for group in groups:
        for text in group():
            if text not in seen:
                seen.add(text)
                yield text


def main():
    folder = os.path.join(os.path.dirname(__file__), "..", "crates", "book_cases")
    with open(os.path.join(folder, "data", "cases.txt"), "w", newline="") as data, open(os.path.join(folder, "stdout"), "w", newline="") as out:
        for number, text in enumerate(cases(), 1):
            raw = text.encode().decode("latin-1")
            data.write(text.replace("\n", "\\n").replace("\0", "\\0") + "\n")
            answer = judge(raw).encode("latin-1").decode()
            out.write(f"{number}: {answer}\n")


if __name__ == "__main__":
    main()
