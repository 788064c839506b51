#!/usr/bin/env python3
"""trees.py PLAY [NUMBER..]: source trees of the whole grammar are spelled here, programmed by PLAY (moo-play) over the fixture, and asked for again:
`verb_code` gives exactly the canonical lines, after the canonical spelling and after one with needless parentheses, spaces, lines and capitals. A tree
that is too high is refused. Says which trees come back otherwise, by their numbers, and ends with status 1 then. With numbers, only those are tried.

The first numbers are of each kind of expression in each place that an expression has; those behind them are seeds of random trees."""
import random
import re
import subprocess
import sys

RANDOM_TREES = 10_000
TREES_OF_A_RUN = 500
LONGEST_LINE = 4_096
GREATEST_HEIGHT = 100

KEYWORDS = "if else elseif endif for in endfor while endwhile break continue return fork endfork try except finally endtry any".split()
ERRORS = ["E_" + word for word in "NONE TYPE DIV PERM PROPNF VERBNF VARNF INVIND RECMOVE MAXREC RANGE ARGS NACC INVARG QUOTA FLOAT".split()]
WORDS = ["a", "b", "x", "_", "foo", "args", "iff", "in_", "anyone", "endiffer", "e_nonesuch", "e_", "x1", "_2", "returned", "a_rather_long_name"]
CHARACTERS = [chr(code) for code in range(32, 127)] + ["\t"] + 10 * ['"', "\\"]
LETTERS = "abcdefghijklmnopqrstuvwxyz_"
LONG_SIGNS = ["..", "=>", "==", "!=", "<=", ">=", "&&", "||"]

# What binds less tightly stands further up. All but these group to the left.
LEVELS = [["Set", "Scatter"], ["Choice"], ["&&", "||"], ["==", "!=", "<", "<=", ">", ">=", "in"], ["+", "-"], ["*", "/", "%"], ["^"], ["Unary"]]
LEVEL = {what: level for level, row in enumerate(LEVELS) for what in row}
TO_THE_RIGHT = ["^", "Choice"]
SIGNS = [sign for row in LEVELS[2:7] for sign in row]


# A statement or an expression is a tuple that begins with its kind, which has a capital letter. Arguments are a list of pairs, "@" or "" and an
# expression; items of a scattering are a list of triples, "?", "@" or "", a name, and a default or None; codes are arguments, or None for ANY; a body
# is a list of statements.


def variable(name):
    return ("Variable", name)


A, B, C, P = variable("a"), variable("b"), variable("c"), ("Text", "p")

SAMPLES = [
    ("Integer", 1), ("Integer", -2147483648), ("Object", 0), ("Object", -1), ("Text", "p"), ("Text", "if"), ("Text", "a b"), ("Error", "E_PERM"), A,
    ("Length",), ("Unary", "-", A), ("Unary", "!", A), *(("Binary", sign, A, B) for sign in SIGNS), ("Choice", A, B, C), ("List", []),
    ("List", [("", A), ("@", B)]), ("Call", "foo", [("@", A), ("", B)]), ("Property", A, P), ("Property", A, B), ("Property", ("Object", 0), P),
    ("Property", ("Object", 0), ("Text", "if")), ("Verb", A, P, []), ("Verb", A, B, [("", C)]), ("Verb", ("Object", 0), P, [("@", C)]), ("Index", A, B),
    ("Range", A, B, C), ("Catch", A, None, None), ("Catch", A, [("", B), ("@", C)], A), ("Set", A, B), ("Set", ("Property", A, P), B),
    ("Set", ("Property", ("Object", 0), P), B), ("Set", ("Index", A, B), C), ("Set", ("Range", ("Index", A, B), B, C), C),
    ("Scatter", [("", "a", None), ("?", "b", None), ("?", "c", A), ("@", "x", None)], B),
]

PLACES = [
    *(lambda it, sign=sign: ("Unary", sign, it) for sign in "-!"), *(lambda it, sign=sign: ("Binary", sign, it, B) for sign in SIGNS),
    *(lambda it, sign=sign: ("Binary", sign, A, it) for sign in SIGNS), lambda it: ("Choice", it, B, C), lambda it: ("Choice", A, it, C),
    lambda it: ("Choice", A, B, it), lambda it: ("List", [("", it)]), lambda it: ("List", [("", A), ("@", it), ("", B)]),
    lambda it: ("Call", "foo", [("@", it), ("", A)]), lambda it: ("Call", "foo", [("", A), ("", it)]), lambda it: ("Property", it, P),
    lambda it: ("Property", it, A), lambda it: ("Property", A, it), lambda it: ("Property", ("Object", 0), it), lambda it: ("Verb", it, P, []),
    lambda it: ("Verb", A, it, []), lambda it: ("Verb", ("Object", 0), it, []), lambda it: ("Verb", A, P, [("", it)]), lambda it: ("Index", it, A),
    lambda it: ("Index", A, it), lambda it: ("Range", it, A, B), lambda it: ("Range", A, it, B), lambda it: ("Range", A, B, it),
    lambda it: ("Catch", it, None, None), lambda it: ("Catch", A, [("", it)], None), lambda it: ("Catch", A, [("@", it), ("", B)], None),
    lambda it: ("Catch", A, None, it), lambda it: ("Set", A, it), lambda it: ("Set", ("Property", it, P), A), lambda it: ("Set", ("Property", A, it), B),
    lambda it: ("Set", ("Property", ("Object", 0), it), B), lambda it: ("Set", ("Index", A, it), B), lambda it: ("Set", ("Index", ("Property", it, P), B), C),
    lambda it: ("Set", ("Range", A, it, B), C), lambda it: ("Set", ("Range", A, B, it), C), lambda it: ("Scatter", [("?", "a", it), ("", "b", None)], B),
    lambda it: ("Scatter", [("@", "a", None)], it),
]

STATEMENTS = [
    lambda it: ("Do", it), lambda it: ("Return", it), lambda it: ("If", [(it, [])], None), lambda it: ("If", [(A, []), (it, [("Do", A)])], []),
    lambda it: ("For", "a", [it], []), lambda it: ("For", "a", [it, B], []), lambda it: ("For", "a", [B, it], []), lambda it: ("While", None, it, []),
    lambda it: ("While", "a", it, []), lambda it: ("Fork", None, it, []), lambda it: ("Fork", "a", it, []), lambda it: ("Try", [], [(None, [("", it)], [])]),
    lambda it: ("Try", [], [("a", [("@", it), ("", A)], [])]),
]

HIGHER = [
    lambda body: ("While", None, A, body), lambda body: ("For", "a", [B], body), lambda body: ("If", [(A, [])], body), lambda body: ("If", [(A, body)], None),
    lambda body: ("Fork", "a", B, body), lambda body: ("Try", body, [(None, None, [])]), lambda body: ("Try", [], [("a", [("", B)], body)]),
    lambda body: ("Finally", [], body), lambda body: ("Finally", body, []),
]

# `$` stands in brackets alone.
PAIRS = [[]] + [[("Do", ("Index", A, place(it)) if it == ("Length",) else place(it))] for place in PLACES for it in SAMPLES]
PAIRS += [[place(it)] for place in STATEMENTS for it in SAMPLES if it != ("Length",)]


# The kinds of random trees, as often as each comes.
EXPRESSION_KINDS = "leaf leaf Unary Unary Binary Binary Binary Binary Choice List Call Property Verb Index Range Catch Set Set Scatter".split()
STATEMENT_KINDS = "Do Do Do Return If If For For While Fork Try Finally Leave Leave".split()


def height(it):
    """How many statements and expressions the longest path has."""
    if not isinstance(it, (tuple, list)):
        return 0
    return max(map(height, it), default=0) + (isinstance(it, tuple) and isinstance(it[0], str) and it[0][:1].isupper())


def is_name(text):
    return re.fullmatch("[A-Za-z_][A-Za-z_0-9]*", text) is not None and text.lower() not in KEYWORDS and text.upper() not in ERRORS


class Maker:
    """Makes a tree by chance, of about so many expressions and statements."""

    def __init__(self, seed):
        self.chance = random.Random(seed)
        self.left = self.chance.choice([3, 6, 10, 20, 20, 40, 80])

    def is_now(self, part):
        return self.chance.random() < part

    def word(self):
        word = self.chance.choice(LETTERS) + "".join(self.chance.choice(LETTERS + "0123456789") for _ in range(self.chance.randrange(9)))
        return word if self.is_now(0.2) and is_name(word) else self.chance.choice(WORDS)

    def own_name(self):
        return self.word() if self.is_now(0.5) else None

    def plain_name(self):
        """The text of a name most often, and else of a keyword."""
        word = self.word() if self.is_now(0.9) else self.chance.choice(KEYWORDS + ERRORS)
        return ("Text", "".join(self.chance.choice([letter, letter.upper()]) for letter in word))

    def name(self, inside):
        return self.plain_name() if self.is_now(0.7) else self.expression(inside)

    def literal(self):
        kind = self.chance.randrange(6)
        if kind == 0:
            return ("Integer", self.chance.choice([0, 1, 2, 10, 2147483647, -2147483648, self.chance.randrange(2147483648)]))
        if kind == 1:
            return ("Object", self.chance.choice([0, 0, 1, 7, -1, -2147483648, 2147483647, self.chance.randrange(-99, 99)]))
        if kind == 2:
            return ("Text", "".join(self.chance.choice(CHARACTERS) for _ in range(self.chance.choice([0, 1, 3, 8, 20]))))
        if kind == 3:
            return ("Error", self.chance.choice(ERRORS)) if self.is_now(0.5) else self.plain_name()
        return variable(self.word())

    def leaf(self, inside):
        return ("Length",) if inside and self.is_now(0.3) else self.literal()

    def arguments(self, inside, least=0):
        return [(self.chance.choice(["", "", "@"]), self.expression(inside)) for _ in range(max(least, self.chance.choice([0, 1, 1, 2, 3])))]

    def codes(self, inside):
        return None if self.is_now(0.4) else self.arguments(inside, 1)

    def holder(self, inside):
        """What a property or a verb is on: #0 often, which has a spelling of its own."""
        return ("Object", 0) if self.is_now(0.3) else self.expression(inside)

    def items(self, inside):
        marks = [self.chance.choice(["", "?"]) for _ in range(self.chance.choice([1, 1, 2, 3]))]
        if self.is_now(0.4):
            marks[self.chance.randrange(len(marks))] = "@"
        return [(mark, self.word(), self.expression(inside) if mark == "?" and self.is_now(0.6) else None) for mark in marks]

    def target(self, inside, may_be_range=True):
        self.left -= 1
        kind = self.chance.randrange(6)
        if self.left < 0 or kind < 2:
            return variable(self.word())
        if kind < 4:
            return ("Property", self.holder(inside), self.name(inside))
        base = self.target(inside, False)
        if kind == 4 or not may_be_range:
            return ("Index", base, self.expression(True))
        return ("Range", base, self.expression(True), self.expression(True))

    def expression(self, inside=False):
        """An expression, in brackets or not."""
        self.left -= 1
        kind = self.chance.choice(EXPRESSION_KINDS)
        if self.left < 0 or kind == "leaf":
            return self.leaf(inside)
        if kind == "Unary":
            return (kind, self.chance.choice("-!"), self.expression(inside))
        if kind == "Binary":
            return (kind, self.chance.choice(SIGNS), self.expression(inside), self.expression(inside))
        if kind == "Choice":
            return (kind, self.expression(inside), self.expression(inside), self.expression(inside))
        if kind == "List":
            return (kind, self.arguments(inside))
        if kind == "Call":
            return (kind, self.word(), self.arguments(inside))
        if kind == "Property":
            return (kind, self.holder(inside), self.name(inside))
        if kind == "Verb":
            return (kind, self.holder(inside), self.name(inside), self.arguments(inside))
        if kind == "Index":
            return (kind, self.expression(inside), self.expression(True))
        if kind == "Range":
            return (kind, self.expression(inside), self.expression(True), self.expression(True))
        if kind == "Catch":
            return (kind, self.expression(inside), self.codes(inside), self.expression(inside) if self.is_now(0.5) else None)
        if kind == "Set":
            return (kind, self.target(inside), self.expression(inside))
        return (kind, self.items(inside), self.expression(inside))

    def part(self):
        """An expression of a statement, which leaves something for others."""
        whole = self.left
        self.left = room = min(whole, self.chance.choice([1, 3, 6, 12, 40]))
        tree = self.expression()
        self.left += whole - room
        return tree

    def statement(self, loops):
        """A statement in loops of these names."""
        self.left -= 1
        kind = self.chance.choice(STATEMENT_KINDS)
        if kind == "Leave" and loops:
            return (self.chance.choice(["Break", "Continue"]), self.chance.choice(loops) if self.is_now(0.5) else None)
        if self.left < 0 or kind in ("Do", "Leave"):
            return ("Do", self.part())
        if kind == "Return":
            return (kind, self.part() if self.is_now(0.8) else None)
        if kind == "If":
            branches = [(self.part(), self.body(loops)) for _ in range(self.chance.choice([1, 1, 2, 3]))]
            return (kind, branches, self.body(loops) if self.is_now(0.5) else None)
        if kind == "For":
            name = self.word()
            return (kind, name, [self.part() for _ in range(self.chance.choice([1, 2]))], self.body([name, *loops]))
        if kind == "While":
            name = self.own_name()
            return (kind, name, self.part(), self.body([name, *loops]))
        if kind == "Fork":
            return (kind, self.own_name(), self.part(), self.body([]))
        if kind == "Try":
            return (kind, self.body(loops), [(self.own_name(), self.codes(False), self.body(loops)) for _ in range(self.chance.choice([1, 1, 2]))])
        return (kind, self.body(loops), self.body(loops))

    def body(self, loops):
        return [self.statement(loops) for _ in range(self.chance.choice([0, 1, 1, 2]) if self.left > 0 else 0)]

    def program(self):
        if self.is_now(0.03):
            return self.high_program()
        body = [self.statement([])]
        while self.left > 0:
            body.append(self.statement([]))
        return body

    def high_program(self):
        """A program that is as high as may be, or higher by one."""
        highest = GREATEST_HEIGHT + self.chance.choice([0, 0, 1])
        tree, expressions = self.literal(), self.chance.randrange(highest - 1)
        while height(tree) < expressions:
            tree = self.chance.choice(PLACES)(tree)
        body = [("Return", tree)]
        while height(body) < highest:
            body = [self.chance.choice(HIGHER)(body)]
        return body


class Speller:
    """Spells a program: canonically, or by chance. A token has its canonical spaces; it is `free` where capitals mean nothing."""

    def __init__(self, chance=None):
        self.chance, self.tokens = chance, []

    def is_now(self, part):
        return self.chance is not None and self.chance.random() < part

    def put(self, *tokens):
        self.tokens += [(token, False) for token in tokens]

    def word(self, word):
        self.tokens.append((word, True))

    def in_parentheses(self, tree):
        self.put("(")
        self.expression(tree)
        self.put(")")

    def expression(self, tree, level=0):
        """An expression where what binds less tightly than the level stands in parentheses."""
        if LEVEL.get(tree[1] if tree[0] == "Binary" else tree[0], len(LEVELS)) < level or self.is_now(0.1):
            self.in_parentheses(tree)
        else:
            getattr(self, tree[0].lower())(*tree[1:])

    def integer(self, number):
        self.put(self.digits(abs(number)))

    def object(self, number):
        self.put("#" + ("-" if number < 0 or number == 0 and self.is_now(0.1) else "") + self.digits(abs(number)))

    def digits(self, number):
        return ("00" if self.is_now(0.1) else "") + str(number)

    def text(self, text):
        self.put('"' + "".join("\\" + each if each in '"\\' or self.is_now(0.02) else each for each in text) + '"')

    def error(self, name):
        self.word(name)

    def variable(self, name):
        self.word(name)

    def length(self):
        self.put("$")

    def unary(self, sign, tree):
        self.put(sign)
        self.expression(tree, LEVEL["Unary"])

    def binary(self, sign, left, right):
        level = LEVEL[sign]
        self.expression(left, level + (sign in TO_THE_RIGHT))
        self.put(f" {sign} ")
        self.expression(right, level + (sign not in TO_THE_RIGHT))

    def choice(self, condition, one, other):
        level = LEVEL["Choice"]
        self.expression(condition, level + 1)
        self.put(" ? ")
        self.expression(one)
        self.put(" | ")
        self.expression(other, level)

    def list(self, arguments):
        self.put("{")
        self.arguments(arguments)
        self.put("}")

    def arguments(self, arguments):
        for at, (mark, tree) in enumerate(arguments):
            self.put(*[", "][:at], *mark)
            self.expression(tree)

    def call(self, name, arguments):
        self.word(name)
        self.put("(")
        self.arguments(arguments)
        self.put(")")

    def property(self, holder, name, sign="."):
        is_plain = name[0] == "Text" and is_name(name[1]) and not self.is_now(0.1)
        if holder == ("Object", 0) and is_plain and not self.is_now(0.2):
            self.put("$", name[1])
            return
        self.expression(holder, len(LEVELS))
        self.put(sign)
        if is_plain:
            self.put(name[1])
        else:
            self.in_parentheses(name)

    def verb(self, holder, name, arguments):
        self.property(holder, name, ":")
        self.put("(")
        self.arguments(arguments)
        self.put(")")

    def index(self, tree, place):
        self.expression(tree, len(LEVELS))
        self.in_brackets(place)

    def range(self, tree, first, last):
        self.expression(tree, len(LEVELS))
        self.in_brackets(first, last)

    def in_brackets(self, first, last=None):
        self.put("[")
        self.expression(first)
        if last is not None:
            self.put("..")
            self.expression(last)
        self.put("]")

    def catch(self, tree, codes, default):
        self.put("`")
        self.expression(tree)
        self.put(" ! ")
        self.codes(codes)
        if default is not None:
            self.put(" => ")
            self.expression(default)
        self.put("'")

    def codes(self, codes):
        if codes is None:
            self.word("ANY")
        else:
            self.arguments(codes)

    def set(self, target, tree):
        self.target(target)
        self.put(" = ")
        self.expression(tree)

    def target(self, target):
        if target[0] in ("Index", "Range"):
            self.target(target[1])
            self.in_brackets(*target[2:])
        else:
            getattr(self, target[0].lower())(*target[1:])

    def scatter(self, items, tree):
        self.put("{")
        for at, (mark, name, default) in enumerate(items):
            self.put(*[", "][:at], *mark)
            self.word(name)
            if default is not None:
                self.put(" = ")
                self.expression(default)
        self.put("}", " = ")
        self.expression(tree)

    def body(self, body, depth):
        for statement in body:
            self.semicolons()
            getattr(self, "spell_" + statement[0].lower())(depth, *statement[1:])
        self.semicolons()

    def semicolons(self):
        while self.is_now(0.05):
            self.put(";")

    def line(self, depth, *words):
        """Begins a line; between its words stands a space."""
        self.put("  " * depth)
        for at, word in enumerate(word for word in words if word is not None):
            self.put(*[" "][:at])
            self.word(word)

    def head(self, depth, *words):
        """Begins a line that goes on with a parenthesis or a bracket."""
        self.line(depth, *words)
        self.put(" ")

    def end(self, *tokens):
        self.put(*tokens, "\n")

    def spell_do(self, depth, tree):
        self.line(depth)
        self.expression(tree)
        self.end(";")

    def spell_return(self, depth, tree):
        self.line(depth, "return")
        if tree is not None:
            self.put(" ")
            self.expression(tree)
        self.end(";")

    def spell_if(self, depth, branches, otherwise):
        for at, (condition, body) in enumerate(branches):
            self.head(depth, "elseif" if at else "if")
            self.in_parentheses(condition)
            self.end()
            self.body(body, depth + 1)
        if otherwise is not None:
            self.word_line(depth, "else")
            self.body(otherwise, depth + 1)
        self.word_line(depth, "endif")

    def word_line(self, depth, word):
        self.line(depth, word)
        self.end()

    def spell_for(self, depth, name, heads, body):
        self.head(depth, "for", name, "in")
        if len(heads) == 2:
            self.in_brackets(*heads)
        else:
            self.in_parentheses(heads[0])
        self.end()
        self.body(body, depth + 1)
        self.word_line(depth, "endfor")

    def spell_while(self, depth, name, condition, body, word="while"):
        self.head(depth, word, name)
        self.in_parentheses(condition)
        self.end()
        self.body(body, depth + 1)
        self.word_line(depth, "end" + word)

    def spell_fork(self, depth, name, seconds, body):
        self.spell_while(depth, name, seconds, body, "fork")

    def spell_try(self, depth, body, arms):
        self.word_line(depth, "try")
        self.body(body, depth + 1)
        for name, codes, handler in arms:
            self.head(depth, "except", name)
            self.put("(")
            self.codes(codes)
            self.end(")")
            self.body(handler, depth + 1)
        self.word_line(depth, "endtry")

    def spell_finally(self, depth, body, last):
        for word, part in (("try", body), ("finally", last)):
            self.word_line(depth, word)
            self.body(part, depth + 1)
        self.word_line(depth, "endtry")

    def spell_break(self, depth, name, word="break"):
        self.line(depth, word, name)
        self.end(";")

    def spell_continue(self, depth, name):
        self.spell_break(depth, name, "continue")

    def canonical(self):
        return "".join(token for token, _ in self.tokens).split("\n")[:-1]

    def loose(self):
        """The tokens behind each other, with spaces and lines by chance, and at least where two would be read as one."""
        text, before = "", ""
        for token, free in ((token.strip(), free) for token, free in self.tokens if token.strip()):
            if free:
                token = "".join(self.chance.choice([letter.lower(), letter.upper()]) for letter in token)
            apart = "".join(self.chance.choice([" ", " ", " ", "  ", "\t", "\n"]) for _ in range(self.chance.choice([0, 0, 0, 1, 1, 2])))
            text += (apart or (" " if are_one(before, token) else "")) + token
            before = token
        lines = text.split("\n")
        # A line with a full stop alone would end what `.program` takes.
        return lines if "." not in [line.strip() for line in lines] else [" ".join(lines)]


def are_one(before, token):
    """Whether two tokens without a space between them would be read as others."""
    is_word = before[:1].isalpha() or before[:1] == "_"
    return is_word and (token[0].isalnum() or token[0] == "_") or before + token[0] in LONG_SIGNS


def quoted(text):
    return '"' + text.replace("\\", "\\\\").replace('"', '\\"') + '"'


def texts(lines):
    return "{" + ", ".join(map(quoted, lines)) + "}"


class Run:
    """A script, and what its steps are to print."""

    def __init__(self):
        self.lines, self.wanted = [f"key {0:064d}"], []
        self.add(None, ";#4.programmer = 1", "value 1")
        for verb in "tu":
            self.add(None, f';add_verb(#7, {{#4, "d", "{verb}"}}, {{"none", "none", "none"}})', "value 0")

    def add(self, number, text, *wanted):
        """A line that Ann types for a tree, with the step's result and what she is told."""
        self.lines.append("line 1 " + text)
        self.wanted.append((number, *wanted))

    def program(self, number, verb, lines, answer, code, as_command):
        """A verb gets a program, and is asked for it."""
        call = f';{{set_verb_code(#7, "{verb}", {texts(lines)}), verb_code(#7, "{verb}")}}'
        if not as_command and len(call) <= LONGEST_LINE:
            self.add(number, call, f"value {{{answer}, {texts(code)}}}")
        else:
            self.add(number, f".program #7:{verb}", "none", f"> 1 Now programming #7:{verb}.")
            for line in lines:
                self.add(number, line, "none")
            self.add(number, ".", "none", "> 1 " + (answer[2:-2] or "Verb programmed."))
            self.add(number, f';verb_code(#7, "{verb}")', f"value {texts(code)}")


def tree_of(number):
    return PAIRS[number] if number < len(PAIRS) else Maker(number).program()


def run(play, numbers):
    """Tries the trees of these numbers, says which come back otherwise, and gives how many."""
    script, last = Run(), []
    for number in numbers:
        tree, chance = tree_of(number), random.Random(number)
        spelled, loose = Speller(), Speller(chance)
        spelled.body(tree, 0)
        loose.body(tree, 0)
        lines, as_command = spelled.canonical(), chance.random() < 0.1
        if height(tree) > GREATEST_HEIGHT:
            script.program(number, "t", [" ".join(line.strip() for line in lines)], '{"Line 1: Nesting"}', last, as_command)
            continue
        script.program(number, "t", lines, "{}", lines, as_command)
        script.program(number, "u", loose.loose(), "{}", lines, as_command)
        last = lines
    ran = subprocess.run([play, "fixture", "stdin"], input="\n".join(script.lines) + "\n", capture_output=True, text=True, timeout=600)
    if ran.returncode != 0 or ran.stderr:
        print(f"trees {numbers[0]} to {numbers[-1]}: status {ran.returncode}, told {ran.stderr}")
        return 1
    steps = re.split(r"^step \d+ ", ran.stdout, flags=re.MULTILINE)[1:]
    failed = {None: ("nothing of it", "nothing")} if len(steps) != len(script.wanted) else {}
    for (number, *wanted), step in zip(script.wanted, steps):
        got = re.sub(r" ticks \d+$", "", step.rstrip("\n"), count=1, flags=re.MULTILINE).split("\n")
        if got != wanted:
            failed.setdefault(number, (wanted, got))
    for number, (wanted, got) in failed.items():
        print(f"tree {number}: {wanted} is wanted, {got} came")
    return len(failed)


def main(play, numbers):
    failures = sum(run(play, numbers[at : at + TREES_OF_A_RUN]) for at in range(0, len(numbers), TREES_OF_A_RUN))
    return 1 if failures else 0


if __name__ == "__main__":
    only = [int(word) for word in sys.argv[2:]]
    sys.exit(main(sys.argv[1], only or list(range(len(PAIRS) + RANDOM_TREES))))
