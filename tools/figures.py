#!/usr/bin/env python3
"""Works out every report and refusal that crates/delivery_tests expects a second time, and compares.

    python3 tools/figures.py [CHECKOUT]

The calculation is in delivered.py and knows the rules alone. The cases are read out of the tests' own text, so that none
can be forgotten here or differ from the one that is run: the tests and most of their helpers are plain (numbers, arrays,
structs, let, calls) and are carried out here as they stand. The rest is put in by hand below: what is asked and expected, the
tests' own rules, and the records over whole windows, after the words that describe them.

Of each report the exact delivery, which is rounded nowhere, is worked out too: the two have to be less than a watt apart.
The last line is `N figures agree`. A figure that disagrees is printed, and the exit is then 1.
"""
import re
import sys
from fractions import Fraction
from pathlib import Path
from types import SimpleNamespace

sys.dont_write_bytecode = True  # nothing is left in the checkout
from delivered import Case, Report, Rule, Sample, Settings, Target, figure, switching, variable

TOKEN = re.compile(r"//[^\n]*|\s+|'\w+|(\d[\d_]*|\w+|::|->|\.\.|[^\w\s])")
CLOSING = {"(": ")", "[": "]", "{": "}"}
KINDS = {
    "Case": SimpleNamespace,
    "Enablement": SimpleNamespace,
    "Constant": lambda weight, trigger: Rule(trigger, lambda dip, offset: weight),
    "Growing": lambda trigger: Rule(trigger, lambda dip, offset: min(1 + Fraction(offset, 100), Fraction(3))),
    "Proposal": Settings,
    "Report": Report,
    "Sample": Sample,
    "Target": Target,
    "Trigger": lambda dip: dip,
    "Weight": lambda n, d: Fraction(n, d),
}


class Text:
    """A place in the tokens of a file, and the values that names have there."""

    def __init__(self, tokens, place, names):
        self.tokens, self.place, self.names = tokens, place, names

    def take(self, expected=None):
        token = self.tokens[self.place]
        if expected not in (None, token):
            raise SyntaxError(f"{expected} was expected, but there is {' '.join(self.tokens[self.place : self.place + 9])}")
        self.place += 1
        return token

    def sees(self, token, further=0):
        return self.tokens[self.place + further] == token

    def skip(self, token):
        found = self.sees(token)
        self.place += found
        return found

    def skip_to(self, *ends):
        """To just behind the first of the ends that is in no bracket."""
        while (token := self.take()) not in ends:
            if token in CLOSING:
                self.skip_to(CLOSING[token])

    def block(self):
        value = None
        while not self.skip("}"):
            if self.skip("let"):
                self.skip("mut")
                name = self.take()
                self.take("=")
                self.names[name] = self.expression()
            elif self.sees("[", 1):
                places = self.names[self.take()]
                self.take("[")
                place = self.expression()
                self.take("]")
                self.take("=")
                places[place] = self.expression()
            else:
                value = self.expression()
            self.skip(";")
        return value

    def expression(self):
        if self.skip("&"):
            self.skip("mut")
            return self.expression()
        if self.skip("-"):
            return -self.expression()
        token = self.take()
        if token in "([":
            value = self.several(CLOSING[token])
        elif token[0].isdigit():
            value = int(token)
        else:
            value = self.named(token)
        return self.continued(value)

    def several(self, end):
        values = []
        while not self.skip(end):
            values.append(self.expression())
            self.skip(",")
        return values

    def named(self, name):
        if self.skip("!"):  # assert!(rt; undisturbed(samples)), a case and what is expected of it
            self.take("(")
            self.skip_to(";")
            return self.names["rt"].extend(self.several(")"))
        if self.skip("::"):
            return self.take()
        if name in KINDS and self.skip("{"):
            return self.struct(KINDS[name])
        if name not in self.names:
            raise SyntaxError(f"{name} is no number, array, struct, let or call, and is not put in by hand")
        return self.names[name]

    def struct(self, kind):
        fields = {}
        while not self.skip("}"):
            if self.skip(".."):
                rest = self.expression()
                fields = {**(rest._asdict() if isinstance(rest, tuple) else vars(rest)), **fields}
            else:
                field = self.take()
                fields[field] = self.expression() if self.skip(":") else self.names[field]
            self.skip(",")
        return kind(**fields)

    def continued(self, value):
        while self.tokens[self.place] in "([.?":
            token = self.take()
            if token == "(":
                value = value(*self.several(")"))
            elif token == "[":
                begin = self.expression()
                value = value[begin : self.expression()] if self.skip("..") else value[begin]
                self.take("]")
            elif token == "." and self.sees("len"):
                self.place += 3
                value = len(value)
            elif token == ".":
                value = getattr(value, self.take())
        return value


def read(path, names):
    """Gives names to a file's constants and functions, but for those put in by hand. The answer is the names of its tests."""
    text = Text([m[1] for m in TOKEN.finditer(path.read_text()) if m[1]], 0, names)
    tests = []
    while text.place < len(text.tokens):
        token = text.take()
        if token == "#":
            text.skip("!")
            text.take("[")
            if text.sees("test"):
                tests.append(text.tokens[text.tokens.index("fn", text.place) + 1])
            text.skip_to("]")
        elif token == "use":
            text.skip_to(";")
        elif token in ("struct", "impl"):
            text.skip_to("{")
            text.skip_to("}")
        elif token == "const":
            name = text.take()
            text.skip_to("=")
            names[name] = text.expression()
        elif token == "fn":
            name, function = read_function(text)
            names[name] = BY_HAND.get(name, function)
    return tests


def read_function(text):
    name = text.take()
    text.skip_to("(")
    begin = text.place
    text.skip_to(")")
    parameters = [text.tokens[k - 1] for k in range(begin, text.place) if text.tokens[k] == ":"]
    text.skip_to("{")
    body = text.place
    text.skip_to("}")
    return name, lambda *values: Text(text.tokens, body, {**text.names, **dict(zip(parameters, values))}).block()


# What is put in by hand.


def ruled(asked, rule):
    return Case(
        list(asked.samples), asked.settings, rule, list(asked.targets), asked.count, asked.enablement.service, asked.enablement.watts
    )


def turned(direction, samples):
    """Samples told by dip and push, as samples of a disturbance low or high."""
    side = 1 if direction == "Low" else -1
    return [Sample(time, 50_000 - side * dip, side * push) for time, dip, push in samples]


def over_whole_windows(direction, before, step, pushes, end):
    """Two samples before the disturbance at 20,001, one every step from it on, and a recovered one 1 ms after the last."""
    samples = [(5_000, 0, before), (20_000, 150, before)]
    samples += [(20_001 + step * i, 200, push) for i, push in enumerate(pushes)]
    return turned(direction, samples + end)


def fast_record(direction):
    pushes = [100_000] * 120 + [100_000 - 60 * i for i in range(1_081)]
    return over_whole_windows(direction, 0, 50, pushes, [(80_002, -200, 900_000)])


def slow_record(direction):
    pushes = [100_000 + 1_000 * i for i in range(15)] + [115_000 - 2_000 * i for i in range(61)]
    return over_whole_windows(direction, 0, 4_000, pushes, [(320_002, -200, 900_000)])


def delayed_record(direction):
    pushes = [100_000 + 1_000 * i for i in range(75)] + [175_000 - 1_000 * i for i in range(151)]
    return over_whole_windows(direction, 0, 4_000, pushes, [(920_002, -200, 900_000)])


def greatest_record(direction):
    push = 1_000_000_000 if direction == "Low" else -1_000_000_000  # the same power in both directions
    return over_whole_windows(direction, -push, 4_000, [push] * 226, [])


BY_HAND = {
    "ruled": ruled,
    "variable": lambda asked: ruled(asked, variable(asked.settings)),
    "switching": lambda asked: ruled(asked, switching(asked.settings)),
    "undisturbed": lambda samples: (Case(list(samples), None, None, [], 0, "R6", 0), 7),
    "delivers": lambda rt, case, report: rt.append((case, report)),
    "refuses": lambda rt, case, number: rt.append((case, number)),
    "fast_record": fast_record,
    "slow_record": slow_record,
    "delayed_record": delayed_record,
    "greatest_record": greatest_record,
}


def expectations(top):
    """Each test's file and name, the case that it asks and the report or the refusal's number that it expects."""
    folder = top / "crates" / "delivery_tests" / "src"
    shared = {"None": None, "Some": lambda value: value, "Ok": lambda value: value}
    for name in ("records", "asking", "rules", "long"):
        read(folder / f"{name}.rt", shared)
    for path in sorted(folder.glob("*.rt")):
        names = dict(shared)
        for test in read(path, names):
            found = []
            names[test](found)
            if not found:
                raise SyntaxError(f"{path.name} {test} expects no figure")
            for case, expected in found:
                yield f"{path.name} {test}", case, expected


def main():
    top = Path(sys.argv[1]) if len(sys.argv) > 1 else Path(__file__).resolve().parent.parent
    agree, disagree = 0, 0
    for test, case, expected in expectations(top):
        answer, exact = figure(case)
        if answer == expected and (exact is None or abs(answer.delivery - exact) < 1):
            agree += 1
        else:
            disagree += 1
            print(f"{test}: the test expects {expected}, the rules give {answer}, exactly {exact}")
    if disagree:
        sys.exit(f"{disagree} figures disagree, {agree} agree")
    print(f"{agree} figures agree")


main()
