#!/usr/bin/env python3
"""Makes rules files from readable text.

    tools/make_rules.py examples/a.txt -o examples/a.rules   writes the rules; without -o each beside its text
    tools/make_rules.py --check examples/*.txt               fails if a rules file is not what its text gives

The text has one statement to a line; '#' starts a comment.
    state NAME..          the bits of the state, bit 0 first (at most 12); likewise `move` and `answer` (at most 6)
    let NAME = FORMULA    a short name for a formula
    moves FORMULA         what the environment's moves satisfy (several lines: all of them; none: any move)
    answers FORMULA       the same for the controller's answers
    next NAME = FORMULA   a state bit after the step; in a formula a state bit is its value before the step
    promise FORMULA       what the environment brings about again and again (0 to 8 lines)
    goal FORMULA          what the controller is to bring about again and again (1 to 8 lines)
    start NAME=1 ..       a state to start from, where bits not named are 0; or its number (1 to 16 lines)
Formulas, the tightest first: true, false, names and ( ); not; =; and; or; -> (if .. then)."""
import argparse, pathlib, re, sys

BITS = {"state": (16, 12), "move": (32, 6), "answer": (48, 6)}  # the byte of bit 0, and how many bits there may be
COUNTS = {"promise": (0, 8), "goal": (1, 8), "start": (1, 16)}
SCOPES = {"moves": (48, "the state and the move"), "promise": (32, "the state"), "goal": (32, "the state")}
NOT, AND, OR, EQUAL = b"\2", b"\3", b"\4", b"\5"
Fault = ValueError  # what is wrong with a text, in one line

class Formula:
    """Reads a formula by descent; `bytes` has each operator before its operands."""
    def __init__(self, text, names):
        self.tokens, self.names = re.findall(r"\w+|->|\S", text), names
        self.bytes = self.implies()
        if self.tokens:
            raise Fault(f"'{self.tokens[0]}' where the formula should end")

    def take(self, word):  # whether the word comes next, which is then passed
        return self.tokens[:1] == [word] and bool(self.tokens.pop(0))

    def implies(self):
        left = self.chain("or", OR, lambda: self.chain("and", AND, lambda: self.chain("=", EQUAL, self.single)))
        return OR + NOT + left + self.implies() if self.take("->") else left

    def chain(self, word, operator, operand):
        left = operand()
        while self.take(word):
            left = operator + left + operand()
        return left

    def single(self):
        if self.take("not"):
            return NOT + self.single()
        if self.take("("):
            inner = self.implies()
            if self.take(")"):
                return inner
            raise Fault("a ')' is lacking")
        token = self.tokens.pop(0) if self.tokens else "the end"
        if token not in self.names:
            raise Fault(f"'{token}' where a name or a formula should stand")
        return self.names[token]

class Text:
    """What a text says, statement by statement."""
    def __init__(self):
        self.names, self.next = {"false": b"\0", "true": b"\1"}, {}
        self.bits = {kind: [] for kind in BITS}
        self.said = {kind: [] for kind in ("moves", "answers", "promise", "goal", "start")}

    def define(self, name, formula):
        if not re.fullmatch(r"[A-Za-z_]\w*", name) or name in self.names or name in ("not", "and", "or"):
            raise Fault(f"'{name}' cannot be a new name")
        self.names[name] = formula

    def statement(self, word, rest):
        if word in BITS:
            for name in rest.split():
                self.define(name, bytes([BITS[word][0] + len(self.bits[word])]))
                self.bits[word].append(name)
            if len(self.bits[word]) > BITS[word][1]:
                raise Fault(f"more than {BITS[word][1]} bits")
        elif word in ("let", "next"):
            name, _, text = (part.strip() for part in rest.partition("="))
            if word == "let":
                self.define(name, Formula(text, self.names).bytes)
            elif name not in self.bits["state"] or name in self.next:
                raise Fault(f"'{name}' is no state bit, or has two lines")
            else:
                self.next[name] = Formula(text, self.names).bytes
        elif word == "start":
            self.said[word].append(self.start(rest.split()))
        elif word in self.said:
            self.said[word].append(Formula(rest, self.names).bytes)
            if word in SCOPES and max(self.said[word][-1]) >= SCOPES[word][0]:
                raise Fault(f"'{word}' may speak of {SCOPES[word][1]} only")
        else:
            raise Fault(f"'{word}' is no kind of statement")

    def start(self, words):
        bits, values = self.bits["state"], dict(word.partition("=")[::2] for word in words)
        if len(words) == 1 and words[0].isdigit() and int(words[0]) < 2 ** len(bits):
            return int(words[0]).to_bytes(2, "little")
        if not words or not all(name in bits and value in ("0", "1") for name, value in values.items()):
            raise Fault("a start is the number of a state, or NAME=0 or NAME=1 for some state bits")
        return sum(int(value) << bits.index(name) for name, value in values.items()).to_bytes(2, "little")

    def rules(self):
        """The bytes of the rules file."""
        for word, (least, most) in COUNTS.items():
            if not least <= len(self.said[word]) <= most:
                raise Fault(f"{len(self.said[word])} lines of '{word}', where {least} to {most} may stand")
        if set(self.bits["state"]) - set(self.next):
            raise Fault("no 'next' line for " + ", ".join(name for name in self.bits["state"] if name not in self.next))
        steps = [AND * (len(rule) - 1) + b"".join(rule) or b"\1" for rule in (self.said["moves"], self.said["answers"])]
        steps += [self.next[name] for name in self.bits["state"]]
        if max(map(len, steps + self.said["promise"] + self.said["goal"])) > 255:
            raise Fault("a rule takes more than 255 bytes")
        spelt = lambda formulas: b"".join(bytes([len(formula)]) + formula for formula in formulas)
        groups = b"".join(bytes([len(self.said[word])]) + spelt(self.said[word]) for word in ("promise", "goal"))
        starts = bytes([len(self.said["start"])]) + b"".join(self.said["start"])
        return bytes(map(len, self.bits.values())) + spelt(steps) + groups + starts

def rules_of(path):
    """The bytes of the rules file that a text describes."""
    text, number = Text(), 0
    try:
        for number, line in enumerate(path.read_text().splitlines(), 1):
            words = line.partition("#")[0].split(maxsplit=1)
            if words:
                text.statement(words[0], "".join(words[1:]))
        return text.rules()
    except Fault as fault:
        raise Fault(f"{path}:{number}: {fault}") from fault

def main():
    options = argparse.ArgumentParser(description=__doc__, formatter_class=argparse.RawDescriptionHelpFormatter)
    options.add_argument("texts", nargs="+", type=pathlib.Path)
    options.add_argument("-o", dest="rules", type=pathlib.Path)
    options.add_argument("--check", action="store_true")
    given = options.parse_args()
    if given.rules and len(given.texts) > 1:
        raise Fault("-o takes one text")
    for text in given.texts:
        path, rules = given.rules or text.with_suffix(".rules"), rules_of(text)
        if not given.check:
            path.write_bytes(rules)
        elif path.read_bytes() != rules:
            raise Fault(f"{path}: not what {text} gives")

try:
    main()
except (Fault, OSError) as fault:
    sys.exit(f"make_rules: {fault}")
