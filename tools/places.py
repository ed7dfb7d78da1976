#!/usr/bin/env python3
"""Lists the places in crates/*/src that read like the older language.

  tools/places.py            how many places of each kind there are
  tools/places.py KIND..     the places of these kinds, one to a line, with what stands there

Kinds, by the points of docs/DESIGN-PASS.md:
  1a bare enum        a public enum that lacks one of the derives Clone, Copy, PartialEq, Eq, Debug
  1b no answer        a variant that stands for "none" or "failed" in an enum of the repository's own
  1c flag beside      a field or a parameter that is a bool and says whether the value beside it counts
  1d number           a function that answers a number, or a pair of numbers, for a kind or a refusal; a constant for "none"
  1e match for ?      a match or an if that hands an error or a None on, where `?` would
  2a twin functions   bodies that are the same but for names, types and numbers
  2b twin types       structs with the same types of fields
  3a while, loop      loops that count, or walk a slice, by hand
  3b index loop       `for i in a..b` over what could be gone through itself, or with a method of iterators
  4a two bytes        a number taken apart into two bytes, or put together, by hand
  4b bool to number   `if b { 1 } else { 0 }`
  4c conversion       a function `of`, and others that turn one type into another
  4d printing         a refusal's number and place, put into text by hand
  5a facts            clauses of `requires` that stand in three functions or more
  5b parameters       three or more parameters that stand together in three functions or more
  6a count beside     a struct of a count and bytes
  6b parallel         structs with three slices or more, and functions that take as many
  6c borrowed Vec     a parameter `&Vec<T>`
  7  switch           a match of two arms or more that only picks which function or operation to run
"""
import collections, pathlib, re, sys

ROOT = pathlib.Path(__file__).resolve().parent.parent
FILES = sorted(ROOT.glob("crates/*/src/*.rt"))
WORD = re.compile(r"[A-Za-z_]\w*|\d[\w_]*|\"(?:[^\"\\]|\\.)*\"|'[^']'|\S")
KEYWORDS = set("""fn let mut if else match for in while loop return break continue as self Self true false Some None Ok Err
    struct enum impl pub crate const use mod ref move where dyn trait type""".split())


def bare(text):
    """The text without its comments and without what its texts of several lines say; line numbers stay."""
    def kept(m):
        said = m.group(0)
        return said if said[0] == "'" or said[0] == '"' and "\n" not in said else '""' * (said[0] == '"') + "\n" * said.count("\n")
    return re.sub(r"//[^\n]*|'(?:[^'\\\n]|\\.)'|\"(?:[^\"\\]|\\.)*\"", kept, text)


def matching(text, at):
    """The place after the bracket that closes the one at `at`."""
    pairs = {"(": ")", "{": "}", "[": "]"}
    depth, want, have = 0, text[at], pairs[text[at]]
    for k in range(at, len(text)):
        depth += (text[k] == want) - (text[k] == have)
        if depth == 0:
            return k + 1
    return len(text)


class Function:
    def __init__(self, path, text, start):
        self.path, self.line = path, text.count("\n", 0, start) + 1
        name = re.compile(r"fn\s+(\w+)").search(text, start)
        self.name = name.group(1)
        paren = text.index("(", name.end())
        if "<" in text[name.end():paren] and text[name.end()] == "<":
            depth, k = 0, name.end()
            while True:
                depth += (text[k] == "<") - (text[k] == ">" and text[k - 1] != "-")
                k += 1
                if depth == 0:
                    break
            paren = text.index("(", k)
        close = matching(text, paren)
        self.params = [p.strip() for p in re.split(r",\s*(?![^<(\[]*[>)\]])", text[paren + 1:close - 1]) if p.strip()]
        k, self.clauses = close, []
        head = re.compile(r"(requires|ensures)\s*(\w*)\s*\{")
        while k < len(text) and text[k] not in "{;":
            found = head.match(text, k)
            if found:
                end = matching(text, found.end() - 1)
                self.clauses.append((found.group(1), found.group(2), " ".join(text[found.end():end - 1].split())))
                k = end
            elif text[k] == "[":
                k = matching(text, k)
            else:
                k += 1
        self.signature = " ".join(text[start:k].split())
        self.body = text[k:matching(text, k)] if k < len(text) and text[k] == "{" else ""
        self.answer = (re.match(r"\s*->\s*([^{;]*?)\s*(?:requires|ensures|where|$)", text[close:k]) or [None, ""])[1].strip()

    def place(self):
        return f"{self.path.relative_to(ROOT)}:{self.line} {self.name}"


def functions():
    for path in FILES:
        text = bare(path.read_text())
        for found in re.finditer(r"(?:pub(?:\([a-z]+\))?\s+)?fn\s+\w+", text):
            yield Function(path, text, found.start())


def skeleton(body):
    names, out = {}, []
    for word in WORD.findall(body):
        if word in KEYWORDS:
            out.append(word)
        elif word[0].isdigit() or word[0] in "\"'":
            out.append("0")
        elif word[0].isalpha() or word[0] == "_":
            out.append("v%d" % names.setdefault(word, len(names)))
        else:
            out.append(word)
    return " ".join(out)


def lines(pattern, but=None):
    for path in FILES:
        for number, line in enumerate(bare(path.read_text()).splitlines(), 1):
            if re.search(pattern, line) and not (but and re.search(but, line)):
                yield f"{path.relative_to(ROOT)}:{number} {line.strip()}"


def types(kind):
    for path in FILES:
        text = bare(path.read_text())
        for found in re.finditer(r"((?:#\[[^\]]*\]\s*)*)(?:pub(?:\([a-z]+\))?\s+)?%s\s+(\w+)[^{;]*\{" % kind, text):
            body = text[found.end():matching(text, found.end() - 1) - 1]
            yield f"{path.relative_to(ROOT)}:{text.count(chr(10), 0, found.end()) + 1}", found.group(1), found.group(2), body


def fields(body):
    return [(a, " ".join(b.split())) for a, b in re.findall(r"(?:pub(?:\([a-z]+\))?\s+)?\b(\w+):\s*([^,{}]+),", body)
            if not re.search(r"ghost\s+%s:" % a, body)]


def settled(clause):
    """A clause without the names of its parameters' states."""
    return re.sub(r"\.(old|new|now|entry)\b", "", clause)


def found():
    out = collections.defaultdict(list)
    for place, derives, name, body in types("enum"):
        lacking = [d for d in "Clone Copy PartialEq Eq Debug".split() if not re.search(r"\b%s\b" % d, derives)]
        if lacking:
            out["1a"].append(f"{place} {name} lacks {', '.join(lacking)}")
        for variant in re.findall(r"(?:^|,)\s*(None|Unknown|Unclear|Nothing|Invalid|Error|Failed|Missing)\b", body):
            out["1b"].append(f"{place} {name}::{variant}")
    for place, _, name, body in types("struct"):
        fs = fields(body)
        for a, b in fs:
            if b == "bool":
                out["1c"].append(f"{place} {name}.{a}")
        if any(a == "count" for a, _ in fs) and any("[u8]" in b for _, b in fs):
            out["6a"].append(f"{place} {name}")
        if sum("[" in b and "]" in b and ";" not in b for _, b in fs) >= 3:
            out["6b"].append(f"{place} {name}")
    every = list(functions())
    for f in every:
        public = f.signature.startswith("pub")
        tested = "tests" in str(f.path) or "_test" in str(f.path)
        if re.fullmatch(r"\(u\w+, u\w+\)", f.answer) or (tested and f.answer == "usize"):
            out["1d"].append(f"{f.place()} -> {f.answer}")
        if f.answer == "u8" and re.fullmatch(r"\{\s*0\s*\}", f.body):
            out["1d"].append(f"{f.place()} -> u8, a theorem")
        if sum(bool(re.search(r":\s*&(?:'\w+ )?(?:mut )?\[", p)) for p in f.params) >= 3:
            out["6b"].append(f"{f.place()} ({sum(':' in p and '[' in p for p in f.params)} slices)")
        for p in f.params:
            if re.search(r"&(?:'\w+ )?Vec<", p):
                out["6c"].append(f"{f.place()} {p}")
            if re.search(r":\s*bool$", p):
                out["1c"].append(f"{f.place()} {p}")
    out["1d"] += [x for x in lines(r"const (NONE|NO_\w+)\b")]
    out["1e"] += list(lines(r"(Err|None)\b.*=> (return )?(Err|None|cli::refused)\b|Err\((\w+)\) => return|return (Err|None)\b.*\?"))
    out["1e"] += [f"{f.place()} {m.group(0).strip()[:60]}" for f in every
                  for m in re.finditer(r"Ok\((\w+|\(\))\) => (Ok\(\1\)|\1)(?!\w)", f.body)]
    groups = collections.defaultdict(list)
    for f in every:
        if len(WORD.findall(f.body)) >= 12:
            groups[skeleton(f.body)].append(f)
    for group in groups.values():
        if len(group) > 1:
            out["2a"].append("  ~  ".join(f.place() for f in group))
    groups = collections.defaultdict(list)
    for place, _, name, body in types("struct"):
        fs = fields(body)
        if len(fs) > 1:
            groups[tuple(sorted(b for _, b in fs))].append(f"{place} {name}")
    for group in groups.values():
        if len(group) > 1:
            out["2b"].append("  ~  ".join(group))
    out["3a"] += list(lines(r"\bwhile\b|\bloop\b"))
    out["3b"] += list(lines(r"\bfor \w+ in [^{]*\.\."))
    out["4a"] += list(lines(r"(%|/) 256\b|\b256 \*"))
    for f in every:
        for m in re.finditer(r"if [^{}]*\{\s*(1|u64::MAX)\s*\}\s*else\s*\{\s*0\s*\}", f.body):
            out["4b"].append(f"{f.place()} {' '.join(m.group(0).split())}")
        if f.name in ("of", "refusal", "refuse") or re.fullmatch(r"\w+_of", f.name) and len(f.params) == 1:
            out["4c"].append(f.place())
    out["4d"] += list(lines(r"refused \{"))
    facts, together = collections.defaultdict(set), collections.defaultdict(set)
    for f in every:
        for kind, _, text in f.clauses:
            if kind == "requires":
                facts[settled(text)].add(f.place())
        ps = sorted(re.sub(r"^mut |\s+", " ", p).strip() for p in f.params if ":" in p)
        for i in range(len(ps)):
            for j in range(i + 1, len(ps)):
                for k in range(j + 1, len(ps)):
                    together[(ps[i], ps[j], ps[k])].add(f.place())
    for text, where in sorted(facts.items(), key=lambda x: -len(x[1])):
        if len(where) >= 3:
            out["5a"].append(f"{len(where)} functions: {text}")
    best = collections.defaultdict(set)
    for names, where in together.items():
        if len(where) >= 3:
            best[frozenset(where)] |= set(names)
    for where, names in sorted(best.items(), key=lambda x: -len(x[0])):
        out["5b"].append(f"{len(where)} functions: {', '.join(sorted(names))}  in  {', '.join(sorted(w.split()[-1] for w in where))}")
    for f in every:
        for m in re.finditer(r"match (\w+(?:\.\w+)?) \{", f.body):
            inner = f.body[m.end():matching(f.body, m.end() - 1) - 1]
            arms = re.findall(r"(\w+::\w+)[^=]*=>\s*(?:return )?\{?\s*([\w:.]+)\(", inner)
            if len(arms) >= 2:
                out["7"].append(f"{f.place()} match {m.group(1)}: {', '.join(a for a, _ in arms)}")
    return out


def main():
    kinds = re.findall(r"^  (\d\w?)\s+(.*?)  +", __doc__, re.M)
    out = found()
    for kind, name in kinds:
        if len(sys.argv) == 1:
            print(f"{kind:3} {name:16} {len(out[kind])}")
        elif kind in sys.argv[1:]:
            print(f"{kind} {name}: {len(out[kind])}")
            for place in out[kind]:
                print("   ", place)


main()
