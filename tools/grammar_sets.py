"""Makes crates/sail_grammar/specs/Sets.antt from the grammar in specs/Table.antt: for each row the symbols that may begin it,
whether it may be empty, and the symbols that may follow it. Prints each place where one token doesn't choose.

    python3 tools/grammar_sets.py

The sets are shown to be large enough, and the choices to be clear, by the crate's own proof: this script is trusted in nothing."""
import os
import re
import sys
import textwrap

TOP = os.path.dirname(os.path.dirname(os.path.abspath(__file__)))
CRATE = os.path.join(TOP, "crates/sail_grammar")
KINDS = re.findall(r"^    ([A-Z]\w*),$", open(os.path.join(TOP, "crates/sail_lex/src/kind.rt")).read(), re.M)
RENAMED = {"ForeachWord": "Foreach", "IfWord": "If", "MatchWord": "Match", "RepeatWord": "Repeat", "TryWord": "Try",
           "WhileWord": "While", "Stroke": "Bar"}
MODES = ["Full", "Limited"]
TWO, KIND_NAME = 201, 202
# rows whose sets are given for each mode; those of the others are for both
APART = {"Typ", "TypeAnd", "TypeComparison", "TypeSet"}


def code(kind):
    return KINDS.index(RENAMED.get(kind, kind)) + 1


def set_name(name, mode):
    return f"{name} {mode}" if name in APART else name


class Reader:
    """Reads the terms of the table."""

    def __init__(self, text, lists, mode):
        self.words = re.findall(r"\(|\)|∷|\[\]|λ|\w+|\.|==|\S", text)
        self.at, self.lists, self.mode = 0, lists, mode

    def peek(self):
        return self.words[self.at] if self.at < len(self.words) else None

    def take(self, word=None):
        found = self.peek()
        if word and found != word:
            sys.exit(f"expected {word}, found {found} in {' '.join(self.words)}")
        self.at += 1
        return found

    def choice(self):
        left = self.chain()
        if self.peek() == "or":
            self.take()
            return ("or", left, self.choice())
        return left

    def chain(self):
        left = self.part()
        if self.peek() == "then":
            self.take()
            return ("then", left, self.chain())
        return left

    def part(self):
        word = self.take()
        if word == "(":
            form = self.choice()
            self.take(")")
            return form
        if word == "Row": return ("row", self.name())
        if word == "word": return ("word", [code(self.take())])
        if word == "words": return ("word", self.kinds())
        if word == "Word": return ("word", self.symbols())
        if word == "nothing": return ("empty", [])
        if word == "never": return ("word", [])
        if word == "identifier": return ("word", [code("Identifier"), KIND_NAME])
        if word == "kind": return ("word", [KIND_NAME])
        if word == "number": return ("word", [code("Decimal"), TWO])
        if word == "ending": return ("empty", [TWO, KIND_NAME] + [code(k) for k in KINDS])
        if word == "Empty": return ("empty", self.symbols())
        if word == "Forbid": return ("forbid", self.symbols())
        if word == "Hold": return ("hold", self.part())
        if word in ("Guard", "Bar"):
            form = self.part()
            self.skip()
            return (word.lower(), form, self.symbols())
        sys.exit(f"what is {word}?")

    def skip(self):
        if self.take() == "(":
            depth = 1
            while depth:
                depth += {"(": 1, ")": -1}.get(self.take(), 0)

    def name(self):
        word = self.take()
        if word != "(": return word
        name, mode = self.take(), self.take()
        self.take(")")
        return set_name(name, self.mode if mode == "m" else mode)

    def kinds(self):
        word = self.take()
        if word == "(":
            found = self.kind_list()
            self.take(")")
            return found
        return self.lists[word]

    def kind_list(self):
        word = self.take()
        if word == "[]": return []
        if word in self.lists: return self.lists[word]
        self.take("∷")
        return [code(word)] + self.kind_list()

    def symbols(self):
        if self.peek() == "[]":
            self.take()
            return []
        self.take("(")
        found = []
        while True:
            word = self.take()
            if word == "[]": break
            if word == "codes_of":
                found += self.kinds()
                break
            found.append({"two": TWO, "kind_name": KIND_NAME}.get(word) or code(self.take()))
            self.take("∷")
        self.take(")")
        return found


def read_table():
    text = re.sub(r"^--.*$", "", open(os.path.join(CRATE, "specs/Table.antt")).read(), flags=re.M)
    lists = {}
    for name, body in re.findall(r"^abbrev pub \w+ : List TokenKind\n(\w+) =((?:.|\n )*)$", text, re.M):
        lists[name] = Reader(body, lists, None).kind_list()
    rules = {}
    for piece in re.split(r"^rule ", text, flags=re.M)[1:]:
        head, body = piece.split("=", 1)
        head = head.strip().strip("()").split()
        for mode in (MODES if len(head) > 1 and head[1] == "m" else head[1:] or [None]):
            reader = Reader(body, lists, mode)
            rules[(set_name(head[0], mode), mode)] = reader.choice()
            if reader.peek() is not None: sys.exit(f"{head}: more than a form, {reader.peek()}")
    return rules


class Sets:
    """The sets, one for a row in all its modes."""

    def __init__(self, rules, start):
        self.rules = rules
        names = list(dict.fromkeys(name for name, _ in rules))
        self.first, self.nullable, self.follow = ({name: value for name in names} for value in (None, False, None))
        for name in names:
            self.first[name], self.follow[name] = set(), set()
        self.follow[start].add(0)
        self.changed = True
        while self.changed:
            self.changed = False
            for (name, _), form in rules.items():
                first, null = self.firsts(form), self.empty(form)
                if not first <= self.first[name] or (null and not self.nullable[name]):
                    self.first[name] |= first
                    self.nullable[name] |= null
                    self.changed = True
        self.changed = True
        while self.changed:
            self.changed = False
            for (name, _), form in rules.items():
                self.push(form, set(self.follow[name]))

    def firsts(self, form):
        kind = form[0]
        if kind in ("word", "forbid"): return set(form[1])
        if kind == "empty": return set()
        if kind == "or": return self.firsts(form[1]) | self.firsts(form[2])
        if kind == "then": return self.firsts(form[1]) | (self.firsts(form[2]) if self.empty(form[1]) else set())
        if kind == "bar": return self.firsts(form[1]) | (set(form[2]) if self.empty(form[1]) else set())
        if kind in ("guard", "hold"): return self.firsts(form[1])
        return self.first[form[1]]

    def empty(self, form, token=None):
        kind = form[0]
        if kind in ("word", "forbid"): return False
        if kind == "empty": return not token or token not in form[1]
        if kind == "or": return self.empty(form[1], token) or self.empty(form[2], token)
        if kind == "then": return self.empty(form[1], token) and self.empty(form[2], token)
        if kind in ("guard", "bar", "hold"): return self.empty(form[1], token)
        return self.nullable[form[1]]

    def behind(self, form, follow):
        return self.firsts(form) | {token for token in follow if self.empty(form, token)}

    def push(self, form, follow):
        kind = form[0]
        if kind == "or":
            self.push(form[1], follow)
            self.push(form[2], follow)
        elif kind == "then":
            self.push(form[1], self.behind(form[2], follow))
            self.push(form[2], follow)
        elif kind in ("guard", "hold"):
            self.push(form[1], follow)
        elif kind == "bar":
            self.push(form[1], follow | set(form[2]))
        elif kind == "row" and not follow <= self.follow[form[1]]:
            self.follow[form[1]] |= follow
            self.changed = True

    def conflicts(self):
        for (name, mode), form in self.rules.items():
            yield from self.check((name, mode), form, self.follow[name])

    def check(self, name, form, follow):
        kind = form[0]
        if kind == "or":
            left, right = form[1], form[2]
            both = self.firsts(left) & self.firsts(right)
            if both: yield (*name, "both sides begin with", sorted(map(spell, both)))
            for token in follow:
                if self.empty(left, token) and (token in self.firsts(right) or self.empty(right, token)):
                    yield (*name, "the left side may be empty before", spell(token))
                if self.empty(right, token) and token in self.firsts(left):
                    yield (*name, "the right side may be empty before", spell(token))
            yield from self.check(name, left, follow)
            yield from self.check(name, right, follow)
        elif kind == "then":
            yield from self.check(name, form[1], self.behind(form[2], follow))
            yield from self.check(name, form[2], follow)
        elif kind in ("guard", "hold"):
            yield from self.check(name, form[1], follow)
        elif kind == "bar":
            yield from self.check(name, form[1], follow | set(form[2]))


def spell(token):
    return {0: "end", TWO: "two", KIND_NAME: "kind_name"}.get(token) or KINDS[token - 1]


def listed(symbols):
    text = " ∷ ".join(map(str, sorted(symbols))) + " ∷ []" if symbols else "[]"
    return "\n    ".join(textwrap.wrap(text, 140))


def main():
    rules = read_table()
    sets = Sets(rules, "Definitions")
    for conflict in sets.conflicts():
        print(*conflict)
    set_names = list(dict.fromkeys(name for name, _ in rules))
    names = list(dict.fromkeys(name.split()[0] for name in set_names))
    moded = {name for name, mode in rules if mode}
    declared = re.findall(r"^  (\w+) :", open(os.path.join(CRATE, "specs/RowName.antt")).read(), re.M)
    if sorted(declared) != sorted(names): print("rows without a rule or name:", set(declared) ^ set(names))
    lines = ["-- The sets of the grammar's rows, made by tools/grammar_sets.py.",
             "use Rattle.std.specs.Prelude.{true, false, [], ◌∷◌}",
             "use Rattle.sail_grammar.specs.declared.mode.Mode.TheVariants.{Full, Limited}",
             "use Rattle.sail_grammar.specs.RowName.{RowName, " + ", ".join(names) + "}",
             "use Rattle.sail_grammar.specs.Table.{rule}",
             "use Rattle.sail_grammar.specs.Test.{Sets, Grammar}", "",
             "-- what may begin each row, whether it may be empty, and what may follow it", "abbrev pub sets : RowName → Sets"]
    for name in set_names:
        head = f"({name})" if " " in name else f"({name} m)" if name in moded else name
        fields = [f"first = {listed(sets.first[name])}", f"nullable = {str(sets.nullable[name]).lower()}", f"follow = {listed(sets.follow[name])}"]
        line = f"sets {head} = record {{ {'; '.join(' '.join(field.split()) for field in fields)} }}"
        lines += [line] if len(line) <= 150 else [f"sets {head} = record {{"] + [f"  {field};" for field in fields] + ["}"]
    lines += ["", "-- the grammar of models", "abbrev pub grammar : Grammar", "grammar = record { rule = rule; sets = sets }"]
    open(os.path.join(CRATE, "specs/Sets.antt"), "w").write("\n".join(lines) + "\n")
    print(len(names), "rows,", len(rules), "rules")


main()
