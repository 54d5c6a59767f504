#!/usr/bin/env python3
"""Writes the tables of the grammar that crates/show_grammar/stdout says.

    grammar/write_tables.py          writes the tables, after a word on the grammar
    grammar/write_tables.py --words  says it alone

Then `rt fmt` in the crates res_grammar and show_grammar lays them out.

What it writes is trusted by nobody: the test of the crate ll_grammar is computed on the tables when they are proved, and
the program show_grammar writes the text again from the tables of the code.
"""

import re
import sys
from pathlib import Path

HERE = Path(__file__).resolve().parent
CRATES = HERE.parent / "crates"

# the symbols of texts, in the order of their numbers, from 1
SYMBOLS = ":=: := <= >= /= < > = + - * ( ) , ; : . | #".split()

# the part whose texts can be read alone
ALONE = "Expression"


class Grammar:
    """A grammar: its rules in the order of the text, and the numbers of its parts, classes and actions."""

    def __init__(self, text):
        self.rules, self.notes = [], {}
        note = []
        for line in text.splitlines():
            if not line or line.startswith("#"):
                note.append(line)
                continue
            left, right = line.split(" ->")
            if note:
                self.notes[left] = note
                note = []
            self.rules.append((left, right.split()))
        self.parts = in_order(left for left, _ in self.rules)
        symbols = in_order(s for _, right in self.rules for s in right)
        self.actions = [s for s in symbols if is_action(s)]
        words = [s for _, right in self.ways("Word") for s in right if s != "Id"]
        self.classes = ["Id", "Literal"] + [f"'{s}'" for s in SYMBOLS] + words
        unknown = [s for s in symbols if s not in self.parts + self.actions + self.classes]
        if unknown:
            sys.exit("no part, class or action: " + " ".join(unknown))

    def ways(self, part):
        return [rule for rule in self.rules if rule[0] == part]


class Test:
    """What the LL(1) test asks for: sets of classes, and for each part two numbers and a way."""

    def __init__(self, grammar):
        self.grammar = grammar
        parts = grammar.parts
        self.nullable = set()
        self.first = {part: set() for part in parts}
        self.follow = {part: set() for part in parts}
        self.follow[parts[0]].add("END")
        self.follow[ALONE].add("END")
        repeat(self.grow_sets)
        self.cost = {part: 0 for part in parts}
        repeat(self.grow_costs)
        self.height = {}
        self.easiest = {}
        repeat(self.grow_heights)
        for part in parts:
            if part not in self.height:
                sys.exit(f"{part} never ends")

    def fronts(self, symbols, after):
        """The classes that the symbols begin with, where these come after them."""
        found = set()
        for symbol in symbols:
            if is_action(symbol):
                continue
            if symbol not in self.first:
                return found | {symbol}
            found |= self.first[symbol]
            if symbol not in self.nullable:
                return found
        return found | after

    def grow_sets(self):
        before = self.size()
        for part, right in self.grammar.rules:
            if all(is_action(s) or s in self.nullable for s in right):
                self.nullable.add(part)
            self.first[part] |= self.fronts(right, set())
            for place, symbol in enumerate(right):
                if symbol in self.follow:
                    self.follow[symbol] |= self.fronts(right[place + 1 :], self.follow[part])
        return self.size() != before

    def size(self):
        sets = list(self.first.values()) + list(self.follow.values()) + [self.nullable]
        return sum(len(s) for s in sets)

    def cost_of(self, symbols):
        """How many ways are taken and actions met at most before the first word."""
        cost = 0
        for symbol in symbols:
            if is_action(symbol):
                cost += 1
            elif symbol not in self.cost:
                break
            else:
                cost += self.cost[symbol]
                if symbol not in self.nullable:
                    break
        return cost

    def grow_costs(self):
        before = dict(self.cost)
        for part, right in self.grammar.rules:
            self.cost[part] = max(self.cost[part], self.cost_of(right) + 1)
            if self.cost[part] > 1000:
                sys.exit(f"{part} begins with itself")
        return self.cost != before

    def grow_heights(self):
        before = dict(self.height)
        for part in self.grammar.parts:
            for number, (_, right) in enumerate(self.grammar.ways(part)):
                below = [s for s in right if s in self.first]
                if all(s in self.height for s in below):
                    height = 1 + max((self.height[s] for s in below), default=0)
                    if height < self.height.get(part, height + 1):
                        self.height[part], self.easiest[part] = height, number
        return self.height != before

    def lookaheads(self, part):
        """For each way of the part the classes at which it is taken."""
        return [self.fronts(right, self.follow[part]) for _, right in self.grammar.ways(part)]

    def conflicts(self):
        for part in self.grammar.parts:
            seen = set()
            for taken in self.lookaheads(part):
                if seen & taken:
                    yield f"{part} has two ways at {' '.join(sorted(seen & taken))}"
                seen |= taken


def in_order(names):
    return list(dict.fromkeys(names))


def is_action(symbol):
    return symbol.startswith("{")


def repeat(grow):
    while grow():
        pass


def bare(name):
    """The name of an action or a part as a name in code."""
    return name.strip("{}").lower()


class Writer:
    """The texts of the tables."""

    def __init__(self, grammar, test):
        self.grammar, self.test = grammar, test
        self.class_numbers = {c: n for n, c in enumerate(grammar.classes + ["END"])}
        self.part_numbers = {p: n for n, p in enumerate(grammar.parts)}
        self.action_numbers = {a: n for n, a in enumerate(grammar.actions)}

    def set(self, classes):
        return sum(1 << self.class_numbers[c] for c in classes)

    def symbol(self, symbol, shape):
        for kind, numbers in [
            ("Action", self.action_numbers),
            ("Nonterminal", self.part_numbers),
            ("Terminal", self.class_numbers),
        ]:
            if symbol in numbers:
                return shape % (kind, numbers[symbol])

    def by_part(self, values):
        return [values[part] for part in self.grammar.parts]

    # ---- the code

    def tables(self):
        lines = ["//! The grammar of component files, as `grammar/write_tables.py` writes it.", ""]
        lines += ["use ll_grammar::Grammar;", "use ll_grammar::Symbol::{Action, Nonterminal, Terminal};", ""]
        lines += ["pub const LANGUAGE: Grammar<'static> = Grammar {", "    symbols: &["]
        ends, parts, count, ways = [], [], 0, 0
        for part in self.grammar.parts:
            lines.append(f"        // {self.part_numbers[part]} {part}")
            for _, right in self.grammar.ways(part):
                lines += ["        " + self.symbol(s, "%s(%d)") + "," for s in right]
                count += len(right)
                ways += 1
                ends.append(count)
            parts.append(ways)
        sets = [self.set(taken) for part in self.grammar.parts for taken in self.test.lookaheads(part)]
        lines += ["    ],"]
        for name, numbers in [("ends", ends), ("parts", parts), ("lookaheads", sets)]:
            lines.append(f"    {name}: &[{', '.join(map(str, numbers))}],")
        lines += ["    start: 0,", f"    end_mark: {self.class_numbers['END']},", "};"]
        lines += ["", f"/// The part that an expression is.\npub const EXPRESSION: u8 = {self.part_numbers[ALONE]};"]
        return "\n".join(lines) + "\n"

    def marks(self):
        lines = ["//! The numbers of the grammar's actions, as `grammar/write_tables.py` writes them.", ""]
        lines += [f"pub const {bare(a).upper()}: u8 = {n};" for a, n in self.action_numbers.items()]
        return "\n".join(lines) + "\n"

    def words(self):
        words = [c.strip("'") for c in self.grammar.classes[2 + len(SYMBOLS) :]]
        first = 2 + len(SYMBOLS)
        lines = ["//! The classes of tokens, as `grammar/write_tables.py` writes them.", ""]
        lines += ["/// An identifier that is not reserved.", "pub const ID: u8 = 0;", ""]
        lines += ["/// A literal.", "pub const LITERAL: u8 = 1;", ""]
        lines += ["/// The first symbol; the others follow in the order of their numbers.", "pub const FIRST_SYMBOL: u8 = 2;", ""]
        lines += ["/// How many symbols there are.", f"pub const SYMBOLS: u8 = {len(SYMBOLS)};", ""]
        lines += ["/// The first reserved word; the others follow in the order of `RESERVED`.", f"pub const FIRST_WORD: u8 = {first};", ""]
        lines += ["/// No class of the grammar.", "pub const NONE: u8 = 127;", ""]
        lines += ["/// The reserved words.", f"pub const RESERVED: [&[u8]; {len(words)}] = ["]
        lines += [f'    b"{w}",' for w in words] + ["];"]
        return "\n".join(lines) + "\n"

    # ---- the definitions

    def language(self):
        rows = lambda values: " ∷ ".join([str(v) for v in values] + ["[]"])
        lines = ["-- The grammar of component files and the tables of its LL(1) test, as grammar/write_tables.py writes them."]
        lines += ["use Rattle.std.specs.Prelude.{ℕ, List, [], ◌∷◌}"]
        lines += ["use Rattle.ll_grammar.specs.declared.form.Symbol.TheVariants.{Action, Nonterminal, Terminal}"]
        lines += ["use Rattle.ll_grammar.specs.Grammar.{Rules}"]
        lines += ["use Rattle.ll_grammar.specs.Predictive.{Table, Certificate}", ""]
        lines += ["unfoldable pub language_rules : Rules", "language_rules ="]
        for part in self.grammar.parts:
            ways = [f"({rows(self.symbol(s, '%s %d') for s in right)})" for _, right in self.grammar.ways(part)]
            lines.append(f"    -- {self.part_numbers[part]} {part}")
            lines.append(f"    ({rows(ways)}) ∷")
        lines += ["    []", "", "-- what shows that one token decides", "unfoldable pub language_certificate : Certificate", "language_certificate = record {"]
        test = self.test
        lines.append(f"  nullable = {sum(1 << self.part_numbers[p] for p in test.nullable)};")
        for name, values in [
            ("firsts", [self.set(s) for s in self.by_part(test.first)]),
            ("follows", [self.set(s) for s in self.by_part(test.follow)]),
            ("costs", self.by_part(test.cost)),
            ("heights", self.by_part(test.height)),
            ("easiest", self.by_part(test.easiest)),
        ]:
            lines.append(f"  {name} = {rows(values)};")
        lines += ["}", "", "-- what the reader goes by: for each way the classes at which it is taken, as sets by their bits"]
        lines += ["unfoldable pub language_table : Table", "language_table = record {", "  lookaheads ="]
        for part in self.grammar.parts:
            lines.append(f"      ({rows(self.set(taken) for taken in test.lookaheads(part))}) ∷")
        lines += ["      [];", "  start = 0;", f"  end_mark = {self.class_numbers['END']};"]
        lines += ["  certificate = language_certificate;", "}"]
        return "\n".join(lines) + "\n"

    def numbers(self):
        lines = ["-- The numbers of classes, parts and actions, as grammar/write_tables.py writes them."]
        lines += ["use Rattle.std.specs.Prelude.{ℕ, List, [], ◌∷◌, codes}", ""]
        first = 2 + len(SYMBOLS)
        words = [c.strip("'") for c in self.grammar.classes[first:]]
        lines += ["-- ---- classes"]
        for name, number in [
            ("id", 0),
            ("literal", 1),
            ("first_symbol", 2),
            ("symbol_count", len(SYMBOLS)),
            ("first_word", first),
            ("class_count", len(self.grammar.classes)),
            ("no_class", 127),
        ]:
            lines += ["", f"abbrev pub {name} : ℕ", f"{name} = {number}"]
        lines += ["", "-- the reserved words, in the order of their classes", "abbrev pub reserved : List (List ℕ)", "reserved ="]
        lines += ["    " + " ∷ ".join([f'codes "{w}"' for w in words] + ["[]"])]
        lines += ["", "-- ---- parts"]
        for part, number in self.part_numbers.items():
            lines += ["", f"abbrev pub {bare(part)}_part : ℕ", f"{bare(part)}_part = {number}"]
        lines += ["", "-- ---- actions"]
        for action, number in self.action_numbers.items():
            lines += ["", f"abbrev pub {bare(action)}_mark : ℕ", f"{bare(action)}_mark = {number}"]
        return "\n".join(lines) + "\n"

    # ---- the names, for the program that writes the text again

    def names(self):
        quoted = lambda text: '"' + text.replace("\\", "\\\\").replace('"', '\\"') + '"'
        lines = ["//! The names of parts, classes and actions, as `grammar/write_tables.py` writes them.", ""]
        for doc, name, values in [
            ("The parts, by their numbers.", "PARTS", self.grammar.parts),
            ("The classes, by their numbers.", "CLASSES", self.grammar.classes),
            ("The actions, by their numbers.", "ACTIONS", self.grammar.actions),
        ]:
            lines += [f"/// {doc}", f"pub const {name}: [&str; {len(values)}] = ["]
            lines += [f"    {quoted(v)}," for v in values] + ["];", ""]
        notes = [(self.part_numbers[part], line) for part, note in self.grammar.notes.items() for line in note]
        lines += ["/// The lines that stand before a part's ways, with the part's number.", f"pub const NOTES: [(u8, &str); {len(notes)}] = ["]
        lines += [f"    ({part}, {quoted(line)})," for part, line in notes] + ["];"]
        return "\n".join(lines) + "\n"


def main():
    grammar = Grammar((CRATES / "show_grammar" / "stdout").read_text(encoding="utf-8"))
    test = Test(grammar)
    conflicts = list(test.conflicts())
    symbols = sum(len(right) for _, right in grammar.rules)
    print(f"{len(grammar.rules)} ways of {len(grammar.parts)} parts, {len(grammar.classes)} classes,")
    print(f"{len(grammar.actions)} actions, {symbols} symbols, {len(conflicts)} conflicts")
    if conflicts:
        sys.exit("\n".join(conflicts))
    if "--words" in sys.argv:
        return
    writer = Writer(grammar, test)
    for name, text in [
        ("res_grammar/src/tables.rt", writer.tables()),
        ("res_grammar/src/marks.rt", writer.marks()),
        ("res_grammar/src/classes.rt", writer.words()),
        ("res_grammar/specs/Language.antt", writer.language()),
        ("res_grammar/specs/Numbers.antt", writer.numbers()),
        ("show_grammar/src/names.rt", writer.names()),
    ]:
        (CRATES / name).write_text(text, encoding="utf-8")


main()
