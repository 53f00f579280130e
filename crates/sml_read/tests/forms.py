#!/usr/bin/env python3
"""Which kinds of token may stand next in some texts, by a recogniser over the grammar before it was factored.

    python3 tests/forms.py           writes src/grammar/texts.rt of sml_syntax_tests, the texts and their answers as data
                                     of the reader's tests
    python3 tests/forms.py --check   compares the factored grammar with this one, on the texts and on random ones

Both are called in the crate's folder; rt fmt in that of sml_syntax_tests lays out what the first writes. The recogniser
(Earley's) knows nothing of the factored grammar, and takes nothing greedily. Where greed forbids what the bare grammar
permits, GREED says so.
"""
import random
import re
import sys
from pathlib import Path

CRATE = Path(__file__).resolve().parent.parent
sys.path.insert(0, str(CRATE / "tables"))
import make  # the kinds of tokens, and for --check the factored grammar

# Of a text, after so many tokens, the kinds that the bare grammar permits and greed forbids: after `|` stands a rule of
# the innermost match, and not a clause of the function round it.
CLAUSES = "fun f x = case x of A => 1 | g y => 2 | h z => 3"
GREED = {(CLAUSES, after): {"Equals"} for after in (12, 13, 17, 18)}
# For each form of the table one text, as words. Words that aren't reserved are identifiers by their look.
TEXTS = [
    # units
    ";", "val x = 1 ; val y = 2", "x ; y ; val z = 3", "signature S = sig end and T = S",
    "functor F ( X : S ) = X and G ( ) = F ( X )",
    # structures
    "structure A = B", "structure A : S = B and C :> T = D", "local structure A = B in structure C = A end",
    "structure A = struct val x = 1 ; end", "structure A = B . C : S :> T", "structure A = F ( B ) and C = F ( val x = 1 )",
    "structure A = let val x = 1 in B end", "structure A = B : S where type t = int and type u = A . t where type v = w and C = D",
    "structure A : S where type t = u and type v = w = B", "structure A = F ( B : S where type t = u and type v = w :> T )",
    "functor F ( X : S where type t = u and type v = w ) : T where type t = u and type v = w = X : S where type t = u and G ( type t ) = X",
    "structure A = let in F ( B : S ) : T end",
    # signatures and specifications
    "signature S = T where type 'a t = 'a list and type ( 'a , 'b ) u = int where type v = w and U = V",
    "signature S = sig val x : int and y : bool val z : t ; end", "signature S = sig type t and 'a u type v end",
    "signature S = sig type t = int and 'a u = 'a list end", "signature S = sig eqtype t and 'a u end",
    "signature S = sig datatype t = A | B of int and 'a u = C of 'a end", "signature S = sig datatype 'a t = A datatype t = datatype A . t end",
    "signature S = sig exception A and B of int end", "signature S = sig structure A : S and B : T where type t = u and type v = w and C : S end",
    "signature S = sig include sig end include S include S where type t = u and type v = w include A B C end",
    "signature S = sig sharing type t = A . t = u sharing A = B . C = D end",
    # declarations
    "val x = 1 and y = 2 and rec f = g", "val 'a x = 1", "val ( 'a , 'b ) x = 1", "val rec rec f = g", "val ( x , y ) = z", "val ( ) = x",
    "fun f x = 1 | f y : int = 2 and g z = 3", "fun 'a f x = 1", "fun ( 'a , 'b ) f x = 1", "fun ( x ++ y ) z = 1", "fun op ++ x = 1",
    "type t = int and 'a u = 'a list and ( 'a , 'b ) v = 'a * 'b", "datatype t = A | op B of int and 'a u = C withtype v = int and w = bool",
    "datatype 'a t = A", "datatype t = datatype A . t", "exception A and B of int and op C = op A . D and E = F",
    "local val x = 1 in val y = x end", "open A B . C", "infix 5 ++ f", "infixr ++", "infix 0 o", "nonfix ++ *",
    # expressions
    "x andalso y orelse z andalso w handle A => 1 | B => 2", "x andalso y orelse if a then b else c", "x orelse fn y => y",
    "x : int : t", "raise x", "while x do y", "case x of y => z | _ => w", "fn x => y | z => w", "f x 1 A . f op + op = = *",
    "{ a = 1 , 2 = x , * = y }", "{ }", "# a x", "# 1 x", "( )", "( x )", "( x , y , z )", "( x ; y ; z )", "[ ]", "[ x , y ]",
    "let val x = 1 ; in x ; y end", "0w1", "1.5", "\"s\"", "#\"c\"", "~1", "012",
    # patterns
    "fn x : int as y => 1", "fn op x as _ => 1", "fn x y : int : t => 1", "fn op A . B x => 1", "fn A . B => 1", "fn ( x : int ) => 1",
    "fn { a = x , b , c : int , d as e , f : int as g , 1 = y , ... } => 1", "fn { } => 1", "fn [ ] => 1", "fn [ x , y ] => 1",
    "fn ( ) => 1", "fn ( x , y ) : t => 1", "fn x ( y ) => 1", "fn 1 => 1", "fn \"s\" => 1", "fn op x y => 1",
    # greed
    CLAUSES, "fun f x = ( case x of A => 1 | g y => 2 ) | f z = 3", "case x of A => case y of B => 1 | C => 2 | D => 3",
    "if x then y else z handle A => 1 andalso x", "fn x => x : int andalso y", "x handle A => y handle B => z | C => w",
    # types
    "x : int list A . t * 'a -> ( int , bool ) t -> ( int ) -> { a : int , 1 : bool } * { }",
]


def kind_of(word, kinds):
    if word in make.PUNCTUATION:
        return make.PUNCTUATION[word]
    if word.capitalize() + "Word" in kinds and word == word.lower():
        return word.capitalize() + "Word"
    for pattern, kind in [
        (r"#\".*\"", "CharacterConstant"), (r"\".*\"", "StringConstant"), (r"~?\d+\.\d+", "RealConstant"), (r"0w\d+", "WordConstant"),
        (r"~\d+", "Integer"), (r"0\d*", "ZeroNumeral"), (r"\d+", "Numeral"), (r"'.*", "TypeVariable"), (r".*\.\*", "LongStar"),
        (r".*\.[A-Za-z].*", "LongAlphanumeric"), (r"[A-Za-z]\w*\..*", "LongSymbolic"), (r"[A-Za-z].*", "Alphanumeric"),
    ]:
        if re.fullmatch(pattern, word):
            return kind
    return "Symbolic"


class Table:
    """The grammar of table.txt as plain rules."""

    def __init__(self, kinds):
        self.kinds, self.rules, self.fresh = kinds, {}, 0
        lines = (CRATE / "tests/table.txt").read_text().splitlines()
        for line in lines:
            if line and not line.startswith("#"):
                part, forms = line.split(" ::=")
                self.words = re.findall(r"'[^' ]+'|%and|%,|\{|\}\+|\}|\[|\]|\||\w+", forms)
                self.rules[part] = self.forms(None)
        parts = set(self.rules)
        self.rules = {p: [[self.symbol(s, parts) for s in side] for side in sides] for p, sides in self.rules.items()}

    def symbol(self, word, parts):
        if word in parts:
            return word
        kind = kind_of(word[1:-1], self.kinds) if word.startswith("'") else word
        assert kind in self.kinds, word
        return kind

    def part(self, sides):
        self.fresh += 1
        self.rules["new %d" % self.fresh] = sides
        return "new %d" % self.fresh

    def forms(self, close):
        sides = [[]]
        while self.words:
            word = self.words.pop(0)
            if close and word.startswith(close):
                self.closed = word
                return sides
            if word == "|":
                sides.append([])
            elif word == "[":
                sides[-1].append(self.part(self.forms("]") + [[]]))
            elif word == "{":
                item = self.part(self.forms("}"))
                more = self.part([[]])
                self.rules[more].append([item, more])
                sides[-1] += [item, more] if self.closed == "}+" else [more]
            elif word in ("%and", "%,"):
                item, more = sides[-1].pop(), self.part([[]])
                self.rules[more].append(["'and'" if word == "%and" else "','", item, more])
                sides[-1] += [item, more]
            else:
                sides[-1].append(word)
        return sides


class Recogniser:
    def __init__(self, table, start):
        self.rules, self.start = table.rules, start
        self.empty = set()
        while True:
            more = {p for p, sides in self.rules.items() if any(all(s in self.empty for s in side) for side in sides)} - self.empty
            if not more:
                break
            self.empty |= more

    def close(self, sets, new):
        here, work = set(new), list(new)
        at = len(sets)
        while work:
            part, side, dot, origin = work.pop()
            found = []
            if dot == len(side):
                if origin < at:
                    found = [(p, s, d + 1, o) for p, s, d, o in sets[origin] if d < len(s) and s[d] == part]
                else:
                    found = []
            elif side[dot] in self.rules:
                found = [(side[dot], tuple(s), 0, at) for s in self.rules[side[dot]]]
                if side[dot] in self.empty:
                    found.append((part, side, dot + 1, origin))
            for item in found:
                if item not in here:
                    here.add(item)
                    work.append(item)
        return here

    def allowed(self, kinds):
        """After each number of the tokens, the kinds that may stand next; and whether all are a unit. None: refused before."""
        sets = [self.close([], [(self.start, tuple(s), 0, 0) for s in self.rules[self.start]])]
        answers = []
        for kind in kinds + [None]:
            answers.append({s[d] for _, s, d, _ in sets[-1] if d < len(s) and s[d] not in self.rules})
            if kind is None:
                break
            if kind not in answers[-1]:
                return answers, False
            sets.append(self.close(sets, [(p, s, d + 1, o) for p, s, d, o in sets[-1] if d < len(s) and s[d] == kind]))
        return answers, any(p == self.start and d == len(s) and o == 0 for p, s, d, o in sets[-1])


def stacked(grammar, kinds):
    """The same by the factored grammar: with a stack and one token of look-ahead."""
    answers = []
    stack = ["Start"]
    taken = lambda stack, kind: take(grammar, list(stack), kind)
    for kind in kinds + [None]:
        answers.append({k for k in grammar.kinds if taken(stack, k) is not None})
        if kind is None:
            break
        if kind not in answers[-1]:
            return answers, False
        stack = taken(stack, kind)
    return answers, all(grammar.is_part(s) and s in grammar.empty for s in stack)


def take(grammar, stack, kind):
    while stack:
        top = stack.pop()
        if not grammar.is_part(top):
            return stack if top == kind else None
        cell = grammar.choice(top, kind)
        if cell == ".":
            return None
        stack += reversed(grammar.rules[top][ord(cell) - ord("0")][1])
    return None


def words_of(text):
    return re.sub(r" \. ", ".", text).split()


def check(grammar, recogniser):
    differ = 0
    for text in TEXTS:
        kinds = [kind_of(w, grammar.kinds) for w in words_of(text)]
        bare, whole = recogniser.allowed(kinds)
        factored, also = stacked(grammar, kinds)
        if not (whole and also):
            print("refused:", text, whole, also)
        for i, (b, f) in enumerate(zip(bare, factored)):
            b = b - GREED.get((text, i), set())
            if b != f:
                differ += 1
                print("after", i, "of", text, "| only bare:", sorted(b - f), "| only factored:", sorted(f - b))
    print(len(TEXTS), "texts,", differ, "differences")
    generator = random.Random(1)
    differ, seen = 0, 0
    for _ in range(200):
        kinds = []
        stack = ["Start"]
        while len(kinds) < 40:
            # walk on by a token that the bare grammar or the factored one permits
            factored = sorted(k for k in grammar.kinds if take(grammar, list(stack), k) is not None)
            if not factored:
                break
            kind = generator.choice(factored)
            stack = take(grammar, list(stack), kind)
            kinds.append(kind)
        bare, _ = recogniser.allowed(kinds)
        factored, _ = stacked(grammar, kinds)
        for i, (b, f) in enumerate(zip(bare, factored)):
            seen += 1
            if b != f:
                differ += 1
                if differ < 30:
                    print(" ".join(kinds[:i]), "| only bare:", sorted(b - f), "| only factored:", sorted(f - b))
    print(seen, "places of random texts,", differ, "differences")


def mask(kinds, allowed):
    return "%018x" % sum(1 << i for i, k in enumerate(kinds) if k in allowed)


def data(kinds, recogniser):
    out = "// Generated by tests/forms.py of sml_read from tests/table.txt there.\n//! Texts, and which kinds of token may stand next in them.\n"
    out += "use sml_lex::token::Kind;\n\n/// All kinds, in order.\npub fn all_kinds() -> &'static [Kind] {\n    &[\n"
    out += "".join("        Kind::%s,\n" % k for k in kinds) + "    ]\n}\n\n"
    sections = [TEXTS[i:i + 6] for i in range(0, len(TEXTS), 6)]
    for number, texts in enumerate(sections):
        out += "fn forms_%d() -> &'static [(&'static str, &'static str)] {\n    &[\n" % number
        for text in texts:
            words = words_of(text)
            tokens = [kind_of(w, kinds) for w in words]
            answers, _ = recogniser.allowed(tokens)
            marks = []
            for i, allowed in enumerate(answers):
                whole = recogniser.allowed(tokens[:i])[1]
                marks.append(mask(kinds, allowed - GREED.get((text, i), set())) + ("+" if whole else "-"))
            out += '        ("%s", "%s"),\n' % (" ".join(words).replace('"', '\\"'), "".join(marks))
        out += "    ]\n}\n\n"
    out += "/// Texts, in sections. Of each beginning of a text, by its number of tokens, which kinds may stand next, as bits in\n"
    out += "/// order from the lowest on in hexadecimal, and after that `+` where the beginning is a unit and `-` where not. There is\n"
    out += "/// none after the last section.\n"
    out += "pub fn forms(section: usize) -> &'static [(&'static str, &'static str)] {\n    match section {\n"
    out += "".join("        %d => forms_%d(),\n" % (n, n) for n in range(len(sections))) + "        _ => &[],\n    }\n}\n\n"
    out += "/// The number of sections.\npub const SECTIONS: usize = %d;\n" % len(sections)
    (CRATE.parent / "sml_syntax_tests/src/grammar/texts.rt").write_text(out)


def main():
    sys.setrecursionlimit(10000)
    grammar = make.Grammar()
    recogniser = Recogniser(Table(grammar.kinds), "Unit")
    if "--check" in sys.argv:
        check(grammar, recogniser)
    else:
        data(grammar.kinds, recogniser)


if __name__ == "__main__":
    main()
