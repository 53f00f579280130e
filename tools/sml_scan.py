"""What a Standard ML source declares at its top level, and what it names of other sources: by its tokens alone.

`scan(text)` gives a `Source`. It knows the scopes of structures, signatures and functors. Of values it knows those of
declarations, and of patterns up to the next `|`; so a word may count as another source's that is a local one.
"""
import re

STRUCTURE, SIGNATURE, FUNCTOR, WORD = "structure", "signature", "functor", "value or type"
# (constructors and exceptions are words too; what stands as a variable in a pattern is one where there is such a one)
CONSTRUCTOR = "constructor"
RESERVED = set("""abstype and andalso as case datatype do else end eqtype exception fn fun functor handle if in include infix
infixr let local nonfix of op open orelse raise rec sharing sig signature struct structure then type val where while with
withtype : | = => -> # :>""".split())
DECLARES = set("abstype datatype exception fun functor infix infixr local nonfix open signature structure type val".split())
SPECIFIES = set("datatype eqtype exception functor include open sharing structure type val".split())
CLOSING = {"(": ")", "[": "]", "{": "}"}
INFIX = set("* / div mod + - ^ :: @ <> > >= < <= := o before".split())
TOKEN = re.compile(
    r"""(?P<space>\s+)|(?P<comment>\(\*)|(?P<text>\#?"(?:[^"\\\n]|\\\s+\\|\\.)*")|(?P<variable>'[\w']*)"""
    r"""|(?P<name>[A-Za-z][\w']*(?:\.[A-Za-z][\w']*)*(?:\.[!%&$\#+\-/:<=>?@\\~`^|*]+)?)"""
    r"""|(?P<number>~?\d[\w.]*(?:[eE]~?\d+)?)|(?P<dots>\.\.\.)|(?P<symbol>[!%&$\#+\-/:<=>?@\\~`^|*]+)|(?P<other>.)""",
    re.DOTALL | re.ASCII,
)


def after_comment(text, start):
    """Where the comment ends that begins here; comments nest."""
    depth = 0
    for it in re.finditer(r"\(\*|\*\)", text[start:]):
        depth += 1 if it[0] == "(*" else -1
        if depth == 0:
            return start + it.end()
    return len(text)


def tokens_of(text):
    found, at = [], 0
    while at < len(text):
        it = TOKEN.match(text, at)
        if it.lastgroup == "comment":
            at = after_comment(text, at)
            continue
        at = it.end()
        if it.lastgroup in ("name", "symbol", "other", "variable", "dots"):
            found.append(it[0])
        elif it.lastgroup in ("text", "number"):
            found.append('""')
    return found


def is_name(token):
    return token is not None and token not in RESERVED and re.match(r"[A-Za-z!%&$#+\-/:<=>?@\\~`^|*]", token) is not None


def is_symbolic(token):
    return is_name(token) and not token[0].isalpha()


def variables_of(tokens, infix, is_head):
    """The variables of a pattern: no types, no labels, nothing that is applied or begins with a capital letter. In the head
    of a clause what stands outside of brackets isn't applied."""
    found, in_type, depth = set(), False, 0
    for at, token in enumerate(tokens):
        following = tokens[at + 1] if at + 1 < len(tokens) else None
        depth += (token in CLOSING) - (token in (")", "]", "}"))
        if token == ":":
            in_type = True
        elif token in (",", ")", "]", "}", "as"):
            in_type = False
        elif is_name(token) and not in_type and "." not in token[:-1]:
            is_operator = token in infix or is_symbolic(token)
            is_alone = at == 0 or tokens[at - 1] == "op"
            is_applied = following in CLOSING or following == '""' or is_name(following) and following not in infix
            is_applied = is_applied and not is_operator and not (is_head and depth == 0)
            if not (is_operator and not is_alone or token[0].isupper() or following == "=" and depth or is_applied):
                found.add(token)
    return found


class Shape:
    """What an environment binds. A structure has a shape of its own, or the name of what has it: (kind, long name)."""

    def __init__(self):
        self.bound = {STRUCTURE: {}, SIGNATURE: {}, FUNCTOR: {}, WORD: set(), CONSTRUCTOR: set()}
        self.opened, self.replicated = [], []

    def take(self, other):
        for kind in (STRUCTURE, SIGNATURE, FUNCTOR):
            self.bound[kind].update(other.bound[kind])
        for kind in (WORD, CONSTRUCTOR):
            self.bound[kind] |= other.bound[kind]
        self.opened += other.opened
        self.replicated += other.replicated


class Source:
    """What a source declares (a shape); the (kind, name)s that it names and hasn't declared; which words it also binds."""

    def __init__(self):
        self.shape, self.used, self.patterns = Shape(), {}, set()


class Scanner:
    def __init__(self, text):
        self.tokens, self.at, self.source, self.scopes, self.infix = tokens_of(text), 0, Source(), [], set(INFIX)

    def peek(self, ahead=0):
        return self.tokens[self.at + ahead] if self.at + ahead < len(self.tokens) else None

    def next(self):
        token = self.peek()
        self.at += 1
        return token

    def skip(self, token):
        if self.peek() == token:
            self.at += 1
            return True
        return False

    def use(self, kind, name):
        head, *rest = name.split(".", 1) if name[0].isalpha() else [name]
        kind = STRUCTURE if rest else kind
        if not any(head in scope.bound[kind] for scope in self.scopes):
            self.source.used.setdefault((kind, head))

    # declarations

    def whole(self):
        self.source.shape = self.declarations(())
        return self.source

    def declarations(self, closing):
        shape = Shape()
        self.scopes.append(shape)
        while self.peek() is not None and self.peek() not in closing:
            token = self.next()
            if token in (STRUCTURE, SIGNATURE, FUNCTOR):
                self.modules(token, shape)
            elif token == "local":
                self.scopes.append(self.declarations(("in",)))
                self.skip("in")
                shape.take(self.declarations(("end",)))
                self.skip("end")
                self.scopes.pop()
            elif token == "open":
                while is_name(self.peek()):
                    name = self.next()
                    self.use(STRUCTURE, name)
                    shape.opened.append(name)
            elif token == "abstype":
                self.types(shape, True)
                if self.skip("with"):
                    shape.take(self.declarations(("end",)))
                    self.skip("end")
            elif token in ("infix", "infixr", "nonfix"):
                while is_name(self.peek()) or self.peek() == '""':
                    self.infix.add(self.next())
            elif token in ("type", "datatype"):
                self.types(shape, token == "datatype")
            elif token in ("val", "fun", "exception"):
                {"val": self.values, "fun": self.functions, "exception": self.exceptions}[token](shape)
            elif token != ";":
                self.at -= 1
                before = self.at
                self.expression(closing)
                if self.at == before and closing:
                    break
                # (what is no part of a declaration at the top is passed over)
                self.at = max(self.at, before + 1)
        self.scopes.pop()
        return shape

    def modules(self, kind, shape):
        new = {}
        while True:
            name, found = self.next(), Shape()
            if kind == FUNCTOR:
                self.scopes.append(self.parameters())
            if self.peek() in (":", ":>"):
                self.at += 1
                found = self.signature()
                if self.skip("="):
                    self.structure()
            elif self.skip("="):
                found = self.signature() if kind == SIGNATURE else self.structure()
            if kind == FUNCTOR:
                self.scopes.pop()
            new[name] = found
            if not self.skip("and"):
                break
        shape.bound[kind].update(new)

    def parameters(self):
        shape = Shape()
        while self.skip("("):
            if is_name(self.peek()) and self.peek(1) in (":", ":>"):
                name = self.next()
                self.at += 1
                shape.bound[STRUCTURE][name] = self.signature()
            else:
                shape.take(self.specifications((")",)))
            self.skip(")")
        return shape

    def structure(self):
        token, found = self.next(), None
        if token == "struct":
            found = self.declarations(("end",))
            self.skip("end")
        elif token == "let":
            self.scopes.append(self.declarations(("in",)))
            self.skip("in")
            found = self.structure()
            self.skip("end")
            self.scopes.pop()
        elif is_name(token):
            is_applied = self.peek() == "("
            self.use(FUNCTOR if is_applied else STRUCTURE, token)
            found = (FUNCTOR if is_applied else STRUCTURE, token)
            while self.skip("("):
                if self.peek() in DECLARES or self.peek() == ")":
                    self.declarations((")",))
                else:
                    self.structure()
                self.skip(")")
        while self.peek() in (":", ":>"):
            self.at += 1
            found = self.signature()
        return found

    def signature(self):
        token, found = self.next(), None
        if token == "sig":
            found = self.specifications(("end",))
            self.skip("end")
        elif is_name(token):
            self.use(SIGNATURE, token)
            found = (SIGNATURE, token)
        while self.peek() == "where" or self.peek() == "and" and self.peek(1) == "type":
            self.at += 1
            if self.skip("type"):
                self.type_variables()
                self.at += 1
            self.skip("=")
            self.words(DECLARES | SPECIFIES | {"where", "and", "end", ")", ";", "in", "="})
        return found

    def specifications(self, closing):
        shape = Shape()
        self.scopes.append(shape)
        while self.peek() is not None and self.peek() not in closing:
            token = self.next()
            if token in (STRUCTURE, FUNCTOR):
                self.modules(token, shape)
            elif token == "include":
                while self.peek() == "sig" or is_name(self.peek()):
                    shape.opened.append(self.signature())
            elif token in ("datatype", "type", "eqtype"):
                self.types(shape, token == "datatype")
            elif token in ("val", "exception"):
                while is_name(self.peek()):
                    shape.bound[WORD].add(self.next())
                    self.words(SPECIFIES | set(closing) | {"and", ";"})
                    self.skip("and")
            elif token == "sharing":
                # (names of what is specified here)
                while self.peek() is not None and self.peek() not in SPECIFIES - {"type"} | set(closing) | {";"}:
                    if self.peek() == "type" and self.peek(-1) != "sharing":
                        break
                    self.at += 1
        self.scopes.pop()
        return shape

    # the core

    def type_variables(self):
        if self.peek() == "(" and self.peek(1) is not None and self.peek(1).startswith("'"):
            while self.next() not in (")", None):
                pass
        while self.peek() is not None and self.peek().startswith("'"):
            self.at += 1

    def words(self, stop):
        """Types, or what else has no declarations within."""
        while self.peek() is not None and self.peek() not in stop:
            token = self.next()
            if token in CLOSING:
                self.words({CLOSING[token]})
                self.at += 1
            elif is_name(token):
                self.use(WORD, token)

    def types(self, shape, has_constructors):
        stop = DECLARES | SPECIFIES | {"and", "withtype", "with", "in", "end", ")", ";"}
        while True:
            self.type_variables()
            if not is_name(self.peek()):
                return
            shape.bound[WORD].add(self.next())
            if self.peek() == "=" and self.peek(1) == "datatype":
                self.at += 2
                if is_name(self.peek()):
                    shape.replicated.append(self.peek())
                    self.use(WORD, self.next())
            elif self.skip("=") and has_constructors:
                self.constructors(shape, stop | {"|"})
            else:
                self.words(stop)
            if self.peek() not in ("and", "withtype"):
                return
            has_constructors = self.next() == "and" and has_constructors

    def constructors(self, shape, stop):
        while True:
            self.skip("op")
            if is_name(self.peek()):
                self.bind_constructor(shape)
            self.words(stop)
            if not self.skip("|"):
                return

    def bind_constructor(self, shape):
        name = self.next()
        shape.bound[WORD].add(name)
        shape.bound[CONSTRUCTOR].add(name)

    def exceptions(self, shape):
        while is_name(self.peek()) or self.peek() == "op":
            self.skip("op")
            self.bind_constructor(shape)
            self.words(DECLARES | {"and", "in", "end", ")", ";"})
            if not self.skip("and"):
                return

    def values(self, shape):
        self.type_variables()
        bound, is_recursive = set(), False
        while True:
            is_recursive = self.skip("rec") or is_recursive
            new = self.pattern(("=",))
            if is_recursive:
                shape.bound[WORD] |= new
            bound |= new
            self.skip("=")
            self.expression(())
            if not self.skip("and"):
                break
        shape.bound[WORD] |= bound

    def functions(self, shape):
        self.type_variables()
        while True:
            shape.bound[WORD].add(self.function_name())
            local = Shape()
            local.bound[WORD] |= self.pattern(("=",), is_head=True)
            self.skip("=")
            self.expression((), local, is_head=True)
            if not self.skip("and"):
                return

    def function_name(self):
        first, second, third = self.peek(), self.peek(1), self.peek(2)
        if first == "op":
            return second
        if first == "(":
            inside = self.tokens[self.at + 1:self.at + 40]
            return next((it for it in inside if it in self.infix or is_symbolic(it)), None)
        if is_name(second) and (is_symbolic(second) or second in self.infix) and third not in ("=", None):
            return second
        return first

    def pattern(self, stop, is_head=False):
        """Passes a pattern or the head of a clause, and gives its variables."""
        start, depth = self.at, 0
        while self.peek() is not None and (depth or self.peek() not in stop):
            if self.peek() in DECLARES | {"end", "in"} or not depth and self.peek() in (")", "]", "}"):
                break
            depth += (self.peek() in CLOSING) - (self.peek() in (")", "]", "}"))
            self.at += 1
        tokens = self.tokens[start:self.at]
        bound = variables_of(tokens, self.infix, is_head)
        for token in tokens:
            if is_name(token):
                self.use(CONSTRUCTOR if token in bound else WORD, token)
        self.source.patterns |= bound
        return bound

    def expression(self, stop, local=None, is_head=False):
        """An expression up to what can't be a part of it; `local` has the variables of its patterns."""
        local = Shape() if local is None else local
        self.scopes.append(local)
        while self.peek() is not None and self.peek() not in DECLARES and self.peek() not in stop:
            token = self.peek()
            if token in ("and", "in", "end", "with", "withtype", ")", "]", "}", ",") or token == ";" and ";" not in stop:
                break
            self.at += 1
            if token == "let":
                self.scopes.append(self.declarations(("in",)))
                self.skip("in")
                self.sequence("end")
                self.scopes.pop()
            elif token in CLOSING:
                self.sequence(CLOSING[token])
            elif token in ("fn", "|", "handle", "of"):
                if token == "|":
                    local.bound[WORD] = set()
                local.bound[WORD] |= self.pattern(("=>",) if token == "of" else ("=>", "="), is_head and token == "|")
            elif is_name(token):
                self.use(WORD, token)
        self.scopes.pop()

    def sequence(self, closing):
        while self.peek() is not None and self.peek() != closing:
            before = self.at
            self.expression(())
            if self.peek() in (",", ";"):
                self.at += 1
            elif self.at == before and self.peek() != closing:
                return
        self.at += 1


def scan(text):
    return Scanner(text).whole()
