"""A small reader of programs, for messages and outlines. The program itself reads and judges; this only points.

It reads as far as the text goes well, so it gives what stands before a slip, and what was wanted at it. Places are
bytes of the text, counted from 0, as in the program's own messages.
"""
import re
from typing import Dict, List, NamedTuple, Optional, Tuple

RESERVED = frozenset(
    "chares var entry body serial when overlap for while if else send to bytes work emit repeat this".split()
)
TOKEN = re.compile(
    r"[ \t\r\n]+|//[^\n]*|(?P<name>[A-Za-z_][A-Za-z0-9_]*)|(?P<number>[0-9]+)"
    r"|(?P<mark>==|!=|<=|>=|&&|\|\||[{}()\[\];,=<>+\-*/%!])|(?P<bad>.)",
    re.S,
)
COMPARISONS = ("==", "!=", "<", "<=", ">", ">=")
OPERATORS = frozenset(("||", "&&", "+", "-", "*", "/", "%") + COMPARISONS)
MOST_OPEN = 64
MOST_STATEMENTS = 10_000


class Token(NamedTuple):
    """A token: its kind (`name`, `word`, `number`, `mark`, `bad` or `end`), its text, and its bytes."""

    kind: str
    text: str
    start: int
    end: int


class Use(NamedTuple):
    """A name as a statement uses it: as a `scalar`, an `array` or an `entry`."""

    role: str
    token: Token
    is_written: bool


class Call(NamedTuple):
    """A message or a wait, with the number of its arguments."""

    entry: Token
    arguments: int


class Declaration(NamedTuple):
    """A declaration: its role as in Use, its name, and its number (of cells or parameters; a scalar has 1)."""

    role: str
    name: Token
    number: int


class Statement:
    """A statement: its number from 1, its kind, how deep it stands from 0, and where its head begins and ends."""

    def __init__(self, number, kind, depth, start):
        self.number, self.kind, self.depth, self.start = number, kind, depth, start
        self.end = start
        self.uses: List[Use] = []
        self.calls: List[Call] = []
        self.parts: List["Statement"] = []

    def all_uses(self):
        """The uses of the statement and of those inside it."""
        found = list(self.uses)
        for part in self.parts:
            found += part.all_uses()
        return found


class Fault(NamedTuple):
    """The first token that doesn't fit: its index, what was wanted there, and what was being read."""

    index: int
    wanted: Tuple[str, ...]
    reading: str


class Program(NamedTuple):
    """What was read of a text, up to its end or its first fault."""

    tokens: List[Token]
    chares: Optional[Token]
    declarations: List[Declaration]
    statements: List[Statement]
    fault: Optional[Fault]

    def declared(self, role) -> Dict[str, Declaration]:
        """The declarations of a role by their names."""
        return {it.name.text: it for it in self.declarations if it.role == role}

    def variables(self) -> List[str]:
        """The names of the variables by their numbers."""
        return [it.name.text for it in self.declarations if it.role != "entry"]

    def entries(self) -> List[str]:
        """The names of the entries by their numbers."""
        return [it.name.text for it in self.declarations if it.role == "entry"]


def read_tokens(data: bytes) -> List[Token]:
    """The tokens of a text. What is none becomes a token of the kind `bad`, a byte long."""
    # (so each byte is a character, and places are bytes)
    text = data.decode("latin-1")
    found = []
    for match in TOKEN.finditer(text):
        kind = match.lastgroup
        if kind is None:
            continue
        word = match.group()
        kind = "word" if kind == "name" and word in RESERVED else kind
        found.append(Token(kind, word, match.start(), match.end()))
    found.append(Token("end", "", len(text), len(text)))
    return found


def read(data: bytes) -> Program:
    """Reads a text as far as it goes well."""
    return Reader(read_tokens(data)).program()


class Unexpected(Exception):
    """A token that doesn't fit."""

    def __init__(self, fault):
        super().__init__(fault)
        self.fault = fault


class Reader:
    """Reads a program from left to right, one call for each rule of the grammar."""

    def __init__(self, tokens):
        self.tokens, self.at, self.open = tokens, 0, 0
        self.reading = "the beginning"
        self.chares = None
        self.declarations: List[Declaration] = []
        self.statements: List[Statement] = []
        self.inside: Optional[Statement] = None

    # Steps.

    @property
    def token(self):
        """The token that comes next."""
        return self.tokens[self.at]

    def sees(self, *texts):
        """Whether the next token is one of these marks or reserved words."""
        return self.token.text in texts and self.token.kind in ("mark", "word")

    def take(self):
        """Takes the next token."""
        token = self.token
        self.at += 1
        return token

    def stop(self, *wanted):
        """Stops at the next token."""
        raise Unexpected(Fault(self.at, wanted, self.reading))

    def want(self, *texts):
        """Takes one of these marks or reserved words."""
        if not self.sees(*texts):
            self.stop(*texts)
        return self.take()

    def want_kind(self, kind):
        """Takes a name or a number."""
        if self.token.kind != kind:
            self.stop(kind)
        return self.take()

    def opens(self, text):
        """Takes an opening bracket."""
        if self.sees(text) and self.open == MOST_OPEN:
            self.stop("fewer brackets")
        self.want(text)
        self.open += 1

    def closes(self, text, *others):
        """Takes the bracket that closes."""
        if not self.sees(text):
            self.stop(text, *others)
        self.take()
        self.open -= 1

    # The program.

    def program(self):
        """Reads the whole text."""
        fault = None
        try:
            self.whole()
        except Unexpected as it:
            fault = it.fault
        return Program(self.tokens, self.chares, self.declarations, self.statements, fault)

    def whole(self):
        """`chares N;`, the variables, the entries and the body."""
        self.want("chares")
        self.reading = "chares"
        self.chares = self.want_kind("number")
        self.want(";")
        while self.sees("var"):
            self.variable()
        self.reading = "declarations"
        while self.sees("entry"):
            self.entry()
        self.reading = "entries" if any(it.role == "entry" for it in self.declarations) else "declarations"
        if not self.sees("body"):
            self.stop(*(["var"] if self.reading == "declarations" else []), "entry", "body")
        self.take()
        self.reading = "body"
        self.block(0, None)
        self.reading = "the end"
        if self.token.kind != "end":
            self.stop("the end")

    def variable(self):
        """`var x;` or `var a[N];`"""
        self.take()
        self.reading = "var"
        name, role, number = self.want_kind("name"), "scalar", 1
        if self.sees("["):
            self.opens("[")
            role, number = "array", int(self.want_kind("number").text[:20])
            self.closes("]")
        elif not self.sees(";"):
            self.stop(";", "[")
        self.want(";")
        self.declarations.append(Declaration(role, name, number))

    def entry(self):
        """`entry e(N);`"""
        self.take()
        self.reading = "entry"
        name = self.want_kind("name")
        self.opens("(")
        number = int(self.want_kind("number").text[:20])
        self.closes(")")
        self.want(";")
        self.declarations.append(Declaration("entry", name, number))

    # Statements.

    def block(self, depth, parts):
        """Statements in braces."""
        self.opens("{")
        while not self.sees("}"):
            statement = self.statement(depth)
            if parts is not None:
                parts.append(statement)
            self.reading = "statements"
        self.closes("}")

    def statement(self, depth):
        """One statement, with those inside it."""
        if not self.sees("serial", "when", "overlap", "for", "while", "if", "{"):
            self.reading = "statements"
            self.stop("statement", "}")
        if len(self.statements) == MOST_STATEMENTS:
            self.stop("fewer statements")
        kind = "block" if self.sees("{") else self.token.text
        made = Statement(len(self.statements) + 1, kind, depth, self.token.start)
        self.statements.append(made)
        outer, self.inside = self.inside, made
        if kind != "block":
            self.take()
        getattr(self, "read_" + kind)(made)
        self.inside = outer
        return made

    def head_ends(self, made):
        """Notes where the head of a statement ends: behind the last token."""
        made.end = self.tokens[self.at - 1].end

    def read_block(self, made):
        """Braces that stand as a statement."""
        made.end = self.token.end
        self.block(made.depth + 1, made.parts)

    def read_serial(self, made):
        """`serial { .. }`"""
        self.acts()
        self.head_ends(made)

    def read_when(self, made):
        """`when e[r](x), .. { .. }`"""
        self.reading = "when"
        self.wait(made)
        while self.sees(","):
            self.take()
            self.wait(made)
        self.head_ends(made)
        if not self.sees("{"):
            self.stop("{", ",")
        self.block(made.depth + 1, made.parts)

    def wait(self, made):
        """`e[r](x, ..)`"""
        entry = self.want_kind("name")
        made.uses.append(Use("entry", entry, False))
        self.index()
        self.opens("(")
        count = 0
        while not self.sees(")"):
            made.uses.append(Use("scalar", self.want_kind("name"), True))
            count += 1
            if not self.sees(")"):
                if not self.sees(","):
                    self.stop(")", ",")
                self.take()
                if self.sees(")"):
                    self.stop("name")
        self.closes(")")
        made.calls.append(Call(entry, count))

    def read_overlap(self, made):
        """`overlap { .. }`"""
        self.reading = "overlap"
        self.head_ends(made)
        self.block(made.depth + 1, made.parts)

    def read_for(self, made):
        """`for (x = e; e; x = e) { .. }`"""
        self.reading = "for"
        self.opens("(")
        self.assign_scalar(made)
        self.want(";")
        self.expression()
        self.want(";")
        self.assign_scalar(made)
        self.closes(")")
        self.head_ends(made)
        self.block(made.depth + 1, made.parts)

    def assign_scalar(self, made):
        """`x = e` of a loop's head."""
        made.uses.append(Use("scalar", self.want_kind("name"), True))
        self.want("=")
        self.expression()

    def read_while(self, made):
        """`while (e) { .. }`"""
        self.reading = "while"
        self.test()
        self.head_ends(made)
        self.block(made.depth + 1, made.parts)

    def read_if(self, made):
        """`if (e) { .. } else { .. }`"""
        self.reading = "if"
        self.test()
        self.head_ends(made)
        self.block(made.depth + 1, made.parts)
        if self.sees("else"):
            self.take()
            self.reading = "else"
            self.block(made.depth + 1, made.parts)

    def test(self):
        """`(e)`"""
        self.opens("(")
        self.expression()
        self.closes(")")

    # Acts.

    def acts(self):
        """Acts in braces."""
        self.opens("{")
        while not self.sees("}"):
            self.act()
        self.closes("}")

    def act(self):
        """One act."""
        self.reading = "acts"
        if self.token.kind == "name":
            self.assign()
        elif self.sees("send"):
            self.send()
        elif self.sees("work", "emit"):
            self.reading = self.take().text
            self.expression()
            self.want(";")
        elif self.sees("if"):
            self.take()
            self.reading = "if"
            self.test()
            self.acts()
            if self.sees("else"):
                self.take()
                self.reading = "else"
                self.acts()
        elif self.sees("repeat"):
            self.take()
            self.reading = "repeat"
            self.expression()
            self.acts()
        else:
            self.stop("act", "}")

    def assign(self):
        """`x = e;` or `a[i] = e;`"""
        name = self.take()
        self.reading = "assign"
        is_cell = self.sees("[")
        self.inside.uses.append(Use("array" if is_cell else "scalar", name, True))
        if is_cell:
            self.index()
        if not self.sees("="):
            self.stop("=", *([] if is_cell else ["["]))
        self.take()
        self.expression()
        self.want(";")

    def send(self):
        """`send e[r](..) to e bytes e;`"""
        self.take()
        self.reading = "send"
        entry = self.want_kind("name")
        self.inside.uses.append(Use("entry", entry, False))
        self.index()
        self.opens("(")
        count = 0
        while not self.sees(")"):
            self.expression()
            count += 1
            if not self.sees(")"):
                if not self.sees(","):
                    self.stop(")", ",")
                self.take()
                if self.sees(")"):
                    self.stop("expression")
        self.closes(")")
        self.inside.calls.append(Call(entry, count))
        self.want("to")
        self.expression()
        if self.sees("bytes"):
            self.take()
            self.expression()
        self.want(";")

    def index(self):
        """`[e]`"""
        self.opens("[")
        self.expression()
        self.closes("]")

    # Expressions.

    def expression(self):
        """Operands and operators. Two comparisons in one need parentheses."""
        has_compared, operators = False, 0
        self.operand()
        while self.token.kind == "mark" and self.token.text in OPERATORS:
            text = self.token.text
            if text in COMPARISONS and has_compared:
                self.stop("one comparison")
            has_compared = (has_compared or text in COMPARISONS) and text not in ("&&", "||")
            operators += 1
            self.take()
            self.operand()

    def operand(self):
        """A number, a name, a cell, or an expression in parentheses, with at most one sign."""
        if self.sees("-", "!"):
            self.take()
        if self.token.kind == "number" or self.sees("this", "chares"):
            self.take()
        elif self.sees("("):
            self.opens("(")
            self.expression()
            self.closes(")")
        elif self.token.kind == "name":
            name = self.take()
            is_cell = self.sees("[")
            if self.inside is not None:
                self.inside.uses.append(Use("array" if is_cell else "scalar", name, False))
            if is_cell:
                self.index()
        else:
            self.stop("expression")
