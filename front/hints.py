"""What was wanted at the first fault of a program, in words, where that can be known."""
from front.syntax import COMPARISONS, RESERVED

TYPES = frozenset("int long short unsigned float double bool char size_t auto let const i64 u64 i32 u32".split())
NAMES = {
    "name": "a name",
    "number": "a number",
    "expression": "a value",
    "statement": "a statement",
    "act": "an act",
    "the end": "the end of the text",
}
AN_ACT = "an act is an assignment, 'send', 'work', 'emit', 'if' or 'repeat'"
A_STATEMENT = "a statement is 'serial', 'when', 'overlap', 'for', 'while', 'if' or a block in braces"
ACTS = ("send", "work", "emit", "repeat")
STATEMENTS = ("serial", "when", "overlap", "for", "while")


def spelled(wanted):
    """A list of what was wanted, in words."""
    words = [NAMES.get(it, f"'{it}'") for it in wanted]
    return words[0] if len(words) == 1 else ", ".join(words[:-1]) + " or " + words[-1]


def hint(program):
    """What was wanted at the first fault of a program that was read, as a line, or None where that isn't known."""
    fault = program.fault
    if fault is None:
        return None
    for special in (at_the_end, of_declarations, of_operators, of_statements, of_acts, of_brackets):
        found = special(program.tokens, fault)
        if found:
            return found
    return generally(program.tokens, fault)


def around(tokens, index):
    """The texts of the token before, the token itself and the one behind it."""
    before = tokens[index - 1].text if index else ""
    behind = tokens[index + 1].text if index + 1 < len(tokens) else ""
    return before, tokens[index].text, behind


def generally(tokens, fault):
    """The plain form: what was wanted, and behind what."""
    before, text, _ = around(tokens, fault.index)
    if "one comparison" in fault.wanted:
        return "two comparisons in one need parentheses, as (a < b) == c"
    if any(it.startswith("fewer") for it in fault.wanted):
        return None
    wanted = spelled(fault.wanted)
    found = f", and not '{text}'" if text else ""
    return f"{wanted} is wanted behind '{before}'{found}" if before else f"{wanted} is wanted here{found}"


def at_the_end(tokens, fault):
    """The text ends too soon, or goes on behind its end."""
    token = tokens[fault.index]
    if fault.reading == "the end":
        return "the body ends before this, and nothing may follow it: is there one '}' too many?"
    if token.kind == "end" and fault.reading != "the beginning":
        return f"the text ends too soon: {spelled(fault.wanted)} is wanted"
    return None


def never_closed(program):
    """The innermost bracket that is still open where the text ends too soon, or None."""
    fault = program.fault
    if fault is None or program.tokens[fault.index].kind != "end":
        return None
    waiting = []
    for token in program.tokens:
        if token.kind == "mark" and token.text in "{([":
            waiting.append(token)
        elif token.kind == "mark" and token.text in "})]" and waiting:
            waiting.pop()
    return waiting[-1] if waiting else None


def of_declarations(tokens, fault):
    """Slips before the body."""
    before, text, behind = around(tokens, fault.index)
    reading = fault.reading
    if reading == "the beginning":
        return "a program begins with the number of its chares, as 'chares 4;'"
    if reading == "chares" and "number" in fault.wanted:
        return "the number of chares is a plain number, as 'chares 4;'"
    if reading == "entries" and text == "var":
        return "all variables stand before the entries: move this 'var' up"
    if reading in ("declarations", "entries") and (text in TYPES or behind and tokens[fault.index].kind == "name"):
        return "a variable is declared as 'var x;', an array as 'var a[10];', an entry as 'entry e(1);'"
    if reading == "var" and text == ",":
        return "each variable has a declaration of its own, as 'var x; var y;'"
    if reading == "var" and text == "=":
        return "a variable begins as 0, and is given another value by an act inside 'serial { }'"
    if reading == "var" and before == "[":
        return "an array has a plain number of cells, as 'var a[10];'"
    if reading == "entry" and text in (";", "[", "{"):
        return "an entry says how many parameters it has, as 'entry e(1);'"
    if reading == "entry" and "number" in fault.wanted:
        return "an entry has the number of its parameters and no names, as 'entry e(2);'"
    return of_names(tokens, fault)


def of_names(tokens, fault):
    """A reserved word in the place of a name."""
    text = tokens[fault.index].text
    if "name" in fault.wanted and text in RESERVED:
        return f"'{text}' is a word of the language, and no name"
    return None


def of_operators(tokens, fault):
    """Operators of other languages."""
    before, text, behind = around(tokens, fault.index)
    following = tokens[fault.index + 2].text if fault.index + 2 < len(tokens) else ""
    name = before if before and tokens[fault.index - 1].kind == "name" else "x"
    if text in ("+", "-") and behind == text and "=" in fault.wanted:
        return f"there is no '{text}{text}': write {name} = {name} {text} 1"
    if text in ("+", "-") and before == text and following in (")", ";", "="):
        return f"there is no '{text}{text}'"
    if text in ("+", "-", "*", "/", "%") and behind == "=" and "=" in fault.wanted:
        return f"there is no '{text}=': write {name} = {name} {text} .."
    if text == "=" and before in ("<", ">", "=", "!", *COMPARISONS):
        return "comparisons are ==, !=, <, <=, > and >="
    if text == "=" and fault.reading in ("if", "while", "for"):
        return "a test for the same value is '=='"
    if text == "==" and "=" in fault.wanted:
        return "an assignment has one '='"
    if text in ("-", "!") and before in ("-", "!"):
        return "two signs in a row need parentheses, as -(-x)"
    if text in ("/", "*") and behind == "*" or text == "*" and before == "/":
        return "a comment begins with // and goes to the end of its line"
    return None


def of_statements(tokens, fault):
    """Slips where a statement is wanted, and in its head."""
    _, text, behind = around(tokens, fault.index)
    if "statement" in fault.wanted:
        if text in TYPES or text in ("var", "entry"):
            return "declarations stand at the beginning, before 'body'"
        if text == "else":
            return "there is no 'if' before this 'else'"
        if text in ACTS or behind in ("=", "[", "+", "-") and tokens[fault.index].kind == "name":
            return "acts stand inside 'serial { }'"
        if text == ";":
            return "no ';' stands behind a statement"
        return A_STATEMENT
    if fault.reading == "when" and text == "(" and "[" in fault.wanted:
        return "a wait names the reference number of its message, as 'when e[0](x)'"
    if fault.reading == "when" and text in ("&&", "and"):
        return "the waits of a 'when' are separated by commas"
    if fault.reading == "when" and "name" in fault.wanted and tokens[fault.index].kind == "number":
        return "what a message brings goes to variables"
    if fault.reading == "else" and text == "if":
        return "'else' has its acts or statements in braces: 'else { if (..) { } }'"
    if fault.reading == "for" and text in TYPES:
        return "the variable of a loop is declared at the beginning, as 'var i;'"
    if text == ";" and "(" in fault.wanted:
        return f"'(' is wanted behind '{tokens[fault.index - 1].text}'"
    return None


def of_acts(tokens, fault):
    """Slips where an act is wanted, and inside it."""
    before, text, behind = around(tokens, fault.index)
    if "act" in fault.wanted:
        if text in TYPES or text in ("var", "entry"):
            return "declarations stand at the beginning, before 'body'"
        if text in ("for", "while"):
            return "inside 'serial { }' the loop is 'repeat N { .. }'"
        if text in STATEMENTS or text in ("overlap", "{"):
            return f"a statement can't stand inside 'serial {{ }}': {AN_ACT}"
        return AN_ACT
    if fault.reading == "assign" and "=" in fault.wanted and text == "(":
        return f"there are no functions to call: a message is sent by 'send {before}[0](..) to ..;'"
    if fault.reading == "assign" and "=" in fault.wanted:
        word = tokens[fault.index - 1].text
        if word in TYPES:
            return "declarations stand at the beginning, before 'body': 'var x;'"
        return f"'=' is wanted behind '{word}'; {AN_ACT}"
    if fault.reading == "send" and text == "(" and "[" in fault.wanted:
        return "a message has a reference number, as 'send e[0](x) to 1;'"
    if fault.reading == "send" and "to" in fault.wanted:
        return "'send e[r](..)' goes on with 'to' and the number of a chare"
    if fault.reading in ("if", "else", "repeat") and "{" in fault.wanted:
        return f"what belongs to '{fault.reading}' stands in braces, even where it is a single act"
    return None


def of_brackets(tokens, fault):
    """What is missing at the end of an expression."""
    before, _, _ = around(tokens, fault.index)
    if fault.wanted == (";",):
        return f"a ';' is missing behind '{before}'"
    if fault.wanted and fault.wanted[0] in (")", "]"):
        return f"a '{fault.wanted[0]}' is missing behind '{before}'"
    return None


def of_characters(data, byte):
    """What a character means that is no part of the language."""
    found = data[byte:byte + 4]
    first = found[:1]
    if first in (b"&", b"|"):
        sign = first.decode()
        return f"'and' is '&&', and 'or' is '||': there is no single '{sign}'"
    if first == b"#":
        return "a comment begins with //"
    if first in (b'"', b"'"):
        return "there are no texts, only whole numbers"
    if first == b".":
        return "there are whole numbers only, and no dots"
    if first in (b"?", b":"):
        return "there is no '?:': write 'if (..) { .. } else { .. }'"
    if found.startswith(b"\xef\xbb\xbf"):
        return "a byte order mark stands here: save the file as UTF-8 without one"
    if first in (b"^", b"~"):
        return "there are no operators on bits"
    return "no blank, comment or token begins with this character"


def of_numbers(token):
    """Why a number is none."""
    if len(token.text) > 1 and token.text[0] == "0":
        return "a number has no needless 0 in front"
    return "the greatest number is 9223372036854775807"
