"""Reads what mir_text.py prints: functions of the crates, as the compiler has read
them. One expression, `program FUNCTIONS MAIN`, of words, strings in quotes and brackets; a list is `lcons HEAD TAIL` and `lnil`."""
import re

WORD = re.compile(r'[()]|"[^"]*"|[^\s()"]+')


class Unreadable(Exception):
    """The text has a form that this reader does not know. Nothing is passed over in silence."""


class Function:
    """A function's name, the types of its locals (the result first, then the parameters) and its body."""

    def __init__(self, name, locals_, body):
        self.name = name
        self.locals = locals_
        self.body = body


def expression(text):
    """The text as nested lists, with a loop: lists are nested as deep as they are long."""
    top = []
    open_ = [top]
    for word in WORD.findall(text):
        if word == "(":
            inner = []
            open_[-1].append(inner)
            open_.append(inner)
        elif word == ")":
            open_.pop()
            if not open_:
                raise Unreadable("a bracket that closes nothing")
        else:
            open_[-1].append(word)
    if len(open_) != 1:
        raise Unreadable("a bracket that is not closed")
    return top


def items(list_, cons="lcons", nil="lnil"):
    """The items of a list."""
    found = []
    while list_ != nil:
        if len(list_) != 3 or list_[0] != cons:
            raise Unreadable("no list: %s" % str(list_)[:80])
        found.append(list_[1])
        list_ = list_[2]
    return found


def text_of(word):
    """What stands in quotes."""
    if not (isinstance(word, str) and len(word) >= 2 and word[0] == word[-1] == '"'):
        raise Unreadable("no name: %s" % str(word)[:80])
    return word[1:-1]


def pair(named):
    """A name and what it stands for."""
    if len(named) != 3 or named[0] != "pair":
        raise Unreadable("no pair: %s" % str(named)[:80])
    return text_of(named[1]), named[2]


def function(item):
    """One function, and the named types that it gives with it, if any."""
    if len(item) not in (3, 4) or item[0] != "fn-def" or len(item[2]) != 6 or item[2][0] != "fnItem":
        raise Unreadable("no function: %s" % str(item)[:80])
    locals_ = []
    for local in items(item[2][4]):
        if len(local) != 3 or local[0] != "local":
            raise Unreadable("no local: %s" % str(local)[:80])
        locals_.append(local[1])
    return Function(text_of(item[1]), locals_, item[2][5]), dict(pair(named) for named in items((item + ["lnil"])[3]))


def program(text):
    """All functions by name, and all named types by name."""
    whole = expression(text)
    if len(whole) != 3 or whole[0] != "program":
        raise Unreadable("no program")
    functions, types = {}, {}
    for item in items(whole[1]):
        found, named = function(item)
        for name, meaning in named.items():
            if types.setdefault(name, meaning) != meaning:
                raise Unreadable("two types %s" % name)
        if found.name in functions:
            raise Unreadable("two functions %s" % found.name)
        functions[found.name] = found
    return functions, types


# Statements by how many of their parts, the last ones, are statements again.
INNER = {"seq": 2, "block": 1, "loop": 1, "if": 2, "switch": 1, "arm": 2, "default": 1, "exit": 0}
VALUES = {"rvOpd", "op1", "op2", "addrOf", "aggregate", "repeat"}


def statements(body):
    """Every assignment and every call of a body, in order. A statement of another form is not passed over."""
    rest = [body]
    while rest:
        node = rest.pop()
        if node in ("skip", "return", "noDefault"):
            continue
        if node[0] == "call" or (node[0] == "assign" and node[2][0] in VALUES):
            yield node
        elif node[0] in INNER:
            rest.extend(reversed(node[len(node) - INNER[node[0]] :]))
        else:
            raise Unreadable("a statement that is not known: %s" % str(node)[:80])


def places(node):
    """Every place that stands in a statement."""
    rest = [node]
    while rest:
        part = rest.pop()
        if isinstance(part, list):
            if part[0] == "place":
                yield part
            rest.extend(reversed(part))
