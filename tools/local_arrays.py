"""Holds draw and refresh to "no local array but copies of the record's" (document 02, [3]).

    python3 mir_text.py FOLDER KIT ROOT .. | python3 local_arrays.py ROOT ..

follows every call from the functions named and prints the functions it went through, each with the arrays among its locals. A local
array may be: inside a value of the record's own types; a copy of an array field of such a value; or the array that such a value is
made of. Anything else, and a call that cannot be followed, is a fault: exit status 1. Text that it cannot read: exit status 2."""
import sys

from mir import Unreadable, items, pair, places, program, statements, text_of

RECORD = "board::record::Board"
SCALARS = {"tyInt", "tyFloat", "tyBool", "tyUnit", "tyPtr", "tyRef"}


def parts(type_, types):
    """The types that a type holds in itself, as (owner, field's number, type); none for what it only points to."""
    head = type_ if isinstance(type_, str) else type_[0]
    if head in SCALARS or head == "tyArray":
        return []
    if head == "tyStruct":
        return [(None, at, part) for at, part in enumerate(items(type_[2], "tcons", "tnil"))]
    if head == "tyEnum":
        return [(None, at, part) for case in items(type_[2], "ttcons", "ttnil") for at, part in enumerate(items(case, "tcons", "tnil"))]
    if head != "tyNamed":
        raise Unreadable("a type that is not known: %s" % str(type_)[:80])
    name, _ = pair(type_[1])
    meaning = types[name]
    if meaning[0] == "fields":
        return [(name, at, part) for at, part in enumerate(items(meaning[1], "tcons", "tnil"))]
    if meaning[0] == "variants":
        cases = [items(case, "tcons", "tnil") for case in items(meaning[1], "ttcons", "ttnil")]
        return [(name, at, part) for case in cases for at, part in enumerate(case)]
    raise Unreadable("a type that is not known: %s" % str(meaning)[:80])


def is_array(type_):
    return type_[0] == "tyArray"


def arrays_in(type_, types):
    """The arrays that a type holds, as (owner, field's number, array)."""
    found, rest = [], parts(type_, types)
    while rest:
        owner, at, part = rest.pop()
        if is_array(part):
            found.append((owner, at, part))
        else:
            rest.extend(parts(part, types))
    return found


def written(type_):
    """An array type as it is written in the code."""
    if not (is_array(type_) and type_[1][0] == "tyInt" and type_[2][0] == "lenLit"):
        return str(type_)
    return "[u%s; %s]" % (type_[1][1], type_[2][1])


class Walk:
    """What is known of a program: the record's array fields, and the faults found."""

    def __init__(self, functions, types):
        self.functions = functions
        self.types = types
        if RECORD not in types:
            raise Unreadable("no type %s" % RECORD)
        self.fields = {(owner, at): array for owner, at, array in arrays_in(["tyNamed", ["pair", '"%s"' % RECORD, "lnil"]], types)}
        self.faults = []

    def type_at(self, function, place):
        """The type of a place, and the field of a named type that it is, if it is one."""
        type_, field = function.locals[int(place[1])], None
        for step in items(place[2]):
            if step[0] == "deref":
                type_, field = step[1], None
            elif step[0] == "field":
                owner, at, type_ = parts(type_, self.types)[int(step[1])]
                field = (owner, at)
            else:
                return None, None
        return type_, field

    def is_record_array(self, function, place):
        """Whether a place is an array field of a value of the record's types."""
        return self.type_at(function, place)[1] in self.fields

    def array_local(self, function, number):
        """Why an array among the locals is the record's; none if it is not."""
        whole = ["place", str(number), "lnil"]
        sources, uses, mentions = [], [], 0
        for node in statements(function.body):
            if node[0] == "call" and node[3][1] == str(number):
                return None
            if node[0] == "assign" and node[1] == whole:
                sources.append(node[2])
            mentions += sum(1 for place in places(node[2]) if place[1] == str(number))
            if node[0] == "assign" and node[2][0] == "aggregate":
                uses += self.uses_in(function, node, whole)
        if sources and all(s[0] == "rvOpd" and s[1][0] == "copy" and self.is_record_array(function, s[1][1]) for s in sources):
            return "a copy of the record's"
        if sources and all(s[0] == "aggregate" for s in sources) and uses and all(uses) and len(uses) == mentions:
            return "made to be the record's"
        return None

    def uses_in(self, function, node, whole):
        """For each time that a value is made with the local: whether it becomes the record's array field."""
        type_, _ = self.type_at(function, node[1])
        named = pair(type_[1])[0] if type_ is not None and type_[0] == "tyNamed" else None
        return [(named, at) in self.fields for at, operand in enumerate(items(node[2][1])) if operand == ["copy", whole]]

    def check(self, function):
        """The arrays among a function's locals, one line for each; faults are kept."""
        lines = []
        for number, type_ in enumerate(function.locals):
            if is_array(type_):
                why = self.array_local(function, number)
                lines.append("%s, %s" % (written(type_), why or "NOT THE RECORD'S"))
                if why is None:
                    self.faults.append("%s has a local array %s" % (function.name, written(type_)))
            else:
                for owner, at, array in arrays_in(type_, self.types):
                    if (owner, at) not in self.fields:
                        lines.append("%s in a value, NOT THE RECORD'S" % written(array))
                        self.faults.append("%s has a local array %s inside a value" % (function.name, written(array)))
        return lines

    def calls(self, function):
        """The functions that a function calls. A call that cannot be followed is a fault."""
        found = []
        for node in statements(function.body):
            if node[0] != "call":
                continue
            if node[1][0] != "direct" or node[1][1][0] != "fnRef":
                self.faults.append("%s makes a call that cannot be followed: %s" % (function.name, str(node[1])[:80]))
                continue
            name = text_of(node[1][1][1])
            if name not in self.functions:
                self.faults.append("%s calls %s, whose body is not here" % (function.name, name))
            elif name not in found:
                found.append(name)
        return found

    def follow(self, roots):
        """Goes through all that the roots call, and gives the lines to print."""
        lines, seen, rest = [], set(), list(reversed(roots))
        for root in roots:
            if root not in self.functions:
                self.faults.append("there is no function %s" % root)
        while rest:
            name = rest.pop()
            if name in seen or name not in self.functions:
                continue
            seen.add(name)
            function = self.functions[name]
            lines.append(name)
            lines += ["    " + line for line in sorted(set(self.check(function)))]
            rest += reversed(self.calls(function))
        return lines


def main(roots, text):
    try:
        walk = Walk(*program(text))
        lines = walk.follow(roots)
    except (Unreadable, IndexError, KeyError, TypeError) as error:
        print("local_arrays: this is not read: %r" % error, file=sys.stderr)
        return 2
    print("\n".join(lines))
    for fault in walk.faults:
        print("fault: " + fault)
    count = sum(1 for line in lines if not line.startswith(" "))
    print("%d functions gone through from %s: %s" % (count, ", ".join(roots), "%d faults" % len(walk.faults) if walk.faults else "no local array but the record's"))
    return 1 if walk.faults else 0


if __name__ == "__main__":
    sys.exit(main(sys.argv[1:], sys.stdin.read()))
