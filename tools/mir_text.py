"""Prints functions as the compiler has read them, in the one expression that mir.py reads.

    python3 mir_text.py FOLDER KIT ROOT ..

prints the functions named and all that they call. FOLDER holds crates/, in which `rt lib` has built what is wanted: it keeps each
library's functions in out/rlib, as JSON, a function's body in prefix order. KIT holds rlibs/, the toolchain's own libraries, with theirs.
A generic function or type is printed once for each list of types that it is used at, which then stands in its name. A form that is not
known ends it with exit status 2: nothing is passed over in silence."""
import json
import sys
from pathlib import Path


class Unreadable(Exception):
    """The JSON has a form that this reader does not know."""


def list_of(parts, cons="lcons", nil="lnil"):
    return "".join("(%s %s " % (cons, part) for part in parts) + nil + ")" * len(parts)


def head(node):
    """A form's word, and what stands under it."""
    if isinstance(node, str):
        return node, None
    if isinstance(node, dict) and len(node) == 1:
        return next(iter(node.items()))
    raise Unreadable(str(node)[:80])


def number_of(length):
    """A number that is a length or an argument of a type, as it is written or as it was put in a parameter's place."""
    word, inner = head(length)
    if word not in ("Lit", "Const"):
        raise Unreadable(str(length)[:80])
    return inner


def named(name, types):
    """A name, with the types that what it names is used at."""
    return name + "<%s>" % ", ".join(argument_name(t) for t in types) if types else name


def argument_name(type_):
    """A type or number as it is written in the code; of the less usual types, as it is printed here."""
    word, inner = head(type_)
    if word in ("Lit", "Const"):
        return str(inner)
    if word == "Named":
        return named(inner[0]["name"], inner[1])
    return {"Unit": "()", "Int": "u%s" % inner}.get(word) or type_text(type_).replace('"', "'")


WORDS = {"Bool": "tyBool", "Unit": "tyUnit", "Ptr": "tyPtr"}


def type_text(type_):
    word, inner = head(type_)
    if word in WORDS:
        return WORDS[word]
    if word == "Int":
        return "(tyInt %d)" % inner
    if word == "Float":
        return "(tyFloat %d)" % inner
    if word == "Array":
        return "(tyArray %s (lenLit %d))" % (type_text(inner[0]), number_of(inner[1]))
    if word == "Ref":
        return "(tyRef erased %s %s)" % ("mut" if inner[1] == "Mut" else "imm", type_text(inner[2]))
    if word == "Struct":
        return '(tyStruct "%s" %s)' % (inner[0], list_of([type_text(t) for t in inner[1]], "tcons", "tnil"))
    if word == "Named":
        return '(tyNamed (pair "%s" lnil))' % named(inner[0]["name"], inner[1])
    raise Unreadable(str(type_)[:80])


def shape_text(shape):
    word, inner = head(shape)
    if word == "Fields":
        return "(fields %s)" % list_of([type_text(t) for t in inner], "tcons", "tnil")
    if word == "Variants":
        return "(variants %s)" % list_of([list_of([type_text(t) for t in case], "tcons", "tnil") for case in inner], "ttcons", "ttnil")
    raise Unreadable(str(shape)[:80])


def step_text(step):
    word, inner = head(step)
    if word == "Deref":
        return "(deref %s)" % type_text(inner)
    if word == "Field":
        return "(field %d)" % inner
    if word in ("Index", "Downcast", "Variant"):
        return "(%s)" % word.lower()
    raise Unreadable(str(step)[:80])


def place_text(place):
    return "(place %d %s)" % (place["local"], list_of([step_text(s) for s in place["steps"]]))


def operand_text(operand):
    word, inner = head(operand)
    if word in ("Copy", "Move"):
        return "(copy %s)" % place_text(inner)
    if word == "Int":
        return "(int %d %d)" % (inner["width"], inner["value"])
    if word == "NumOf":
        return "(int %d %d)" % (inner[0], number_of(inner[1]))
    if word == "SizeOf" and head(inner)[0] == "Int":
        return "(int 64 %d)" % (inner["Int"] // 8)
    if word in ("True", "False", "Unit"):
        return word.lower()
    raise Unreadable(str(operand)[:80])


def value_text(value):
    word, inner = head(value)
    if word == "Opd":
        return "(rvOpd %s)" % operand_text(inner)
    if word == "Op1":
        return "(op1 %s)" % operand_text(inner[1])
    if word == "Op2":
        return "(op2 %s %s)" % (operand_text(inner[1]), operand_text(inner[2]))
    if word == "AddrOf":
        return "(addrOf %s)" % place_text(inner)
    if word == "Aggregate":
        return "(aggregate %s)" % list_of([operand_text(o) for o in inner])
    if word == "Repeat":
        return "(repeat %s %d)" % (operand_text(inner[0]), head(inner[1])[1])
    raise Unreadable(str(value)[:80])


def call_text(call):
    callee, inner = head(call[0])
    arguments = list_of([operand_text(o) for o in call[1]])
    if callee == "Fn":
        return '(call (direct (fnRef "%s")) %s %s)' % (named(inner[0], inner[1]["types"]), arguments, place_text(call[2]))
    return "(call (%s) %s %s)" % (callee.lower(), arguments, place_text(call[2]))


def switch_text(inner, parts):
    """A switch and its arms, the last the default, if there is one."""
    text = "(default %s)" % parts.pop() if inner[2] else "noDefault"
    for keys in reversed(inner[1]):
        text = "(arm %s %s %s)" % (list_of(keys), parts.pop(), text)
    return "(switch %s %s)" % (operand_text(inner[0]), text)


LEAVES = {"Return": "return", "Skip": "skip", "Unreachable": "skip"}


def inner_count(word, inner):
    if word == "Switch":
        return len(inner[1]) + (1 if inner[2] else 0)
    return {"Seq": 2, "If": 2, "Block": 1, "Loop": 1}.get(word, 0)


def node_text(word, inner, parts):
    if word == "Switch":
        return switch_text(inner, parts)
    if word == "If":
        return "(if %s %s)" % (operand_text(inner), " ".join(parts))
    if word in ("Seq", "Block", "Loop"):
        return "(%s %s)" % (word.lower(), " ".join(parts))
    if word in LEAVES:
        return LEAVES[word]
    if word == "Exit":
        return "(exit %d)" % inner
    if word == "Assign":
        return "(assign %s %s)" % (place_text(inner[0]), value_text(inner[1]))
    if word == "Call":
        return call_text(inner)
    raise Unreadable("%s %s" % (word, str(inner)[:80]))


def body_text(body):
    """A body, which stands in prefix order: read from its end."""
    stack = []
    for node in reversed(body):
        word, inner = head(node)
        count = inner_count(word, inner)
        if count > len(stack):
            raise Unreadable("a body that is not whole")
        parts = [stack.pop() for _ in range(count)]
        stack.append(node_text(word, inner, parts))
    if len(stack) != 1:
        raise Unreadable("a body that is not whole")
    return stack[0]


class Library:
    """All functions by name, the methods of impls by impl and number, and all named types by name."""

    def __init__(self, folders):
        self.functions, self.methods, self.shapes = {}, {}, {}
        for folder in folders:
            for path in sorted(Path(folder[0]).glob(folder[1])):
                self.read(path.parent.parent.stem, json.loads(path.read_text(encoding="utf-8")))

    def read(self, crate, functions):
        for name, function in functions:
            if name.split("::")[0].split("++")[0] != crate:
                continue
            self.functions[name] = function
            of = function["generics"]["method_of"]
            if isinstance(of, dict) and "Impl" in of:
                self.methods[tuple(of["Impl"])] = name
            for type_ in function["types"]:
                self.shapes.setdefault(type_["name"], type_["shape"])

    def at(self, callee, types, dicts):
        """What a call goes to, with nothing of the caller's parameters left in it."""
        word, inner = head(filled(callee, types, dicts))
        if word == "Fn":
            return {"Fn": inner}
        if word == "Method" and "Impl" in inner[0]:
            impl, own = inner[0]["Impl"], inner[2]
            if (impl[0], inner[1]) in self.methods:
                return {"Fn": [self.methods[impl[0], inner[1]], {"types": impl[1] + own["types"], "dicts": impl[2] + own["dicts"]}]}
        raise Unreadable(str(callee)[:80])

    def instance(self, name, types, dicts):
        """A function at types: its locals and body with the types in its parameters' places, and what it calls."""
        function, called = self.functions[name], []
        body = []
        for node in function["body"]:
            if isinstance(node, dict) and "Call" in node:
                callee = self.at(node["Call"][0], types, dicts)
                called.append(callee["Fn"])
                node = {"Call": [callee] + filled(node["Call"][1:], types, dicts)}
            body.append(filled(node, types, dicts))
        return {"params": function["params"], "locals": filled(function["locals"], types, dicts), "body": body}, called

    def types_in(self, node, found):
        """The named types that a function's locals hold or point to, with their shapes."""
        if isinstance(node, dict) and "Named" in node and isinstance(node["Named"], list):
            (type_, arguments), name = node["Named"], named(node["Named"][0]["name"], node["Named"][1])
            if name not in found:
                if type_["name"] not in self.shapes:
                    raise Unreadable("no type %s" % name)
                found[name] = filled(self.shapes[type_["name"]], arguments, [])
                self.types_in(found[name], found)
        for part in node.values() if isinstance(node, dict) else node if isinstance(node, list) else []:
            self.types_in(part, found)


def filled(node, types, dicts):
    """A form with types and impls in the places of the parameters that it names."""
    if isinstance(node, dict):
        if set(node) == {"Param"}:
            return types[node["Param"]]
        if set(node) == {"Given"} and isinstance(node["Given"], int):
            return dicts[node["Given"]]
        return {key: filled(part, types, dicts) for key, part in node.items()}
    return [filled(part, types, dicts) for part in node] if isinstance(node, list) else node


def function_text(name, function, types):
    pairs = ['(pair "%s" %s)' % (type_, shape_text(types[type_])) for type_ in sorted(types)]
    locals_ = ["(local %s valueLocal)" % type_text(local["ty"]) for local in function["locals"]]
    return '(fn-def "%s" (fnItem %d lnil 0 %s %s) %s)' % (name, function["params"], list_of(locals_), body_text(function["body"]), list_of(pairs))


def main(folder, kit, roots):
    library = Library([(folder, "crates/*/out/rlib/*.rlib/toolchain/mir.json"), (kit, "rlibs/*.rlib/toolchain/mir.json")])
    texts, rest = {}, [(root, {"types": [], "dicts": []}) for root in roots]
    try:
        while rest:
            name, at = rest.pop()
            whole = named(name, at["types"])
            if whole in texts or name not in library.functions:
                continue
            function, called = library.instance(name, at["types"], at["dicts"])
            types = {}
            library.types_in([local["ty"] for local in function["locals"]], types)
            texts[whole] = function_text(whole, function, types)
            rest += called
        print("program %s main" % list_of([texts[name] for name in sorted(texts)]))
    except Unreadable as error:
        print("mir_text: this is not read: %s" % error, file=sys.stderr)
        return 2
    return 0


if __name__ == "__main__":
    sys.exit(main(sys.argv[1], sys.argv[2], sys.argv[3:]))
