"""Tests of local_arrays.py on small programs made up for it: what it must find, and what it must let pass."""
import contextlib
import io
import unittest

import local_arrays

LINE = "(tyArray (tyInt 8) (lenLit 90))"
WORDS = "(tyArray (tyInt 64) (lenLit 4))"
BOARD = '(tyNamed (pair "board::record::Board" lnil))'
LINES = '(tyNamed (pair "lineset::LineSet" lnil))'


def list_of(parts, cons="lcons", nil="lnil"):
    return "".join("(%s %s " % (cons, part) for part in parts) + nil + ")" * len(parts)


def fields(*types):
    return "(fields %s)" % list_of(types, "tcons", "tnil")


TYPES = {"board::record::Board": fields("(tyInt 8)", LINES), "lineset::LineSet": fields(WORDS)}


def function(name, locals_, *body, types=None):
    """A function: the types of its locals, the result first, and its statements."""
    named = list_of(['(pair "%s" %s)' % item for item in {**TYPES, **(types or {})}.items()])
    code = "".join("(seq %s " % statement for statement in body) + "return" + ")" * len(body)
    return '(fn-def "%s" (fnItem 0 lnil 0 %s %s) %s)' % (name, list_of(["(local %s valueLocal)" % t for t in locals_]), code, named)


def call(name, to="(place 0 lnil)"):
    return '(call (direct (fnRef "%s")) lnil %s)' % (name, to)


def copy(to, place):
    return "(assign (place %d lnil) (rvOpd (copy %s)))" % (to, place)


class LocalArrays(unittest.TestCase):
    def run_on(self, *functions):
        """Status and output, from the function a."""
        out = io.StringIO()
        with contextlib.redirect_stdout(out), contextlib.redirect_stderr(out):
            status = local_arrays.main(["a"], "program %s main" % list_of(functions))
        return status, out.getvalue()

    def refused(self, what, *functions):
        status, out = self.run_on(*functions)
        self.assertEqual(status, 1, out)
        self.assertIn(what, out)

    def taken(self, *functions):
        status, out = self.run_on(*functions)
        self.assertEqual(status, 0, out)
        return out

    def test_no_array(self):
        out = self.taken(function("a", ["tyUnit", "(tyInt 8)", BOARD], call("b")), function("b", ["tyUnit"]), function("c", ["tyUnit", LINE]))
        self.assertTrue(out.startswith("a\nb\n2 functions"), out)

    def test_line_of_its_own(self):
        made = "(assign (place 1 lnil) (repeat (int 8 0) 90))"
        self.refused("a has a local array [u8; 90]", function("a", ["tyUnit", LINE], made))
        self.refused("b has a local array [u8; 90]", function("a", ["tyUnit"], call("b")), function("b", ["tyUnit", LINE], made))
        self.refused("c has a local array [u8; 90]", function("a", ["tyUnit"], call("b")), function("b", ["tyUnit"], call("c")), function("c", ["tyUnit", LINE]))

    def test_call_further_in(self):
        for inner in (
            "(block (loop (seq (if (copy (place 1 lnil)) skip (exit 1)) %s)))",
            "(if (copy (place 1 lnil)) %s skip)",
            "(if (copy (place 1 lnil)) return %s)",
            "(switch (copy (place 1 lnil)) (arm (lcons 0 lnil) %s noDefault))",
            "(switch (copy (place 1 lnil)) (arm (lcons 0 lnil) skip (default %s)))",
        ):
            self.refused("b has a local array [u8; 90]", function("a", ["tyUnit", "tyBool"], inner % call("b")), function("b", ["tyUnit", LINE]))

    def test_array_as_result(self):
        self.refused("a has a local array", function("a", ["tyUnit", LINE], call("b", "(place 1 lnil)")), function("b", ["tyUnit"]))
        self.refused("a has a local array", function("a", ["tyUnit", WORDS], call("b", "(place 1 lnil)")), function("b", ["tyUnit"]))

    def test_array_inside_a_value(self):
        own = {"a::Line": fields("(tyInt 8)", LINE)}
        self.refused("inside a value", function("a", ["tyUnit", '(tyNamed (pair "a::Line" lnil))'], types=own))
        self.refused("inside a value", function("a", ["tyUnit", '(tyStruct "tuple" %s)' % list_of([LINE], "tcons", "tnil")]))
        self.refused("inside a value", function("a", ["tyUnit", '(tyEnum "either" %s)' % list_of([list_of([LINE], "tcons", "tnil")], "ttcons", "ttnil")]))
        either = {"a::Either": "(variants %s)" % list_of(["tnil", list_of([LINE], "tcons", "tnil")], "ttcons", "ttnil")}
        self.refused("inside a value", function("a", ["tyUnit", '(tyNamed (pair "a::Either" lnil))'], types=either))
        # As large as the record's, but not the record's.
        self.refused("inside a value", function("a", ["tyUnit", '(tyNamed (pair "a::Words" lnil))'], types={"a::Words": fields(WORDS)}))

    def test_pointer_to_an_array(self):
        self.taken(function("a", ["tyUnit", "(tyRef erased mut %s)" % LINE]))

    def test_copy_of_the_record(self):
        self.taken(function("a", ["tyUnit", BOARD, WORDS], copy(2, "(place 1 (lcons (field 1) (lcons (field 0) lnil)))")))
        self.refused("a has a local array [u64; 4]", function("a", ["tyUnit", WORDS, WORDS], copy(2, "(place 1 lnil)")))

    def test_made_for_the_record(self):
        words = "(assign (place 1 lnil) (aggregate %s))" % list_of(["(int 64 0)"] * 4)
        lines = "(assign (place 0 lnil) (aggregate (lcons (copy (place 1 lnil)) lnil)))"
        self.taken(function("a", [LINES, WORDS], words, lines))
        self.refused("a has a local array [u64; 4]", function("a", [LINES, WORDS], words))
        self.refused("a has a local array [u64; 4]", function("a", [LINES, WORDS, "tyPtr"], words, "(assign (place 2 lnil) (addrOf (place 1 lnil)))", lines))

    def test_call_not_to_be_followed(self):
        self.refused("whose body is not here", function("a", ["tyUnit"], call("memcpy")))
        self.refused("cannot be followed", function("a", ["tyUnit", "tyPtr"], "(call (indirect (copy (place 1 lnil))) lnil (place 0 lnil))"))
        self.refused("there is no function a", function("b", ["tyUnit"], types=TYPES))

    def test_text_not_to_be_read(self):
        for text in ("", "program", "program (lcons x lnil) main", "program %s main)" % list_of([function("a", ["tyUnit"])])):
            with contextlib.redirect_stderr(io.StringIO()):
                self.assertEqual(local_arrays.main(["a"], text), 2, text)
        self.assertEqual(self.run_on(function("a", ["tyUnit", "(tyVector (tyInt 8))"]))[0], 2)
        self.assertEqual(self.run_on(function("a", ["tyUnit"], "(room (place 0 lnil) 90)"))[0], 2)
        self.assertEqual(self.run_on(function("a", ["tyUnit"], "(assign (place 0 lnil) (room 90))"))[0], 2)


if __name__ == "__main__":
    unittest.main()
