"""The calls, as a user of the module makes them."""

import copy
import doctest
import os
import pickle
import subprocess
import sys
import threading
import unittest
from typing import Any, Dict, List

import cedar

TWO = """@note @id("a")
permit(principal == ?principal, action, resource in (?resource)); // one
forbid(principal is A::U in G::"g", action in [Action::"x", A::Action::"y"], resource,);"""


class Calls(unittest.TestCase):
    def test_policies_have_their_parts(self) -> None:
        first, second = cedar.parse_policies(TWO)
        self.assertEqual((first.id, first.effect, first.is_template), ("policy0", "permit", True))
        self.assertEqual(first.annotations, {"id": "a", "note": ""})
        self.assertEqual(first.slots, ("?principal", "?resource"))
        self.assertEqual(first.place.within(TWO), TWO[: TWO.index(" // one")])
        self.assertEqual((second.id, second.effect, second.slots), ("policy1", "forbid", ()))
        group = cedar.Entity("G", "g")
        self.assertEqual(second.principal, cedar.Scope("is", "A::U", (group,), False))
        actions = (cedar.Entity("Action", "x"), cedar.Entity("A::Action", "y"))
        self.assertEqual(second.action, cedar.Scope("in", "", actions, False))
        self.assertEqual(second.resource, cedar.Scope("All", "", (), False))
        self.assertEqual(second.place.begins, cedar.Position(3, 1, 1))
        self.assertEqual(cedar.parse_policies(""), [])

    def test_faults_have_their_places(self) -> None:
        text = 'permit(principal, action, resource) when { "\U0001f600é" == foo(1) };'
        with self.assertRaises(cedar.CedarError) as raised:
            cedar.parse_policies(text)
        [fault] = raised.exception.faults
        self.assertEqual(fault.kind, "UnknownFunction")
        self.assertTrue(fault.place.within(text).startswith("foo"))
        self.assertEqual(fault.place.begins, cedar.Position(1, 52, 53))
        self.assertEqual(cedar.position_of(text, fault.place.start), fault.place.begins)
        self.assertEqual(str(raised.exception), "1:52: `foo` is not a valid function")
        shown = raised.exception.shown("a.cedar")
        self.assertTrue(shown.startswith("a.cedar:1:52: `foo` is not a valid function\n"))
        with self.assertRaises(cedar.CedarError) as raised:
            cedar.parse_policies("permit(principal, action, resource) when { (1 };")
        [fault] = raised.exception.faults
        self.assertEqual([other.text for other in fault.related], ["`(` opened here"])
        self.assertEqual(len(fault.expected), 1)

    def test_faults_are_shown_at_their_lines(self) -> None:
        text = "permit(principal, action, resource);\r\n\tpermit(principal é, action);\r\n"
        with self.assertRaises(cedar.CedarError) as raised:
            cedar.parse_policies(text)
        line = "\n  | \tpermit(principal é, action);\n  | \t" + " " * 17 + "^"
        self.assertIn(line, raised.exception.shown())
        [fault] = raised.exception.faults
        self.assertEqual(fault.shown(text, "a"), raised.exception.shown("a"))
        fault.shown("", "it isn't the text that was parsed")
        many = "permit(a);\n" * 20000
        with self.assertRaises(cedar.CedarError) as raised:
            cedar.parse_policies(many)
        self.assertGreaterEqual(len(raised.exception.shown().split("\n")), 60000)

    def test_errors_are_copied(self) -> None:
        with self.assertRaises(cedar.CedarError) as raised:
            cedar.parse_policies("permit(")
        error = raised.exception
        for other in (pickle.loads(pickle.dumps(error)), copy.deepcopy(error)):
            self.assertEqual((other.faults, str(other)), (error.faults, str(error)))
            self.assertEqual(other.shown("a"), error.shown("a"))

    def test_what_may_be_passed(self) -> None:
        [policy] = cedar.parse_policies('permit(principal == A::"a\\0b", action, resource);')
        self.assertEqual(policy.principal.entities, (cedar.Entity("A", "a\0b"),))
        text = "// a\0b\npermit(a);\n"
        self.assertTrue(cedar.layout_policies(text).startswith("// a\0b\n"))
        self.assertEqual(cedar.position_of("a\0b", 2).column, 3)
        for offset in (3, 99, 1 << 64, (1 << 64) + 1):
            self.assertEqual(cedar.position_of("a\nb", offset), cedar.Position(2, 2, 2))
        wide = cedar.layout_policies("permit(a,b);", width=(1 << 64) + 1)
        self.assertEqual(wide, "permit (a, b);\n")
        wrong: List[Dict[str, int]] = [{"width": -1}, {"indent": -1}]
        for numbers in wrong:
            with self.assertRaises(ValueError):
                cedar.layout_policies("", **numbers)
        with self.assertRaises(ValueError):
            cedar.position_of("", -1)
        with self.assertRaises(UnicodeEncodeError):
            cedar.parse_policies("\ud800")

    def test_texts_are_strs(self) -> None:
        others: List[Any] = [b"1", None, 1]
        for other in others:
            for call in (
                cedar.parse_policies,
                cedar.parse_expression,
                cedar.format_policies,
                cedar.write_policies,
                cedar.layout_policies,
            ):
                with self.assertRaises(TypeError):
                    call(other)
            with self.assertRaises(TypeError):
                cedar.position_of(other, 0)

    def test_other_libraries_are_refused(self) -> None:
        here = os.path.dirname(os.path.abspath(cedar.__file__))
        for other in (os.path.join(here, "nothing.so"), "libc.so.6"):
            ran = subprocess.run(
                [sys.executable, "-B", "-c", "import cedar"],
                cwd=os.path.dirname(here),
                env={**os.environ, "CEDAR_LIBRARY": other},
                stderr=subprocess.PIPE,
            )
            self.assertIn(b"ImportError", ran.stderr)

    def test_texts_are_written_anew(self) -> None:
        self.assertEqual(cedar.parse_expression("principal.a+1"), "principal . a + 1")
        text = "// all\npermit(principal,action,resource);"
        line = "permit ( principal , action , resource ) ;\n"
        self.assertEqual(cedar.format_policies(text), line)
        written = '@a("") permit (principal, action, resource) when { 1 < 2 };\n'
        anew = cedar.write_policies("@a permit(principal,action,resource) when { ((1) < 2) };")
        self.assertEqual(anew, written)
        with self.assertRaises(cedar.CedarError):
            cedar.write_policies("permit(a);")
        laid = "// all\npermit (principal, action, resource);\n"
        self.assertEqual(cedar.layout_policies(text), laid)
        narrow = cedar.layout_policies(text, width=20, indent=4)
        self.assertTrue(narrow.startswith("// all\npermit (\n    principal,\n"))

    def test_threads_call_at_once(self) -> None:
        found: List[int] = []

        def run() -> None:
            found.extend(len(cedar.parse_policies(TWO)) for _ in range(100))

        threads = [threading.Thread(target=run) for _ in range(8)]
        for thread in threads:
            thread.start()
        for thread in threads:
            thread.join()
        self.assertEqual(found, [2] * 800)

    def test_deep_texts_take_a_small_stack(self) -> None:
        found: List[int] = []

        def run() -> None:
            levels = 1 << 19
            found.append(len(cedar.parse_expression("(" * levels + "1" + ")" * levels)))

        before = threading.stack_size(256 << 10)
        thread = threading.Thread(target=run)
        thread.start()
        thread.join()
        threading.stack_size(before)
        self.assertEqual(found, [(1 << 21) + 1])

    def test_documents(self) -> None:
        self.assertEqual(doctest.testmod(cedar).failed, 0)


if __name__ == "__main__":
    unittest.main()
