"""Literals and replies, to the byte."""

import socket
import threading
import unittest

import server  # noqa: F401, it finds the module

import filgwesha
from filgwesha import literals, wire
from filgwesha.description import names_of


class Literals(unittest.TestCase):
    def test_values(self):
        self.assertEqual(literals.line_of("insert into t values (?, 'a?b', ?)", (-7, "it's")), "insert into t values (-7, 'a?b', 'it''s')")
        self.assertEqual(literals.line_of("select *\n\tfrom t"), "select *  from t")
        self.assertEqual(literals.values_of("1,'it''s',-9223372036854775808,''"), (1, "it's", -(2**63), ""))
        for row in ("", "1,", ",1", "01", "-0", "'", "'a'b", "1;2", "9223372036854775808", "'é'"):
            self.assertRaises(ValueError, literals.values_of, row)

    def test_what_cannot_be_sent(self):
        for value, error in (
            (2**63, filgwesha.DataError), ("é", filgwesha.DataError), ("a\n", filgwesha.DataError), ("x" * 256, filgwesha.DataError),
            (None, filgwesha.NotSupportedError), (1.5, filgwesha.NotSupportedError), (b"", filgwesha.NotSupportedError),
        ):
            self.assertRaises(error, literals.line_of, "select ?", (value,))
        for operation, parameters in (("?", ()), ("", (1,)), ("select 'a", ()), ("x" * 4097, ()), ("sélect", ()), ("select 'a\n'", ())):
            self.assertRaises(filgwesha.ProgrammingError, literals.line_of, operation, parameters)

    def test_names(self):
        for line, names in (
            ("select a, t.b, n.c from t, new-updated n", ["a", "b", "c"]), ("select * from t", ["*"]), ("select count(*) from t", ["count"]),
            ("select sum (a * 2) from t", ["sum"]), ("select ' from ', a + 1 from t", ["' from '", "a + 1"]), ("select from_a, a from t", ["from_a", "a"]),
        ):
            self.assertEqual(names_of(line), names)


class Replies(unittest.TestCase):
    def call(self, *told):
        """What a wire makes of these bytes, told one after another."""
        ours, theirs = socket.socketpair()
        self.addCleanup(theirs.close)
        threading.Thread(target=lambda: [theirs.recv(100), *[theirs.send(part) for part in told], theirs.shutdown(socket.SHUT_WR)]).start()
        held = wire.Wire(ours)
        self.addCleanup(held.close)
        try:
            return held.call("begin")
        finally:
            self.is_open = held.is_open

    def test_replies(self):
        for told, reply in (
            (b"ok\n", wire.Ok()), (b"ok 12\n", wire.Ok(12)), (b"rows 2\n1,'a'\n-2,''\n", wire.Rows([(1, "a"), (-2, "")])),
            (b"done 1\nr true\n", wire.Done([("r", "true")])), (b"no 40 Locked t\n", wire.No(40, "Locked", "t")),
            (b"no 10 Syntax\n", wire.No(10, "Syntax", None)), (b"rolledback rule r 1\nr true\n", wire.RolledBack("rule", "r", None, None, [("r", "true")])),
            (b"rolledback error r 40 Locked 1\nr error\n", wire.RolledBack("error", "r", 40, "Locked", [("r", "error")])),
            (b"rolledback limit 0\n", wire.RolledBack("limit", None, None, None, [])),
        ):
            self.assertEqual(self.call(told), reply)
            self.assertEqual(self.call(*[told[place : place + 1] for place in range(len(told))]), reply)
            self.assertTrue(self.is_open)

    def test_what_is_no_reply_closes(self):
        for told in (
            b"OK\n", b"ok \n", b"ok 01\n", b" ok\n", b"ok\r\n", b"rows 1\nx\n", b"rows -1\n", b"done 1\nr maybe\n", b"no 1 A\n", b"no 10\n",
            b"rolledback\n", b"\xc3\xa9\n",
        ):
            self.assertRaises(filgwesha.InterfaceError, self.call, told)
            self.assertFalse(self.is_open)
        for told in (b"", b"ok", b"rows 2\n1\n"):
            self.assertRaises(filgwesha.OperationalError, self.call, told)
            self.assertFalse(self.is_open)


if __name__ == "__main__":
    unittest.main()
