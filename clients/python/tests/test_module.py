"""The module on a server."""

import random
import string
import threading
import unittest

from server import ServerTest

import filgwesha
from filgwesha import errors


class Module(ServerTest):
    def connect(self, session=None, **words):
        connection = filgwesha.connect("127.0.0.1", self.server.port, self.tenant, session, **words)
        self.addCleanup(connection.close)
        return connection

    def with_table(self):
        connection = self.connect()
        cursor = connection.cursor()
        cursor.execute("create table t (a int, b text)")
        return connection, cursor

    def test_a_transaction(self):
        connection, cursor = self.with_table()
        self.assertEqual(cursor.execute("insert into t values (?, ?), (?, '')", (1, "it's", 2)).rowcount, 2)
        self.assertTrue(connection.in_transaction)
        connection.commit()
        self.assertFalse(connection.in_transaction)
        cursor.execute("select b, a from t")
        self.assertEqual([(column[0], column[1] == filgwesha.STRING) for column in cursor.description], [("b", True), ("a", False)])
        self.assertEqual(cursor.fetchone(), ("it's", 1))
        self.assertEqual(list(cursor), [("", 2)])
        self.assertIsNone(cursor.fetchone())
        connection.rollback()
        cursor.execute("create table u (a int)")
        with self.assertRaises(ZeroDivisionError), connection:
            cursor.execute("insert into u values (1)")
            raise ZeroDivisionError
        with connection:
            cursor.executemany("insert into u values (?)", [(2,), (3,)])
            self.assertEqual(cursor.rowcount, 2)
        self.assertEqual(cursor.execute("select a from u").fetchall(), [(2,), (3,)])
        # a catalog command ends a transaction that has only read, and is refused in another one
        cursor.execute("create table v (a int)")
        cursor.execute("insert into v values (1)")
        with self.assertRaises(filgwesha.ProgrammingError) as caught:
            cursor.execute("drop table u")
        self.assertEqual((caught.exception.number, caught.exception.name), (41, "InTransaction"))

    def test_autocommit(self):
        connection, cursor = self.with_table()
        connection.autocommit = True
        cursor.execute("insert into t values (1, 'x')")
        self.assertFalse(connection.in_transaction)
        self.assertRaises(filgwesha.DataError, cursor.execute, "select a + 9223372036854775807 from t")
        self.assertFalse(connection.in_transaction)
        connection.begin()
        cursor.execute("delete from t")
        connection.rollback()
        self.assertEqual(cursor.execute("select count(*) from t").fetchall(), [(1,)])

    def test_errors_by_number(self):
        connection, cursor = self.with_table()
        for operation, kind, number, name in (
            ("selec", filgwesha.ProgrammingError, 10, "Syntax"), ("select a from u", filgwesha.ProgrammingError, 20, "NoTable"),
            ("select c from t", filgwesha.ProgrammingError, 22, "NoColumn"), ("insert into t values (1)", filgwesha.ProgrammingError, 25, "WrongCount"),
            ("process rule r", filgwesha.ProgrammingError, 50, "NoRule"),
        ):
            with self.assertRaises(kind) as caught:
                cursor.execute(operation)
            self.assertEqual((caught.exception.number, caught.exception.name), (number, name))
        cursor.execute("insert into t values (1, '')")
        other = self.connect(autocommit=True)
        with self.assertRaises(filgwesha.Locked) as locked:
            other.cursor().execute("select * from t")
        self.assertEqual((locked.exception.number, locked.exception.table), (40, "t"))
        with self.assertRaises(filgwesha.Busy) as busy:
            other.cursor().execute("create table u (a int)")
        self.assertEqual((busy.exception.number, errors.class_of(90), errors.class_of(45)), (43, filgwesha.OperationalError, filgwesha.OperationalError))

    def test_rules(self):
        connection, cursor = self.with_table()
        cursor.execute("create table h (a int)")
        cursor.execute("create rule copy on t when inserted then insert into h select a from inserted")
        cursor.execute("create rule no_debt on t when inserted if select * from t where a < 0 then rollback")
        cursor.execute("create rule too_big on t when inserted if select a * a from t where a > 3037000499 then delete from t")
        cursor.execute("create ruleset checks")
        cursor.execute("alter ruleset checks addrules no_debt")
        cursor.execute("insert into t values (1, '')")
        self.assertEqual(connection.process_ruleset("checks"), [("no_debt", "false")])
        self.assertEqual(connection.process_rule("copy"), [("copy", "true")])
        self.assertEqual(connection.process_rules(), [("too_big", "false")])
        connection.commit()
        self.assertEqual(connection.considered, [])
        cursor.execute("insert into t values (-1, '')")
        with self.assertRaises(filgwesha.RolledBackByRule) as caught:
            connection.commit()
        self.assertIsInstance(caught.exception, filgwesha.IntegrityError)
        self.assertEqual((caught.exception.rule, caught.exception.considered), ("no_debt", [("copy", "true"), ("no_debt", "true")]))
        self.assertFalse(connection.in_transaction)
        cursor.execute("insert into t values (4000000000, '')")
        with self.assertRaises(filgwesha.RolledBackByData) as refused:
            connection.commit()
        self.assertEqual((refused.exception.rule, refused.exception.number), ("too_big", 30))

    def test_sessions(self):
        held = [self.connect() for _ in range(8)]
        self.assertEqual([connection.session for connection in held], list(range(8)))
        with self.assertRaises(filgwesha.OperationalError) as caught:
            self.connect()
        self.assertEqual(caught.exception.number, 45)
        held[3].close()
        self.assertEqual(self.connect().session, 3)
        self.assertRaises(filgwesha.InterfaceError, held[3].cursor)
        self.assertRaises(filgwesha.InterfaceError, held[3].commit)
        self.assertRaises(filgwesha.ProgrammingError, filgwesha.connect, "127.0.0.1", self.server.port, 1000, 0)

    def test_retry_and_pool(self):
        connection, cursor = self.with_table()
        cursor.execute("insert into t values (0, '')")
        connection.commit()
        connection.close()
        pool = filgwesha.Pool("127.0.0.1", self.server.port, self.tenant, 4)
        self.addCleanup(pool.close)

        @filgwesha.retry_locked(200)
        def add(held):
            held.cursor().execute("update t set a = a + 1")

        def work():
            for _ in range(10):
                with pool.connection() as held:
                    add(held)

        threads = [threading.Thread(target=work) for _ in range(8)]
        for thread in threads:
            thread.start()
        for thread in threads:
            thread.join()
        with pool.connection() as held:
            self.assertEqual(held.cursor().execute("select a from t").fetchall(), [(80,)])

    def test_values_come_back_or_are_refused(self):
        connection, cursor = self.with_table()
        chance = random.Random(20)
        alphabet = string.printable + "''''??éß\0\x7f" + "日"
        sent = 0
        for place in range(10_000):
            text = "".join(chance.choices(alphabet if chance.random() < 0.3 else alphabet[:95], k=int(255 ** chance.random())))
            number = chance.choice((chance.randrange(-(2**64), 2**64), chance.randrange(-100, 100), 2**63 - 1, -(2**63)))
            if chance.random() < 0.02:
                text *= 300
            may = all(" " <= c <= "~" for c in text) and len(text) <= 255 and -(2**63) <= number < 2**63
            try:
                cursor.execute("insert into t values (?, ?)", (number, text))
            except filgwesha.DataError as error:
                self.assertFalse(may, (number, text, error))
                self.assertIsNone(error.number)
                continue
            self.assertTrue(may, (number, text))
            sent += 1
            self.assertEqual(cursor.execute("select * from t where a = ? and b = ?", (number, text)).fetchall(), [(number, text)])
            cursor.execute("delete from t")
        self.assertGreater(sent, 1_000)


if __name__ == "__main__":
    unittest.main()
