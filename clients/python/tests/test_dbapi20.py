"""Stuart Bishop's tests of DB-API 2.0, in the form that Debian's package python3-postgresql has.

They are skipped where the package isn't there. DBAPI20 names the file elsewhere. What can't be asked of this server, or
was taken back by the DB-SIG, is skipped by name with its reason.
"""

import importlib.util
import os
import sys
import types
import unittest

from server import ServerTest

import filgwesha

FILE = os.environ.get("DBAPI20", "/usr/lib/python3/dist-packages/postgresql/test/test_dbapi20.py")

SKIPPED = {
    "test_None": "the language has no NULL",
    "test_callproc": "there are no stored procedures",
    "test_format_execute": "the parameters' style is qmark",
    "test_format_executemany": "the parameters' style is qmark",
    "test_placeholder_escape": "the parameters' style is qmark",
    "test_nextset": "a command has one result",
    "test_rowcount": "it asks for `where false` and `union`",
    "test_autocommit": "commit and rollback outside of a transaction do nothing, as most drivers have it",
    "test_description": "a reply without rows tells no types, so the type is None and not STRING (the rest is tested below)",
    "test_close": "a second close does nothing, as the DB-SIG has settled (the rest is tested below)",
    "test_cursor_close": "a second close does nothing, as the DB-SIG has settled (the rest is tested below)",
}


def published() -> type:
    """The class of the tests, without the driver that it is delivered with."""
    if not os.path.exists(FILE):
        return type("NotThere", (unittest.TestCase,), {"test_all": unittest.skip(f"there is no {FILE}")(lambda self: None)})
    for name in ("postgresql", "postgresql.test", "postgresql.temporal", "postgresql.driver", "postgresql.driver.dbapi20"):
        sys.modules.setdefault(name, types.ModuleType(name)).__path__ = []
    sys.modules["postgresql.temporal"].pg_tmp = None
    sys.modules["postgresql"].driver = sys.modules["postgresql.driver"]
    sys.modules["postgresql.driver"].dbapi20 = filgwesha
    spec = importlib.util.spec_from_file_location("postgresql.test.test_dbapi20", FILE)
    module = importlib.util.module_from_spec(spec)
    spec.loader.exec_module(module)
    return module.test_dbapi20


class Published(ServerTest, published()):
    driver = filgwesha
    table_prefix = ""
    ddl1 = "create table booze (name text)"
    ddl2 = "create table barflys (name text)"
    xddl1 = "drop table booze"
    xddl2 = "drop table barflys"

    def _connect(self):
        return filgwesha.connect("127.0.0.1", self.server.port, self.tenant)

    def executeDDL2(self, cursor):
        """The suite lets a driver commit here: what defines something belongs outside of a transaction."""
        cursor.connection.commit()
        cursor.execute(self.ddl2)

    def test_what_is_left_of_the_skipped_ones(self):
        connection = self._connect()
        cursor = connection.cursor()
        cursor.execute(self.ddl1)
        self.assertIsNone(cursor.description)
        cursor.execute("select name from booze")
        self.assertEqual([(len(column), column[0]) for column in cursor.description], [(7, "name")])
        cursor.execute("insert into booze values ('Cooper''s')")
        cursor.execute("select name from booze")
        self.assertEqual(cursor.description[0][1], filgwesha.STRING)
        cursor.connection.commit()
        cursor.execute(self.ddl2)
        self.assertIsNone(cursor.description)
        cursor.close()
        self.assertRaises(filgwesha.Error, cursor.execute, "begin")
        self.assertRaises(filgwesha.Error, cursor.executemany, "foo", [()])
        cursor.close()
        connection.close()
        self.assertRaises(filgwesha.Error, connection.commit)
        self.assertRaises(filgwesha.Error, connection.cursor)
        connection.close()


for name, why in SKIPPED.items():
    setattr(Published, name, unittest.skip(why)(lambda self: None))


if __name__ == "__main__":
    unittest.main()
