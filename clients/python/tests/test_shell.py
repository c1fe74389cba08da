"""The shell with a pipe for its input."""

import os
import pathlib
import subprocess
import sys
import tempfile
import unittest

from server import HERE, ServerTest

from filgwesha.editing import completions
from filgwesha.schema import schema_of


class Shell(ServerTest):
    def run_shell(self, text, *words):
        command = [sys.executable, "-m", "filgwesha", str(self.tenant), "--port", str(self.server.port), *words]
        environment = {**os.environ, "PYTHONPATH": str(HERE.parent)}
        run = subprocess.run(command, input=text, capture_output=True, text=True, env=environment, timeout=60)
        return run.returncode, run.stdout, run.stderr

    def test_commands(self):
        status, told, errors = self.run_shell(
            "create table t (a int, b text);\ncreate rule r on t when inserted\n  then delete from t where a = 9; delete from t\n  where a = 8;\n"
            "begin;\ninsert into t values (1, 'x'), (20, 'it''s');\nselect * from t;\ncommit;\n\\x\nselect b, count from t;\nselect b from t;\n",
            "--go-on",
        )
        self.assertEqual((status, errors), (0, ""))
        self.assertEqual(
            told,
            "ok\nok\nok\nok, 2 rows\ncolumn_1 | column_2\n---------+---------\n       1 | x\n      20 | it's\n(2 rows)\nok\nconsidered: r true\n"
            "rows one value a line: on\n10 Syntax\n-[ row 1 ]-\nb | x\n-[ row 2 ]-\nb | it's\n(2 rows)\n",
        )

    def test_a_command_a_line(self):
        status, told, _ = self.run_shell("create table t (a int)\nbegin\ninsert into t values (1)\ncommit\nselect sum(a) from t\n")
        self.assertEqual((status, told), (0, "ok\nok\nok, 1 row\nok\nsum\n---\n  1\n(1 row)\n"))

    def test_stop(self):
        self.assertEqual(self.run_shell("selec;\ncreate table t (a int);\n"), (1, "10 Syntax\n", ""))
        self.assertEqual(self.run_shell("selec;\ncreate table t (a int);\n", "--go-on"), (0, "10 Syntax\nok\n", ""))

    def test_files_and_faults(self):
        with tempfile.TemporaryDirectory() as room:
            file = pathlib.Path(room) / "t.lines"
            file.write_text("create table t (a int);\n\n  create table t\n (a int);\n")
            self.assertEqual(self.run_shell(f"\\i {file}\n\\i {file}x\n\\nothing\n\\tables\n", "--go-on")[:2], (
                0,
                f"ok\n{file}:3: 21 TableExists\n  create table t  (a int)\ncan't read {file}x: No such file or directory\nthere is no \\nothing; \\? shows what there is\n"
                "that needs the server's status port: start the shell with --status PORT\n",
            ))
        self.assertEqual(self.run_shell("\\d\n")[0], 1)
        self.server.stop()
        status, _, errors = self.run_shell("begin;\n")
        self.assertEqual(status, 1)
        self.assertIn("can't reach", errors)
        type(self).setUpClass()

    def test_what_has_a_name(self):
        words = ("--status", str(self.server.status))
        status, told, _ = self.run_shell(
            "create table card (id int, note text);\ncreate rule r on card when deleted then delete from card where id = 1;\ncreate ruleset s;\n"
            "\\d\n\\d card\nbegin;\ninsert into card values (1, 'x');\nselect * from card;\nselect * from card a, card b where a.id = b.id;\nrollback;\n",
            *words,
        )
        self.assertEqual(
            (status, told),
            (
                0,
                "ok\nok\nok\ncard (id int, note text)\ncard (id int, note text)\n  create rule r on card when deleted then delete from card where id = 1\n"
                "ok\nok, 1 row\nid | note\n---+-----\n 1 | x\n(1 row)\nid | note | id | note\n---+------+----+-----\n 1 | x    |  1 | x\n(1 row)\nok\n",
            ),
        )
        status, told, _ = self.run_shell("\\d nothing\n", *words)
        self.assertEqual((status, told), (1, "there is no table nothing\n"))

    def test_completion(self):
        self.assertEqual(completions("del", True, []), ["delete", "deleted", "delrules"])
        self.assertEqual(completions("ca", False, ["card", "balance"]), ["card"])
        self.assertEqual(completions("\\t", True, []), ["\\tables", "\\timing"])
        self.assertEqual(completions("\\t", False, []), [])
        script = "create table t (a int, b text)\ncreate rule r on t when deleted then rollback\ncreate ruleset s\n"
        self.assertEqual(schema_of(script).names, {"t", "a", "b", "r", "s"})


if __name__ == "__main__":
    unittest.main()
