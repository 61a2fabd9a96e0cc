"""What ./shrinkers does with files and with the program's statuses."""

import os
import subprocess

from running.tests.pretended import Pretended


class Files(Pretended):
    def setUp(self):
        super().setUp()
        self.prove()

    def test_each_status_is_told(self):
        told = {3: "could not be read", 4: "could not be written", 6: "not enough memory", 7: "longer than 4,194,304 bytes", 9: "status 9"}
        for number, text in told.items():
            status, output, said = self.ask("run", given=f"status {number}".encode())
            self.assertEqual((number, f"line of {number}\n"), (status, output))
            self.assertIn(text, said)
        self.assertIn("longer than 67,108,864 bytes", self.ask("audit", given=b"status 7")[2])

    def test_a_refusal_is_explained(self):
        self.assertIn("docs/FORMATS.md", self.ask("run", given=b"status 5")[2])
        self.explain_by(5)
        path = self.write("a.script", "status 5")
        self.assertEqual((5, "line of 5\n", "explained: -\n"), self.ask("run", given=b"status 5"))
        self.assertEqual((5, "line of 5\n", "explained: a.script\n"), self.ask("run", "a.script"))
        with open(path, "rb") as file:
            self.assertEqual((5, "line of 5\n", "explained: -\n"), self.ask("run", stdin=file))
        self.assertEqual((5, "line of 5\n", "explained: a.script a.script\n"), self.ask("audit", "a.script", "a.script"))
        self.explain_by(8)
        status, _, said = self.ask("audit", given=b"end\nstatus 8")
        self.assertEqual(8, status)
        self.assertRegex(said, r"^explained: \S+/script \S+/report\n$")

    def test_several_scripts(self):
        self.write("a.script", "one")
        self.write("b.script", "two")
        self.assertEqual((0, "run: one\nrun: two\nrun: three\n", ""), self.ask("run", "a.script", "b.script", "-", given=b"three"))
        self.write("c.script", "status 7")
        status, output, said = self.ask("run", "-o", "reports", "a.script", "c.script", "b.script")
        self.assertEqual((7, ""), (status, output))
        self.assertIn("c.script is longer", said)
        self.assertEqual(["a.report", "b.report"], sorted(os.listdir(f"{self.folder}/reports")))
        with open(f"{self.folder}/reports/b.report", encoding="ascii") as file:
            self.assertEqual("run: two\n", file.read())

    def test_two_files_of_an_audit(self):
        self.write("a.script", "one ")
        self.write("a.report", "two")
        self.assertEqual((0, "audit: one two\n", ""), self.ask("audit", "a.script", "a.report"))
        self.assertEqual((0, "audit: one three\n", ""), self.ask("audit", "a.script", "-", given=b"three"))
        self.assertEqual((0, "audit: three two\n", ""), self.ask("audit", "-", "a.report", given=b"three "))

    def test_files_that_cannot_be_read(self):
        self.assertIn("nosuch: there is no such file", self.ask("run", "nosuch")[2])
        self.assertIn("top: that is a folder", self.ask("run", "top")[2])
        self.assertEqual([3, 3, 3], [self.ask(*words)[0] for words in (["run", "nosuch"], ["run", "top"], ["audit", "nosuch", "top"])])
        self.write("a.script", "one")
        self.assertEqual((3, "run: one\n"), self.ask("run", "nosuch", "a.script")[:2])

    def test_outputs_that_take_nothing(self):
        with open("/dev/full", "wb") as full:
            status, _, said = self.ask("run", given=b"x", stdout=full)
        self.assertEqual(4, status)
        self.assertIn("could not be written", said)

    def test_no_standard_input(self):
        words = ["sh", "-c", 'exec "$0" run <&-', f"{self.top}/shrinkers"]
        done = subprocess.run(words, capture_output=True, env=self.environment, timeout=60, check=False)
        self.assertEqual((0, b"run: \n"), (done.returncode, done.stdout))
