"""Which words ./shrinkers takes, and what it says of the others. Without a program, so a build would show."""

import os

from running.tests.pretended import Pretended

WRONG = [
    (["gen", "1", "64", "100"], "gen: 64 workers, 1 to 63 are allowed"),
    (["gen", "1", "0", "100"], "gen: 0 workers, 1 to 63 are allowed"),
    (["gen", "1", "1", "0"], "gen: 0 commands, 1 to 20000 are allowed"),
    (["gen", "1", "1", "20001"], "gen: 20001 commands, 1 to 20000 are allowed"),
    (["gen", "1", "2", "10001"], "gen: 2 workers with 10001 commands each are 20002 commands, 20000 are allowed"),
    (["gen", "18446744073709551616", "1", "1"], "gen: seed 18446744073709551616, at most 18446744073709551615 is allowed"),
    (["gen", "1", "99999999999999999999", "1"], "gen: 99999999999999999999 workers, 1 to 63 are allowed"),
    (["gen", "01", "1", "1"], "gen: SEED 01 has a leading zero"),
    (["gen", "1", "+1", "1"], "gen: WORKERS +1 begins with a sign"),
    (["gen", "1", "1", "x"], "gen: COMMANDS 'x' is no number"),
    (["gen", "1", "1", ""], "gen: COMMANDS '' is no number"),
    (["gen", "1", "2"], "three numbers are wanted"),
    (["gen"], "three numbers are wanted"),
    (["gen", "1", "2", "3", "4"], "three numbers are wanted"),
    (["Run"], "Run: no such form"),
    (["--nothing"], "--nothing: no such option"),
    ([""], "the first word is empty"),
    (["--suite", "x"], "--suite: no word may stand behind it"),
    (["run", "-x"], "run: -x is no option"),
    (["run", "-o"], "run: -o wants a folder"),
    (["run", "-o", "out"], "run: -o wants scripts"),
    (["run", "-o", "out", "a/x.script", "b/x.script"], "two scripts have one report, out/x.report"),
    (["run", "-", "-"], "two scripts have one report, -"),
    (["audit", "one"], "a script and a report are wanted"),
    (["audit", "-", "-"], "- stands for one of the two files"),
    (["audit", "-v", "x"], "audit: -v is no option"),
]


class Words(Pretended):
    def test_wrong_words_are_told_why(self):
        for words, why in WRONG:
            with self.subTest(words=words):
                status, output, said = self.ask(*words)
                self.assertEqual((2, ""), (status, output))
                self.assertIn(why, said)
                self.assertNotIn("builds", said)

    def test_no_word_shows_the_forms(self):
        status, output, said = self.ask()
        self.assertEqual((2, ""), (status, output))
        self.assertIn("usage: ./shrinkers run", said)

    def test_help(self):
        for word in ("help", "-h", "--help"):
            self.assertEqual(0, self.ask(word)[0])
        for word in ("run", "gen", "audit", "--prove", "--built", "--suite", "--check", "--version", "-V"):
            for asked in ("-h", "--help"):
                status, output, said = self.ask(word, asked)
                self.assertEqual((0, ""), (status, said))
                self.assertTrue(output.startswith("usage: ./shrinkers "), output)

    def test_words_of_the_program(self):
        self.prove()
        for words in (["1", "1", "1"], ["0", "63", "317"], ["18446744073709551615", "1", "20000"]):
            self.assertEqual((0, f"gen {' '.join(words)}\n", ""), self.ask("gen", *words))
        self.assertEqual((0, "run: x\n", ""), self.ask("run", given=b"x"))
        self.assertEqual((0, "audit: x\n", ""), self.ask("audit", given=b"x"))

    def test_version(self):
        status, output, _ = self.ask("--version")
        self.assertEqual(0, status)
        self.assertIn("kit: pretended kit\nproved program: not built\nprogram without proofs: not built\n", output)
        self.assertEqual(1, self.ask("--built")[0])
        self.prove()
        self.assertIn("proved program: of these sources", self.ask("-V")[1])
        self.assertEqual((0, f"{self.top}/crates/shrinkers/out/shrinkers\n", ""), self.ask("--built"))

    def test_changes_are_seen(self):
        changes = [
            lambda: self.write("top/crates/shrinkers/src/main.rt", "fn main() { }\n"),
            lambda: self.write("top/crates/shrinkers/src/more.rt", ""),
            lambda: self.write("top/crates/shrinkers/proofs/more/Answers.antt", ""),
            lambda: os.rename(f"{self.top}/crates/shrinkers/src/more.rt", f"{self.top}/crates/shrinkers/src/other.rt"),
            lambda: os.remove(f"{self.top}/crates/shrinkers/src/other.rt"),
            lambda: self.write("top/crates.txt", "shrinkers: other\n"),
            lambda: self.write("top/crates/shrinkers/out/shrinkers", "#!/bin/sh\n", 0o755),
            lambda: self.write("kit/bin/rt", RT_OF_ANOTHER_DAY, 0o755),
        ]
        for change in changes:
            self.prove()
            self.assertEqual([0, 0], [self.ask("--built")[0], self.ask("--built")[0]])
            change()
            self.assertEqual(1, self.ask("--built")[0])

    def test_checksums_are_computed_again_only_after_a_change(self):
        self.prove()
        self.assertEqual(0, self.ask("--built")[0])
        self.write("sum/sha256sum", "#!/bin/sh\nexit 1\n", 0o755)
        self.environment["PATH"] = f"{self.folder}/sum:{self.environment['PATH']}"
        self.assertEqual(0, self.ask("--built")[0])
        self.write("top/crates/shrinkers/src/main.rt", "fn main() {}\n")
        self.assertEqual(1, self.ask("--built")[0])

    def test_a_touched_file_is_no_change(self):
        self.prove()
        self.assertEqual(0, self.ask("--built")[0])
        self.write("top/crates/shrinkers/src/main.rt", "fn main() {}\n")
        self.assertEqual(0, self.ask("--built")[0])


RT_OF_ANOTHER_DAY = "#!/bin/sh\necho another kit\n"
