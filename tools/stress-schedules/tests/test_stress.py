"""Tests of tools/stress. They run a fake program (fake.c); the stored races are read, and made again by tools/checks."""

import glob
import math
import os
import shutil
import subprocess
import sys
import tempfile
import unittest

HERE = os.path.dirname(os.path.abspath(__file__))
TOP = os.path.dirname(os.path.dirname(os.path.dirname(HERE)))
sys.path.insert(0, os.path.dirname(HERE))
sys.dont_write_bytecode = True

from goals import goal_of  # noqa: E402
from plans import Bounded, seeded  # noqa: E402
from program import FREE, Program, Refused, read_schedule, spell  # noqa: E402
from races import Race  # noqa: E402
from reports import Report  # noqa: E402
from scripts import Script  # noqa: E402
from windows import WINDOWS, met  # noqa: E402

HEAD = ["shrinkers 1", "size 1 1", "group /a max"]
FOLDER = tempfile.mkdtemp(prefix="stress-test-")
HAS_TOOLS = all(shutil.which(it) for it in ("gcc", "objdump")) and os.uname().machine == "x86_64"


def tearDownModule():
    shutil.rmtree(FOLDER)


def build(level):
    """The fake program, by a level of gcc's optimization."""
    path = os.path.join(FOLDER, "fake-" + level)
    if not os.path.exists(path):
        subprocess.run(["gcc", "-" + level, "-o", path, os.path.join(HERE, "fake.c"), "-lpthread"], check=True)
    return path


def script(*workers):
    """A script whose workers have these commands."""
    return Script(HEAD, workers)


def write(name, content):
    path = os.path.join(FOLDER, name)
    with open(path, "wb") as file:
        file.write(content)
    return path


def call(*words, program=None, env=None):
    """tools/stress by its command line: the status, standard output and standard error."""
    given = [os.path.join(TOP, "tools", "stress"), *map(str, words)] + (["--program", program] if program else [])
    done = subprocess.run(given, capture_output=True, text=True, check=False, env={**os.environ, **(env or {})})
    return done.returncode, done.stdout, done.stderr


@unittest.skipUnless(HAS_TOOLS, "gcc, objdump and x86-64 are wanted")
class Schedules(unittest.TestCase):
    """Runs of the fake program by seeds and schedules."""

    @classmethod
    def setUpClass(cls):
        os.environ["XDG_CACHE_HOME"] = FOLDER
        cls.program = Program(build("O2"), 5)
        cls.two = script(["put 1", "put 2"], ["put 3", "put 4"])

    def test_a_seed_gives_the_same_bytes_again(self):
        text = self.two.text()
        for seed in range(40):
            one, other = self.program.run(text, seed), self.program.run(text, seed)
            self.assertEqual((one.status, one.reason), (0, ""))
            self.assertEqual(one.report, other.report)
            again = self.program.run(text, one.schedule)
            self.assertEqual((again.report, again.unused, again.schedule), (one.report, 0, one.schedule))

    def test_seeds_find_more_than_one_outcome(self):
        reports = {run.report for _, run in seeded(self.program, self.two.text(), 0, 200, 2)}
        self.assertEqual(len(reports), math.comb(4, 2))

    def test_a_schedule_holds_for_another_build(self):
        other = Program(build("O0"), 5)
        self.assertNotEqual(other.sum, self.program.sum)
        text = script(["put 1"] * 3, ["put 2"] * 2, ["put 3"] * 3).text()
        for plan, run in seeded(self.program, text, 0, 60, 2):
            self.assertEqual(other.run(text, run.schedule).report, run.report, plan)

    def test_bounds_count_each_schedule_once(self):
        for bound, wanted in ((0, 1), (1, 1 + 3), (2, 1 + 3 + 6)):
            found = list(Bounded(self.program, self.two.text(), bound, 2).runs())
            self.assertEqual(len(found), wanted)
            self.assertEqual(len({plan for plan, _ in found}), wanted)
            self.assertTrue(all(run.schedule == plan and not run.unused for plan, run in found))

    def test_a_great_bound_finds_each_interleaving(self):
        for first, second in ((1, 3), (2, 2), (3, 2)):
            text = script(["put 1"] * first, ["put 2"] * second).text()
            reports = {run.report for _, run in Bounded(self.program, text, 6, 2).runs()}
            self.assertEqual(len(reports), math.comb(first + second, first))

    def test_three_workers_end_in_each_order(self):
        text = script(["put 1"], ["put 2"], ["put 3"]).text()
        reports = {run.report for _, run in Bounded(self.program, text, 2, 2).runs()}
        self.assertEqual(len(reports), 6)

    def test_who_waits_gives_its_turn_away(self):
        text = script(["put 1"], ["get 2"]).text()
        for _, run in list(seeded(self.program, text, 0, 20, 1)) + list(Bounded(self.program, text, 1, 1).runs()):
            self.assertEqual((run.status, run.reason), (0, ""))
            self.assertIn(b"reply 1 0 walked 1\n", run.report)

    def test_what_hangs_is_ended_with_a_reason(self):
        brief = Program(build("O2"), 1)
        for command in ("offline /a", "balance 0"):
            run = brief.run(script([command], ["put 1"]).text(), 1)
            self.assertNotEqual(run.status, 0)
            # A fast machine takes the most steps that a run may have before the time is over.
            self.assertRegex(run.reason, "no end in the time|steps, and no end")

    def test_a_plain_run_has_no_schedule(self):
        run = self.program.run(self.two.text(), FREE)
        self.assertEqual((run.status, run.reason, run.schedule), (0, "", ()))


@unittest.skipUnless(HAS_TOOLS, "gcc, objdump and x86-64 are wanted")
class Words(unittest.TestCase):
    """The command line."""

    @classmethod
    def setUpClass(cls):
        os.environ["XDG_CACHE_HOME"] = FOLDER
        cls.fake = build("O2")
        cls.path = write("two.script", script(["put 1", "put 2"], ["put 3", "put 4"]).text())

    def test_outcomes_are_counted(self):
        status, out, _ = call(self.path, "--bound", 4, program=self.fake)
        self.assertEqual(status, 0)
        self.assertIn("complete: each schedule of at most 4 preemptions\n6 distinct reports, each lawful; 6 outcomes", out)
        status, out, _ = call(self.path, 3, "--bound", 4, program=self.fake)
        self.assertIn("not complete: some schedules of at most 4 preemptions", out)
        status, out, _ = call(self.path, 20, "--free", program=self.fake)
        self.assertEqual(status, 0)
        self.assertNotIn("seed", out)

    def test_an_answer_is_found_and_made_again(self):
        status, out, _ = call(self.path, "--until", "1.1=walked 1", program=self.fake)
        self.assertEqual(status, 0)
        seed = out.split("found `1.1=walked 1`: seed ")[1].split(",")[0]
        _, report, told = call(self.path, "--seed", seed, program=self.fake)
        self.assertIn("reply 1 1 walked 1\n", report)
        schedule = told.split("\nschedule ")[1].split("\n")[0] if "\nschedule " in told else told.split("schedule ")[1].split("\n")[0]
        self.assertEqual(call(self.path, "--schedule", schedule, program=self.fake)[1], report)
        status, out, _ = call(self.path, 5, "--until", "1.1=walked 9", program=self.fake)
        self.assertEqual(status, 1)
        self.assertIn("wasn't met", out)

    def test_a_script_is_shrunk(self):
        path = write("long.script", script(["put 1"] * 4, ["put 2"] * 3, ["put 3"]).text())
        status, out, told = call(path, "--shrink", "1.2=walked 3", "--keep", os.path.join(FOLDER, "kept"), program=self.fake)
        self.assertEqual(status, 0, told)
        smaller = Script.read(out.encode())
        self.assertEqual(smaller.commands(), 4)
        self.assertEqual(call(path, "--shrink", "1.2=walked 9", 5, program=self.fake)[0], 1)

    def test_a_race_is_stored_and_made_again_by_another_build(self):
        folder = os.path.join(FOLDER, "races")
        os.makedirs(folder, exist_ok=True)
        path = shutil.copy(self.path, os.path.join(folder, "mixed.script"))
        status, out, told = call(path, 200, "--race", "mixed", program=self.fake)
        self.assertEqual(status, 0, told)
        status, out, _ = call("--again", folder, program=self.fake)
        self.assertEqual((status, out.splitlines()[-1]), (0, "1 of 1 races were made again"))
        self.assertIn("by its schedule and by its seed", out)
        self.assertIn("in another program", call("--again", folder, program=build("O0"))[1])
        with open(os.path.join(folder, "mixed.race"), encoding="ascii") as file:
            race = file.read()
        lines = [line if not line.startswith("schedule") else "schedule 1:99:0" for line in race.splitlines()]
        write("races/mixed.race", ("\n".join(lines) + "\n").encode())
        self.assertIn("found anew by seed", call("--again", folder, program=build("O0"))[1])
        self.assertEqual(call("--again", folder, program=self.fake)[0], 1)

    def test_an_unlawful_report_is_told(self):
        status, out, _ = call(self.path, 3, program=self.fake, env={"FAKE_VERDICT": "unlawful L4"})
        self.assertEqual(status, 1)
        self.assertIn("FAULT: the report isn't lawful: unlawful L4 (seed 0)", out)

    def test_a_refused_script_is_told(self):
        path = write("empty.script", b"shrinkers 1\nsize 1 1\nworker\nend\n")
        self.assertEqual(call(path, 1, program=self.fake)[0], 0)
        status, out, _ = call(path, 1, program=self.fake, env={"FAKE_REFUSES": "1"})
        self.assertEqual(status, 1)
        self.assertIn("FAULT: the program ended with status 5: refused 3 BadWord (seed 0)", out)

    def test_other_words_are_refused(self):
        other = write("other.script", b"no script\n")
        for words in ((), ("nowhere",), (other,), (self.path, "x"), (self.path, "--until", "nothing"), (self.path, 0),
                      (self.path, "--seed", 1, "--bound", 1), (self.path, "--schedule", "1:2"), ("--again", self.path),
                      (self.path, "--free", "--race", "mixed"), (self.path, "--jobs", 0), (self.path, "--nothing")):
            status, out, told = call(*words, program=self.fake)
            self.assertEqual((status, out), (2, ""), words)
            self.assertTrue(told and "Traceback" not in told, words)
        self.assertEqual(call(self.path, program=FOLDER)[0], 2)
        self.assertIn("no atomic instruction", call(self.path, program="/bin/true")[2])

    def test_help_and_windows(self):
        status, out, _ = call("--help")
        self.assertEqual((status, out[:4]), (0, "Runs"))
        self.assertEqual([line.split(" ")[0] for line in call("--windows")[1].splitlines()], list(WINDOWS))

    def test_a_closed_pipe_ends_quietly(self):
        words = f"'{TOP}/tools/stress' --windows | head -n 0"
        done = subprocess.run(["sh", "-c", words], capture_output=True, check=False)
        self.assertEqual(done.stderr, b"")


class Windows(unittest.TestCase):
    """Windows of stored reports. No program is wanted."""

    def test_each_stored_race_shows_its_window(self):
        names = [os.path.basename(it)[:-len(".race")] for it in glob.glob(f"{TOP}/examples/races/*.race")]
        self.assertGreaterEqual(len(names), 9)
        for name in names:
            race = Race(f"{TOP}/examples/races", name)
            # what the report alone can't show is told by the run
            missed = [(worker, "find") for worker in range(len(race.script.workers))]
            report = Report(race.report, race.script.limits(), missed)
            self.assertIn(race.goal.name, met(report), name)
            self.assertTrue(race.schedule, name)

    def test_examples_show_what_their_page_says(self):
        wanted = {"container-leaves": "late-put", "container-limit": "stale-count", "container-starts": "has-children", "first": None}
        for name, window in wanted.items():
            with open(f"{TOP}/examples/{name}.report", "rb") as file:
                found = met(Report(file.read()))
            self.assertTrue(window in found if window else not found, (name, found))

    def test_reports_of_one_worker_show_no_race(self):
        for name in ("first", "tenants", "limit"):
            with open(f"{TOP}/examples/{name}.report", "rb") as file:
                self.assertFalse({"mixed", "late-put", "stale-count"} & set(met(Report(file.read()))), name)

    def test_words_are_read(self):
        self.assertEqual(spell(read_schedule("1:2:0,0:13:1")), "1:2:0,0:13:1")
        self.assertEqual(goal_of("1.2=walked 1").moved([[], [0, 2]]).name, "0.1=walked 1")
        self.assertIsNone(goal_of("1.2=walked 1").moved([[0], [0, 1]]))
        for text in ("1:2", "a", "1:2:3,"):
            self.assertRaises(Refused, read_schedule, text)


if __name__ == "__main__":
    unittest.main()
