"""That a run or a build that is interrupted or killed leaves no process and no file."""

import os
import signal
import subprocess

from running.tests.pretended import Pretended

SIGNALS = (signal.SIGINT, signal.SIGTERM, signal.SIGHUP)


class Leftovers(Pretended):
    def start(self, *words, given=subprocess.DEVNULL):
        how = {"stdin": given, "stdout": subprocess.PIPE, "stderr": subprocess.PIPE, "env": self.environment, "cwd": self.folder}
        child = subprocess.Popen([f"{self.top}/shrinkers", *words], **how)
        self.addCleanup(self.close, child)
        return child

    def close(self, child):
        child.kill()
        child.wait()
        for stream in (child.stdin, child.stdout, child.stderr):
            if stream:
                stream.close()

    def end(self, child, number, pid):
        child.send_signal(number)
        self.assertEqual(128 + number, child.wait(30))
        self.assert_gone(pid)
        self.assertEqual([], os.listdir(self.tmp))

    def test_of_a_run(self):
        self.prove()
        self.write("a.script", "sleep")
        for number in SIGNALS:
            for words in (["run", "a.script"], ["run", "-o", "reports", "a.script"], ["audit", "a.script", "a.script"]):
                child = self.start(*words)
                self.end(child, number, self.wait_for(f"{self.folder}/pid"))
                os.remove(f"{self.folder}/pid")
        self.assertEqual([], os.listdir(f"{self.folder}/reports"))

    def test_of_a_run_that_awaits_its_input(self):
        self.prove()
        for number in SIGNALS:
            for form in ("run", "audit"):
                child = self.start(form, given=subprocess.PIPE)
                while not os.listdir(self.tmp):
                    self.assertIsNone(child.poll())
                child.send_signal(number)
                self.assertEqual(128 + number, child.wait(30))
                self.assertEqual([], os.listdir(self.tmp))

    def test_of_a_build(self):
        for number in (*SIGNALS, signal.SIGKILL):
            child = self.start("gen", "1", "1", "1")
            pid = self.wait_for(f"{self.folder}/pid")
            if number == signal.SIGKILL:
                child.kill()
                self.assert_gone(pid)
            else:
                self.end(child, number, pid)
            os.remove(f"{self.folder}/pid")
        self.assertFalse(os.path.exists(f"{self.top}/crates/shrinkers/out/first/shrinkers"))
