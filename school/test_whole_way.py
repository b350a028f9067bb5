"""Tests of the command as it is run: with rt, the program, a shell and a terminal."""
import fcntl
import os
import pathlib
import pty
import shutil
import signal
import struct
import subprocess
import sys
import tempfile
import termios
import time
import unittest

import program
from stand_in import AT, ZONE

HERE = pathlib.Path(__file__).resolve().parent
PARTS = ("changes.py", "lists.py", "program.py", "rules.py", "shown.py", "words.py", "lists.txt")


class Repository(unittest.TestCase):
    """A repository of its own, with a stand-in for rt and the program."""

    def setUp(self):
        folder = tempfile.TemporaryDirectory()
        self.addCleanup(folder.cleanup)
        self.root = pathlib.Path(folder.name)
        for part in ("school", "crates/schedule/out", "path"):
            (self.root / part).mkdir(parents=True)
        for file in PARTS:
            shutil.copy(HERE / file, self.root / "school" / file)
        (self.root / "crates.txt").write_text("model:\nword: model\nschedule: word model kit\nlast: schedule\n")
        self.script("path/rt", f"#!/bin/sh\n[ \"$*\" = run ] && [ \"$PWD\" = {self.root}/crates/schedule ] || exit 1\n"
                    "for crate in model word schedule\n"
                    "do echo \"rt: chose --jobs 2 for $crate\" >&2; done\necho refused 7\n")
        self.script("crates/schedule/out/schedule", f"#!{sys.executable}\nimport sys\nsys.dont_write_bytecode = True\n"
                    f"sys.path.insert(0, {str(HERE)!r})\nimport stand_in\n"
                    "sys.stdout.write(stand_in.walk(sys.stdin.buffer.read()))\n")

    def script(self, name, text):
        (self.root / name).write_text(text)
        (self.root / name).chmod(0o755)

    def environment(self, **more):
        clean = {name: value for name, value in os.environ.items()
                 if name not in ("COLUMNS", "PYTHONIOENCODING", "PYTHONUTF8") and not name.startswith("LC_")}
        return {**clean, "LANG": "C.UTF-8", "PATH": f"{self.root / 'path'}:{os.environ['PATH']}", **more}

    def run_it(self, *arguments, **environment):
        done = subprocess.run([sys.executable, str(self.root / "school/changes.py"), *arguments], cwd="/", check=False,
                              env=self.environment(**environment), stdout=subprocess.PIPE, stderr=subprocess.PIPE)
        return done.returncode, done.stdout.decode(), done.stderr.decode()


class WholeWay(Repository):
    def test_shown(self):
        status, out, err = self.run_it("--at", AT)
        self.assertEqual((status, err), (0, ""))
        self.assertIn("\n4 changes are coming.\n", out)
        self.assertIn("→", out)
        self.assertLessEqual(max(map(len, out.split("\n")[1:])), 80)

    def test_columns(self):
        self.assertIn(", until Sun 2027-10-31 03:00 local time (2027-10-31T01:00Z)\n",
                      self.run_it("--at", AT, COLUMNS="100")[1])

    def test_a_locale_without_the_arrow(self):
        (self.root / "name").write_text('zone +01:00 from beginning "Zürich"\n', "utf-8")
        for environment in ({"LC_ALL": "C"}, {"PYTHONIOENCODING": "ascii"}):
            out = self.run_it("--at", AT, **environment)[1]
            self.assertTrue(out.isascii())
            self.assertIn("02:00 -> 03:00  +02:00", out)
            self.assertIn('Zone +01:00 "Z\\xfcrich"\n', self.run_it(str(self.root / "name"), **environment)[1])
        self.assertIn("→", self.run_it("--at", AT, LC_ALL="C", PYTHONIOENCODING="utf-8")[1])

    def test_wrong_lists_need_no_toolchain(self):
        for text in ("hm", ZONE * 3):
            (self.root / "wrong").write_text(text)
            self.assertEqual(self.run_it(str(self.root / "wrong"), PATH="/nowhere")[0], 1)

    def test_no_toolchain(self):
        status, out, err = self.run_it(PATH="/nowhere")
        self.assertEqual((status, out), (3, ""))
        self.assertIn("rt is not found on PATH", err)

    def test_toolchain_fails(self):
        self.script("path/rt", "#!/bin/sh\necho not proved\necho hm >&2\nexit 1\n")
        self.assertEqual(self.run_it(), (3, "", "not proved\nhm\nchanges: rt run in crates/schedule failed with status 1\n"))

    def test_toolchain_cannot_be_run(self):
        self.script("path/rt", "#!/no/such\n")
        status, out, err = self.run_it(PATH=str(self.root / "path"))
        self.assertEqual((status, out), (3, ""))
        self.assertRegex(err, r"\Achanges: rt cannot be run: .*\n\Z")

    def test_program_fails(self):
        for script in ("#!/bin/sh\nexit 9\n", "#!/bin/sh\necho hm\n", "#!/no/such\n", "#!/bin/sh\nkill -9 $$\n"):
            self.script("crates/schedule/out/schedule", script)
            status, out, err = self.run_it()
            self.assertEqual((status, out), (3, ""))
            self.assertNotIn("Traceback", err)
        (self.root / "crates/schedule/out/schedule").unlink()
        self.assertEqual(self.run_it()[0], 3)

    def test_program_answers_and_fails(self):
        made = self.root / "crates/schedule/out/schedule"
        made.write_text(made.read_text() + "sys.exit(9)\n")
        self.assertIn("ended with status 9", self.run_it()[2])

    def in_a_shell(self, rest):
        """What a shell writes for the command with the rest of its line, both outputs in one."""
        line = f"exec 2>&1; {self.root / 'school/changes.py'} --at {AT} {rest}"
        done = subprocess.run(["sh", "-c", line], env=self.environment(), stdout=subprocess.PIPE, check=False)
        self.assertNotIn(b"Traceback", done.stdout)
        return done.stdout.decode()

    def test_an_output_that_is_full(self):
        self.assertEqual(self.in_a_shell("> /dev/full; echo $?"),
                         "changes: what is shown cannot be written: No space left on device\n3\n")

    def test_an_output_that_is_closed(self):
        self.assertEqual(self.in_a_shell(">&-; echo $?"),
                         "changes: standard output is closed, so nothing can be shown\n3\n")
        self.assertTrue(self.in_a_shell("2>&-").endswith("\nSend new windows before then.\n"))

    def test_a_reader_that_leaves(self):
        self.assertEqual(self.in_a_shell("| head -n 0; echo left"), "left\n")

    def test_a_file_name_that_is_not_utf8(self):
        os.rename(self.root / "school/lists.txt", os.fsencode(self.root) + b"/\xff")
        self.assertIn("\\udcff: 1 zone, 2 windows; ", self.in_a_shell(f"{self.root}/$(printf '\\377')"))


class Proving(Repository):
    """While rt is at work."""

    def slow_rt(self, *crates):
        """An rt that tells of a crate only once the tool has said, in the file `said`, that it is being proved."""
        path = self.root / "school/program.py"
        path.write_text(path.read_text("utf-8").replace(f"PATIENCE = {program.PATIENCE} ", "PATIENCE = 0.05 "), "utf-8")
        wait = ("wait_for() { n=0; until grep -qs \"$1\" said; do\n"
                "n=$((n + 1)); [ $n -lt 600 ] || exit 1; sleep 0.05; done; }\n")
        told = [f"echo 'rt: chose --jobs 2 for {crate}'\nwait_for 'proving {crate} '\n" for crate in crates]
        self.script("path/rt", f"#!/bin/sh\ncd {self.root}\n{wait}{''.join(told)}echo 'logic=proved'\n")

    def test_which_crate_is_being_proved(self):
        self.slow_rt("model", "word", "schedule")
        shell = f"{self.root}/school/changes.py --at {AT} 2> {self.root}/said"
        done = subprocess.run(["sh", "-c", shell], env=self.environment(), stdout=subprocess.PIPE, check=False)
        self.assertEqual((self.root / "said").read_text(), "changes: proving model (1 of 3) ...\n"
                         "changes: proving word (2 of 3) ...\nchanges: proving schedule (3 of 3) ...\n")
        self.assertEqual(done.returncode, 0)
        self.assertIn(b"\n4 changes are coming.\n", done.stdout)

    def test_a_proof_that_fails(self):
        self.slow_rt("model")
        with open(self.root / "path/rt", "a", encoding="utf-8") as file:
            file.write("echo 'rt: the library model did not build'\nexit 1\n")
        shell = f"{self.root}/school/changes.py --at {AT} 2> {self.root}/said"
        self.assertEqual(subprocess.run(["sh", "-c", shell], env=self.environment(), check=False).returncode, 3)
        self.assertEqual((self.root / "said").read_text(), "changes: proving model (1 of 3) ...\n"
                         "rt: chose --jobs 2 for model\nlogic=proved\nrt: the library model did not build\n"
                         "changes: rt run in crates/schedule failed with status 1\n")

    def test_stopped_while_rt_is_at_work(self):
        self.script("path/rt", f"#!/bin/sh\necho $$ > {self.root}/started\nmv {self.root}/started {self.root}/pid\n"
                    "exec sleep 60\n")
        with subprocess.Popen([str(self.root / "school/changes.py")], env=self.environment(), stdout=subprocess.PIPE,
                              stderr=subprocess.PIPE) as tool:
            deadline = time.monotonic() + 30
            while not (self.root / "pid").exists() and time.monotonic() < deadline:
                time.sleep(0.02)
            tool.send_signal(signal.SIGINT)
            self.assertEqual((*tool.communicate(timeout=30), tool.returncode), (b"", b"changes: stopped\n", 3))
        with self.assertRaises(ProcessLookupError):
            os.kill(int((self.root / "pid").read_text()), 0)

    def on_a_terminal(self, columns):
        """What the command writes to a terminal, which the file `said` has too."""
        ours, theirs = pty.openpty()
        fcntl.ioctl(theirs, termios.TIOCSWINSZ, struct.pack("HHHH", 24, columns, 0, 0))
        written = b""
        with subprocess.Popen([str(self.root / "school/changes.py"), "--at", AT], env=self.environment(),
                              stdin=subprocess.DEVNULL, stdout=theirs, stderr=theirs), open(ours, "rb", 0) as terminal:
            os.close(theirs)
            while True:
                try:
                    written += terminal.read(4096)
                except OSError:  # the other side is closed
                    return written.decode().replace("\r\n", "\n")
                (self.root / "said").write_bytes(written)

    def test_on_a_terminal_the_line_is_rewritten_and_removed(self):
        self.slow_rt("model", "word", "schedule")
        written = self.on_a_terminal(80)
        texts = [f"changes: proving {crate} ({n} of 3) ..." for n, crate in enumerate(("model", "word", "schedule"), 1)]
        head = f"\r{texts[0]}\r{texts[1].ljust(len(texts[0]))}\r{texts[2]}\r{' ' * len(texts[2])}\r"
        self.assertEqual(written[:len(head)], head)
        self.assertIn("lists.txt: 1 zone, 2 windows; they fit", written[len(head):].split("\n")[0])

    def test_a_terminals_width(self):
        sentence = "\n    inside a window of +01:00, until Sun 2027-10-31 03:00 local time (2027-10-31T01:00Z)\n"
        self.assertIn(sentence, self.on_a_terminal(88))
        self.assertNotIn(sentence, self.on_a_terminal(87))
