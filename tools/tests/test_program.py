"""The tools that talk with the program."""
from __future__ import annotations

import os
import pty
import re
import resource
import select
import signal
import subprocess
import sys
import time
import unittest
from pathlib import Path

from ran import FRAME, PROGRAM, TOOLS, InFolder, Ran


@unittest.skipIf(PROGRAM is None, "there is no program")
class Why(InFolder):
    def test_a_refusal_is_explained(self) -> None:
        script = Path(__file__).with_name("habits.sand")
        ran = Ran("why", script, "--refusals", folder=str(TOOLS.parent))
        self.assertEqual((ran.status, ran.said), (1, ""))
        # which statements and plans there are is the program's to say
        said = re.sub(r"here may stand: (\S+  ){7,}\S+", "here may stand: MANY", ran.out)
        self.assertEqual(said, script.with_suffix(".stdout").read_text(encoding="utf-8"))

    def test_accepted_lines_are_answered_as_by_the_program(self) -> None:
        assert PROGRAM
        for script in ("first", "browse", "joins", "turns"):
            path = TOOLS.parent / "examples" / f"{script}.sand"
            plain = subprocess.run([PROGRAM], input=path.read_bytes(), stdout=subprocess.PIPE, cwd=TOOLS.parent).stdout.decode()
            if "refused" not in plain:
                self.assertEqual(Ran("why", path, folder=str(TOOLS.parent)).out, plain)

    def test_a_line_may_be_long(self) -> None:
        said = Ran("why", given="create p (at point)\nshow " + 5000 * "9" + " scan p\ninsert p (" + 8000 * " " + "x\n").out
        self.assertIn("a number of 5,000 digits is out of its range; here may stand a number from 1 to 1,000,000", said)
        self.assertIn("refused 6 Syntax 8011\n-- here may stand: a number  (\n", said)

    def test_a_hundred_refused_lines_take_no_two_seconds(self) -> None:
        lines = "create city (at point, name text)\n" + 99 * 'insert city (1,1), "Alba"\n'
        before = resource.getrusage(resource.RUSAGE_CHILDREN).ru_utime
        self.assertEqual(Ran("why", given=lines).out.count("a point is (X Y)"), 99)
        self.assertLess(resource.getrusage(resource.RUSAGE_CHILDREN).ru_utime - before, 2)

    def test_what_cannot_be_taken_is_said_in_one_line(self) -> None:
        self.complains("why: F/no.sand:1: no such file or directory", "why", f"{self.folder}/no.sand")
        self.complains("why: standard input:1: it is empty", "why")
        data = self.file("cities.csv", "(1 1),Alba\n")
        for words in (("--store", data), (f"--store={data}",)):
            self.complains("why: --store empties F/cities.csv, which isn't a page file: it is scratch space and no database",
                           "why", self.file("x.sand", "create a (b int)\n"), "--", *words)
        self.assertEqual(self.read("cities.csv"), "(1 1),Alba\n")
        self.assertEqual(Ran("why", self.file("x.sand", "create a (b int)\n"), "--", "--store", f"{self.folder}/pages").out, "ok\n")
        ran = Ran("why", given=b"create a (b int)\ncr\xe4ate\n")
        self.assertEqual((ran.status, ran.out), (1, "ok\n"))
        self.assertIn("why: standard input:2: it isn't UTF-8", ran.said)


@unittest.skipIf(PROGRAM is None, "there is no program")
class Sandsh(InFolder):
    def test_a_session(self) -> None:
        script = self.file("a.sand", 'create city (at point, name text)\ninsert city (524288 524498), "Älba"\ninsert city (1 1), "Brin"\nindex city.at\n')
        given = f".read {script}\n.mode table\n.frame {FRAME}\nshow 5 fetch (rank city.at from (524288 524288)) 1.name\n" \
                "open c = rank city.at from (1 1)\nnext c 1\n.cursors\nclose c\n.schema\nblocks city.at\nshow 5 scn city\n.save " \
                f"{self.folder}/b.sand\n.nope\n.mode x\n.quit\nnever\n"
        ran = Ran("sandsh", given=given)
        self.assertEqual((ran.status, ran.said), (1, ""))
        self.assertEqual(ran.out.replace(self.folder, "F"), """ok
id 1
id 2
ok
a step is 4.768 m
   distance  city id  name
-----------  -------  ----
    1,001 m        1  Älba
3,535,527 m        2  Brin
end
ok
distance  city id
--------  -------
   0.0 m        2
c (opened on line 9)
ok
city (at point, name text)
index city.at
level  x  y  ids
-----  -  -  ---
    0  0  0  1 2
  15: show 5 scn city
             ^
refused 6 Syntax 8
-- is scan meant?; here may stand: PLANS
4 lines in F/b.sand
there is no .nope; .help tells what there is
.mode takes table or plain
""".replace("PLANS", "  ".join(ran.out.split("here may stand: ")[1].split("\n")[0].split())))
        self.assertEqual(self.read("b.sand"), self.read("a.sand"))

    def test_at_a_terminal_it_has_a_prompt_and_an_interrupt_clears_the_line(self) -> None:
        child, terminal = pty.fork()
        if child == 0:
            # a gate in the background passes on that interrupts are ignored
            signal.signal(signal.SIGINT, signal.default_int_handler)
            os.environ.update(HOME=self.folder, TERM="dumb")
            os.execv(sys.executable, [sys.executable, str(TOOLS / "sandsh")])
        seen = ""
        for typed, wanted, last in (
                ("", "", "sand> "), ("create a (b int)\n", "ok", "sand> "), ("show 2 sc", "", "sc"), ("\x03", "", "sand> "),
                ("insert a 5\n", "id 1", "sand> "), ("show 2 fetch (scan a) 1.b\n", "a id  b", "sand> ")):
            os.write(terminal, typed.encode())
            answer, end = "", time.monotonic() + 60
            while not (wanted in answer and answer.endswith(last)) and time.monotonic() < end:
                if select.select([terminal], [], [], 2)[0]:
                    try:
                        answer += os.read(terminal, 4096).decode()
                    except OSError:
                        break
                elif typed == "\x03":
                    # one that comes just before Python waits is seen at the next key
                    os.write(terminal, b"\x03")
            seen += answer
            self.assertTrue(wanted in answer and answer.endswith(last), seen)
        os.write(terminal, b".quit\n")
        self.assertEqual(os.waitpid(child, 0)[1], 0)
        os.close(terminal)
        self.assertIn("show 2 fetch (scan a) 1.b\n", self.read(".sandsh_history"))

    def test_it_is_plain_without_a_terminal(self) -> None:
        ran = Ran("sandsh", given="create a (b int)\ninsert a 5\n# nothing\nshow 2 fetch (scan a) 1.b\n")
        self.assertEqual((ran.status, ran.out), (0, "ok\nid 1\n1\t5\nend\n"))

    def test_what_cannot_be_taken_is_said_in_one_line(self) -> None:
        self.complains("sandsh: F/no.sand:1: no such file or directory", "sandsh", f"{self.folder}/no.sand")
        self.assertIn("sandsh: standard input:2: it isn't UTF-8", Ran("sandsh", given=b"create a (b int)\n\xe4\n").said)
        self.assertIn("loops.sand: scripts read one another", Ran("sandsh", self.file("loops.sand", f".read {self.folder}/loops.sand\n")).out)


if __name__ == "__main__":
    unittest.main()
