"""tools/adapt as a command: its arguments, statuses and messages, and the dialects that it finds out."""

import glob
import os
import subprocess
import tempfile
import unittest

from programs import ADAPT, ROOT, adapt, play

MICROSOFT = "Microsoft BASIC is read, with : between statements, and RND(N) is a fraction"
ZERO = "Microsoft BASIC is read, with : between statements, and RND(N) is from 0 to N-1"
ONE = "Microsoft BASIC is read, with : between statements, and RND(N) is from 1 to N"
BACKSLASH = "Microsoft BASIC is read, with \\ between statements, and RND(N) is a fraction"
PITTMAN = "Pittman's Tiny BASIC is read, with : between statements, and RND(N) is from 0 to N-1"
DENVER = "Denver Tiny BASIC is read, with : between statements, and RND(N) is from 0 to N-1"
PALO_ALTO = "Palo Alto Tiny BASIC is read, with ; between statements, and RND(N) is from 1 to N"
# Listings, and the dialect that is found in them.
FOUND = [
    ('10 PRINT "HI"\n', MICROSOFT),
    ('10 PRINT "A;B";A\n20 PRINT "X";Y;Z\n', MICROSOFT),
    ("10 A=INT(6*RND(1))\n", MICROSOFT),
    ("10 FOR I=1 TO 3\n20 A=RND(6)+1\n30 NEXT I\n", ZERO),
    ("10 FOR I=1 TO 3\n20 A=RND(6)\n30 NEXT I\n", ONE),
    ("10 A=1\\B=2\n", BACKSLASH),
    ('10 PR "HI"\n20 A=RND(6)\n', PITTMAN),
    ('10 PR "HI"\n20 NXT I\n', DENVER),
    ("10 A=1;B=2\n", PALO_ALTO),
    ("10 @(1)=2\n", PALO_ALTO),
    ('10 PRINT "HI";GOTO 10\n', PALO_ALTO),
    ("10 REM A;B=1\n20 PRINT A;B\n", MICROSOFT),
]
NO_LISTINGS = {
    b"": "it is empty",
    b"\n\n": "it is empty",
    b"Dear Sir,\nthis is a letter.\nGood bye\n": "its first line is 'Dear Sir,'",
    b"\x7fELF\x02\x01\x01\0\0\0\0\0\0\0\0\0\x03\0>\0": "it has no statements of BASIC",
    b"1 2 3\n4 5 6\n": "its first line is '1 2 3'",
}


KEPT = [
    "A=B-(C-D)",
    "A=B-(C+D)*E",
    "A=B/(C*D)-(-E)",
    "A=-(B+C)",
    "A=B*(-C)",
    "A=(B=C)+1",
    "A=B=C,@(A+1)=2",
    'PRINT #4,A,"X",_,B>1,',
    "INPUT \"X\"A,@(2),'Y',_C",
    "FOR I=1 TO RND(6) STEP -1",
    "IF ABS(A)>=SIZE GOSUB 10*A;NEXT I",
]
# Examples whose lines are the same in other dialects.
IN_ANY_DIALECT = ("hello", "throw")


def contents(path):
    """What a file holds."""
    with open(path, encoding="ascii") as file:
        return file.read()


class Command(unittest.TestCase):
    """The command."""

    def test_examples(self):
        """Each example is found to be in Palo Alto Tiny BASIC, and plays as before. Lines with mistakes are left to a person."""
        examples = sorted(glob.glob(f"{ROOT}/examples/*.bas"))
        self.assertTrue(examples)
        for path in examples:
            base = path[: -len(".bas")]
            named = ("--dialect", "palo-alto") if os.path.basename(base) in IN_ANY_DIALECT else ()
            status, program, report = adapt(contents(path), *named)
            due = 1 if os.path.exists(f"{base}.check") else 0
            self.assertEqual((status, report.split("\n")[0]), (due, f"adapt: changed: {PALO_ALTO}"), path)
            answers = contents(f"{base}.answers").strip() if os.path.exists(f"{base}.answers") else "none"
            limits = ["--steps", "1000000", "--memory", "32767", "--answers", answers]
            self.assertEqual(play(program, limits, contents(f"{base}.input"))[1], contents(f"{base}.transcript"), path)

    def test_dialects(self):
        """The dialect of each listing is found out."""
        for listing, due in FOUND:
            report = adapt(listing)[2]
            self.assertEqual(report.split("\n")[0], f"adapt: changed: {due}", listing)

    def test_form(self):
        """A program in Palo Alto Tiny BASIC keeps its form."""
        for text in KEPT:
            self.assertEqual(adapt(f"10 {text}\n", "--dialect", "palo-alto")[:2], (0, f"10 {text}\n"))

    def test_longest_line(self):
        """A line of 255 bytes is not split; one byte more makes two lines."""
        prints = [f'PRINT "{"A" * 100}"', f'PRINT "{"B" * 100}"']
        for letters, lines in ((29, 1), (30, 2)):
            text = ":".join([*prints, f'PRINT "{"C" * letters}"'])
            status, program, _ = adapt(f"10 {text}\n", "--dialect", "microsoft")
            self.assertEqual((status, len(program.splitlines())), (0, lines))
            self.assertEqual(play(program, [], "")[0], 0)

    def test_longest_if(self):
        """An IF of 255 bytes is not split; one byte more makes it a jump over lines."""
        for letters, lines in ((22, 2), (23, 3)):
            text = f'IF A=1 THEN PRINT "{"A" * 100}":PRINT "{"B" * 100}":PRINT "{"C" * letters}"'
            _, program, _ = adapt(f"10 {text}\n20 END\n", "--dialect", "microsoft")
            self.assertEqual(len(program.splitlines()), lines, program)
            self.assertEqual(play(program, [], "")[:2], (0, ""))

    def test_options(self):
        """Options change what is found out."""
        listing = "10 PRINT A;B=RND(6)\n"
        self.assertEqual(adapt("10 A=1;B=RND(6)\n", "--random", "zero")[1], "10 A=1;B=RND(6)-1\n")
        self.assertEqual(adapt("10 A=RND(6)\n", "--random", "one", "--dialect", "microsoft")[1], "10 A=RND(6)\n")
        self.assertEqual(adapt("10 A=RND(6)*5\n", "--random", "fraction", "--dialect", "microsoft")[1], "10 A=RND(5)-1\n")
        self.assertEqual(adapt(listing, "--dialect", "palo-alto", "--separator", ";")[1], "10 PRINT A;B=RND(6)\n")
        self.assertEqual(adapt("10 A=1\\B=2\n", "--separator", "\\")[1], "10 A=1;B=2\n")

    def test_quiet(self):
        """--quiet leaves out what was changed, and nothing else."""
        for option in ("-q", "--quiet"):
            done = adapt("10 LET A=B/2:C$=1\n20 A=B/2\n", option)
            self.assertEqual(done[0], 1)
            self.assertEqual(
                done[2],
                "adapt: line 10: rewrite by hand: strings in variables: C$\n"
                "adapt: line 20: meaning may change: the fraction of a quotient is dropped\n",
            )

    def test_no_listing(self):
        """What is no listing has status 2 and no output."""
        for data, due in NO_LISTINGS.items():
            status, program, report = adapt(data)
            self.assertEqual((status, program), (2, ""), data)
            self.assertTrue(report.startswith("adapt: -: not a listing: it ") and due in report, report)

    def test_memory(self):
        """A program that is too large for the default memory is reported."""
        for last, needed in ((2042, 0), (2043, 4098)):
            _, program, report = adapt(f"10 DIM A({last})\n20 A({last})=1\n")
            found = f"adapt: meaning may change: it needs {needed} bytes: run it with --memory 32767\n" in report
            self.assertEqual((found, play(program, [], "")[0]), (needed > 0, 3 if needed else 0), last)
            self.assertEqual(play(program, ["--memory", str(needed or 4096)], "")[0], 0)
        status, _, report = adapt("10 DIM A(99,199)\n20 A(1,1)=1\n")
        self.assertEqual(status, 1)
        self.assertIn("rewrite by hand: it needs 40009 bytes, and there are at most 32767", report)

    def test_lines_of_the_report(self):
        """A change that many lines have names the first six."""
        listing = "".join(f"{number} END\n" for number in range(10, 100, 10))
        self.assertIn("adapt: changed: END is STOP (lines 10, 20, 30, 40, 50, 60 and 3 more)\n", adapt(listing)[2])

    def test_files(self):
        """A file is read by its name; one that isn't there has status 66."""
        with tempfile.TemporaryDirectory() as folder:
            path = os.path.join(folder, "old.bas")
            with open(path, "w", encoding="ascii") as file:
                file.write("10 END\n")
            done = subprocess.run([ADAPT, path], capture_output=True, check=False)
            self.assertEqual((done.returncode, done.stdout), (0, b"10 STOP\n"))
            done = subprocess.run([ADAPT, f"{path}s"], capture_output=True, check=False)
            self.assertEqual((done.returncode, done.stdout), (66, b""))
            self.assertEqual(done.stderr.decode(), f"adapt: cannot read {path}s: No such file or directory\n")

    def test_usage(self):
        """Usage errors have status 64."""
        for arguments in ([], ["a", "b"], ["--dialect", "cobol", "-"], ["--separator", ",", "-"], ["--unknown", "-"]):
            done = subprocess.run([ADAPT, *arguments], capture_output=True, check=False, input=b"10 END\n")
            self.assertEqual((done.returncode, done.stdout), (64, b""), arguments)

    def test_full_device(self):
        """A program that can't be written has status 74."""
        if not os.path.exists("/dev/full"):
            self.skipTest("there is no /dev/full")
        with open("/dev/full", "w", encoding="ascii") as full:
            done = subprocess.run([ADAPT, "-"], stdout=full, stderr=subprocess.PIPE, input=b"10 END\n", check=False)
        self.assertEqual((done.returncode, done.stderr), (74, b"adapt: cannot write: No space left on device\n"))

    def test_closed_streams(self):
        """Standard input, output and error may be closed."""
        for redirection, due in (
            ("- <&-", (66, b"", b"adapt: cannot read the listing: standard input is closed\n")),
            ("- >&-", (74, b"", b"adapt: cannot write: standard output is closed\n")),
            ("- 2>&-", (0, b"10 STOP\n", b"")),
        ):
            command = ["sh", "-c", f'exec "$0" {redirection}', ADAPT]
            done = subprocess.run(command, capture_output=True, check=False, input=b"10 END\n")
            self.assertEqual((done.returncode, done.stdout, done.stderr), due)

    def test_help_and_version(self):
        """--help and --version."""
        for option in ("-h", "--help"):
            done = subprocess.run([ADAPT, option], capture_output=True, check=False)
            self.assertEqual((done.returncode, b"usage: adapt" in done.stdout), (0, True))
        for option in ("-V", "--version"):
            done = subprocess.run([ADAPT, option], capture_output=True, check=False)
            self.assertEqual((done.returncode, done.stdout[:10]), (0, b"ptb-adapt "))


def suite():
    """The tests of the command."""
    return list(unittest.TestLoader().loadTestsFromTestCase(Command))
