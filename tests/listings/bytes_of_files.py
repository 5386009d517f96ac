"""The table "Bytes and lines" of docs/OLD-LISTINGS.md: for each row a file's bytes, and the program that they become."""

import unittest

from programs import adapt
from rows import BYTES, rows_of_page

LONG = '10 A=1:PRINT "' + "A" * 90 + '";:PRINT "' + "B" * 90 + '";:PRINT "' + "C" * 90 + '"\n20 GOTO 10\n'
LONG_TEXTS = ['A=1;PRINT "' + "A" * 90 + '",;PRINT "' + "B" * 90 + '",', 'PRINT "' + "C" * 90 + '"']
HI = b'10 PRINT "HI"\n'
FILES = {
    "letters of 16 bits (UTF-16)": [(b"\xff\xfe" + HI.decode().encode("utf-16-le"), HI.decode())],
    "a BOM at its start (bytes EF BB BF)": [(b"\xef\xbb\xbf" + HI, HI.decode())],
    "the parity bits of a punched tape": [
        (bytes(byte | 128 for byte in HI), HI.decode()),
        (bytes(byte | (bin(byte).count("1") % 2) << 7 for byte in HI), HI.decode()),
    ],
    "NULs and rubouts of a punched tape": [(b"\0\0" + HI.replace(b"I", b"I\x7f") + b"\0\0", HI.decode())],
    "a Ctrl-Z (byte 26) at its end": [(HI + b"\x1a\x1a", HI.decode())],
    "byte 13 at its line ends, without 10 (old Mac)": [(b"10 END\r20 END\r", "10 STOP\n20 STOP\n")],
    "byte 13 and 10 at its line ends (DOS)": [(b"10 END\r\n20 END\r\n", "10 STOP\n20 STOP\n")],
    "curly quotes “ ” and ‘ ’": [('10 PRINT “I DON’T”:END ‘OVER’\n'.encode(), '10 PRINT "I DON\'T";STOP\n')],
    "a long dash – or − for a minus": [("10 A=–7−2\n".encode(), "10 A=-9\n"), ("10 A=B–7−C\n".encode(), "10 A=B-C-7\n")],
    "the signs ≠, ≤ and ≥": [
        ("10 IF A≠1 THEN 20\n20 IF A≤1 THEN 10\n".encode(), "10 IF A#1 GOTO 20\n20 IF A<=1 GOTO 10\n"),
        ("10 IF A≥1 THEN 10\n".encode(), "10 IF A>=1 GOTO 10\n"),
    ],
    "no-break spaces": [('10\u00a0PRINT\u00a0"HI\u00a0THERE"\n'.encode(), '10 PRINT "HI THERE"\n')],
    "letters as É in its strings": [
        ('10 PRINT "CAFÉ"\n'.encode(), '10 PRINT "CAF?"\n'),
        ('10 PRINT "CAFÉ WITH A CUP OF MILK"\n'.encode("latin-1"), '10 PRINT "CAF? WITH A CUP OF MILK"\n'),
    ],
    "small letters in words and names": [
        (b'10 print "Hi";:score=Score+1:rem Why\n', '10 PRINT "Hi",;S=S+1;REM Why\n11 REM S IS SCORE\n'),
    ],
    "a prompt `>` before each number": [(b">10 A=1\n>20 END\n", "10 A=1\n20 STOP\n")],
    "`NEW`, `LIST`, `RUN`, `OK`, `READY` in lines of their own": [(b"NEW\nOK\n10 END\nLIST\nREADY\nrun\n", "10 STOP\n")],
    "wrapped lines": [
        (b'10 PRINT "A LONG\n LINE"\n20 A=1:B=2\n  :C=3\n', '10 PRINT "A LONG LINE"\n20 A=1;B=2;C=3\n'),
        (b'10 PRINT "AND ANO\nTHER"\n20 END\n', '10 PRINT "AND ANOTHER"\n20 STOP\n'),
    ],
    "lines in any order, and one number twice": [(b"20 END\n10 A=1\n020 A=2\n", "10 A=1\n20 A=2\n")],
    "lines without numbers": [(b"A=1\nPRINT A\n\nEND\n", '10 A=1\n20 PRINT " ",#1,A\n30 STOP\n')],
    "line numbers above 32767": [
        (b"30 GOSUB 40000\n40 END\n40000 PRINT\n40010 RETURN\n", "10 GOSUB 30\n20 STOP\n30 PRINT\n40 RETURN\n"),
        (b"10 GOTO 10*A\n40000 END\n", "10 REM GOTO 10*A\n20 STOP\n"),
    ],
    "a line of more than 255 bytes": [(LONG.encode(), f"10 {LONG_TEXTS[0]}\n11 {LONG_TEXTS[1]}\n20 GOTO 10\n")],
    "no number left where a line is split": [
        (LONG.replace("20 GOTO", "11 GOTO").encode(), f"10 {LONG_TEXTS[0]}\n20 {LONG_TEXTS[1]}\n30 GOTO 10\n"),
        (b"1 READ A\n2 DATA 5\n", "10 @(0)=5\n20 A=@(Z),Z=Z+1\n"),
    ],
}


class File(unittest.TestCase):
    """The bytes of a file become a program."""

    def __init__(self, name, place):
        super().__init__()
        self.name, self.place = name, place

    def id(self):
        return f"row {self.name}: {self.place}"

    def runTest(self):
        data, due = FILES[self.name][self.place]
        status, program, report = adapt(data, "--dialect", "microsoft")
        self.assertEqual((program, status), (due, 1 if "REM GOTO" in due else 0), report)

    def __str__(self):
        return self.id()


class Named(unittest.TestCase):
    """The rows of the table are those that are tried."""

    def id(self):
        return "rows: those on bytes and lines are all tried"

    def runTest(self):
        self.assertEqual([row.cells[0] for row in rows_of_page() if row.heading == BYTES], list(FILES))

    def __str__(self):
        return self.id()


def suite():
    """The tests of files."""
    return [Named()] + [File(name, place) for name, files in FILES.items() for place in range(len(files))]
