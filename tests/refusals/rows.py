"""This file lists the runs whose calls are struck, each with the reply that is due where nothing is."""

from dataclasses import dataclass

from replies import Reply


@dataclass(frozen=True)
class Row:
    """A program with its arguments and input lines, and the reply that is due; if the text is clap's, its status.

    Where the input is None, standard input is the program.
    """

    arguments: str
    program: str
    input: object
    due: object

    def __str__(self):
        place = "standard input" if self.input is None else "a file"
        return f"ptb {self.arguments} with {self.program!r} from {place}"


def served(output, status=0):
    return Reply(status, output.encode(), b"")


def noted(status, note, reason=None):
    """The reply with this note, and with a second line that has this reason."""
    lines = f"ptb: {note}\n" if reason is None else f"ptb: {note}\n  {reason}\n"
    return Reply(status, b"", lines.encode())


def report(header, transcript):
    return f"RUN {header}\n{transcript}\n"


PRODUCT = "10 PRINT RND(2)*RND(2)\n"
PRODUCTS = [
    report("1,1 END 1 7", "     1\n"),
    report("1,2 END 1 7", "     2\n"),
    report("2,1 END 1 7", "     2\n"),
    report("2,2 END 1 7", "     4\n"),
]
BRANCH = "10 A=RND(2);IF A=2 B=RND(3);PRINT B\n"
BRANCHES = [report("1/2 END 2 0", "")] + [report(f"2/2,{k}/3 END 4 7", f"     {k}\n") for k in (1, 2, 3)]
DICE = "10 PRINT RND(6),RND(6)\n"
ROLL = "10 P.RND(6)\n"
# what the first words of seed 7 make of the questions of these programs, run after run
ROLLS = [report(f"{k}/6 END 1 7", f"     {k}\n") for k in (3, 5, 5)]
SAMPLED = [report("1/2 END 2 0", "")] * 3 + [BRANCHES[1]]
ECHO = "10 INPUT A;PRINT A\n"
ECHOES = [report(f"{k} END 2 16", f"A:RND(2)\n     {k}\n") for k in (1, 2)]
ASK = "10 INPUT A\n"
EDITED = "10 P.1\n20 P.2\n010\tP.3\r\n20"
FAULT = "10 PRINT 1;A=1/0\n"
# lines with mistakes, in two reports and in many
TYPOS = "20 GOTO 30\n10 PRINT )\n"
MISTAKES = "WHAT?\n10 PRINT ?)\nHOW?\n20 GOTO 30?\n"
MANY_TYPOS = "".join(f"{k} @(\n" for k in range(1, 50))
MANY_MISTAKES = "".join(f"WHAT?\n{k} @(?\n" for k in range(1, 50))
# the chances of these programs
BRANCH_TABLE = "CHANCE 1/2 1 END 0\n\n" + "".join(f"CHANCE 1/6 1 END 6\n     {k}\n" for k in (1, 2, 3))
ECHO_TABLE = "".join(f"CHANCE 1/2 1 END 6\n     {k}\n" for k in (1, 2))
# what takes room again and again: answers and a transcript, and the lines of a program
LONG_RUN = "10 F.I=1TO300;P.RND(1);N.I\n"
LONG_REPORT = report(",".join(["1"] * 300) + " END 601 2100", 300 * "     1\n")
LONG_TEXT = "".join(f"{k} REM {k}\n" for k in range(1, 50))

OTHER_BOUND = "--{}: item 1 states the bound 3, but its question has 2"
NOT_UNDER = "--after: the list does not begin with the items of --under"

ROWS = [
    Row("--all --form 1", PRODUCT, "", served("".join(PRODUCTS))),
    Row("--all --form 1", PRODUCT, None, served("".join(PRODUCTS))),
    Row("--all --form 1 --after 1,1 --first 2", PRODUCT, None, served("".join(PRODUCTS[1:3]))),
    Row("--all", BRANCH, "", served("".join(BRANCHES))),
    Row("--all", BRANCH, None, served("".join(BRANCHES))),
    Row("--all --after 2/2,1", BRANCH, None, served("".join(BRANCHES[2:]))),
    Row("--all --under 2/2", BRANCH, "", served("".join(BRANCHES[1:]))),
    Row("--all --under 2 --after 2/2,1", BRANCH, None, served("".join(BRANCHES[2:]))),
    Row("--all --under 2,3", BRANCH, "", served(BRANCHES[3])),
    Row("--answers 2,3", BRANCH, "", served("     3\n")),
    Row("--seed 7", BRANCH, "", served("")),
    Row("--seed 7", DICE, "", served("     3     5\n")),
    Row("--seed 7", LONG_RUN, "", served(300 * "     1\n")),
    Row("--all --shares 1", BRANCH, "", served("1/2\n2/2\n")),
    Row("--all --shares 2", BRANCH, None, served("1/2\n2/2,1/3\n2/2,2/3\n2/2,3/3\n")),
    Row("--all --shares 1 --form 1", ECHO, "RND(2)\n", served("1\n2\n")),
    Row("--all --shares 64", LONG_RUN, "", served(",".join(["1/1"] * 64) + "\n")),
    Row("--shares 1", BRANCH, None, noted(64, "--shares needs --all")),
    Row("--seed 7 --sample 3", ROLL, "", served("".join(ROLLS))),
    Row("--seed 7 --sample 4", BRANCH, None, served("".join(SAMPLED))),
    Row("--seed 7 --sample 1 --form 1", ECHO, "RND(2)\n", served(ECHOES[0])),
    Row("--seed 7 --sample 2 --form 1", LONG_RUN, "", served(2 * LONG_REPORT)),
    Row("--sample 3", ROLL, None, noted(64, "--sample needs --seed")),
    Row("--answers 2,3", BRANCH, None, served("     3\n")),
    Row("--all --form 1", ECHO, "RND(2)\n", served("".join(ECHOES))),
    Row("--answers 1", ECHO, "RND(2)\n", served("A:RND(2)\n     1\n")),
    Row("", ASK, ")\n5\n", served("A:)\nWHAT?\nA:5\n")),
    Row("", ASK, ")\n", served("A:)\nWHAT?\nA:", status=5)),
    Row("--all", ASK, "", served(report("none NOINPUT 1 2", "A:"))),
    Row("--list", EDITED, "", served("10 P.3\n")),
    Row("--list", EDITED, None, served("10 P.3\n")),
    Row("--all --form 1", LONG_RUN, "", served(LONG_REPORT)),
    Row("--list", LONG_TEXT, None, served(LONG_TEXT)),
    Row("--check", TYPOS, "", served(MISTAKES, status=1)),
    Row("--check", TYPOS, None, served(MISTAKES, status=1)),
    Row("--check", MANY_TYPOS, None, served(MANY_MISTAKES, status=1)),
    Row("--check", EDITED, "", served("")),
    Row("--check --all", TYPOS, None, noted(64, "--check stands alone")),
    Row("--chances", BRANCH, "", served(BRANCH_TABLE)),
    Row("--chances", BRANCH, None, served(BRANCH_TABLE)),
    Row("--chances", ECHO, "RND(2)\n", served(ECHO_TABLE)),
    Row("--chances --steps 1", ASK, ")\n", served("CHANCE 1/1 1 NOINPUT 2\nA:\n")),
    Row("--chances --all", BRANCH, None, noted(64, "--chances stands alone")),
    Row("", FAULT, None, served("     1\nHOW?\n10 PRINT 1;A=1/0?\n", status=2)),
    Row("", "32768 P.1\n", None, noted(65, "line 1: number too big")),
    Row("--all --after 2", BRANCH, None, noted(67, "not a run", "--after: item 2 is missing; its question allows 1 to 3")),
    Row("--all --after 2/3,1/3", BRANCH, None, noted(67, "not a run", OTHER_BOUND.format("after"))),
    Row("--all --under 2/3", BRANCH, None, noted(67, "no run begins so", OTHER_BOUND.format("under"))),
    Row("--all --under 2,1,1 --after 2,1", BRANCH, "", noted(67, "no run begins so", "--under: the run is over after 2 items")),
    Row("--all --under 2 --after 1", BRANCH, None, noted(67, "not a run", NOT_UNDER)),
    Row("--all --under 2,", BRANCH, None, noted(64, "bad list", '--under: item 2 ("") is not a number from 1 to 32767')),
    Row("--all --after 2/2,1/", BRANCH, None, noted(64, "bad list", '--after: item 2 ("1/") is not a number from 1 to 32767')),
    Row("--answers 1,,2", PRODUCT, None, noted(64, "bad list", '--answers: item 2 ("") is not a number from 1 to 32767')),
    Row("--help", PRODUCT, None, 0),
    Row("--steps 0", PRODUCT, None, 64),
]
