"""This file has the runs at the ends of the ranges, each with the reply that the language's rules make of it."""

from dataclasses import dataclass
from typing import Optional

from replies import Reply
from seeds import drawn

TEXT_LIMIT = 1_048_576
INPUT_LIMIT = 16_777_216
STATEMENT_LIMIT = 255
STEP_LIMIT = 1_000_000_000
LETTERS = "ABCDEFGHIJKLMNOPQRSTUVWXYZ"


@dataclass(frozen=True)
class Case:
    """A run by its name, words, program and input, with the reply that is due.

    Where the input is None, standard input is the program. Otherwise the program is in the file of this name.
    """

    name: str
    words: tuple
    program: bytes
    input: Optional[bytes]
    due: Reply
    file: str = "program.bas"


def case(name, program, due, words, lines, **file):
    lines = None if lines is None else lines.encode()
    return Case(name, tuple(words.split()), program.encode(), lines, due, **file)


def run(name, program, output, status=0, words="", lines=None, **file):
    """A run, of a program on standard input where no input lines are given."""
    return case(name, program, Reply(status, output.encode(), b""), words, lines, **file)


def refusal(name, program, status, note, words="", lines=None):
    """A run that writes nothing but its note."""
    return case(name, program, Reply(status, b"", f"ptb: {note}\n".encode()), words, lines)


def report(answers, ending, steps, transcript):
    taken = ",".join(map(str, answers)) or "none"
    return f"RUN {taken} {ending} {steps} {len(transcript)}\n{transcript}\n"


# ---- deep and long expressions


def nested(opening, inside):
    """As many of these around the inside as a text of 253 bytes has room for, and how many there are."""
    count = (STATEMENT_LIMIT - 2 - len(inside)) // (len(opening) + 1)
    return opening * count + inside + ")" * count, count


def expressions():
    """PRINT of the deepest and of the longest expressions."""
    unclosed = "P." + "(" * 253
    closed, depth = nested("(", "7")
    assert depth == 126 and len(closed) == 253
    yield run("253 open parentheses", f"10 {unclosed}\n", f"WHAT?\n10 {unclosed}?\n", 1)
    yield run("126 nested parentheses", f"10 P.{closed}\n", "     7\n")
    yield run("nested ABS", f"10 P.{nested('A.(', '7')[0]}\n", "     7\n")
    yield run("nested elements", f"10 P.{nested('@(', '0')[0]}\n", "     0\n")
    negated, signs = nested("-(", "7")
    assert signs % 2 == 0
    yield run("nested signs", f"10 P.{negated}\n", "     7\n")
    rolls, count = nested("R.(", "7")
    answers = ",".join(["7"] * count)
    yield run("nested RND", f"10 P.{rolls}\n", "     7\n", words=f"--answers {answers}")
    least = ",".join(["7"] * (count - 1))
    yield run("nested RND, an answer short", f"10 P.{rolls}\n", "", 6, words=f"--answers {least}")
    nines, zeros = "A=" + "9" * 200, "A=" + "0" * 200 + "5"
    yield run("a number of 200 nines", f"10 {nines}\n", f"HOW?\n10 {nines}?\n", 2)
    yield run("200 zeros and a five", f"10 {zeros};P.A\n", "     5\n")


def answers_of_input():
    """INPUT of the deepest expressions that a line has room for."""
    closed = "(" * 127 + "7" + ")" * 127
    yield run("127 nested parentheses in a line", "10 INPUT A;P.A\n", f"A:{closed}\n     7\n", lines=closed + "\n")
    unclosed = "(" * 255
    shown = f"A:{unclosed}\nWHAT?\nA:"
    yield run("255 open parentheses in a line", "10 INPUT A;P.A\n", shown, 5, lines=unclosed + "\n")
    yield run("256 of them, of which 255 are kept", "10 INPUT A;P.A\n", shown, 5, lines=unclosed + "(\n")


# ---- open loops and calls, and long inputs


def loops(letters):
    """FOR for each letter; each loop has one turn."""
    return ";".join(f"F.{letter}=1TO1" for letter in letters)


CHECKSUM = 9973
# 26 loops and a call, nine times, and 13 loops are 256. Then lines are taken up to one that is 0.
DEEPEST = f"""\
10 {loops(LETTERS)};GOS.20;S.
{"".join(f"{line} {loops(LETTERS)};GOS.{line + 10};R." + chr(10) for line in range(20, 100, 10))}\
100 {loops(LETTERS[:13])};S=0
110 INPUT V;IF V=0 GOTO 130
120 S=S*3+V,S=S-S/{CHECKSUM}*{CHECKSUM};GOTO 110
130 P.S;{";".join(f"N.{letter}" for letter in reversed(LETTERS[:13]))};R.
"""


def values(count):
    """So many values, none of them 0 but the last."""
    return [1 + 37 * i % 2000 for i in range(count - 1)] + [0]


def checksum(numbers):
    result = 0
    for number in numbers:
        result = (3 * result + number) % CHECKSUM
    return result


def deepest():
    """256 open loops and calls, with an input of 16 MiB that is taken to its end."""
    numbers = values(INPUT_LIMIT // 256)
    lines = [f"{number:6} ".ljust(255, "X") for number in numbers]
    text = "".join(line + "\n" for line in lines)
    assert len(text) == INPUT_LIMIT
    shown = "".join(f"V:{line}\n" for line in lines) + f"{checksum(numbers[:-1]):6}\n"
    # lines 10 to 90, line 100, the lines that are not 0, the last one, line 130, and eight RETURNs and STOP
    steps = 9 * 27 + 14 + 4 * (len(lines) - 1) + 3 + 15 + 9
    few = "--steps 262424"
    assert few.endswith(str(steps))
    yield run("256 open, 16 MiB of input", DEEPEST, shown, words=few, lines=text)
    yield run("all runs of it", DEEPEST, report([], "STOP", steps, shown), words=few + " --all", lines=text)
    too_long = text + "\n"
    yield run("a byte more, after the last line that is asked for", DEEPEST, shown, words=few, lines=too_long)
    unread = f"cannot read the input\n  standard input has more than {INPUT_LIMIT} bytes"
    yield refusal("a byte more, and all runs", DEEPEST, 66, unread, few + " --all", too_long)


def long_lines():
    line = "7 " + "X" * (INPUT_LIMIT - 3) + "\n"
    shown = f"V:{line[:255]}\n     7\n"
    yield run("a line of 16 MiB", "10 INPUT V;P.V\n", shown, lines=line)
    yield run("16 Mi lines, none of them taken", '10 P."HI"\n', "HI\n", lines="\n" * INPUT_LIMIT)


def too_deep():
    shown = "SORRY\n10 F.I=1TO1?;GOS.10\n"
    yield run("a 257th loop", "10 F.I=1TO1;GOS.10\n", shown, 3)
    yield run("all runs of it", "10 F.I=1TO1;GOS.10\n", report([], "SORRY", 257, shown), words="--all")


# ---- steps


def most_steps():
    yield run("the most steps", "10 GOTO 10\n", "", 4, f"--steps {STEP_LIMIT}")
    counting = "10 I=I+1;IF I<32767 GOTO 10\n20 I=0;GOTO 10\n"
    due = report([], "LIMIT", STEP_LIMIT, "")
    yield run("the most steps, as a report", counting, due, words=f"--steps {STEP_LIMIT} --all")


# ---- program texts


def replaced_lines():
    """A text of 1 MiB whose lines replace one another, and its listing."""
    kept, lines, room, k = {}, [], TEXT_LIMIT, 0
    while room:
        number, k = 1 + 7 * k % 100, k + 1
        length = min(STATEMENT_LIMIT, room - len(f"{number} \n"))
        if length < 10:
            lines.append("\n" * room)
            break
        kept[number] = f"REM {k} ".ljust(length, "X")
        lines.append(f"{number} {kept[number]}\n")
        room -= len(lines[-1])
    return "".join(lines), "".join(f"{number} {kept[number]}\n" for number in sorted(kept))


def long_texts():
    text, listing = replaced_lines()
    assert len(text) == TEXT_LIMIT
    most = "--memory 32767"
    yield run("a text of 1 MiB", text, "", words=most)
    yield run("its listing", text, listing, words=most + " --list")
    yield run("its listing, from a file", text, listing, words=most + " --list", lines="5\n")
    yield refusal("a byte more", text + "\n", 65, "program too long", most)
    missing = "\n" * (TEXT_LIMIT - 3) + "P.1"
    yield refusal("a fault in the last line", missing, 65, f"line {TEXT_LIMIT - 2}: no statement number")
    yield run("a line that is deleted again and again", "1\n" * (TEXT_LIMIT // 2), "")
    # a statement costs its two bytes and 3 more
    most_statements = "".join(f"{number} P.\n" for number in range(1, 6554))
    yield run("6553 statements", most_statements, "\n" * 6553, words=most)
    yield run("their listing", most_statements, most_statements, words=most + " --list")
    yield refusal("one more", most_statements + "6554 P.\n", 65, "line 6554: program full", most)


def long_statements():
    yield refusal("a number of 200 digits", "9" * 200 + " P.\n", 65, "line 1: number too big")
    yield refusal("a text of 256 bytes", "10 A=" + "9" * 254 + "\n", 65, "line 1: text too long")
    full = "P." + ",".join(["1"] * 126) + ",9"
    assert len(full) == STATEMENT_LIMIT
    yield run("a text of 255 bytes", f"10 {full}\n", "     1" * 126 + "     9\n")


# ---- lists of answers


def long_lists():
    """Two loops of 30,000 questions each, all with one answer, and lists of so many answers as words."""
    loop = "F.I=1TO30000;A=RND(1);N.I"
    program = f"10 {loop}\n20 {loop}\n"
    ones = [1] * 60_000
    listed, steps = "--steps 200000 --all --form 1", 2 * (1 + 2 * 30_000)

    def after(answers):
        return f"{listed} --after {','.join(map(str, answers))}"

    def under(answers):
        return f"{listed} --under {','.join(map(str, answers))}"

    rolled = program + "30 P.RND(2)\n"
    last = report([*ones, 2], "END", steps + 1, "     2\n")
    yield run("a run of 60,000 answers", program, report(ones, "END", steps, ""), words=listed)
    yield run("nothing is after it", program, "", words=after(ones))
    yield run("a run is after one of 60,001", rolled, last, words=after([*ones, 1]))
    yield run("60,000 answers of a plain run", program, "", words=f"--steps 200000 --answers {','.join(['1'] * 60_000)}")
    over = "the run is over after 60000 items"
    too_great = "item 60000 is 2, but its question allows 1 to 1"
    missing = "item 60000 is missing; its question allows 1 to 1"
    not_a_run, no_run = "not a run\n  --after: ", "no run begins so\n  --under: "
    yield refusal("one answer short", program, 67, not_a_run + missing, after(ones[1:]))
    yield refusal("one answer too many", program, 67, not_a_run + over, after([*ones, 1]))
    yield refusal("the last answer too great", program, 67, not_a_run + too_great, after([*ones[1:], 2]))
    yield run("a run under 60,000 answers", program, report(ones, "END", steps, ""), words=under(ones))
    yield run("a run under all but one of them", program, report(ones, "END", steps, ""), words=under(ones[1:]))
    yield run("the last of two runs, under 60,001 answers", rolled, last, words=under([*ones, 2]))
    both = f"{after([*ones, 1])} --under {','.join(['1'] * 100)}"
    yield run("it after the other, under the first 100 of them", rolled, last, words=both)
    yield refusal("a run begins with no more answers", program, 67, no_run + over, under([*ones, 1]))
    yield refusal("nor with one that is too great", program, 67, no_run + too_great, under([*ones[1:], 2]))


# ---- seeds and answers


SEEDED = """\
10 F.I=1TO257;F.J=1TO256
20 P.#1,R.(32767)
30 N.J;N.I
"""


def seeds():
    """More than 65,536 questions, each answered by the seed's next word."""
    steps = 1 + 257 * (1 + 256 * 2 + 1)
    for seed in (0, 7, 4_294_967_295):
        shown = "".join(f"{answer}\n" for answer in drawn(seed, 32767, 257 * 256))
        yield run(f"65,792 answers by the seed {seed}", SEEDED, shown, words=f"--seed {seed} --steps {steps}")
        rolls = "".join(f"RUN {roll}/6 END 1 7\n{roll:6}\n\n" for roll in drawn(seed, 6, 20_000))
        yield run(f"20,000 runs by the seed {seed}", "10 P.RND(6)\n", rolls, words=f"--seed {seed} --sample 20000")


# ---- many lines of input


SUMMED = f"""\
10 INPUT V;S=S*3+V,S=S-S/{CHECKSUM}*{CHECKSUM};IF V GOTO 10
20 P.S,RND(2)
"""


def many_lines():
    """All runs on 1,000,000 lines, each of which both runs take, and on as many that are not enough."""
    numbers = values(1_000_000)
    lines = "".join(f"{number}\n" for number in numbers)
    shown = "".join(f"V:{number}\n" for number in numbers) + f"{checksum(numbers):6}"
    # four commands for each line but the last, three for this one, and PRINT
    steps = 4 * (len(numbers) - 1) + 3 + 1
    due = "".join(report([k], "END", steps, f"{shown}{k:6}\n") for k in (1, 2))
    yield run("all runs on 1,000,000 lines", SUMMED, due, words=f"--all --form 1 --steps {steps}", lines=lines)
    due = report([], "NOINPUT", 2 * len(numbers) + 1, "".join(f"V:{number}\n" for number in numbers) + "V:")
    yield run("and a line more is asked for", "10 INPUT V;GOTO 10\n", due, words=f"--all --steps {steps}", lines=lines)


# ---- sizes of memory


def filled(statement, cost):
    """A program of this statement and a remark that cost so many bytes of memory."""
    rest = cost - (len(statement) + 3) - 3
    return f"10 {statement}\n20 {'REM'.ljust(rest, 'X')}\n"


def memories():
    """What programs leave of the least memory, of the usual and of the most."""
    for words, memory in (("--memory 64", 64), ("", 4096), ("--memory 32767", 32767)):
        left = memory - len("P.SIZE") - 3
        yield run(f"SIZE in {memory} bytes", "10 P.SIZE\n", f"{left:6}\n", words=words)
    least, elements = "--memory 64", "P.SIZE,@(0),@(1)"
    sorry = f"     0\nSORRY\n10 {elements}?\n"
    yield run("room for two elements", filled(elements, 62), "     2     0     0\n", words=least)
    yield run("room for one element", filled(elements, 63), "     1" + sorry, 3, least)
    yield run("64 bytes for 64", filled(elements, 64), "     0" + sorry, 3, least)
    yield refusal("65 bytes for 64", filled(elements, 65), 65, "line 2: program full", least)


# ---- arguments


def arguments():
    """Seventeen arguments, the last of which names the program, and names that might be taken for others."""
    options = "--steps 9 --memory 100 --choose 3 --all --under 2 --after 2,1 --first 1 --form 1 --"
    assert len(options.split()) == 16
    asking = "A=RND(2);INPUT B;P.#1,A,B,SIZE"
    program = f"10 {asking}\n20 GOTO 20\n"
    size = 100 - (len(asking) + 3) - (len("GOTO 20") + 3)
    due = report([2, 2], "LIMIT", 9, f"B:2\n22{size}\n")
    yield run("17 arguments", program, due, words=options, lines="")
    other = '10 P."STANDARD INPUT"\n'
    for words, name in (("", "-"), ("", " program.bas "), ("", "a program.bas"), ("--", "--list")):
        yield run(f"a program named {name!r}", '10 P."FILE"\n', "FILE\n", words=words, lines=other, file=name)


# ---- mistakes


def mistakes():
    """Texts with as many mistakes as they have room for, and the longest ones."""
    unclosed = "P." + "(" * 253
    report_of_it = f"WHAT?\n32767 {unclosed}?\n"
    yield run("the mistake of 253 open parentheses", f"32767 {unclosed}\n", report_of_it, 1, "--check")
    nines = "A=" + "9" * 253
    yield run("the mistake of 253 nines", f"1 {nines}\n", f"HOW?\n1 {nines}?\n", 1, "--check")
    jumps = ["GOS.9"] * 42
    lines = range(10, 126)
    text = "".join(f"{line} {';'.join(jumps)}\n" for line in lines)
    reports = (
        f"HOW?\n{line} {';'.join(jumps[:k])}?{''.join(';' + jump for jump in jumps[k:])}\n"
        for line in lines
        for k in range(1, len(jumps) + 1)
    )
    yield run("4872 jumps to a missing line", text, "".join(reports), 1, "--check --memory 32767")
    found = "".join(f"{line} GOS.{line + 1}\n" for line in range(1, 3000)) + "3000 R.\n"
    yield run("2999 calls of the next line", found, "", 0, "--check --memory 32767")


# ---- chances


def tables():
    """Tables of many results, of many answers in one run, of a long denominator, and of a long last line."""
    rows = (f"CHANCE 1/32767 1 END 6\n{k:6}\n" for k in range(1, 32768))
    yield run("the chances of 32767 results", "10 P.RND(32767)\n", "".join(rows), 0, "--chances")
    yield run("the chance of 4000 answers", "10 F.I=1TO4000;A=RND(1);N.I\n", "CHANCE 1/1 1 END 0\n\n", 0, "--chances")
    # each throw continues with one answer of two, up to the limit
    tosses = 1 << 4999
    due = f"CHANCE {tosses - 1}/{tosses} 4999 STOP 0\n\nCHANCE 1/{tosses} 1 LIMIT 0\n\n"
    yield run("the chances of 4999 tosses", "10 IF RND(2)=1 STOP\n20 GOTO 10\n", due, 0, "--chances --steps 9998")
    line = "".join(f"{k:255}" for k in range(1, 4001))
    yield run("a last line of 1020000 bytes", "10 F.I=1TO4000;P.#255,I,;N.I\n", f"CHANCE 1/1 1 END 1020000\n{line}\n", 0, "--chances")


def cases():
    """All of them, those that take longest first."""
    parts = [most_steps, deepest, long_lines, long_lists, long_texts, long_statements, expressions]
    parts += [answers_of_input, too_deep, seeds, many_lines, memories, arguments, mistakes, tables]
    return [each for part in parts for each in part()]
