"""This file holds the checks of a case.

Most of them must hold whatever the programs mean; chances are added up from the reports. Others compare the reports, and the
lists that split the runs, with what tests/stress/language.py makes of the same programs.
"""

import math
import re
from dataclasses import dataclass, replace
from fractions import Fraction
from itertools import islice

import calls
import language
from calls import Call
from reports import Malformed, marked, raised_place, read_reports, report_text, spelled, without_bounds
from results import table_of
from seeds import words

PROGRAM, INPUT = "program.bas", "input.txt"
REPORTS = 30
SAMPLED = 5
LISTS = 200
LISTS_JOINED = 40
RUNS_JOINED = 2000
RUNS_LOOKED_AT = 3
BOUNDS_LOOKED_AT = 5
LONGEST_LIST = 4000
FAR_LIMIT = 1_000_000
ODD_WORDS = [
    *["", "0", "1", "-1", "+1", "01", "1,2", "1,,2", "none", "32768", "1000000001", "1e3"],
    *["x", "5 ", "\t", "١", b"\xff"],
    *["--steps", "--memory", "--choose", "--choose=0", "--choose=2", "--answers", "--after", "--under", "--first", "--all"],
    *["--shares", "--sample", "--seed", "--list", "--check", "--chances", "--lists", "-a", "-h", "--", "-"],
    *["--steps=7", "--memory=64", "--after=none", "--under=none", "--under=1", "--first=2", "--shares=2", "--sample=2"],
    *["--seed=7", "--form", "--form=1", "--form=3", "1/2", "no such file", "."],
]
FAULTS = {"WHAT": b"WHAT?", "HOW": b"HOW?", "SORRY": b"SORRY"}
# A report of a fault whose mark is after RETURN, or after NEXT and a letter.
WITHOUT_PARTNER = re.compile(rb"(?:RETURN|RE?T?U?R?N?\.|NEXT *[A-Z]|NE?X?T?\. *[A-Z]) *\?[^\n]*\n\Z")


@dataclass(frozen=True)
class Failure:
    """A check that does not hold, with the calls that show it and their replies."""

    name: str
    asked: tuple


class Trial:
    """The checks of one case. It counts the calls and the checks, and keeps what does not hold."""

    def __init__(self, case, chance, reply_to):
        self.case = case
        self.chance = chance
        self.reply_to = reply_to
        self.calls = 0
        self.passed = 0
        self.failures = []

    def ask(self, call):
        """The reply to a call, which is one that there may be."""
        self.calls += 1
        reply = self.reply_to(call)
        fault = calls.fault_of(reply)
        self.hold("a reply as there may be" + (f": {fault}" if fault else ""), not fault, (call, reply))
        return reply

    def hold(self, name, holds, *asked):
        """Counts a check, which these calls with their replies bear out."""
        if holds:
            self.passed += 1
        else:
            self.failures.append(Failure(name, asked))
        return holds

    def expect(self, name, call, status, output):
        """Calls the program, and compares the status and the bytes that it writes with those that are due."""
        reply = self.ask(call)
        due = f"{name}: status {status} and {len(output)} bytes are due"
        self.hold(due, (reply.status, reply.output) == (status, output), (call, reply), ("due", output))
        return reply

    def same(self, name, one, two):
        """Makes two calls, and compares their replies."""
        first, second = self.ask(one), self.ask(two)
        self.hold(name, first == second, (one, first), (two, second))
        return first

    # ---- calls

    def words(self, options, program):
        """The options and the program's name as words, in any order and in each form that options may have."""
        spelled_options = []
        for name, value in options:
            apart, together = (f"--{name}", value), (f"--{name}={value}",)
            spelled_options.append(self.chance.choice([apart, together]) if value else (f"--{name}",))
        if program:
            spelled_options.append((program,))
        self.chance.shuffle(spelled_options)
        return tuple(word for words in spelled_options for word in words)

    def call(self, options, program=PROGRAM, stdin=INPUT, stdout=""):
        options = [*options, ("memory", str(self.case.memory))]
        return Call(self.words(options, program), stdin, stdout)

    def plain(self, answers, steps=None, **files):
        """A plain run with these answers."""
        options = [("answers", spelled(answers)), ("steps", str(steps or self.case.steps)), *self.choose()]
        return self.call(options, **files)

    def choose(self):
        """The option for answers instead of lines, if the case has them."""
        return [("choose", str(self.case.choose))] if self.case.choose else []

    def runs(self, after=None, first=REPORTS, bounds=None, form=None, under=None, **files):
        """A listing of runs: those that begin so, after this one, with these bounds of its answers, at most so many."""
        options = [("all", ""), ("steps", str(self.case.steps)), *self.choose()]
        options += [] if under is None else [("under", under)]
        options += [] if after is None else [("after", spelled(after) if bounds is None else marked(after, bounds))]
        options += [] if first is None else [("first", str(first))]
        options += [("form", form)] if form else self.chance.choice([[], [("form", "2")]])
        return self.call(options, **files)

    def sample(self, seed, runs):
        """The reports of so many runs that a seed draws, or the run by it where no number is given."""
        options = [("seed", str(seed)), ("steps", str(self.case.steps)), *self.choose()]
        return self.call(options + ([("sample", str(runs))] if runs else []))

    def lists(self, answers, form):
        """The lists of so many answers that split the runs."""
        return self.call([("all", ""), ("shares", str(answers)), ("steps", str(self.case.steps)), ("form", form), *self.choose()])

    def text(self, **files):
        """A listing of the program's text."""
        return self.call([("list", "")], **files)

    def mistakes(self, **files):
        """The mistakes in the program's text."""
        return self.call([("check", "")], **files)

    def chances(self, **files):
        """The chances of results."""
        return self.call([("chances", ""), ("steps", str(self.case.steps)), *self.choose()], **files)


def check(trial, write):
    """Checks a case; `write` makes a file of its folder."""
    check_odd_words(trial)
    listing = check_text(trial, write)
    program = language.statements(trial.case.program, trial.case.memory)
    trial.hold("a text is refused or accepted as in the language", (program is None) == (listing is None), (trial.text(), "the text"))
    if listing is None or program is None:
        return
    reports, is_whole = check_listing(trial)
    if not reports:
        return
    check_order(trial, reports)
    check_bounds(trial, reports)
    check_gaps(trial, reports, is_whole)
    check_portions(trial, reports, is_whole)
    check_shares(trial, reports, is_whole)
    check_sample(trial)
    check_chances(trial, reports, is_whole)
    check_meaning(trial, setting_of(trial.case, program), reports)
    check_lists(trial, setting_of(trial.case, program), reports)
    check_mistakes(trial, reports, listing)
    for report in reports:
        check_plain(trial, report, listing)
    for report in trial.chance.sample(reports, min(RUNS_LOOKED_AT, len(reports))):
        check_run(trial, report)
    check_input(trial, write, reports[0])
    check_full_device(trial, reports[0])
    if not is_whole:
        check_far_run(trial, listing)


# ---- words


def check_odd_words(trial):
    """Words that nobody should give have a reply too, and the same one each time."""
    words = tuple(trial.chance.choice(ODD_WORDS) for _ in range(trial.chance.randint(1, 4)))
    trial.same("odd words have the same reply again", Call(words), Call(words))


# ---- texts


def check_text(trial, write):
    """The listing, which loads to itself, as other forms of the same lines do; None where the text is refused."""
    call = trial.text()
    listed = trial.ask(call)
    if listed.status != 0:
        check_refused(trial, call, listed)
        return None
    write("listed.bas", listed.output)
    write("formed.bas", other_form(trial.case.program))
    trial.expect("a listing loads to itself", trial.text(program="listed.bas"), 0, listed.output)
    trial.expect("a text on standard input is listed", trial.text(program=None, stdin=PROGRAM), 0, listed.output)
    trial.expect("other line ends and blanks, and empty lines", trial.text(program="formed.bas"), 0, listed.output)
    numbers = [int(line.split(b" ")[0]) for line in listed.output.split(b"\n")[:-1]]
    trial.hold("numbers rise", all(a < b for a, b in zip(numbers, numbers[1:])), (call, listed))
    return listed.output


def check_refused(trial, call, refusal):
    """A text that is refused by this call is refused whatever is asked for, in the same words."""
    for other in (trial.plain([]), trial.runs(), trial.mistakes(), trial.chances(), trial.text(program=None, stdin=PROGRAM)):
        reply = trial.ask(other)
        trial.hold("refused in the same words", reply == refusal, (call, refusal), (other, reply))


def other_form(program):
    """The same lines in another form: the line ends changed, blanks for tabs, empty lines between."""
    lines = program.replace(b"\t", b" ").split(b"\n")
    turned = [line[:-1] if line.endswith(b"\r") else line + b"\r" for line in lines]
    return b"\n \n".join(turned)


# ---- listings of runs


def check_listing(trial):
    """The first reports, and whether they are all. The listed text has the same ones, and so has a second call."""
    call = trial.runs()
    reply = trial.same("the same words again", call, call)
    reports = reports_in(trial, call, reply)
    is_so_many = 1 <= len(reports) <= REPORTS
    trial.hold("one report at least, and no more than were asked for", is_so_many, (call, reply))
    trial.expect("runs of the listed text", trial.runs(program="listed.bas"), 0, reply.output)
    return reports, len(reports) < REPORTS


def reports_in(trial, call, reply):
    """The reports of a reply to this call, which must be well formed."""
    try:
        reports, fault = read_reports(reply.output), ""
    except Malformed as why:
        reports, fault = [], f": {why}"
    trial.hold(f"reports are well formed{fault}", not fault and reply.status == 0, (call, reply))
    return reports


def check_order(trial, reports):
    """Each report's run is the next one after the run of the report before."""
    runs = [report.answers for report in reports]
    seen = (trial.runs(), "the reports")
    trial.hold("the first run answers 1", set(runs[0]) <= {1}, seen)
    trial.hold("no run comes twice", len(set(runs)) == len(runs), seen)
    for run, following in zip(runs, runs[1:]):
        pair = f"{spelled(run)} and {spelled(following)}"
        trial.hold(f"runs rise: {pair}", run < following, seen)
        trial.hold(f"no run begins another: {pair}", run != following[: len(run)], seen)
        trial.hold(f"runs raise one answer by one: {pair}", raised_place(run, following) is not None, seen)


def check_bounds(trial, reports):
    """Form 1 has the same reports without bounds. Each answer is within its bound; bounds that are stated are looked at."""
    alone = b"".join(without_bounds(report) for report in reports)
    trial.expect("the answers alone", trial.runs(form="1"), 0, alone)
    for report in reports:
        is_within = all(1 <= answer <= bound for answer, bound in zip(report.answers, report.bounds))
        trial.hold("answers within their bounds", is_within, (trial.runs(), f"the report of {spelled(report.answers)}"))
    for report in trial.chance.sample(reports, min(RUNS_LOOKED_AT, len(reports))):
        check_stated_bounds(trial, report)


def check_stated_bounds(trial, report):
    """The bounds of a run may be in the list of --after, some or all of them, and no others."""
    some = [trial.chance.choice([0, bound]) for bound in report.bounds]
    due = trial.ask(trial.runs(report.answers, 1, form="2")).output
    trial.expect("after a run with some of its bounds", trial.runs(report.answers, 1, some), 0, due)
    trial.expect("after a run with its bounds", trial.runs(report.answers, 1, report.bounds), 0, due)
    if report.bounds:
        place = trial.chance.randrange(len(report.bounds))
        other = 1 + (report.bounds[place] + trial.chance.randrange(32766)) % 32767
        wrong = [*some[:place], other, *some[place + 1 :]]
        trial.expect("after a run with another bound", trial.runs(report.answers, 1, wrong), calls.NO_RUN, b"")


def check_gaps(trial, reports, is_whole):
    """No run is left out between those of the reports, and none after them if they are all."""
    check_gaps_between(trial, [report.answers for report in reports], is_whole)


def check_gaps_between(trial, runs, is_whole):
    """Where a run's answer isn't raised for the next run, a greater one must be out of its bound."""
    places = [(run, k) for run, place in closed_places(runs, is_whole) for k in range(place, len(run))]
    for run, place in trial.chance.sample(places, min(BOUNDS_LOOKED_AT, len(places))):
        check_bound(trial, run, place)


def closed_places(runs, is_whole):
    """Each run with the first place from which on its answers are at their bounds."""
    for run, following in zip(runs, runs[1:]):
        raised = raised_place(run, following)
        if raised is not None:
            yield run, raised + 1
    if is_whole:
        yield runs[-1], 0


def check_bound(trial, run, place):
    """One more than the run's answer at this place is a bad answer, and shows what is shown without an answer there."""
    beginning, above = run[:place], run[place] + 1
    if above > 32767:
        return
    call = trial.plain(beginning)
    unanswered = trial.ask(call)
    trial.hold("no answer is left", unanswered.status == calls.NO_ANSWER, (call, unanswered))
    trial.expect("an answer above its bound", trial.plain([*beginning, above]), calls.BAD_ANSWER, unanswered.output)
    trial.expect("no run has it", trial.runs(after=[*beginning, above]), calls.NO_RUN, b"")


def check_portions(trial, reports, is_whole):
    """Listings of a part of the runs are that part of the whole, and portions joined are the whole."""
    for k, report in enumerate(reports):
        rest = reports[k + 1 :]
        first = trial.chance.choice([1, 2, REPORTS]) if is_whole else trial.chance.randint(1, max(1, len(rest)))
        if is_whole or rest:
            due = b"".join(report.text for report in rest[:first])
            trial.expect("the runs after one", trial.runs(report.answers, first, form="2"), 0, due)
    # a listing that isn't as complete as it looks might never end
    if is_whole and not trial.failures:
        whole = b"".join(report.text for report in reports)
        trial.expect("all runs, with no bound on their number", trial.runs(first=None), 0, whole)
        trial.expect("nothing is after the last run", trial.runs(reports[-1].answers, None), 0, b"")
    check_joined(trial, reports)


def check_joined(trial, reports):
    """Portions that are taken one after the other, each after the last run of the one before."""
    portion = trial.chance.randint(max(1, len(reports) // 4), len(reports))
    taken, after = b"", None
    for begin in range(0, len(reports), portion):
        count = min(portion, len(reports) - begin)
        call = trial.runs(after, count)
        reply = trial.ask(call)
        taken += reply.output
        after = reports[begin + count - 1].answers
    whole = b"".join(report.text for report in reports)
    trial.hold("portions joined are the whole", taken == whole, (call, reply), ("due", whole), ("joined", taken))


def check_shares(trial, reports, is_whole):
    """The listing of the runs that begin as one does has their reports; no run begins so and has one answer more."""
    for report in trial.chance.sample(reports, min(RUNS_LOOKED_AT, len(reports))):
        check_share(trial, reports, is_whole, report)
        more = [*report.answers, trial.chance.randint(1, 32767)]
        trial.expect("a run begins with no more answers", trial.runs(under=spelled(more)), calls.NO_RUN, b"")


def check_share(trial, reports, is_whole, report):
    """The share of some of a report's answers, from its first run on, and after that report."""
    count = trial.chance.randint(0, len(report.answers))
    some = [trial.chance.choice([0, bound]) for bound in report.bounds[:count]]
    under = marked(report.answers[:count], some)
    share = [it for it in reports if it.answers[:count] == report.answers[:count]]
    # the runs of a share follow one another, so if other runs are after them there are no more; but a listing that
    # isn't as complete as it looks might never end
    is_all = (is_whole or share[-1] is not reports[-1]) and not trial.failures
    first = None if is_all else len(share)
    trial.expect("a share", trial.runs(under=under, first=first, form="2"), 0, b"".join(it.text for it in share))
    rest = share[share.index(report) + 1 :]
    if is_all or rest:
        call = trial.runs(report.answers, None if is_all else len(rest), form="2", under=under)
        trial.expect("a share after one of its runs", call, 0, b"".join(it.text for it in rest))
    others = [it for it in reports if it not in share]
    if others:
        call = trial.runs(trial.chance.choice(others).answers, under=under)
        trial.expect("a share after a run of another", call, calls.NO_RUN, b"")


# ---- chances


def check_chances(trial, reports, is_whole):
    """Where the reports are all, the table of chances is the one that is added up from them."""
    if is_whole and not trial.failures:  # a listing that isn't as whole as it looks could have any number of runs
        runs = [(it.ending, it.transcript, Fraction(1, math.prod(it.bounds))) for it in reports]
        trial.expect("the chances of results", trial.chances(), 0, table_of(runs))


# ---- what programs mean


def setting_of(case, program):
    """What the case's program is played with."""
    return language.Setting(program, case.memory, language.input_lines(case.input), case.steps, case.choose)


def check_meaning(trial, setting, reports):
    """The reports are those of the first plays in the language."""
    due = b"".join(report_text(play) for play in islice(language.plays(setting, math.inf), REPORTS))
    written = b"".join(report.text for report in reports)
    trial.hold("reports as in the language", written == due, (trial.runs(), "the reports"), ("due", due), ("written", written))


def check_lists(trial, setting, reports):
    """The lists that split the runs after some answers are those of the definition, and they rise."""
    longest = max(len(report.answers) for report in reports)
    answers, due = lists_due(setting, trial.chance.choice([1, 64, *range(2, min(longest, 63) + 2)]))
    form = trial.chance.choice("12")
    lines = [marked(it.answers, it.bounds) if form == "2" else spelled(it.answers) for it in due]
    call = trial.lists(answers, form)
    reply = trial.expect("the lists of the definition", call, 0, "".join(f"{line}\n" for line in lines).encode())
    lists = [answers_in(line) for line in reply.output.decode().splitlines()]
    is_rising = all(one < following and one != following[: len(one)] for one, following in zip(lists, lists[1:]))
    trial.hold("lists rise, and none begins another", is_rising, (call, reply))
    if len(due) <= LISTS_JOINED:
        check_joined_shares(trial, lines)
    for line, play in trial.chance.sample(list(zip(lines, due)), min(RUNS_LOOKED_AT, len(due))):
        first = language.played(setting, play.answers, math.inf)
        trial.expect("a share begins with its first run", trial.runs(under=line, first=1, form="2"), 0, report_text(first))


def lists_due(setting, answers):
    """The plays that are stopped after so many answers; after fewer answers where there are too many of them."""
    while True:
        due = list(islice(language.plays(setting, answers), LISTS + 1))
        if len(due) <= LISTS:
            return answers, due
        if answers == 1:
            bound = due[0].bounds[0]
            return answers, [replace(due[0], answers=(answer,)) for answer in range(1, bound + 1)]
        answers -= 1 if answers <= 8 else answers // 2


def answers_in(line):
    """The answers of a line of the lists."""
    return () if line == "none" else tuple(int(item.split("/")[0]) for item in line.split(","))


def check_joined_shares(trial, lines):
    """The shares of all lists, joined, are the listing of all runs, where that isn't too long."""
    whole = trial.ask(trial.runs(first=RUNS_JOINED, form="2"))
    if len(read_reports(whole.output)) == RUNS_JOINED:
        return
    shares = [(call, trial.ask(call)) for call in (trial.runs(under=line, first=RUNS_JOINED, form="2") for line in lines)]
    joined = b"".join(reply.output for _, reply in shares)
    is_whole = joined == whole.output and all(reply.status == 0 for _, reply in shares)
    trial.hold("the shares of all lists are all runs", is_whole, *shares, ("due", whole.output), ("joined", joined))


# ---- runs


def check_plain(trial, report, listing):
    """A report shows what a plain run with its answers writes and ends with, within the limit."""
    trial.expect("a plain run of a report", trial.plain(report.answers), *due_of(report))
    seen = (trial.runs(), f"the report of {spelled(report.answers)}")
    at_limit = report.ending == "LIMIT"
    is_within = report.steps == trial.case.steps if at_limit else report.steps <= trial.case.steps
    trial.hold("steps within their limit", is_within, seen)
    if report.ending in FAULTS:
        trial.hold("a fault shows its statement", is_fault_reported(report, listing), seen)
    if report.ending == "NOINPUT":
        trial.hold("a prompt is shown where a line is missing", report.transcript.endswith(b":"), seen)


def check_sample(trial):
    """The words of a seed, one after the other, draw the answers of all runs of its sample, each of which is a run."""
    seed = trial.chance.randrange(1 << 32)
    call = trial.sample(seed, SAMPLED)
    reply = trial.ask(call)
    reports = reports_in(trial, call, reply)
    if not trial.hold("as many reports as runs were to be drawn", len(reports) == SAMPLED, (call, reply)):
        return
    answers = [answer for report in reports for answer in report.answers]
    bounds = [bound for report in reports for bound in report.bounds]
    drawn = [1 + word % bound for bound, word in zip(bounds, words(seed))]
    trial.hold("a word for each answer, run after run", answers == drawn, (call, reply))
    trial.expect("a sample of one run", trial.sample(seed, 1), 0, reports[0].text)
    trial.expect("the run by a seed is the first of its sample", trial.sample(seed, None), *due_of(reports[0]))
    for report in reports:
        trial.expect("a plain run of a sampled report", trial.plain(report.answers), *due_of(report))


def check_mistakes(trial, reports, listing):
    """Each mistake shows a statement of the listing, in rising order, and the status says whether there are any.

    A run that ends with WHAT has one of them, unless it is at a RETURN or a NEXT without its partner.
    """
    call = trial.mistakes()
    reply = trial.same("the mistakes of the listed text", call, trial.mistakes(program="listed.bas"))
    lines = reply.output.split(b"\n")[:-1]
    found = list(zip(lines[::2], lines[1::2]))
    trial.hold("status 1 with mistakes, and 0 without", reply.status == (1 if found else 0), (call, reply))
    is_shown = len(lines) % 2 == 0 and all(word in FAULTS.values() and is_marked(line, listing) for word, line in found)
    trial.hold("a mistake shows its statement", is_shown, (call, reply))
    numbers = [int(line.split(b" ")[0]) for _, line in found]
    trial.hold("mistakes are in the order of their lines", numbers == sorted(numbers), (call, reply))
    for report in reports:
        if report.ending == "WHAT" and not WITHOUT_PARTNER.search(report.transcript):
            is_found = tuple(report.transcript.split(b"\n")[-3:-1]) in found
            trial.hold("WHAT? of a run is a mistake", is_found, (call, reply), (trial.plain(report.answers), "the run"))


def due_of(report):
    """The status and the bytes of a plain run with a report's answers."""
    return calls.ENDINGS[report.ending], report.transcript


def is_fault_reported(report, listing):
    """Whether the transcript ends with a line of the fault's word and a line of the listing with a `?` put in."""
    *_, word, line, rest = [b"", b"", *report.transcript.split(b"\n")]
    return word == FAULTS[report.ending] and rest == b"" and is_marked(line, listing)


def is_marked(line, listing):
    """Whether it is a line of the listing with a `?` put in."""
    unmarked = {line[:k] + line[k + 1 :] for k in range(len(line)) if line[k : k + 1] == b"?"}
    return not unmarked.isdisjoint(listing.split(b"\n")[:-1])


def check_run(trial, report):
    """A run is the same with answers left over and with another limit that it doesn't meet, and no less."""
    answers, due = report.answers, due_of(report)
    more = [*answers, trial.chance.randint(1, 32767)]
    trial.expect("answers that are left over", trial.plain(more), *due)
    trial.expect("no run has more answers", trial.runs(after=more), calls.NO_RUN, b"")
    if report.steps > 0:
        trial.expect("as many commands as the report says", trial.plain(answers, report.steps), *due)
    if report.ending != "LIMIT":
        trial.expect("a limit far away", trial.plain(answers, FAR_LIMIT), *due)
    if report.steps > 1:
        check_fewer_steps(trial, report)
    check_fewer_answers(trial, report)


def check_fewer_steps(trial, report):
    """With fewer commands than its own a run ends at the limit, and shows a prefix of its transcript."""
    shown = report.transcript
    for steps in (report.steps - 1, trial.chance.randint(1, report.steps - 1)):
        call = trial.plain(report.answers, steps)
        reply = trial.ask(call)
        is_beginning = reply.status == calls.LIMIT and shown.startswith(reply.output)
        trial.hold("fewer commands: status 4 and a beginning", is_beginning, (call, reply), ("whole", shown))
        shown = reply.output


def check_fewer_answers(trial, report):
    """With a prefix of its answers a run ends where no answer is left, and shows a prefix of its transcript."""
    answers = report.answers
    for count in sorted(trial.chance.sample(range(len(answers)), min(2, len(answers)))):
        call = trial.plain(answers[:count])
        reply = trial.ask(call)
        is_beginning = reply.status == calls.NO_ANSWER and report.transcript.startswith(reply.output)
        trial.hold("fewer answers: status 6 and a beginning", is_beginning, (call, reply), ("whole", report.transcript))
        trial.expect("a prefix is no run", trial.runs(after=answers[:count]), calls.NO_RUN, b"")


def check_far_run(trial, listing):
    """Of a tree that is too large to list: a run in the middle of it, and those after it."""
    run = far_run(trial)
    if run is None:
        return
    call = trial.runs(run, 3)
    reports = reports_in(trial, call, trial.ask(call))
    runs = [run, *(report.answers for report in reports)]
    for one, following in zip(runs, runs[1:]):
        trial.hold("runs after a far one", raised_place(one, following) is not None, (call, "the reports"))
    for report in reports[:1]:
        check_plain(trial, report, listing)
        check_run(trial, report)
    check_gaps_between(trial, runs, is_whole=len(reports) < 3)


def far_run(trial):
    """A run whose first answers are chosen by chance, except bad ones; None where it is too long to look for."""
    answers = ()
    for _ in range(5):
        guess = trial.chance.choice([1, 2, 2, 3, 3, 4, 6])
        is_bad = trial.ask(trial.plain([*answers, guess])).status == calls.BAD_ANSWER
        answers += (1,) if is_bad else (guess,)
    answers += (1,) * LONGEST_LIST
    too_few, enough = -1, len(answers)
    if is_too_short(trial, answers):
        return None
    while enough - too_few > 1:
        middle = (enough + too_few) // 2
        if is_too_short(trial, answers[:middle]):
            too_few = middle
        else:
            enough = middle
    return answers[:enough]


def is_too_short(trial, answers):
    return trial.ask(trial.plain(answers)).status == calls.NO_ANSWER


# ---- input and output


def check_input(trial, write, report):
    """What input lines drop makes no difference, nor do lines that no run asks for; without a file there are no lines."""
    whole = trial.ask(trial.runs())
    write("clean.txt", cleaned(trial.case.input))
    trial.expect("the input cleaned", trial.runs(stdin="clean.txt"), whole.status, whole.output)
    if trial.case.choose:
        check_lines_of_answers(trial, write, report)
    elif report.ending != "NOINPUT":
        text = trial.case.input
        write("more.txt", text + (b"" if text.endswith(b"\n") or not text else b"\n") + b"7\n(\n")
        trial.expect("more lines than are asked for", trial.plain(report.answers, stdin="more.txt"), *due_of(report))
    without = trial.plain(report.answers, stdin="/dev/null")
    inside = trial.plain(report.answers, program=None, stdin=PROGRAM)
    trial.same("a program on standard input has no input lines", without, inside)


def check_lines_of_answers(trial, write, report):
    """No run ends for lack of a line. Where RND isn't asked, answers are as lines with the same digits."""
    trial.hold("no line is missing", report.ending != "NOINPUT", (trial.runs(), "the first report"))
    lines = b"".join(b"%d\n" % answer for answer in report.answers)
    write("lines.txt", cleaned(trial.case.input) + lines)
    call = trial.call([("steps", str(trial.case.steps))], stdin="lines.txt")
    reply = trial.ask(call)
    is_as_due = reply.status == calls.NO_ANSWER or (reply.status, reply.output) == due_of(report)
    trial.hold("answers are as lines", is_as_due, (call, reply), ("due", report.transcript))


def cleaned(text):
    """The input as its lines are seen: blanks for tabs, no bytes but the printed ones, and at most 255 of them."""
    lines = text.split(b"\n")
    ended = lines if lines[-1] else lines[:-1]
    shown = (bytes(byte for byte in line.replace(b"\t", b" ") if 32 <= byte <= 126) for line in ended)
    return b"".join(line[:255] + b"\n" for line in shown)


def check_full_device(trial, report):
    """If nothing can be written, that is reported; a run that shows nothing has its own status."""
    due = calls.UNWRITTEN if report.transcript else calls.ENDINGS[report.ending]
    full = replace(trial.plain(report.answers), stdout="/dev/full")
    trial.expect("a full device", full, due, b"")
    trial.expect("a full device for reports", trial.runs(stdout="/dev/full"), calls.UNWRITTEN, b"")
