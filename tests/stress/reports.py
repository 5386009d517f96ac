"""This file reads the reports of a listing of runs, and says how one run follows another."""

import re
from dataclasses import dataclass

HEADER = re.compile(
    rb"RUN (none|[1-9]\d*/[1-9]\d*(?:,[1-9]\d*/[1-9]\d*)*) (END|STOP|WHAT|HOW|SORRY|LIMIT|NOINPUT) (0|[1-9]\d*) (0|[1-9]\d*)\n"
)


@dataclass(frozen=True)
class Report:
    """A run's answers with their bounds, how it ended, its number of commands, its transcript, and the bytes of the report."""

    answers: tuple
    bounds: tuple
    ending: str
    steps: int
    transcript: bytes
    text: bytes


class Malformed(Exception):
    """A text that is no list of reports."""


def read_reports(text):
    """The reports of a listing, which has nothing else."""
    reports = []
    place = 0
    while place < len(text):
        reports.append(read_report(text, place))
        place += len(reports[-1].text)
    return reports


def read_report(text, place):
    header = HEADER.match(text, place)
    if not header:
        raise Malformed(f"no header at byte {place}")
    answers, ending, steps, length = header.groups()
    end = header.end() + int(length)
    if text[end : end + 1] != b"\n":
        raise Malformed(f"the transcript of the report at byte {place} doesn't end where its header says")
    items = [] if answers == b"none" else [item.split(b"/") for item in answers.split(b",")]
    return Report(
        tuple(int(answer) for answer, _ in items),
        tuple(int(bound) for _, bound in items),
        ending.decode(),
        int(steps),
        text[header.end() : end],
        text[place : end + 1],
    )


def report_text(play):
    """The report of a play in form 2."""
    header = f"RUN {marked(play.answers, play.bounds)} {play.ending} {play.steps} {len(play.transcript)}\n"
    return header.encode() + play.transcript + b"\n"


def spelled(answers):
    """The list as an argument."""
    return ",".join(map(str, answers)) or "none"


def marked(answers, bounds):
    """The list as an argument, each answer with its bound; where there is no bound, the answer alone."""
    items = [f"{answer}/{bound}" if bound else str(answer) for answer, bound in zip(answers, bounds)]
    return ",".join(items) or "none"


def without_bounds(report):
    """The bytes of the report in form 1."""
    header, rest = report.text.split(b"\n", 1)
    word, _, others = header.split(b" ", 2)
    return b" ".join([word, spelled(report.answers).encode(), others]) + b"\n" + rest


def raised_place(run, following):
    """The place at which the run's answer was raised for the run directly after it; None if it isn't that run.

    Before that place both have the same answers, at it one more, and after it each question was answered with 1.
    """
    shorter = min(len(run), len(following))
    place = next((k for k in range(shorter) if run[k] != following[k]), shorter)
    if place == shorter or following[place] != run[place] + 1 or set(following[place + 1 :]) - {1}:
        return None
    return place
