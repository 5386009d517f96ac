"""This file has wrong programs: each spoils some replies of the right one. The checks must find every one of them."""

import os
from dataclasses import replace

from reports import Malformed, read_reports


def in_reports(spoil):
    """Spoils replies that are two reports or more."""

    def spoiled(call, reply):
        try:
            reports = [report.text for report in read_reports(reply.output)]
        except Malformed:
            return reply
        return replace(reply, output=b"".join(spoil(reports))) if len(reports) > 1 else reply

    return spoiled


def in_shares(spoil):
    """Spoils replies that are the reports of a share."""

    def spoiled(call, reply):
        if not any(os.fsencode(word).startswith(b"--under") for word in call.words):
            return reply
        try:
            reports = [report.text for report in read_reports(reply.output)]
        except Malformed:
            return reply
        return replace(reply, output=b"".join(spoil(reports)))

    return spoiled


def in_lists(spoil):
    """Spoils the lists that split the runs, where there are two or more."""

    def spoiled(call, reply):
        lines = reply.output.splitlines(keepends=True)
        is_list = reply.status == 0 and any(os.fsencode(word).startswith(b"--shares") for word in call.words)
        return replace(reply, output=b"".join(spoil(lines))) if is_list and len(lines) > 1 else reply

    return spoiled


def in_samples(spoil):
    """Spoils the reports of a sample."""

    def spoiled(call, reply):
        is_sample = any(os.fsencode(word).startswith(b"--sample") for word in call.words)
        return in_reports(spoil)(call, reply) if is_sample else reply

    return spoiled


def in_plain_runs(spoil):
    """Spoils replies of plain runs that write something."""

    def spoiled(call, reply):
        is_plain = reply.status in range(8) and not {"--all", "--list"} & set(call.words)
        return spoil(reply) if is_plain and reply.output else reply

    return spoiled


def is_check(call):
    return "--check" in call.words


def with_status(status, of):
    return lambda call, reply: replace(reply, status=status) if of(reply) else reply


SPOILERS = {
    "drops the last report": in_reports(lambda reports: reports[:-1]),
    "drops a report in the midst": in_reports(lambda reports: reports[:1] + reports[2:]),
    "repeats a report": in_reports(lambda reports: reports + reports[-1:]),
    "has two reports in each other's place": in_reports(lambda reports: [reports[1], reports[0], *reports[2:]]),
    "draws each run of a sample by the first words": in_samples(lambda reports: reports[:1] * len(reports)),
    "leaves out the first run of a sample": in_samples(lambda reports: reports[1:] + reports[:1]),
    "leaves out the first report of a share": in_shares(lambda reports: reports[1:]),
    "leaves out the last list": in_lists(lambda lines: lines[:-1]),
    "has the lists in falling order": in_lists(lambda lines: lines[::-1]),
    "leaves out the runs that ask less": in_lists(lambda lines: longest(lines)),
    "splits the runs one answer too early": in_lists(lambda lines: list(dict.fromkeys(map(one_answer_less, lines)))),
    "takes no run for one of a share": lambda call, reply: (
        replace(reply, status=0, errors=b"") if reply.errors.startswith(b"ptb: no run begins so\n") else reply
    ),
    "counts one command more": in_reports(lambda reports: [one_step_more(report) for report in reports]),
    "changes a byte of a transcript": in_reports(lambda reports: [one_byte_changed(report) for report in reports]),
    "changes a byte of a plain run": in_plain_runs(lambda reply: replace(reply, output=b"~" + reply.output[1:])),
    "forgets the last byte of a plain run": in_plain_runs(lambda reply: replace(reply, output=reply.output[:-1])),
    "answers status 0 always": with_status(0, lambda reply: True),
    "takes a bad answer for none": with_status(6, lambda reply: reply.status == 7),
    "crashes instead of SORRY": with_status(-11, lambda reply: reply.status == 3),
    "says nothing on standard error": lambda call, reply: replace(reply, errors=b""),
    "does not say why a list fits no run": lambda call, reply: (
        replace(reply, errors=reply.errors.split(b"\n")[0] + b"\n") if reply.status == 67 else reply
    ),
    "writes what it refuses": lambda call, reply: replace(reply, output=b"?") if reply.status == 67 else reply,
    "leaves out the last mistake": lambda call, reply: (
        replace(reply, output=b"\n".join(reply.output.split(b"\n")[:-3] + [b""])) if is_check(call) and reply.status == 1 else reply
    ),
    "takes a text for one with mistakes": lambda call, reply: (
        replace(reply, status=1) if is_check(call) and reply.status == 0 else reply
    ),
    "lists a blank after each line": lambda call, reply: (
        replace(reply, output=reply.output.replace(b"\n", b" \n")) if "--list" in call.words else reply
    ),
}


def longest(lines):
    most = max(line.count(b",") for line in lines)
    return [line for line in lines if line.count(b",") == most]


def one_answer_less(line):
    return line.rpartition(b",")[0] + b"\n" if b"," in line else line


def one_step_more(report):
    header, rest = report.split(b"\n", 1)
    words = header.split(b" ")
    words[3] = str(int(words[3]) + 1).encode()
    return b" ".join(words) + b"\n" + rest


def one_byte_changed(report):
    header, rest = report.split(b"\n", 1)
    return header + b"\n" + (b"~" + rest[1:] if len(rest) > 1 else rest)
