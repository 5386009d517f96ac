"""This file runs the checks over the cases of a seed, side by side on the cores."""

import argparse
import multiprocessing
import os
import random
import shlex
import shutil
import tempfile
import time
import unittest
from dataclasses import dataclass

import calls
import checks
import runner
from spoilers import SPOILERS
from stage import PTB
from texts import case_of

FAILURES_TOLD = 5
PROGRAMS_TOLD = 10
PROGRAMS_A_SECOND = 12
PROGRAMS_OF_A_SELF_TEST = 100


@dataclass(frozen=True)
class Plan:
    """What a worker must know: the program, the seed, the folder for files, when to stop, and how replies are spoiled."""

    program: str
    seed: str
    folder: str
    deadline: float
    spoiler: str = ""


@dataclass(frozen=True)
class Result:
    """What became of a case: how many calls and good checks there were, and what failed, each with its name."""

    number: int
    calls: int
    passed: int
    failed: tuple


def worked_out(plan, number):
    """Checks the case of this number; None where the time is over."""
    if time.time() > plan.deadline:
        return None
    folder = os.path.join(plan.folder, f"program{number}")
    os.makedirs(folder)
    case = case_of(plan.seed, number)
    trial = checks.Trial(case, random.Random(f"checks {plan.seed} {number}"), asker(plan, folder))
    write = lambda name, content: written(os.path.join(folder, name), content)
    write(checks.PROGRAM, case.program)
    write(checks.INPUT, case.input)
    checks.check(trial, write)
    if trial.failures:
        tell(plan, folder, case, trial)
    else:
        shutil.rmtree(folder)
    return Result(number, trial.calls, trial.passed, tuple(failure.name for failure in trial.failures))


def asker(plan, folder):
    """Gives the reply to a call, spoiled if this is a test of the checks."""
    spoil = SPOILERS.get(plan.spoiler, lambda call, reply: reply)
    return lambda call: spoil(call, calls.reply_of(plan.program, folder, call))


def written(path, content):
    with open(path, "wb") as file:
        file.write(content)


def tell(plan, folder, case, trial):
    """Writes to the case's folder how to see its failures again, and what was seen."""
    lines = [f"program {case.number} ({case.kind}) of seed {plan.seed}; in this folder:"]
    for k, failure in enumerate(trial.failures[:FAILURES_TOLD], 1):
        lines.append(f"\n{k}. failed: {failure.name}")
        for n, (asked, seen) in enumerate(failure.asked, 1):
            lines += evidence(plan, folder, f"{k}.{n}", asked, seen)
    written(os.path.join(folder, "recipe.txt"), ("\n".join(lines) + "\n").encode(errors="surrogateescape"))


def evidence(plan, folder, name, asked, seen):
    """The lines of a recipe for a call and its reply, or for bytes that are due; bytes stand in files of this name."""
    if isinstance(seen, str):
        return [f"  {seen}: {shell(plan, asked)}"]
    if isinstance(seen, bytes):
        written(os.path.join(folder, f"{name}.{asked}"), seen)
        return [f"  {asked}: {name}.{asked}"]
    written(os.path.join(folder, f"{name}.output"), seen.output)
    written(os.path.join(folder, f"{name}.errors"), seen.errors)
    return [f"  {shell(plan, asked)}", f"  gave status {seen.status}, {name}.output and {name}.errors"]


def shell(plan, call):
    words = [plan.program, *(os.fsdecode(word) for word in call.words)]
    output = f" > {call.stdout}" if call.stdout else ""
    return f"{shlex.join(words)} < {call.stdin}{output}"


def results_of(plan, numbers):
    """The results of the cases with these numbers, as far as the time goes."""
    with multiprocessing.Pool() as pool:
        tasks = [pool.apply_async(worked_out, (plan, number)) for number in numbers]
        results = [task.get() for task in tasks]
    return [result for result in results if result]


class Stress(runner.Gathered):
    """Random programs of a seed."""

    def test_programs(self):
        """Each check of each program holds."""
        given, numbers = self.given, self.numbers
        print(f"stress: seed {given.seed}, {len(numbers)} programs, at most {given.seconds:g} seconds", flush=True)
        begun = time.time()
        folder = tempfile.mkdtemp(prefix="ptb-stress-")
        results = results_of(Plan(PTB, given.seed, folder, begun + given.seconds), numbers)
        bad = [result for result in results if result.failed]
        if not bad:
            shutil.rmtree(folder)
        compared = sum(result.passed + len(result.failed) for result in results)
        runs = sum(result.calls for result in results)
        over = " (the time was over)" if len(results) < len(numbers) else ""
        spent = time.time() - begun
        print(f"stress: {len(results)} programs{over}, {runs} runs, {compared} comparisons, in {spent:.0f} seconds")
        self.add_passed(sum(result.passed for result in results))
        for result in bad[:PROGRAMS_TOLD]:
            self.fail_program(result, folder)
        if len(bad) > PROGRAMS_TOLD:
            self.fail(f"{len(bad) - PROGRAMS_TOLD} programs more, each with its recipe in {folder}")

    def fail_program(self, result, folder):
        """Fails for a program, with the names of its first failures and how to see them again."""
        by_itself = f"tests/stress.sh {self.given.seed} {self.given.seconds:g} --only {result.number}"
        lines = [*result.failed[:FAILURES_TOLD], f"recipe: {folder}/program{result.number}/recipe.txt", f"by itself: {by_itself}"]
        with self.subTest(f"program {result.number}: {len(result.failed)} checks failed"):
            self.fail("\n    ".join(["", *lines]))


class SelfTest(unittest.TestCase):
    """Replies that are spoiled."""

    def test_spoilers(self):
        """The checks find each of the spoilers."""
        for spoiler in SPOILERS:
            folder = tempfile.mkdtemp(prefix="ptb-stress-")
            plan = Plan(PTB, self.given.seed, folder, time.time() + self.given.seconds, spoiler)
            results = results_of(plan, range(PROGRAMS_OF_A_SELF_TEST))
            shutil.rmtree(folder)
            found = [result for result in results if result.failed]
            names = sorted({name.split(":")[0] for result in found for name in result.failed})
            print(f"{spoiler}: found by {len(found)} of {len(results)} programs; {', '.join(names)}")
            with self.subTest(spoiler):
                self.assertTrue(found)


def main():
    words = argparse.ArgumentParser(description=__doc__)
    words.add_argument("seed")
    words.add_argument("seconds", type=float)
    words.add_argument("--programs", type=int, help="how many programs; without it a number that goes with the seconds")
    words.add_argument("--only", type=int, help="this program alone")
    words.add_argument("--self-test", action="store_true", help="checks that wrong programs are found")
    given = words.parse_args()
    tests = SelfTest if given.self_test else Stress
    tests.given = given
    tests.numbers = range(given.programs or int(PROGRAMS_A_SECOND * given.seconds)) if given.only is None else [given.only]
    runner.main([unittest.defaultTestLoader.loadTestsFromTestCase(tests)], parts=[])


if __name__ == "__main__":
    main()
