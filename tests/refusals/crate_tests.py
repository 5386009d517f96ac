"""This file refuses the allocations of tests that pass whichever of them is refused."""

import os
import re
import subprocess
import tempfile

from stage import ROOT

# The tests, and after how many reports memory must have been refused at least once.
TESTS = [
    ("ptb_language_tests", "tests::texts::refused_growths_are_answered", set()),
    ("ptb_language_tests", "tests::texts::refused_lines_are_entered_again", set()),
    ("ptb_language_tests", "tests::expressions::refused_array", set()),
    ("ptb_language_tests", "tests::expressions::copied_values", set()),
    ("ptb_language_tests", "tests::expressions::refused_answers", set()),
    ("ptb_language_tests", "tests::naturals::refused_numbers", set()),
    ("ptb_language_tests", "tests::naturals::refused_decimals", set()),
    ("ptb_language_tests", "tests::fractions::refused_fractions", set()),
    ("ptb_tests", "tests::chances::refused_tables_write_nothing", set()),
    ("ptb_machine_tests", "tests::commands::first_registers", set()),
    ("ptb_machine_tests", "tests::commands::copied_registers", set()),
    ("ptb_machine_tests", "tests::program_codes::next_code_of_a_program", set()),
    ("ptb_machine_tests", "tests::players::refused_players", set()),
    ("ptb_tests", "tests::copies::refused_copies", set()),
    ("ptb_tests", "tests::copies::refused_openings", set()),
    ("ptb_tests", "tests::mismatches::refused_mismatches", set()),
    ("ptb_tests", "tests::plain_runs::refused_seeded_runs", set()),
    ("ptb_tests", "tests::listing::refused_listings_go_on", {"0", "1"}),
    ("ptb_tests", "tests::beginnings::refused_lists_end_with_a_line", {"0"}),
    ("ptb_tests", "tests::samples::refused_samples_end_with_a_report", {"0"}),
]
MOST_CALLS = 1000
SECONDS_OF_A_TEST = 60


def swept(strike, crate, test, wanted):
    """Refuses the first allocation of a crate's test, the second, and so on until a run has no such allocation any more.

    It gives how many were refused, how many of the runs passed, and what went wrong.
    """
    program = f"{ROOT}/crates/{crate}/out/{crate}_tests"
    seen, passed, faults = set(), 0, []
    with tempfile.TemporaryDirectory(prefix="ptb-refusals-") as folder:
        for number in range(1, MOST_CALLS):
            done, was_struck = run(program, test, strike, os.path.join(folder, "struck"), number)
            seen |= set(re.findall(r"refused after (\d+)", done.stdout))
            if done.returncode == 0 and "test result: ok" in done.stdout:
                passed += 1
            else:
                faults.append(f"allocation {number}: status {done.returncode}, {done.stdout}{done.stderr}")
            if not was_struck:
                break
    if was_struck or number == 1:
        faults.append(f"allocations refused: {number}, which is none, or there are more")
    if not wanted <= seen:
        faults.append(f"memory was refused after {sorted(seen)} reports, and not after {sorted(wanted)}")
    return number - 1, passed, faults


def run(program, test, strike, struck, number):
    """Runs a test with one of its allocations refused, and says whether there was one."""
    with open(struck, "w", encoding="ascii"):
        pass
    variables = {**os.environ, "LD_PRELOAD": strike, "STRIKE": f"refuse {number}", "STRUCK": struck}
    how = {"capture_output": True, "text": True, "timeout": SECONDS_OF_A_TEST, "env": variables}
    done = subprocess.run([program, test], **how)
    return done, os.path.getsize(struck) > 0
