"""This file checks that a listing, and tools/resume itself, may be killed at any moment."""

import os
import signal
import subprocess
import time

from trials import LISTING, Case, Trials, read, write

# 1024 runs of some milliseconds, each with a transcript of 1,200 bytes
LARGE = Case(
    "10 LET A=RND(4)*RND(4)*RND(4)*RND(4)*RND(4)\n20 FOR I=1 TO 30;FOR J=1 TO 9000;NEXT J;PRINT #20,A,I;NEXT I\n",
    words=("--steps", "500000"),
)
GROWTHS = (0, 1, 1000, 100_000, 200_000)  # for how many bytes a kill waits; for 0 it is an early one
EARLY = 0.4  # the most seconds before an early kill
SECONDS = 9  # for so long the tool is killed, and then no more
ENOUGH = 5  # a listing needs so many kills


class Kills(Trials):
    """Listings and tools/resume, killed at any moment."""

    def test_kills(self):
        text = self.text(LARGE)
        self.hold("a large listing", len(text) > 1_000_000, len(text))
        self.kills(text)
        self.two_at_once(text)

    def resuming(self):
        words = [self.tool, LISTING, "--", *self.words(LARGE)]
        return subprocess.Popen(words, stdin=subprocess.DEVNULL, stderr=subprocess.DEVNULL)

    def kills(self, text):
        """Kills listings and the tool that resumes them. One may be complete too early, so up to six are started."""
        for _ in range(6):
            killed_times, beginnings = self.kills_of_one(text)
            if killed_times >= ENOUGH or not beginnings:
                break
        self.hold("a killed listing is a prefix at each moment", beginnings)
        self.hold("enough of the kills came in time", killed_times >= ENOUGH, killed_times)
        status = self.resuming().wait()
        self.hold(f"a listing that was killed {killed_times} times", status == 0 and read(LISTING) == text, status)

    def kills_of_one(self, text):
        """Kills a listing, and then the tool that resumes it, several times: how often, and whether it was always a prefix."""
        with open(LISTING, "wb") as file:
            self.killed(subprocess.Popen(self.words(LARGE), stdin=subprocess.DEVNULL, stdout=file), GROWTHS[-1])
        killed_times, beginnings, status, until = 1, True, None, time.monotonic() + SECONDS
        while status != 0 and beginnings and time.monotonic() < until:
            status = self.killed(self.resuming(), self.random.choice(GROWTHS))
            killed_times += status != 0
            beginnings = text.startswith(read(LISTING))
        return killed_times, beginnings

    def two_at_once(self, text):
        """Two tools that resume one file write the same bytes at the same places."""
        write(LISTING, text[: len(text) * 3 // 4])
        both = [self.resuming(), self.resuming()]
        statuses = [process.wait() for process in both]
        self.hold("two at once", statuses == [0, 0] and read(LISTING) == text, statuses)

    def killed(self, process, growth):
        """Kills a process when the file has grown by so many bytes, or early where that is 0; gives its status."""
        due = os.path.getsize(LISTING) + growth
        until = time.monotonic() + self.random.random() * EARLY
        while process.poll() is None:
            if os.path.getsize(LISTING) >= due if growth else time.monotonic() >= until:
                process.send_signal(self.random.choice([signal.SIGKILL, signal.SIGTERM, signal.SIGINT]))
                return process.wait()
            time.sleep(0.001)
        return process.returncode
