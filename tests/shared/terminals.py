"""This file runs programs at pseudo-terminals by scripts, and has what the terminals show.

Keys go through the terminal's own line discipline, which echoes and erases as at a keyboard. A
script is a list: what a program shows, the keys that are typed then, what it shows next, and so on.
"""

import os
import pty
import select
import signal
import struct
import termios
import time
from dataclasses import dataclass
from fcntl import ioctl

PATIENCE = 10.0  # seconds in which a program must show what is due, and end
INPUT, OUTPUT, ERRORS = 0, 1, 2  # the standard streams
ENTER, BACKSPACE, CTRL_C, CTRL_D, ESCAPE = "\r", "\x7f", "\x03", "\x04", "\x1b"


def on_screen(text):
    """The bytes that a terminal shows of a text that a program writes."""
    return text.replace("\n", "\r\n").encode()


def echo(keys):
    """The bytes that a terminal shows of keys. Ctrl-D leaves no trace."""
    shown = keys.replace(ENTER, "\r\n").replace(BACKSPACE, "\b \b").replace(CTRL_D, "")
    return shown.replace(CTRL_C, "^C").replace(ESCAPE, "^[").encode()


def start(arguments, files):
    """Starts a program in this process, with the usual signals, once it is resumed."""
    for number in (signal.SIGINT, signal.SIGQUIT, signal.SIGHUP, signal.SIGPIPE):
        signal.signal(number, signal.SIG_DFL)
    for stream, path in files.items():
        how = os.O_RDONLY if stream == INPUT else os.O_WRONLY | os.O_CREAT | os.O_TRUNC
        os.dup2(os.open(path, how, 0o600), stream)
    os.environ["TERM"] = "xterm"
    os.kill(os.getpid(), signal.SIGSTOP)
    os.execvp(arguments[0], arguments)


class Terminal:
    """A program at a terminal, which is stopped before it begins, and what the terminal has shown.

    A standard stream that `files` has is this file instead of the terminal.
    """

    def __init__(self, arguments, files):
        self.process, self.master = pty.fork()
        if self.process == 0:
            try:
                start(arguments, files)
            finally:
                os._exit(127)
        self.wait_until_stopped()
        ioctl(self.master, termios.TIOCSWINSZ, struct.pack("HHHH", 24, 80, 0, 0))
        self.settings = termios.tcgetattr(self.master)
        self.keeps_settings = True
        self.is_closed = False
        self.shown = b""

    def resume(self):
        os.kill(self.process, signal.SIGCONT)

    def stop(self):
        os.kill(self.process, signal.SIGSTOP)
        self.wait_until_stopped()

    def wait_until_stopped(self):
        os.waitid(os.P_PID, self.process, os.WSTOPPED | os.WEXITED | os.WNOWAIT)

    def type(self, keys):
        self.look_at_settings()
        os.write(self.master, keys.encode())

    def look_at_settings(self):
        self.keeps_settings &= termios.tcgetattr(self.master) == self.settings

    def read_until(self, holds):
        """Reads until this holds, until the program has left the terminal, or for some time."""
        end = time.monotonic() + PATIENCE
        while not (self.is_closed or holds()):
            ready, _, _ = select.select([self.master], [], [], max(end - time.monotonic(), 0))
            if not ready:
                return
            self.read()

    def read(self):
        try:
            self.shown += os.read(self.master, 65536)
        except OSError:
            self.is_closed = True

    def shows(self, due):
        """Reads until the terminal shows just this; false where it shows something else."""
        self.read_until(lambda: self.shown == due or not due.startswith(self.shown))
        return self.shown == due

    def end(self):
        """Waits until the program has ended, kills it if it is late, and gives its status."""
        self.read_until(lambda: False)
        if not self.is_closed:
            os.kill(self.process, signal.SIGKILL)
        _, status = os.waitpid(self.process, 0)
        self.look_at_settings()
        os.close(self.master)
        return os.waitstatus_to_exitcode(status)


@dataclass
class Run:
    """What a terminal showed of a program, how it ended, and whether the settings stayed."""

    shown: bytes
    status: int
    keeps_settings: bool = True


def due_of(script):
    """What a terminal shows of a script."""
    return b"".join(echo(each) if k % 2 else on_screen(each) for k, each in enumerate(script))


def transcript_of(script):
    """What a program writes that follows a script and leaves nothing out."""
    return "".join(script).replace(ENTER, "\n").replace(CTRL_D, "")


def follows(terminal, script):
    """Types the keys of a script, each where it is due; false where something else is shown.

    The program is stopped while keys are typed, so that their echo comes before what it shows.
    """
    for k in range(1, len(script), 2):
        if script[k - 1]:
            terminal.resume()
            if not terminal.shows(due_of(script[:k])):
                return False
            terminal.stop()
        terminal.type(script[k])
        if not terminal.shows(due_of(script[: k + 1])):
            return False
    terminal.resume()
    return terminal.shows(due_of(script))


def run(arguments, script, files):
    """Runs a program by a script; it is killed where it doesn't follow it."""
    terminal = Terminal(arguments, files)
    if not follows(terminal, script):
        os.kill(terminal.process, signal.SIGKILL)
    status = terminal.end()
    return Run(terminal.shown, status, terminal.keeps_settings)


def screen(shown):
    """The text on a screen that has shown these bytes, of a terminal that only moves backwards."""
    lines, column = [[]], 0
    for char in shown.decode():
        if char == "\n":
            lines.append([])
        elif char == "\r":
            column = 0
        elif char == "\b":
            column -= 1
        else:
            line = lines[-1]
            line[column:] = [char, *line[column + 1 :]]
            column += 1
    return "\n".join("".join(line).rstrip() for line in lines)
