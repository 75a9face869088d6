"""The examples of the documents, run as they are shown.

In a fenced block that begins with `$ `, the lines that do are commands, each with its further lines where it isn't whole. The
lines behind a command are what it prints. The commands of a document are run in order by one shell, at the top of the
repository. Of a shown line, `,..` stands for any bytes; a line `...` stands for any lines. Commands that build or test aren't
run. A server goes on beside the commands behind it, on a port that is free in place of the one shown. What it prints has to
be shown behind its own command, or at the end of a later one. In place of `rt try --`, which builds the program and runs it, the
built program is run; what a server that is so tried prints comes at its end."""

import os
import re
import select
import shutil
import signal
import subprocess
import tempfile
import time
from dataclasses import dataclass, field
from pathlib import Path

from harness.counting import ROOT, Skipped, Unwell
from serving.server import Server, success_of

DOCUMENTS = ["README.md", "docs/formats.md"]
PROGRAM = "crates/mds_city/out/mds_city"
TRIES = re.compile(r"\brt try (?:--seconds [0-9]+ )?-- ")
SERVES = re.compile(r"\bmds_city serve\b")
LISTENS = re.compile(r"listening 127\.0\.0\.1:([0-9]+)")
PORT = re.compile(r"--port[ =]([0-9]+)")
NOT_RUN = re.compile(r"(^|[\s(])(rt|tests/[a-z-]+|bench/run|git)(\s|$)")
ASSIGNS = re.compile(r"[A-Za-z_]+=\S+")
MARK = "-- the end of a command --"
CURL = "curl() { command curl -sS -m 60 \"$@\"; }"
SECONDS = 60
"""How long a command may take where nothing else is said, and a server to end."""
LEAST_PAIRS = 5


@dataclass
class Step:
    """A command, and the lines that it has to print."""

    command: str
    wanted: list = field(default_factory=list)
    is_tried: bool = False
    """Whether it is shown by `rt try`."""


def step_of(command):
    """The step of a command that is shown: the built program is run where it tries the program."""
    return Step(TRIES.sub("mds_city ", command), is_tried=bool(TRIES.search(command)))


def blocks(text):
    """The fenced blocks of a document: the word behind the fence, and the lines."""
    fence, lines = None, []
    for line in text.splitlines():
        if fence is None and line.startswith("```"):
            fence, lines = line[3:].strip(), []
        elif line.startswith("```"):
            yield fence, lines
            fence = None
        elif fence is not None:
            lines.append(line)


def is_whole(command):
    """Whether a shell would take the command as it is, and not wait for more lines."""
    if command.endswith("\\"):
        return False
    return subprocess.run(["bash", "-n", "-c", command], stderr=subprocess.DEVNULL).returncode == 0


def steps_in(lines):
    """The steps of a block."""
    steps, whole = [], True
    for line in lines:
        if not whole:
            steps[-1].command += "\n" + (line[2:] if line.startswith("> ") else line)
        elif line.startswith("$ "):
            steps.append(step_of(line[2:]))
        else:
            steps[-1].wanted.append(line)
            continue
        whole = is_whole(steps[-1].command)
    if not whole:
        raise Unwell(f"a block ends inside of the command `{steps[-1].command}`")
    return steps


def steps_of(text):
    """The steps of all blocks that begin with a command, but for those that build or test."""
    steps = [step for _, lines in blocks(text) if lines and lines[0].startswith("$ ") for step in steps_in(lines)]
    return [step for step in steps if not NOT_RUN.search(step.command)]


def pairs_of(text):
    """The steps of a document whose commands stand in blocks `sh`, each before a block `json` that has what it prints. Blocks
    `sh` that only set names are steps that print nothing."""
    found = list(blocks(text))
    for (fence, lines), (following, wanted) in zip(found, [*found[1:], ("", [])]):
        if fence == "sh" and following == "json":
            yield Step("\n".join(lines), wanted)
        elif fence == "sh" and all(map(ASSIGNS.fullmatch, lines)):
            yield Step("\n".join(lines))


def is_like(wanted, found):
    """Whether lines that were found are those shown."""
    parts = []
    for line in wanted:
        escaped = re.escape(line).replace(re.escape(",.."), ",.*")
        parts.append("(?:.*\n)*?" if line == "..." else f"{escaped}\n")
    return re.fullmatch("".join(parts), "".join(f"{line}\n" for line in found)) is not None


def unlike(step, found):
    """How the lines that were found aren't those shown, in words; nothing where they are."""
    if is_like(step.wanted, found):
        return
    pairs = zip([*found, "the end"], [*step.wanted, "the end"])
    at = next((at for at, (line, wanted) in enumerate(pairs) if not is_like([wanted], [line])), 0)
    shown = [(lines[at : at + 1] or ["the end"])[0] for lines in (found, step.wanted)]
    yield f"`{step.command}`, line {at + 1} of what it prints: {shown[0]!r}, in place of {shown[1]!r}"


class Shell:
    """A shell at the top of the repository, to which commands are given one by one. It finds the program as `mds_city`."""

    seconds = SECONDS
    """How long a command may take."""

    def __init__(self, program):
        self.folder = tempfile.TemporaryDirectory()
        os.symlink(program, Path(self.folder.name, "mds_city"))
        self.ports = {}
        """The real ports, by those that the document shows."""
        reading, self.commands = os.pipe()
        self.child = subprocess.Popen(
            ["bash", f"/dev/fd/{reading}"],
            cwd=ROOT,
            env={**os.environ, "PATH": f"{self.folder.name}:{os.environ['PATH']}", "LC_ALL": "C.UTF-8"},
            stdin=subprocess.DEVNULL,
            stdout=subprocess.PIPE,
            stderr=subprocess.STDOUT,
            pass_fds=[reading],
            start_new_session=True,
        )
        os.close(reading)

    def __enter__(self):
        self.run(CURL)
        return self

    def __exit__(self, *_):
        os.close(self.commands)
        if self.child.poll() is None:
            os.killpg(self.child.pid, signal.SIGKILL)
        self.child.wait()
        self.child.stdout.close()
        self.folder.cleanup()

    def run(self, command):
        """The lines that a command prints."""
        text = command.replace(PROGRAM, "mds_city")
        for shown, port in self.ports.items():
            text = re.sub(rf"(127\.0\.0\.1|localhost):{shown}\b", rf"\1:{port}", text)
        behind = f"its_status=$?; printf '\\n%s\\n' '{MARK}'; (exit $its_status)"
        os.write(self.commands, f"{text}\n{behind}\n".encode())
        printed = self.printed(command)
        for shown, port in self.ports.items():
            printed = printed.replace(f"127.0.0.1:{port}", f"127.0.0.1:{shown}")
        return printed.splitlines()

    def printed(self, command):
        """What comes up to the mark behind the command."""
        found, mark = b"", f"\n{MARK}\n".encode()
        end, coming = time.monotonic() + self.seconds, select.poll()
        coming.register(self.child.stdout, select.POLLIN)
        while not found.endswith(mark):
            left = max(end - time.monotonic(), 0)
            if not coming.poll(1000 * left):
                raise Unwell(f"`{command}` didn't end in {self.seconds} s; so far it printed {found[-500:]!r}")
            piece = os.read(self.child.stdout.fileno(), 1 << 16)
            if not piece:
                raise Unwell(f"`{command}` ended the shell, which printed {found[-500:]!r}")
            found += piece
        return found[: -len(mark)].decode(errors="replace")


class Served:
    """A server that was started by a step of a document."""

    def __init__(self, shell, step):
        self.shell, self.step = shell, step
        shown = PORT.search(step.command) if step.is_tried else LISTENS.fullmatch((step.wanted or [""])[0])
        if not shown:
            raise Unwell(f"`{step.command}` isn't shown with its first line, `listening 127.0.0.1:N`")
        self.path = Path(tempfile.mkstemp(dir=shell.folder.name)[1])
        command = PORT.sub("--port 0", step.command.rstrip().rstrip("&"))
        self.number = shell.run(f"{command} > {self.path} 2>&1 & echo $!")[0]
        shell.ports[shown.group(1)] = self.port()

    def port(self):
        """The port at which it listens."""
        for _ in range(10 * SECONDS):
            first, ended, _ = self.path.read_text().partition("\n")
            found = LISTENS.fullmatch(first)
            if ended and found:
                return found.group(1)
            if ended:
                break
            time.sleep(0.1)
        raise Unwell(f"`{self.step.command}` didn't listen, but printed {self.path.read_text()!r}")

    def end(self):
        """What is wrong with what it printed. Where no line is shown behind the first, it is taken down."""
        if len(self.step.wanted) < 2:
            self.shell.run(f"kill {self.number}; wait {self.number} 2> /dev/null")
        else:
            self.shell.run(f"wait {self.number}")
        text = self.path.read_text()
        for shown, port in self.shell.ports.items():
            text = text.replace(f"127.0.0.1:{port}", f"127.0.0.1:{shown}")
        yield from unlike(self.step, text.splitlines())


def run_steps(shell, steps):
    """Runs the steps of a document in order, and says what is wrong."""
    served = None
    for step in steps:
        if SERVES.search(step.command):
            if served:
                yield from served.end()
            served = Served(shell, step)
            continue
        found = shell.run(step.command)
        if served:
            whole = range(len(step.wanted), -1, -1)
            least = next((at for at in whole if is_like(step.wanted[:at], found)), len(step.wanted))
            served.step.wanted += step.wanted[least:]
            step.wanted = step.wanted[:least]
        yield from unlike(step, found)
    if served:
        yield from served.end()


def document(name):
    """The subject that runs the blocks of a document that begin with a command."""

    def blocks_of_a_document(program):
        steps = steps_of((ROOT / name).read_text())
        if not steps:
            yield f"{name} has no block that begins with `$ ` and a command that is run"
        if any("curl" in step.command for step in steps) and not shutil.which("curl"):
            raise Skipped("no `curl` here")
        with Shell(program) as shell:
            for complaint in run_steps(shell, steps):
                yield f"{name}: {complaint}"

    blocks_of_a_document.__name__ = f"examples_of_{name}"
    return blocks_of_a_document


def examples_of_http(program):
    """The requests of docs/http.md in their order, to a server that was just started."""
    if not shutil.which("curl"):
        raise Skipped("no `curl` here")
    steps = list(pairs_of((ROOT / "docs/http.md").read_text()))
    asking = sum("curl" in step.command for step in steps)
    if asking < LEAST_PAIRS:
        yield f"docs/http.md has {asking} blocks `sh` with what they print"
    with Server(program, asking + 1) as server, Shell(program) as shell:
        shell.ports["8080"] = server.port
        for step in steps:
            found = shell.run(step.command)
            yield from unlike(step, found)
            if "curl" in step.command:
                server.count(1, success_of("\n".join(found).encode()))
        yield from server.end()


EXAMPLES = [*map(document, DOCUMENTS), examples_of_http]
