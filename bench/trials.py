"""What the scripts share that try `pam` where something fails: its scripts with their right answers, runs, and many runs at a time."""
import collections
import glob
import multiprocessing
import os
import resource
import shutil
import subprocess
import tempfile
import time

import inputs
import measure

OK, USAGE, BAD_RECORD, TOO_LARGE, READ_FAULT, WRITE_FAULT, NO_MEMORY = 0, 2, 3, 4, 5, 6, 7
# What the dynamic loader ends with where the program cannot be loaded, and the kernel where it cannot be mapped.
NOT_STARTED = {127, 126, -9, -11}
# How a run ends that did not end in so many seconds, or, of a large script, in so many more; no signal has this number.
HANG, SECONDS, LONG = -99, 60, 900
TOOLS = [*inputs.MAKERS, "check", "sample"]

# What a run that `timeout` stopped ends with, and one that it had to kill; and the bytes that are read at a time of what a run writes.
STOPPED, KILLED, PIECE = 124, 137, 2**20

# What a run ended with, what it wrote, and what it wrote to standard error.
Run = collections.namedtuple("Run", "status text told")
# What a run ended with, its elapsed and its processor's seconds, the most bytes that it had, and how many it wrote and told.
Measured = collections.namedtuple("Measured", "status elapsed processor peak written told")


class Example:
    """Words with an input, what they are to write, and the status to end with."""

    def __init__(self, name, words, script, answer, status=OK):
        self.name, self.words, self.script, self.answer, self.status = name, words, script, answer, status
        self.reads, self.writes = status != USAGE and "sample" not in words, status in (OK, BAD_RECORD)

    def run(self, program, workers=1, settings=None, limits=(), **given):
        """A run with these variables and limits, in as many workers; with more than one each part of the work is halved."""
        options = ["--workers", str(workers)] + (["--grain", "1"] if workers > 1 else [])
        words = self.words if self.status == USAGE else options + self.words
        return run([program, *words], settings, limits, **({} if "stdin" in given else {"input": self.script}), **given)

    def fits(self, run):
        """Whether a run has the right text, a first part of it, or none, as its status wants, and a silent standard error."""
        if run.told or run.status == self.status:
            return not run.told and run.text == self.answer
        has_begun = run.status == WRITE_FAULT or run.status < 0
        return self.answer.startswith(run.text) if has_begun else not run.text


def run(words, settings=None, limits=(), prepare=None, seconds=SECONDS, **given):
    """A run, whose input is a file, so that it takes as many reads each time, and whose outputs are pipes, where they are not given."""

    def begin():
        for what, most in limits:
            resource.setrlimit(what, (most, most))
        if prepare:
            prepare()

    with tempfile.TemporaryFile() as file:
        file.write(given.pop("input", b""))
        file.seek(0)
        streams = {"stdin": file, "stdout": subprocess.PIPE, "stderr": subprocess.PIPE}
        try:
            ran = subprocess.run(words, env=settings or {}, preexec_fn=begin, timeout=seconds, **{**streams, **given})
        except subprocess.TimeoutExpired:
            return Run(HANG, b"", b"")
    return Run(ran.returncode, ran.stdout or b"", ran.stderr or b"")


def measured(words, path, seconds, space, text=None):
    """A run on the file at path in so much address space (0: any), of at most so many seconds. What it writes is counted, and kept in a
    file where one is given."""

    def begin():
        if space:
            resource.setrlimit(resource.RLIMIT_AS, (space, space))

    with open(path, "rb") as given, tempfile.NamedTemporaryFile("r") as used, tempfile.TemporaryFile() as told:
        timed = ["/usr/bin/time", "-q", "-f", "%M %U %S", "-o", used.name, "timeout", "-k", "9", str(seconds), *words]
        start = time.monotonic()
        with subprocess.Popen(timed, stdin=given, stdout=subprocess.PIPE, stderr=told, preexec_fn=begin) as child:
            written = 0
            for piece in iter(lambda: child.stdout.read(PIECE), b""):
                written += text.write(piece) if text else len(piece)
        elapsed = time.monotonic() - start
        status = STOPPED if child.returncode == KILLED and elapsed > seconds else child.returncode
        peak, *processor = used.read().split()
        return Measured(status, elapsed, sum(map(float, processor)), int(peak) * 1024, written, told.tell())


def stored():
    """The scripts of examples/ with their answers, and one of each other status that comes without a fault."""
    for path in sorted(glob.glob(f"{measure.TOP}/examples/*.csv")):
        name = os.path.basename(path).removesuffix(".csv")
        with open(path, "rb") as script, open(path.removesuffix(".csv") + ".out", "rb") as answer:
            yield Example(name, [name if name in TOOLS else "map"], script.read(), answer.read())
    yield Example("sample", ["--seed", "0", "--size", "1", "sample"], b"", b"ok,1\n" * 4 + b"ok,0\naug,527343,527343\naug,420705,420705\naug,0,0\n")
    yield Example("bad record", ["map"], b"put,0,1,2\nput,0,1\n", b"error,2,fields\n", BAD_RECORD)
    yield Example("words", ["--help"], b"", b"", USAGE)


def large(program, size, tools=TOOLS):
    """A script of about so many bytes for each tool, or as large a sample, with the text that one worker writes."""
    for tool in tools:
        if tool == "sample":
            words, script = ["--size", str(max(1, min(size // 10, 1_000_000))), tool], b""
        else:
            words, script = [tool], b"".join(inputs.script("serve" if tool == "check" else tool, size))
        text = run([program, "--workers", "1", *words[:-1], "serve" if tool == "check" else tool], seconds=LONG, input=script).text
        both = (script + b"run\n" + text, b"yes\n") if tool == "check" else (script, text)
        yield Example(f"large {tool}", words, *both)


def of_tools(examples, tools):
    """The examples of these tools, or all where none is named."""
    return [it for it in examples if not tools or it.words[-1] in tools]


def copied(program):
    """A copy of the program that any user may run, in a folder that is removed in the end."""
    folder = tempfile.TemporaryDirectory(prefix="pam_trial_")
    os.chmod(folder.name, 0o755)
    path = shutil.copy(program, os.path.join(folder.name, "pam"))
    os.chmod(path, 0o755)
    return folder, path


def in_order(jobs, work, cases):
    """What the work answers for each case, in the order of the cases, so many at a time."""
    if jobs == 1:
        yield from map(work, cases)
        return
    with multiprocessing.Pool(jobs) as pool:
        yield from pool.imap(work, cases, 8)
