#!/usr/bin/env python3
"""Tests how bpfs explains itself: its help, its version, its prompts, and its question before it erases a file.

    terminal.py PROGRAM

PROGRAM is a built bpfs, such as crates/bpfs/out/bpfs. Each case runs it over pseudo-terminals, pipes and files, and
prints a line. The exit status is 1 if a case fails.

- Help has the usage line on standard output and status 2, and two examples, which are run.
- A run whose input and output are terminals shows prompts, on standard error if that is a terminal too. The line `help`
  shows the commands of docs/bpfs.1. Otherwise there are no prompts, and `help` is a syntax error.
- A format asks before it erases a file that is neither empty nor an image, if input and standard error are terminals.
"""
import fcntl
import os
import re
import select
import signal
import subprocess
import sys
import tempfile
import termios
import time

TOP = os.path.join(os.path.dirname(os.path.abspath(__file__)), "..")
PATIENCE = 20
USAGE = (
    b"usage: bpfs format FILE --blocks N [--version V] / run FILE / check FILE / "
    b"play FILE --seed S --count C / export FILE\n"
)
PROMPT = b"bpfs> "
END, INTERRUPT, ERASE_LINE = b"\x04", b"\x03", b"\x15"
COMMANDS = ("format", "run", "check", "play", "export")
failed = []


def expect(case, wanted, found):
    if wanted == found:
        print(f"ok: {case}")
        return
    print(f"FAILED: {case}:\n  wanted {wanted!r}\n  found  {found!r}")
    failed.append(case)


def read_page(path):
    with open(os.path.join(TOP, path), encoding="utf-8") as it:
        return it.read()


def contents(name):
    """Returns the bytes of a file, None if there is none."""
    if not os.path.exists(name):
        return None
    with open(name, "rb") as it:
        return it.read()


def write(name, data):
    with open(name, "wb") as it:
        it.write(data)


def run(words, lines=b"", **streams):
    """Runs the program without a terminal. Returns its status, standard output and standard error."""
    streams = {"stdout": subprocess.PIPE, "stderr": subprocess.PIPE, **streams}
    done = subprocess.run([PROGRAM, *words], input=lines, check=False, timeout=PATIENCE, **streams)
    return done.returncode, done.stdout, done.stderr


class Screen:
    """A pseudo-terminal, and what the program wrote to it. Its input is not echoed."""

    def __init__(self):
        self.keys, self.line = os.openpty()
        modes = termios.tcgetattr(self.line)
        modes[1] &= ~termios.OPOST
        modes[3] &= ~(termios.ECHO | termios.ECHOCTL)
        termios.tcsetattr(self.line, termios.TCSANOW, modes)
        self.shown = b""

    def wait(self, seconds):
        """Takes what the program writes within this time. Returns whether it wrote anything."""
        if not select.select([self.keys], [], [], seconds)[0]:
            return False
        try:
            self.shown += os.read(self.keys, 65536)
        except OSError:
            return False
        return True

    def until(self, text):
        """Waits until the program has written this text, and returns all that it wrote since the last call."""
        end = time.monotonic() + PATIENCE
        while text not in self.shown and time.monotonic() < end:
            self.wait(0.1)
        return self.rest()

    def rest(self):
        while self.wait(0.05):
            pass
        shown, self.shown = self.shown, b""
        return shown

    def type(self, keys):
        os.write(self.keys, keys)

    def close(self):
        os.close(self.keys)
        os.close(self.line)


def start(words, screen, stdout=None, stderr=None):
    """Starts the program with a terminal as its input, and as its outputs unless others are given."""

    def control():
        os.setsid()
        fcntl.ioctl(0, termios.TIOCSCTTY, 0)

    out, err = (screen.line if it is None else it for it in (stdout, stderr))
    return subprocess.Popen([PROGRAM, *words], stdin=screen.line, stdout=out, stderr=err, preexec_fn=control)


def finish(child):
    """Returns the status of the program, and its piped output."""
    try:
        out, err = child.communicate(timeout=PATIENCE)
    except subprocess.TimeoutExpired:
        child.kill()
        out, err = child.communicate()
        return "no end", out, err
    return child.returncode, out, err


def type_session(words, keys, prompt=PROMPT, **streams):
    """Types keys at a terminal, each after a prompt. Returns the status, what it shows, and the piped outputs."""
    screen = Screen()
    child = start(words, screen, **streams)
    shown = b""
    for key in keys:
        shown += screen.until(prompt)
        screen.type(key)
    status, out, err = finish(child)
    shown += screen.rest()
    screen.close()
    return status, shown, out, err


def make_image(name="disk.img", version="2"):
    run(["format", name, "--blocks", "64", "--version", version])


def examples_of(text):
    """Returns the examples of a help text."""
    _, _, end = text.partition("\nExamples:\n")
    return [line.strip() for line in end.split("\n\n")[0].splitlines()]


def test_help():
    texts = {}
    each = [words for it in COMMANDS for words in (["help", it], [it, "--help"])]
    for words in (["--help"], ["-h"], ["help"], *each):
        status, out, err = run(words)
        case = f"bpfs {' '.join(words)}"
        expect(f"{case}: usage line, and status 2", (2, USAGE), (status, out))
        texts[words[-1] if words[0] == "help" else words[0]] = err.decode()
        expect(f"{case}: two examples", 2, len(examples_of(err.decode())))
        if words[0] in COMMANDS:
            expect(f"{case}: as bpfs help {words[0]}", run(["help", words[0]])[2], err)
    for command in COMMANDS:
        lines = re.findall(r"^ +(?:-h, )?(--\w+|<\w+>)(?: <\w+>)?  +\S", texts[command], re.M)
        usage = re.findall(r"--\w+|<\w+>", re.sub(r"(--\w+) <\w+>", r"\1", re.search("Usage: .*", texts[command])[0]))
        expect(f"bpfs {command} --help: a text for each argument", set(), set(usage) - set(lines))
    test_examples(texts)


def test_examples(texts):
    """Runs the examples of the help texts, in a folder with a script and two images."""
    os.makedirs("examples")
    folder = os.path.abspath("examples")
    os.symlink(PROGRAM, f"{folder}/bpfs")
    write(f"{folder}/script", b"create /a\n")
    make_image(f"{folder}/large.img")
    for name in ("format", "--help", "run", "check", "play", "export"):
        for command in examples_of(texts[name]):
            place = {**os.environ, "PATH": f"{folder}:{os.environ['PATH']}"}
            done = subprocess.run(["sh", "-c", command], cwd=folder, env=place, capture_output=True, check=False)
            expect(f"the example {command}", (0, b""), (done.returncode, done.stderr))


def test_version():
    line = f"bpfs {read_page('VERSION').strip()}\n".encode()
    for flag in ("--version", "-V"):
        expect(f"bpfs {flag}", (0, line, b""), run([flag]))
    with open("/dev/full", "wb") as full:
        status, _, err = run(["--version"], stdout=full)
    expect("bpfs --version, on a full device", (4, True), (status, err.startswith(b"bpfs: standard output: ")))
    expect("bpfs --version format: a mistake", 2, run(["--version", "format"])[0])


def test_scripts():
    """Without a terminal as input and output there is no prompt, and `help` is no command."""
    make_image()
    lines, replies = b"help\nspace\nhelp \nhelp", b"err 20 syntax\nspace 62 1\nerr 20 syntax\nerr 20 syntax\n"
    expect("a script with the line help", (0, replies, b""), run(["run", "disk.img"], lines))
    screen = Screen()
    child = start(["run", "disk.img"], screen, stdout=subprocess.PIPE)
    screen.type(b"help\nspace\n" + END)
    status, out, _ = finish(child)
    wanted = (0, b"err 20 syntax\nspace 62 1\n", b"")
    expect("input from a terminal, output to a pipe", wanted, (status, out, screen.rest()))
    status, _, err = run(["run", "disk.img"], lines, stdout=screen.line)
    expect("input from a pipe, output to a terminal", (0, b""), (status, err))
    expect("the output there", replies, screen.rest())
    reader, writer = os.pipe()
    os.close(reader)
    child = start(["run", "disk.img"], screen, stdout=writer, stderr=subprocess.PIPE)
    screen.type(b"create /a\n")
    status, _, err = finish(child)
    expect("a pipe with a closed reader", (4, True), (status, err.startswith(b"bpfs: standard output: ")))
    os.close(writer)
    screen.close()


def test_help_line(shown):
    """The answer to `help` fits a screen, and has each line of docs/bpfs.1."""
    lines = shown.decode().splitlines()
    expect("help: fewer than 24 lines", True, len(lines) < 24)
    expect("help: at most 79 columns", True, max(map(len, lines)) < 80)
    page = read_page("docs/bpfs.1")
    page = page[page.index(".Ss Script lines") : page.index(".Ss Replies")]
    words = {tuple(line.split()) for line in re.findall(r"^\.It Cm ([a-z]+(?: (?!Ar)[a-z0-9]+)?)", page, re.M)}
    parts = [it for line in lines if "  " in line for it in line.split("  ")[0].split(", ")]
    found = {tuple(re.match(r"[a-z]+(?: [a-z0-9]+)?", it)[0].split()) for it in parts}
    expect("help: each line of the manual page", set(), words - found)
    expect("help: no other line", set(), found - words)


def test_prompts():
    make_image()
    status, shown, _, _ = type_session(["run", "disk.img"], [b"create /a\n", b"\n", b"list /\n", END])
    greeting, _, rest = shown.partition(PROMPT)
    expect("prompts: a first line on help", True, b"`help`" in greeting and greeting.count(b"\n") == 1)
    wanted = b"ok\nbpfs> err 20 syntax\nbpfs> entry f a\nend\nbpfs> \n"
    expect("prompts before each line, and Ctrl-D", (0, wanted), (status, rest))
    expect("Ctrl-D saved the image", b"entry f a\nend\n", run(["run", "disk.img"], b"list /\n")[1])
    status, shown, _, _ = type_session(["run", "disk.img"], [b"help\n", b"space\n", b"help\n", END])
    parts = shown.split(PROMPT)
    expect("help, twice", (0, True, b"space 61 2\n", b"\n"), (status, parts[1] == parts[3], parts[2], parts[4]))
    test_help_line(parts[1])
    test_apart()
    test_tutorial()
    status, shown, _, _ = type_session(["run", "missing.img"], [])
    expect("no prompt for a missing image", (1, b"err 34 nofile\n"), (status, shown))
    status, shown, _, _ = type_session(["check", "disk.img"], [])
    expect("no prompt of check", (0, True), (status, shown.startswith(b"clean ") and PROMPT not in shown))


def test_tutorial():
    """Types the lines of docs/tutorial.md after the prompts there. `^D` is Ctrl-D."""
    run(["format", "disk.img", "--blocks", "8", "--version", "2"])
    run(["run", "disk.img"], read_page("examples/files.bpfs").encode())
    page = read_page("docs/tutorial.md")
    block = re.search(r"```console\n(The line `help`.*?)```", page, re.S)[1]
    keys = [END if it == "^D" else f"{it}\n".encode() for it in re.findall(r"^bpfs> (.*)", block, re.M)]
    wanted = re.sub(r"^(bpfs> ).*\n", r"\1", block, flags=re.M).encode() + b"\n"
    status, shown, _, _ = type_session(["run", "disk.img"], keys)
    expect("the session of the tutorial", (0, wanted), (status, shown))
    words = re.search(r"`bpfs (format notes\.txt [^`]*)`", page)[1].split()
    question, answer, message = re.search(r"```console\n(bpfs: .*\] )(.*)\n(.*)\n```", page).groups()
    write("notes.txt", read_page("LICENSE").encode())
    status, shown, _, _ = type_session(words, [f"{answer}\n".encode()], prompt=b"[y/N] ")
    expect("the question of the tutorial", (5, f"{question}{message}\n".encode()), (status, shown))


def test_apart():
    """Prompts go to standard error if it is a terminal, and else to the terminal of standard output."""
    screen, errors = Screen(), Screen()
    child = start(["run", "disk.img"], screen, stderr=errors.line)
    prompts = errors.until(PROMPT)
    screen.type(b"space\n")
    prompts += errors.until(PROMPT)
    screen.type(END)
    status, _, _ = finish(child)
    expect("replies on standard output", (0, b"space 61 2\n"), (status, screen.rest()))
    expect("prompts on standard error", 2, (prompts + errors.rest()).count(PROMPT))
    screen.close()
    errors.close()
    status, shown, _, err = type_session(["run", "disk.img"], [b"space\n", END], stderr=subprocess.PIPE)
    expect("prompts on standard output", (0, 2, b""), (status, shown.count(PROMPT), err))


def test_interruptions():
    make_image()
    keys = [b"create /a\n", b"sync\n", b"create /b\n", b"create /c" + INTERRUPT]
    status, _, _, _ = type_session(["run", "disk.img"], keys)
    expect("Ctrl-C ends the run", -signal.SIGINT, status)
    expect("Ctrl-C leaves the last sync", b"entry f a\nend\n", run(["run", "disk.img"], b"list /\n")[1])
    keys = [b"create /b" + ERASE_LINE + b"space\n", b"list /" + END + b"\n", b"stat /" + END + END]
    status, shown, _, _ = type_session(["run", "disk.img"], keys)
    wanted = [b"space 61 2\n", b"entry f a\nend\n", b"\ndir 1\n"]
    expect("an erased line, and Ctrl-D within lines", (0, wanted), (status, shown.split(PROMPT)[1:]))
    screen = Screen()
    child = start(["run", "disk.img"], screen)
    screen.until(PROMPT)
    screen.type(b"spa")
    child.send_signal(signal.SIGSTOP)
    child.send_signal(signal.SIGCONT)
    screen.type(b"ce\n")
    shown = screen.until(PROMPT)
    screen.type(END)
    expect("a stopped and continued run", (0, b"space 61 2\nbpfs> "), (finish(child)[0], shown))
    screen.close()


def format_typed(name, keys, **streams):
    """Formats a file at a terminal, and answers a question. Returns the status, what was shown before the answer, the
    piped output, and what was shown after the answer."""
    screen = Screen()
    child = start(["format", name, "--blocks", "8"], screen, stdout=subprocess.PIPE, **streams)
    end = time.monotonic() + PATIENCE
    while child.poll() is None and b"[y/N] " not in screen.shown and time.monotonic() < end:
        screen.wait(0.05)
    screen.wait(0.05)
    asked, screen.shown = screen.shown, b""
    if child.poll() is None:
        screen.type(keys)
    status, out, _ = finish(child)
    shown = screen.rest()
    screen.close()
    return status, asked, out, shown


def test_question():
    text = b"notes that took a year\n"
    question = b"bpfs: notes: neither empty nor an image. Erase the file? [y/N] "
    for answer in (b"y\n", b"yes\n", b"y" + END + END):
        write("notes", text)
        expect(f"the answer {answer!r}", (0, question, b"formatted 8 6\n"), format_typed("notes", answer)[:3])
        expect("the file is an image", 0, run(["check", "notes"])[0])
    for answer in (b"\n", b"n\n", b"Y\n", b" y\n", b"yess\n", b"yes please\n", b"\xff\n", END, b"ye" + END + END):
        write("notes", text)
        status, asked, out, shown = format_typed("notes", answer)
        expect(f"the answer {answer!r}", (5, question, b""), (status, asked, out))
        expect("a message", b"bpfs: notes: not formatted: the answer was not y or yes", shown.strip())
        expect("the file is unchanged", text, contents("notes"))
    status, _, _, _ = format_typed("notes", INTERRUPT)
    expect("Ctrl-C at the question", (-signal.SIGINT, text), (status, contents("notes")))
    write("notes", b"7 bytes")
    expect("a file of 7 bytes", (5, question), format_typed("notes", b"\n")[:2])
    test_no_question(text)


def test_no_question(text):
    cases = [("a new file", "new"), ("an empty file", "empty"), ("a damaged image", "damaged")]
    write("empty", b"")
    write("damaged", b"BPFSRS01" + b"\1" * 100)
    for version in "123":
        make_image(f"image{version}", version)
        cases.append((f"an image of version {version}", f"image{version}"))
    for case, name in cases:
        expect(f"no question for {case}", (0, b"", b"formatted 8 6\n"), format_typed(name, b"")[:3])
    os.mkdir("folder")
    status, asked, _, _ = format_typed("folder", b"")
    expect("no question for a folder", (5, b"bpfs: folder: is a directory\n"), (status, asked))
    write("notes", text)
    expect("a script is not asked", (0, b"formatted 8 6\n", b""), run(["format", "notes", "--blocks", "8"], b"n\n"))
    write("notes", text)
    found = format_typed("notes", b"", stderr=subprocess.PIPE)
    expect("no terminal for the question", (0, b"", b"formatted 8 6\n"), found[:3])
    write("notes", text)
    screen = Screen()
    status, out, _ = run(["format", "notes", "--blocks", "8"], stderr=screen.line)
    expect("no terminal for the answer", (0, b"formatted 8 6\n"), (status, out))
    expect("nothing shown there", b"", screen.rest())
    write("notes", text)
    child = start(["format", "notes", "--blocks", "7"], screen, stdout=subprocess.PIPE)
    expect("wrong arguments are not asked", (2, USAGE, text), (*finish(child)[:2], contents("notes")))
    screen.close()


if len(sys.argv) != 2:
    sys.exit(__doc__)
PROGRAM = os.path.realpath(sys.argv[1])
with tempfile.TemporaryDirectory() as work:
    os.chdir(work)
    test_help()
    test_version()
    test_scripts()
    test_prompts()
    test_interruptions()
    test_question()
    os.chdir("/")
sys.exit(bool(failed))
