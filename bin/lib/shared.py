"""What the scripts in Python share: the crates, what has to be installed, the text of --help, and how cases are counted."""
import argparse
import contextlib
import functools
import os
import pathlib
import re
import resource
import runpy
import shutil
import subprocess
import sys
import tempfile
import threading

TOP, SCRIPT = pathlib.Path(__file__).resolve().parents[2], pathlib.Path(sys.argv[0]).name
# What each crate uses, by the lines of crates.txt, in their order.
LINES = re.findall(r"^(\w+)[^:\n]*:(.*)", (TOP / "crates.txt").read_text(), re.MULTILINE)
CRATES = {name: uses.split() for name, uses in LINES}


def parser(text):
    """A parser of the words of a script that counts cases, with this text as its --help."""
    counts = "The last line is 'N passed, M failed', and the exit status is 0 only if none failed."
    return argparse.ArgumentParser(description=text, epilog=counts, formatter_class=argparse.RawDescriptionHelpFormatter)


def tell_error(kind, error, trace):
    """Tells an error of the system, such as that a folder can't be written to, in one line."""
    if issubclass(kind, OSError):
        print(f"{SCRIPT}: {error}", file=sys.stderr)
    else:
        sys.__excepthook__(kind, error, trace)


sys.excepthook = tell_error


def kits():
    """The versions of the toolchain that README names, as `rt version` begins with them."""
    return re.findall(r"`(rattle-kit-\w+)`", (TOP / "README.md").read_text(encoding="utf-8"))


def need_kit(script=SCRIPT):
    """Ends the script with one line on what to install, unless there is an `rt` of a version that README names."""
    rt = shutil.which("rt")
    found = rt and subprocess.run([rt, "version"], capture_output=True, text=True).stdout.partition("\n")[0] or rt or "no rt"
    if not found.startswith(tuple(kits())):
        wanted = f"install the Rattle toolchain {' or '.join(kits())}, with rt on your PATH, as README.md says under 'Try it'"
        print(f"{script}: {wanted}: there is {found}", file=sys.stderr)
        sys.exit(2)


def used_by(*names):
    """These crates and those of the repository that they use, each after its own."""
    found = {}
    for name in names:
        found |= dict.fromkeys([*used_by(*(it for it in CRATES[name] if it in CRATES)), name])
    return [*found]


@contextlib.contextmanager
def copied(*names, ignored=("out", "must-fail"), top=TOP, more=""):
    """A temporary folder with these crates and those that they use, as a repository of its own, with more lines of crates.txt."""
    with tempfile.TemporaryDirectory() as folder:
        room = pathlib.Path(folder)
        for name in used_by(*names):
            shutil.copytree(top / "crates" / name, room / "crates" / name, ignore=shutil.ignore_patterns(*ignored))
        lines = (top / "crates.txt").read_text().splitlines(keepends=True)
        kept = [line for line in lines if re.split("[: ]", line)[0] in used_by(*names)]
        (room / "crates.txt").write_text("".join([*kept, more]))
        shutil.copy(top / "HANDLES", room)
        yield room


def texts_in(folder):
    """The sources, specs and proofs of a crate, by their paths in its folder."""
    files = [it for part in ("src", "specs", "proofs") for it in (folder / part).rglob("*") if it.suffix in (".rt", ".antt")]
    return {it.relative_to(folder).as_posix(): it.read_text(encoding="utf-8") for it in files}


class Body:
    """A wrong body: its title, the promises that it breaks, the texts that it replaces, and what catches it, if that is stored.

    For each text that it replaces `changes` has the file, a text before it ('' if it occurs once), the text, and the new one.
    """

    CHANGE = r"(?:file: (.+)\n)?(?:after: (.+)\n)?old: (.+)\nnew: ?(.*)\n"
    WHOLE = re.compile(
        r"(?:# )?(?P<title>[^#\n].*)\n(?:(?:# )?breaks: (?P<breaks>.+)\n)?(?P<changes>file: (?:.+\n)+?)(?:caught: (?P<caught>.+)\n)?"
    )

    def __init__(self, text):
        found = self.WHOLE.fullmatch(text + "\n")
        if not found or not re.fullmatch(f"(?:{self.CHANGE})+", found["changes"]):
            raise ValueError(f"the lines below a title aren't 'breaks:', 'file:', 'after:', 'old:', 'new:', 'caught:', in this order: {text}")
        self.text, self.title, self.caught, self.changes = text, found["title"], found["caught"], []
        self.breaks = found["breaks"] or ""
        for path, *change in re.findall(self.CHANGE, found["changes"]):
            self.changes.append((path or self.changes[-1][0], *change))


def bodies(file):
    """The wrong bodies in a file: its paragraphs that aren't comments."""
    paragraphs = re.split("\n{2,}", file.read_text(encoding="utf-8").strip("\n"))
    return [Body(it) for it in paragraphs if not all(line.startswith("#") for line in it.split("\n"))]


def edited(texts, body):
    """The texts of the files that a wrong body changes, by their paths."""
    changed = {}
    for path, after, old, new in body.changes:
        if path not in texts:
            raise ValueError(f"src, specs and proofs have no file {path}")
        text = changed.get(path, texts[path])
        if text.count(after or old) != 1:
            raise ValueError(f"the '{'after' if after else 'old'}:' text stands {text.count(after or old)} times, and not once")
        start = text.find(old, text.find(after) + len(after))
        if start < 0:
            raise ValueError("the 'old:' text doesn't stand after the 'after:' text")
        changed[path] = text[:start] + new + text[start + len(old) :]
    return changed


@functools.cache
def kit():
    return pathlib.Path(subprocess.run(["rt", "doc"], capture_output=True, text=True, check=True).stdout.strip()).parent


def model(crate):
    """The functions and constants of a crate's model."""
    return runpy.run_path(f"{TOP}/crates/{crate}/model.py")


def made(crate, whole=None):
    """What the model of a crate makes, by the names of files. If a folder is named, it is read from there."""
    files = (whole / crate).rglob("*") if whole else ()
    read = {it.relative_to(whole / crate).as_posix(): it.read_bytes().decode() for it in files if it.is_file()}
    return read or model(crate)["files"]()


def write_files(folder, files):
    """Writes texts into a folder, by the names of their files."""
    for name, text in files.items():
        (folder / name).parent.mkdir(parents=True, exist_ok=True)
        (folder / name).write_bytes(text.encode())


class Watched:
    """A test program that runs on all that its model makes, with bin/lib/allocator.c loaded before the C library.

    What the model makes is written into a folder of the program's own in `room`. The input `timed` is run by itself, with a limit
    of time.
    """

    def __init__(self, room, crate, whole=None):
        self.folder, self.library = TOP / "crates" / crate, f"{room}/allocator.so"
        self.program = self.folder / "out" / crate
        self.model, self.whole, stdin = model(crate), pathlib.Path(room) / "whole" / crate, self.folder / "stdin"
        self.files = made(crate, whole)
        write_files(self.whole, self.files)
        given = self.files.get("stdin") or (stdin.read_text(encoding="utf-8") if stdin.is_file() else "")
        self.timed = self.model.get("TIMED", "")
        self.given = given.replace(self.timed, "")
        options = ["-O1", "-shared", "-fPIC", "-nostdlib", "-fuse-ld=lld", "-fno-builtin"]
        build = [kit() / "toolchain" / "bin" / "clang", *options, "-o", self.library, TOP / "bin" / "lib" / "allocator.c"]
        subprocess.run(build, check=True)

    def run(self, before="", given=None, most=None, output=None, **more):
        """Runs the program on this text and then its input, or another one: the status, the lines of output, and the numbers of
        each call. It ends after so many seconds of processor time at most. Its output may go to a file, and has no lines then."""
        env, given = os.environ | {"LD_PRELOAD": self.library} | more, before + (self.given if given is None else given)
        data = self.whole / "data"
        how = {"cwd": data if data.is_dir() else self.folder, "env": env, "input": given, "stderr": subprocess.PIPE, "text": True}
        limit = most and (lambda: resource.setrlimit(resource.RLIMIT_CPU, (most, most)))
        with open(output or os.devnull, "w") as file:
            run = subprocess.run([self.program], preexec_fn=limit, stdout=file if output else subprocess.PIPE, **how)
        return run.returncode, (run.stdout or "").splitlines(), run.stderr.splitlines()


class Report:
    """Counts what holds, and prints what doesn't, the first 200 times."""

    def __init__(self):
        self.passed = self.failed = 0
        self.lock = threading.Lock()

    def see(self, holds, text=""):
        with self.lock:
            self.passed += bool(holds)
            self.failed += not holds
        if text and not holds and self.failed <= 200:
            print(text, flush=True)

    def tell(self, name, holds, why):
        """Counts a case, and prints a line with its name and result."""
        self.see(holds)
        print(f"{name}: ok" if holds else f"{name}: FAILED, {why}", flush=True)

    def end(self):
        print(f"{self.passed} passed, {self.failed} failed")
        sys.exit(self.failed != 0)
