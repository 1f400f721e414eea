"""What the scripts of this folder share: the documents that they make, how the program is built and timed."""
import os
import pathlib
import shutil
import subprocess
import sys
import tempfile

TOP = pathlib.Path(__file__).resolve().parent.parent
PROGRAM = TOP / "crates" / "vc_cli" / "out" / "vc_cli"
TIMER = pathlib.Path("/usr/bin/time")
CONTEXT = "https://ex.org/bench"
SIZES = (1_000, 2_500, 5_000, 10_000, 20_000)


def flat_document(statements, text_bytes=6):
    """The terms of a context, and a document with so many statements, each with a text of so many bytes."""
    terms = {f"t{i:06d}": f"https://ex.org/t{i * 7919 % statements:06d}" for i in range(statements)}
    document = {"@context": CONTEXT, "@id": "https://ex.org/a"}
    document.update({term: f"{i:06d}".ljust(text_bytes, "x") for i, term in enumerate(terms)})
    return terms, document


def build_program():
    """Proves and builds `vc_cli`, where that is not done."""
    asked = [TOP / "bin" / "vc_cli", "statements"]
    done = subprocess.run(asked, stdin=subprocess.DEVNULL, stdout=subprocess.DEVNULL)
    if not PROGRAM.exists():
        sys.exit(f"bench: the program was not built ({done.returncode})")


def build_with(copy, name, uses, program):
    """Makes a copy of the repository with a further crate of this one source file, which uses these crates, proves and
    builds it there, and gives its program."""
    copy.mkdir(parents=True, exist_ok=True)
    ignored = shutil.ignore_patterns("out", ".git")
    shutil.copytree(TOP / "crates", copy / "crates", ignore=ignored, dirs_exist_ok=True)
    (copy / "crates.txt").write_text((TOP / "crates.txt").read_text() + f"\n{name}: {uses}\n")
    if (TOP / "HANDLES").exists():
        shutil.copy(TOP / "HANDLES", copy / "HANDLES")
    source = copy / "crates" / name / "src"
    source.mkdir(parents=True, exist_ok=True)
    shutil.copy(program, source / "main.rt")
    built = source.parent / "out" / name
    if not built.exists():
        subprocess.run(["rt", "run"], cwd=source.parent, stdin=subprocess.DEVNULL, stdout=sys.stderr)
    if not built.exists():
        sys.exit(f"bench: {name} was not built")
    return built


def timed(program, words, data, runs, before=None):
    """The least seconds of processor time of the runs, the peak memory in bytes where /usr/bin/time tells it, the
    exit status and what was written. `before` is called in the process of each run before the program begins."""
    best, peak, status, reply = None, None, 0, b""
    for _ in range(runs):
        with tempfile.TemporaryFile() as stdin, tempfile.TemporaryFile() as stdout, tempfile.NamedTemporaryFile() as told:
            stdin.write(data)
            stdin.seek(0)
            # A process's peak counts from before its exec, so a small one, and not this one, has to start it.
            timer = [TIMER, "-q", "-f", "%M", "-o", told.name] if TIMER.exists() else []
            child = subprocess.Popen([*timer, program, *words], stdin=stdin, stdout=stdout, preexec_fn=before)
            _, ended, usage = os.wait4(child.pid, 0)
            status = os.waitstatus_to_exitcode(ended)
            seconds = usage.ru_utime + usage.ru_stime
            stdout.seek(0)
            reply = stdout.read()
            if timer:
                peak = max(peak or 0, int(told.read()) * 1024)
        best = seconds if best is None else min(best, seconds)
    return best, peak, status, reply


def growth(seconds, half):
    """How often the time of half as many statements goes into this one."""
    return f"{seconds / half:.2f}" if half else "-"
