"""A part of the repository, copied: some crates with those below them, and with the must-fail edits that are asked for."""
import os
import pathlib
import re
import shutil
import subprocess

TOP = pathlib.Path(__file__).resolve().parent.parent
ROW = re.compile(r"([a-z0-9_]+)[^:#]*:([^#]*)")


def kit_command():
    """The file of the kit's command `rt`."""
    command = pathlib.Path(shutil.which("rt") or "/opt/rattle/bin/rt").resolve()
    return command if (command.parent / "rtlib.py").is_file() else pathlib.Path("/opt/rattle/bin/rt")


def gate_keeps():
    """Whether this kit's gate keeps what it passed, and takes names of crates. Older kits (13b) do neither."""
    return re.search(r"\bKept\b", kit_command().read_text(errors="replace")) is not None


def crates():
    """The crates of crates.txt, each with what it stands on."""
    rows = map(ROW.match, (TOP / "crates.txt").read_text().splitlines())
    return {row[1]: row[2].split() for row in rows if row}


def with_those_below(names):
    below, found, left = crates(), set(), list(names)
    while left:
        name = left.pop()
        if name in below and name not in found:
            found.add(name)
            left += below[name]
    return found


def lines(name):
    files = (it for it in (TOP / "crates" / name).rglob("*") if it.suffix in (".rt", ".antt") and "out" not in it.parts)
    return sum(it.read_bytes().count(b"\n") for it in files)


def longest_chain(names):
    """Those crates of which each stands on the one before it, up to one of these, that have the most lines together."""
    below, ends = crates(), {}

    def chain(name):
        if name not in ends:
            under = max((chain(it) for it in below[name] if it in below), default=(0, []))
            ends[name] = under[0] + lines(name), [*under[1], name]
        return ends[name]

    return max(map(chain, names))[1]


def lacking(room):
    """The crates there of which nothing was kept on this machine."""
    told = subprocess.run([TOP / "tools" / "take_kept", room], check=False, capture_output=True, text=True).stdout
    rows = dict(line.split(": ", 1) for line in told.splitlines() if ": " in line)
    return set(rows.get("lacking", " ".join(crates())).split())


def copy_part(names, edits, to):
    """Copies these crates and those below them to a new repository, each with its edits of the given files, and gives their names."""
    wanted, to = with_those_below(names), pathlib.Path(to)
    to.mkdir()
    subprocess.run(["git", "init", "-q", to], check=True)
    shutil.copy(TOP / "HANDLES", to)
    lines = (TOP / "crates.txt").read_text().splitlines(keepends=True)
    kept = [line for line in lines if ROW.match(line) and ROW.match(line)[1] in wanted]
    (to / "crates.txt").write_text("".join(kept))
    for name in wanted:
        left_out = shutil.ignore_patterns("out", "must-fail")
        shutil.copytree(TOP / "crates" / name, to / "crates" / name, ignore=left_out)
    for edit in edits:
        folder = to / "crates" / edit.parent.name / "must-fail"
        folder.mkdir(exist_ok=True)
        shutil.copy(edit, folder)
    return wanted


def gate(room, on_line, names=(), jobs=None):
    """Runs the gate there, or of these crates and those below them, hands on each line that it prints, and gives its status. A gate that
    takes no names proves all crates that are there."""
    kept = dict(os.environ, RT_JOBS=str(jobs)) if jobs else None
    with subprocess.Popen(["rt", "ci", *(names if gate_keeps() else [])], cwd=room, env=kept, stdout=subprocess.PIPE, stderr=subprocess.STDOUT, text=True, errors="replace") as run:
        for line in run.stdout:
            on_line(line.rstrip("\n"))
    return run.returncode
