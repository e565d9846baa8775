"""What the scripts that plant wrong text share: a copy of the repository, edits in it, and what a check says of them."""
import pathlib
import re
import shutil
import sys

TOP = pathlib.Path(__file__).resolve().parent.parent


def fresh(copy, names):
    """The copy, with these files as they stand here."""
    if not copy.exists():
        shutil.copytree(TOP, copy, symlinks=True, ignore=shutil.ignore_patterns(".git"))
        (copy / ".planted").touch()
        (copy / ".git").mkdir()
    elif not (copy / ".planted").exists():
        sys.exit(f"{copy} isn't a folder that this script made")
    for name in names:
        if (copy / name).read_bytes() != (TOP / name).read_bytes():
            shutil.copyfile(TOP / name, copy / name)


def plant(copy, edits):
    for name, old, new in edits:
        path = copy / name
        text = path.read_text()
        if text.count(old) != 1:
            sys.exit(f"{name}: {text.count(old)} times: {old}")
        path.write_text(text.replace(old, new))


def told(output, code):
    """What the check says: the functions of the first crate that isn't proved."""
    lost = re.findall(r"^fn ([\w:]+): (?:not proved|no proof)", output, re.M)
    if lost:
        crate = lost[0].split("::")[0]
        return f"{crate} refuses it: " + ", ".join(sorted({f.split("::")[-1] for f in lost}))
    if code == 0:
        return "NOT REFUSED"
    errors = [line for line in output.splitlines() if "error" in line]
    return "refused, but not by a function: " + (errors[0] if errors else output[-300:])[:300]
