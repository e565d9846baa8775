"""The cases that the tables of crates/rest_tests tell, each as a message and what is told of it.

A module of `tools/broken_messages`, which tries its model on them first. How a table is written stands at the head of crates/rest_tests/src/tests/player.rt.
"""
import pathlib
import re

from message_model import Message, Refused, call_of

TABLES = pathlib.Path(__file__).resolve().parent.parent / "crates" / "rest_tests" / "src" / "tests"
ACCOUNT = "x-ebs-account: 000000000001"
MEMBERS = set("""body snapshotId secondSnapshotId firstSnapshotId blockIndex blockToken pageToken maxResults startingBlockIndex from max volumeId identifier policyId x-ebs-account VolumeSize
    ParentSnapshotId Description Tags ClientToken Timeout Encrypted KmsKeyArn Size SnapshotId Add Remove LockMode LockDuration ExpirationDate CoolOffPeriod StorageTier TemporaryRestoreDays
    PermanentRestore RetentionPeriod ResourceType ResourceTags LockConfiguration TargetTags Schedule RetainRule TagsToAdd""".split())


def pasted(text):
    """A word between backquotes, so many times."""
    return re.sub(r"`(\d+) ([^`]*)`", lambda found: "".join(found[2].replace("*", str(number)) for number in range(int(found[1]))), text)


def message_of(line):
    head, _, fields = line.partition(" ## ")
    method, _, rest = head.partition(" ")
    target, _, body = rest.partition(" ")
    pairs = [field.partition(": ") for field in (fields or ACCOUNT).split("; ")]
    return Message(method.encode(), target.encode(), [(name.lower().encode(), value.encode()) for name, _, value in pairs], body.encode())


def cases():
    for path in sorted(TABLES.glob("*.rt")):
        for table in re.findall(r'r#+"(.*?)"#+;', path.read_text(), re.DOTALL):
            for group in table.split("\n\n"):
                request, *lines = [line for line in group.split("\n") if line and not line.startswith("//")] or [""]
                for line in lines:
                    case, mark, told = line.rpartition(" => ")
                    if mark:
                        yield message_of(pasted(request.replace("@", case.removesuffix("|")))), told


def is_told(message, told):
    """Whether the model refuses the message as it is told, or has a call of it where no refusal is told."""
    is_refusal = told == "no such call" or told in MEMBERS or told.startswith("x-amz-")
    try:
        call_of(message)
    except Refused as refused:
        return is_refusal and refused.row()[3].removeprefix("bad parameter: ") == told
    return not is_refusal


def try_tables():
    """How many cases there are, and those of which the model says something else."""
    found = list(cases())
    return len(found), [(message, told) for message, told in found if not is_told(message, told)]
