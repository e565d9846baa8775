"""What clients of a server asked and were told, each call with the moments between which it was done, and what must hold of it.

A module of `tools/serve_many`. Of a call it is known when it was sent and when its answer was there; somewhere between it was done. So one call is before another where its answer
was there before the other was sent, and else nobody knows. Each block that is put is another one, so what is read tells by which call it was put.
"""
import collections
import functools
import json
import math
import random
import re
import typing

from ebs_client import BLOCK_BYTES, Broken, check
from random_calls import INDEXES

ANYTHING = object()
IDENTIFIER = re.compile(r"/((?:snap|vol|rule|policy)-[0-9a-f]{17})(?:[/?]|$)")
ORIGIN = re.compile(r"[?&]firstSnapshotId=([^&]*)")
MADE = {"start": ("snap", "SnapshotId"), "snapshot_volume": ("snap", "SnapshotId"), "create_volume": ("vol", "VolumeId"), "create_rule": ("rule", "Identifier"), "create_policy": ("policy", "PolicyId")}
STATUSES = {"complete": 202, **dict.fromkeys(["start", "put", "write", "create_volume", "snapshot_volume", "create_rule", "create_policy"], 201)}
SHARED_READS = {"describe", "list_blocks", "changed", "get"}
OWNERS_MEMBERS = {"Permission", "LockState", "LockUntil"}

# The refusals of docs/DEFINITIONS.md by their reasons, but for those of a disk that fails, of damage, of want of memory and of a store that is used up.
REFUSALS = {
    "INVALID_SNAPSHOT_ID": (400, "ValidationException"),
    "INVALID_PARAMETER_VALUE": (400, "ValidationException"),
    "INVALID_VOLUME_SIZE": (400, "ValidationException"),
    "INVALID_BLOCK": (400, "ValidationException"),
    "INVALID_BLOCK_TOKEN": (400, "ValidationException"),
    "INVALID_PAGE_TOKEN": (400, "ValidationException"),
    "INVALID_STATE": (409, "ConflictException"),
    "UNRELATED_SNAPSHOTS": (400, "ValidationException"),
    "CHECKSUM_DIFFERS": (400, "ValidationException"),
    "SNAPSHOT_NOT_FOUND": (404, "ResourceNotFoundException"),
    "NOT_FOUND": (404, "ResourceNotFoundException"),
    "UNAUTHORIZED_ACCOUNT": (403, "AccessDeniedException"),
    "TOKEN_CONFLICT": (409, "ConflictException"),
    "OPEN_UPLOADS": (400, "ConcurrentLimitExceededException"),
    "QUOTA": (402, "ServiceQuotaExceededException"),
    "LOCKED": (409, "ConflictException"),
    "RULE_LOCKED": (409, "ConflictException"),
    "UNKNOWN_CALL": (404, "ValidationException"),
}


@functools.lru_cache(64)
def numbered_block(number):
    """The block of this number: 0 has zeros, and any other is known by its first 8 bytes."""
    if number == 0:
        return bytes(BLOCK_BYTES)
    return (number.to_bytes(8, "big") + random.Random(number).randbytes(4088)) * (BLOCK_BYTES // 4096)


def block_number(data):
    number = int.from_bytes(data[:8], "big")
    if data != numbered_block(number):
        raise Broken("bytes were told that are no block which anybody put")
    return number


class Body(typing.NamedTuple):
    """The bytes of a message or an answer, where those of a block are kept as its number."""
    block: typing.Optional[int]
    text: bytes

    @staticmethod
    def of(data):
        return Body(block_number(data), b"") if len(data) == BLOCK_BYTES else Body(None, data)

    def data(self):
        return self.text if self.block is None else numbered_block(self.block)


class Call(typing.NamedTuple):
    kind: str
    account: str
    method: str
    target: str
    fields: dict
    asked: Body
    begin: float
    end: float
    head: bytes
    told: Body

    def status(self):
        return int(self.head.split(b" ", 2)[1])

    def is_accepted(self):
        return self.status() < 400

    def answer(self):
        return json.loads(self.told.text)

    def request(self):
        return json.loads(self.asked.text) if self.asked.text else {}

    def identifier(self):
        """What the path names."""
        found = IDENTIFIER.search(self.target)
        return found and found[1]

    def index(self):
        return int(self.target.split("/blocks/")[1].split("?")[0])

    def __str__(self):
        return f"{self.kind} by {self.account}: {self.method} {self.target[:120]} {self.asked.text[:120]!r} was answered with {self.head[:60]!r} {self.told.block or self.told.text[:200]!r}"


def owner_of(identifier):
    return f"{int(identifier[-17:-7], 16):012}"


def number_in(identifier):
    return int(identifier[-7:], 16)


def require(holds, call, what):
    check(holds, f"{what}: {call}")


def check_answers(history):
    """Each answer is the one that a call of its kind has, or a refusal that is documented."""
    for call in history:
        if call.is_accepted():
            require(call.status() == STATUSES.get(call.kind, 200), call, "another status")
            continue
        answer = call.answer()
        require(answer.keys() == {"Message", "Reason", "Type"}, call, "a refusal has other members")
        require(REFUSALS.get(answer["Reason"]) == (call.status(), answer["Type"]), call, "a refusal that isn't documented")


def makings(history):
    """Each id that was made, once, with its kind and the call that made it. A repeat with a client token makes nothing."""
    by_token = {}
    for call in history:
        if not call.is_accepted():
            continue
        if call.kind == "run_policy":
            for identifier in call.answer()["Made"]:
                yield "snap", identifier, call
        elif call.kind in MADE:
            kind, member = MADE[call.kind]
            identifier, token = call.answer()[member], call.request().get("ClientToken")
            if token is None:
                yield kind, identifier, call
            elif (call.account, token) not in by_token:
                by_token[call.account, token] = identifier
                yield kind, identifier, call
            else:
                require(by_token[call.account, token] == identifier, call, "a repeat with a client token has made something")


def check_ids(history):
    """Ids are of the account that asked, never twice, and without a gap; what was asked for behind an answer has a later one."""
    made = collections.defaultdict(dict)
    for kind, identifier, call in makings(history):
        require(owner_of(identifier) == call.account, call, "an id of another account")
        require(identifier not in made[kind, call.account], call, "an id that was given before")
        made[kind, call.account][identifier] = call
    for (kind, account), calls in made.items():
        numbers = sorted(map(number_in, calls))
        check(numbers == list(range(len(numbers))), f"account {account} has {len(numbers)} ids of {kind}, up to {numbers[-1]}")
        begun = -math.inf
        for identifier in sorted(calls, key=number_in):
            call = calls[identifier]
            if "ClientToken" not in call.request():
                require(call.end > begun, call, "an id below one that was asked for behind its answer")
                begun = max(begun, call.begin)
    return sum(map(len, made.values()))


def told_owners(call):
    """The owners of the rows that a list tells."""
    if call.kind in ("describe_all", "list_bin"):
        return [owner for row in call.answer()["Snapshots"] for owner in (row["OwnerId"], owner_of(row["SnapshotId"]))]
    if call.kind == "list_rules":
        return [owner_of(row["Identifier"]) for row in call.answer()["Rules"]]
    return []


class Sharing:
    """With whom snapshots may have been shared, and when: an account, or `all`."""

    def __init__(self, history):
        self.changes = collections.defaultdict(list)  # by snapshot and account: begin, end, whether it was added
        for call in history:
            if call.kind == "share" and call.is_accepted():
                for member, added in ("Add", True), ("Remove", False):
                    accounts = call.request().get(member, [])
                    for account in [accounts] if accounts == "all" else accounts:
                        self.changes[call.identifier(), account].append((call.begin, call.end, added))

    def may_read(self, account, snapshot, begin, end):
        return owner_of(snapshot) == account or any(self.may_be_on(snapshot, name, begin, end) for name in (account, "all"))

    def may_be_on(self, snapshot, name, begin, end):
        changes = self.changes[snapshot, name]
        return any(added and b < end and not any(not other and e < c and d < begin for c, d, other in changes) for b, e, added in changes)


def first_begins_of(history):
    """When each client token may have been used first: a repeat is answered as that call was, whatever has changed since."""
    begins = {}
    for call in history:
        token = call.request().get("ClientToken")
        if token is not None and call.is_accepted():
            begins[call.account, token] = min(call.begin, begins.get((call.account, token), call.begin))
    return begins


def check_rows(history):
    """Nobody is told of another account's rows, unless they may have been shared then, and nobody changes them."""
    sharing, first_begins = Sharing(history), first_begins_of(history)
    for call in history:
        if not call.is_accepted():
            continue
        begin = first_begins.get((call.account, call.request().get("ClientToken")), call.begin)
        require(set(told_owners(call)) <= {call.account}, call, "a row of another account was told")
        named = call.identifier()
        origins = ORIGIN.findall(call.target) + [value for name, value in call.request().items() if name in ("ParentSnapshotId", "SnapshotId")]
        for snapshot in [named, *origins] if call.kind in SHARED_READS else origins:
            require(sharing.may_read(call.account, snapshot, begin, call.end), call, "a snapshot of another account was read, which wasn't shared")
        if call.kind not in SHARED_READS and named is not None:
            require(owner_of(named) == call.account, call, "a call changed or told what another account has")
        if call.kind == "describe" and owner_of(named) != call.account:
            require(not OWNERS_MEMBERS & call.answer().keys(), call, "a reader was told what is the owner's")


class Blocks:
    """Which blocks may stand where, by the calls that were accepted. None stands for no block."""

    def __init__(self, history):
        self.writes = collections.defaultdict(list)  # by id and index: begin, end, number
        self.origins = {}  # by id: with what it began, and when
        made_by_runs = {}
        for call in history:
            if not call.is_accepted():
                continue
            if call.kind in ("put", "write"):
                self.writes[call.identifier(), call.index()].append((call.begin, call.end, call.asked.block))
            elif call.kind in ("start", "create_volume"):
                name, origin = ("SnapshotId", "ParentSnapshotId") if call.kind == "start" else ("VolumeId", "SnapshotId")
                self.origins[call.answer()[name]] = call.request().get(origin), call.begin, call.end
            elif call.kind == "snapshot_volume":
                self.origins[call.answer()["SnapshotId"]] = call.identifier(), call.begin, call.end
            elif call.kind == "run_policy":
                made_by_runs.update(dict.fromkeys(call.answer()["Made"], call))
            elif call.kind in ("describe_all", "list_bin"):
                for row in call.answer()["Snapshots"]:
                    run = made_by_runs.get(row["SnapshotId"])
                    if run is not None:
                        self.origins[row["SnapshotId"]] = row["VolumeId"], run.begin, run.end
        for snapshot in made_by_runs:
            self.origins.setdefault(snapshot, (ANYTHING, 0, 0))
        self.in_snapshot = functools.lru_cache(None)(self.in_snapshot)

    def in_snapshot(self, snapshot, index):
        """Blocks that a completed snapshot may have at an index: what it was given last, or what it began with."""
        return self.between(snapshot, index, math.inf, math.inf)

    def at(self, identifier, index, begin, end):
        return self.in_snapshot(identifier, index) if identifier.startswith("snap-") else self.between(identifier, index, begin, end)

    def between(self, identifier, index, begin, end):
        """Blocks that may have stood there at a moment between these."""
        writes = self.writes[identifier, index]
        found = {number for b, e, number in writes if b < end and not any(e < c and d < begin for c, d, _ in writes)}
        if not any(e < begin for _, e, _ in writes):
            origin, origin_begin, origin_end = self.origins.get(identifier, (ANYTHING, 0, 0))
            if origin is ANYTHING:
                found.add(ANYTHING)
            else:
                found |= {None} if origin is None else self.at(origin, index, origin_begin, origin_end)
        return found


def check_blocks(history):
    """What is read and listed is what the calls may have left there; a completed snapshot doesn't change. Tells how many blocks were read."""
    blocks, seen, count = Blocks(history), {}, 0
    for call in history:
        if not call.is_accepted():
            continue
        if call.kind in ("get", "read"):
            count += 1
            found = blocks.at(call.identifier(), call.index(), call.begin, call.end)
            require(ANYTHING in found or (call.told.block or None) in found, call, f"another block was read than one of {found}")
            if call.kind == "get":
                place = call.identifier(), call.index()
                require(seen.setdefault(place, call.told.block) == call.told.block, call, f"a completed snapshot has changed, which had {seen[place]}")
        if call.kind == "list_blocks":
            listed = {entry["BlockIndex"] for entry in call.answer()["Blocks"]}
            first = 3 if "startingBlockIndex=3" in call.target else 0
            for index in range(first, INDEXES):
                found = blocks.in_snapshot(call.identifier(), index)
                require(ANYTHING in found or (found - {None} if index in listed else None in found), call, f"index {index} is wrong, where one of {found} is")
    return count


def check_history(history):
    """Raises Broken where anything can't be; else tells what was looked at."""
    check_answers(history)
    made = check_ids(history)
    check_rows(history)
    read = check_blocks(history)
    return f"{made} ids, each once, and {read} blocks that were read"
