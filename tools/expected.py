"""A load of calls, and what of it must be there behind a kill.

A module of `tools/kill_program` and `tools/kill_server`. The load writes blocks of a volume over and over, starts, puts and completes uploads, and deletes snapshots. What was in hand when
the program was killed may be there or not; all else is as it was acknowledged.
"""
import random

from ebs_client import BLOCK_BYTES, Broken, check, sha256

VOLUME_BLOCKS = 16
UPLOAD_BLOCKS = 3
LATEST = 3


def block(seed):
    return random.Random(seed).randbytes(BLOCK_BYTES)


class Expected:
    """What was acknowledged to a client, and what was in hand. Its account has no other client, and its blocks are of seeds above the first one."""

    def __init__(self, source, first_seed=0):
        self.source = source
        self.volume = None
        self.written = {}  # seeds by index
        self.completed = {}  # by snapshot, seeds by index
        self.deleted = set()
        self.upload = None  # [token, snapshot or None, seeds by index]
        self.in_hand = None  # what was asked and isn't answered
        self.seeds = first_seed
        self.acknowledged = 0

    def new_seed(self):
        self.seeds += 1
        return self.seeds

    def do(self, what, call):
        self.in_hand = what
        answer = call()
        self.in_hand = None
        self.acknowledged += 1
        return answer

    def step(self, session):
        """One more call of the load."""
        choice = self.source.random()
        if choice < 0.5:
            self.write(session)
        elif choice < 0.95 or len(self.completed) < 2:
            self.go_on(session)
        else:
            snapshot = self.source.choice(sorted(self.completed))
            self.do(("delete", snapshot), lambda: session.delete(snapshot))
            self.forget(snapshot)

    def write(self, session):
        index, seed = self.source.randrange(VOLUME_BLOCKS), self.new_seed()
        self.do(("write", index, seed), lambda: session.write(self.volume, index, block(seed)))
        self.written[index] = seed

    def go_on(self, session):
        """The next call of an upload. A start is repeated with its token until it is answered."""
        if self.upload is None:
            self.upload = [f"upload-{self.new_seed()}", None, {}]
        token, snapshot, seeds = self.upload
        if snapshot is None:
            self.upload[1] = self.do(("start",), lambda: start(session, token))
        elif len(seeds) < UPLOAD_BLOCKS:
            index, seed = len(seeds) * 7, self.new_seed()
            self.do(("put",), lambda: session.put(snapshot, index, block(seed)))
            seeds[index] = seed
        else:
            digests = {index: sha256(block(seed)) for index, seed in seeds.items()}
            self.do(("complete", snapshot), lambda: session.complete(snapshot, digests))
            self.end_upload()

    def end_upload(self):
        _, snapshot, seeds = self.upload
        self.completed[snapshot] = seeds
        self.upload = None

    def blocks(self):
        """How many blocks there are, but for one that may have been put when the program was killed."""
        uploads = [*self.completed.values(), *([self.upload[2]] if self.upload else [])]
        return sum(seed is not None for seed in self.written.values()) + sum(map(len, uploads))

    def forget(self, snapshot):
        del self.completed[snapshot]
        self.deleted.add(snapshot)

    def look(self, session, everything=False):
        """Whether the store has what was acknowledged, and of what was in hand all or nothing."""
        what, self.in_hand = self.in_hand, None
        for index in range(VOLUME_BLOCKS):
            allowed = [self.written.get(index)]
            if what is not None and what[0] == "write" and what[1] == index:
                allowed.append(what[2])
            self.written[index] = find(session.read(self.volume, index), allowed, f"block {index} of the volume")
        if what is not None and what[0] == "complete" and is_completed(session, what[1]):
            self.end_upload()
        if what is not None and what[0] == "delete" and what[1] not in own_snapshots(session):
            self.forget(what[1])
        there = own_snapshots(session)
        check(self.completed.keys() <= there, "a completed snapshot is gone")
        check(not self.deleted & there, "a deleted snapshot is there")
        for snapshot in sorted(self.completed)[0 if everything else -LATEST:]:
            read_snapshot(session, snapshot, self.completed[snapshot])


def find(data, seeds, name):
    """Which of these blocks it is; None is a block of zeros."""
    for seed in seeds:
        if data == (bytes(BLOCK_BYTES) if seed is None else block(seed)):
            return seed
    raise Broken(f"{name} isn't what was acknowledged")


def start(session, token):
    body = f'{{"VolumeSize":1,"Timeout":4320,"ClientToken":"{token}"}}'
    return session.ask(201, "POST", "/snapshots", body=body.encode()).json()["SnapshotId"]


def own_snapshots(session):
    return {row["SnapshotId"] for page in session.describe_all() for row in page}


def is_completed(session, snapshot):
    return session.describe(snapshot)["Status"] == "completed"


def read_snapshot(session, snapshot, seeds):
    tokens = {entry["BlockIndex"]: entry["BlockToken"] for page in session.list_blocks(snapshot) for entry in page}
    check(tokens.keys() == seeds.keys(), f"{snapshot} has other blocks")
    for index, token in tokens.items():
        find(session.get(snapshot, index, token), [seeds[index]], f"block {index} of {snapshot}")
