"""Calls of all 33 kinds at random, good ones and bad ones, of what was seen in answers.

`RandomCalls(source).next()` is a message and what is to be noted of its answer, which is a head and a body. The same source draws the same calls as long as the same is noted.
`read_answer(stream)` is an answer as it came. A module of `tools/simulate` and `tools/serve_many`.
"""
import json
import typing

from ebs_client import BLOCK_BYTES, checksum_headers, linear_checksum, put_headers, retention, sha256, tag_list, with_query

ACCOUNTS = ["000000000001", "000000000002", "000000000003"]
BLOCKS = [bytes([byte]) * BLOCK_BYTES for byte in range(6)]
DIGESTS = [sha256(block) for block in BLOCKS]
INDEXES = 9
TAGS = [{}, {"team": "db"}, {"team": "web", "keep": ""}]


class Draw(typing.NamedTuple):
    """A call that was drawn: by its kind's name, with what is to be noted where it is accepted."""
    kind: str
    account: str
    method: str
    target: str
    fields: dict
    body: bytes
    note: typing.Optional[typing.Callable]

    def message(self):
        lines = [f"{self.method} {self.target} HTTP/1.1", f"x-ebs-account: {self.account}", *(f"{name}: {value}" for name, value in self.fields.items())]
        lines += [f"Content-Length: {len(self.body)}"] if self.body else []
        return ("\r\n".join(lines) + "\r\n\r\n").encode() + self.body


def read_answer(stream):
    """The head of an answer and its body, or nothing where the stream ends before it."""
    lines = []
    while not lines or lines[-1] != b"\r\n":
        line = stream.readline()
        if not line:
            return None
        lines.append(line)
    size = next(int(line.split(b": ")[1]) for line in lines if line.lower().startswith(b"content-length: "))
    return b"".join(lines), stream.read(size)


class Seen:
    """What was seen in answers. Clients may share it."""

    def __init__(self):
        self.ids = {"snap": [], "vol": [], "rule": [], "policy": []}
        self.puts = {}  # digests by index of each upload
        self.tokens = []


class RandomCalls:
    """Calls at random, of what was seen in answers."""

    def __init__(self, source, seen=None):
        self.source = source
        seen = Seen() if seen is None else seen
        self.ids, self.puts, self.tokens = seen.ids, seen.puts, seen.tokens
        self.unseen = 0  # calls that were made, and whose answers nobody saw
        self.calls = [call for weight, call in self.kinds() for _ in range(weight)]

    def kinds(self):
        return [
            (6, self.start), (12, self.put), (5, self.complete), (3, self.describe), (2, self.describe_all), (3, self.list_blocks), (3, self.changed), (4, self.get),
            (3, self.delete), (2, self.share), (2, self.lock), (1, self.unlock), (1, self.archive), (1, self.restore), (3, self.create_volume), (1, self.describe_volume),
            (1, self.delete_volume), (6, self.write), (3, self.read), (3, self.snapshot_volume), (1, self.create_rule), (1, self.get_rule), (1, self.update_rule),
            (1, self.delete_rule), (1, self.list_rules), (1, self.lock_rule), (1, self.unlock_rule), (1, self.list_bin), (1, self.recover), (1, self.create_policy),
            (1, self.get_policy), (1, self.delete_policy), (1, self.run_policy), (1, self.nonsense),
        ]

    def id(self, kind):
        known = self.ids[kind]
        if not known or self.source.random() < 0.04:
            return {"snap": "snap-00000000010000fff", "vol": "vol-0000000001000ffff", "rule": "00000000010ffffff", "policy": "policy-00000000010000fff"}[kind]
        return self.source.choice(known[-12:])

    def tags(self):
        return tag_list(self.source.choice(TAGS))

    def next(self):
        """A message, and what is to be noted of its answer."""
        draw = self.draw()
        return draw.message(), draw.note

    def draw(self):
        call = self.source.choice(self.calls)
        method, target, fields, body, note = call()
        account = self.source.choices(ACCOUNTS, [8, 2, 1])[0]
        if isinstance(body, dict):
            body = json.dumps({name: value for name, value in body.items() if value is not None}).encode()
        return Draw(call.__name__, account, method, target, fields, body, note)

    def plain(self, method, target, body=b"", note=None):
        return method, target, {}, body, note

    def noted(self, kind, name):
        return lambda answer: self.ids[kind].append(json.loads(answer[1])[name])

    def start(self):
        parent = self.id("snap") if self.source.random() < 0.6 else None
        token = self.source.choice([None, None, None, "again", "once more"])
        body = {"VolumeSize": self.source.choice([1, 1, 1, 2, 0]), "ParentSnapshotId": parent, "Tags": self.tags(), "ClientToken": token, "Timeout": self.source.choice([None, 10, 60])}
        return self.plain("POST", "/snapshots", body, self.noted("snap", "SnapshotId"))

    def block(self):
        """A block's digest and its bytes, with the fields of a put, which state another one's digest now and then."""
        number = self.source.randrange(len(BLOCKS))
        stated = number if self.source.random() < 0.97 else (number + 1) % len(BLOCKS)
        return DIGESTS[number], put_headers(DIGESTS[stated]), BLOCKS[number]

    def put(self):
        snapshot, index, (digest, fields, block) = self.id("snap"), self.source.randrange(INDEXES), self.block()
        return "PUT", f"/snapshots/{snapshot}/blocks/{index}", fields, block, lambda answer: self.puts.setdefault(snapshot, {}).update({index: digest})

    def complete(self):
        snapshot = self.id("snap")
        digests = self.puts.get(snapshot, {})
        fields = {"x-amz-ChangedBlocksCount": len(digests) + (self.source.random() < 0.1)}
        if self.source.random() < 0.5:
            fields |= {**checksum_headers(linear_checksum(digests)), "x-amz-Checksum-Aggregation-Method": "LINEAR"}
        return "POST", f"/snapshots/completion/{snapshot}", fields, b"", None

    def describe(self):
        return self.plain("GET", f"/snapshots/{self.id('snap')}")

    def describe_all(self):
        return self.plain("GET", with_query("/snapshots", max=self.source.choice([None, 2])))

    def list_bin(self):
        return self.plain("GET", "/recycle-bin")

    def listed(self, snapshot, name):
        def note(answer):
            for entry in json.loads(answer[1]).get(name, []):
                self.tokens.append((snapshot, entry["BlockIndex"], entry.get("BlockToken") or entry.get("SecondBlockToken") or entry["FirstBlockToken"]))
        return note

    def list_blocks(self):
        snapshot = self.id("snap")
        target = with_query(f"/snapshots/{snapshot}/blocks", maxResults=self.source.choice([None, 100]), startingBlockIndex=self.source.choice([None, 3]))
        return self.plain("GET", target, note=self.listed(snapshot, "Blocks"))

    def changed(self):
        second = self.id("snap")
        target = with_query(f"/snapshots/{second}/changedblocks", firstSnapshotId=self.source.choice([None, self.id("snap")]))
        return self.plain("GET", target, note=self.listed(second, "ChangedBlocks"))

    def get(self):
        snapshot, index, token = self.source.choice(self.tokens[-40:]) if self.tokens else (self.id("snap"), 0, "x")
        return self.plain("GET", with_query(f"/snapshots/{snapshot}/blocks/{index}", blockToken=token))

    def delete(self):
        return self.plain("DELETE", f"/snapshots/{self.id('snap')}")

    def share(self):
        body = self.source.choice([{"Add": [ACCOUNTS[1]]}, {"Remove": [ACCOUNTS[1]]}, {"Add": "all"}, {"Remove": "all"}, {"Add": ["x"]}])
        return self.plain("PATCH", f"/snapshots/{self.id('snap')}/permission", body)

    def lock(self):
        body = {"LockMode": self.source.choice(["governance", "compliance", "x"]), "LockDuration": self.source.choice([1, 2, 30]), "CoolOffPeriod": self.source.choice([None, 1, 3])}
        return self.plain("PUT", f"/snapshots/{self.id('snap')}/lock", body)

    def unlock(self):
        return self.plain("DELETE", f"/snapshots/{self.id('snap')}/lock")

    def archive(self):
        return self.plain("PUT", f"/snapshots/{self.id('snap')}/tier", {"StorageTier": "archive"})

    def restore(self):
        body = self.source.choice([{"PermanentRestore": True}, {"TemporaryRestoreDays": 1}, {}])
        return self.plain("POST", f"/snapshots/{self.id('snap')}/restore-tier", body)

    def create_volume(self):
        snapshot = self.id("snap") if self.source.random() < 0.5 else None
        body = {"Size": None if snapshot else 1, "SnapshotId": snapshot, "ClientToken": self.source.choice([None, None, "again"]), "Tags": self.tags()}
        return self.plain("POST", "/volumes", body, self.noted("vol", "VolumeId"))

    def describe_volume(self):
        return self.plain("GET", f"/volumes/{self.id('vol')}")

    def delete_volume(self):
        return self.plain("DELETE", f"/volumes/{self.id('vol')}")

    def write(self):
        _, fields, block = self.block()
        return "PUT", f"/volumes/{self.id('vol')}/blocks/{self.source.randrange(INDEXES)}", fields, block, None

    def read(self):
        return self.plain("GET", f"/volumes/{self.id('vol')}/blocks/{self.source.randrange(INDEXES)}")

    def snapshot_volume(self):
        return self.plain("POST", f"/volumes/{self.id('vol')}/snapshots", {"Description": self.source.choice([None, "nightly"])}, self.noted("snap", "SnapshotId"))

    def create_rule(self):
        body = {"RetentionPeriod": retention(self.source.choice([1, 7, 0])), "ResourceType": "EBS_SNAPSHOT"}
        return self.plain("POST", "/rules", body, self.noted("rule", "Identifier"))

    def get_rule(self):
        return self.plain("GET", f"/rules/{self.id('rule')}")

    def list_rules(self):
        return self.plain("POST", "/list-rules")

    def update_rule(self):
        return self.plain("PATCH", f"/rules/{self.id('rule')}", {"RetentionPeriod": retention(2)})

    def delete_rule(self):
        return self.plain("DELETE", f"/rules/{self.id('rule')}")

    def lock_rule(self):
        return self.plain("PATCH", f"/rules/{self.id('rule')}/lock", {"LockConfiguration": {"UnlockDelay": {"UnlockDelayValue": 7, "UnlockDelayUnit": "DAYS"}}})

    def unlock_rule(self):
        return self.plain("PATCH", f"/rules/{self.id('rule')}/unlock")

    def recover(self):
        return self.plain("POST", f"/recycle-bin/{self.id('snap')}")

    def create_policy(self):
        body = {"TargetTags": tag_list({"team": "db"}), "Schedule": {"Interval": 24, "IntervalUnit": "HOURS", "Times": ["09:00"]}, "RetainRule": {"Count": 2}}
        return self.plain("POST", "/policies", body, self.noted("policy", "PolicyId"))

    def get_policy(self):
        return self.plain("GET", f"/policies/{self.id('policy')}")

    def delete_policy(self):
        return self.plain("DELETE", f"/policies/{self.id('policy')}")

    def run_policy(self):
        return self.plain("POST", f"/policies/{self.id('policy')}/run", note=lambda answer: self.ids["snap"].extend(json.loads(answer[1])["Made"]))

    def nonsense(self):
        return self.plain(self.source.choice(["GET", "PUT", "BREW"]), self.source.choice(["/", "/snapshots/x", "/volumes//blocks/1", "/%zz"]))

    def made(self, kind, account):
        """The ids of this kind that an account may have made, and the next one."""
        front = f"{kind}-{int(account):010x}"
        numbers = [int(known.removeprefix(front), 16) for known in self.ids[kind] if known.startswith(front)]
        return [f"{front}{number:07x}" for number in range(max(numbers, default=-1) + 2 + self.unseen)]

    def probes(self, near=None, most=8):
        """Messages whose answers tell what the store has, but for blocks of uploads and volumes. Where messages are given that may have been made, of what isn't listed in a row by its account the
        probes take what these name, what may be made next and `most` of each kind at random; else all."""
        named = b" ".join(near or [])
        for account in ACCOUNTS:
            targets = [("GET", "/snapshots"), ("GET", "/recycle-bin"), ("POST", "/list-rules")]
            for kind, form in (("vol", "/volumes/{}"), ("policy", "/policies/{}"), ("snap", "/snapshots/{}/blocks")):
                made = self.made(kind, account)
                if near is not None:
                    latest = 1 + self.unseen
                    some = set(self.source.sample(made, min(most, len(made))))
                    made = [known for place, known in enumerate(made) if known in some or place >= len(made) - latest or known.encode() in named]
                targets += [("GET", form.format(known)) for known in made]
            for method, target in targets:
                yield read_message(method, target, account)


def read_message(method, target, account):
    return f"{method} {target} HTTP/1.1\r\nx-ebs-account: {account}\r\n\r\n".encode()
