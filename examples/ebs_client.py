"""A client of one `ebs session`, or of a connection to `ebsd`: each call writes a request and reads its answer.

    with Session("crates/ebs/out/ebs") as session:
        snapshot = session.start(gibibytes=1)
        digest = session.put(snapshot, 0, block)
        session.complete(snapshot, {0: digest})
        for page in session.list_blocks(snapshot):
            for entry in page:
                block = session.get(snapshot, entry["BlockIndex"], entry["BlockToken"])

A refused call raises Refused. An answer that is neither a refusal nor what the call asked for raises Broken.

Calls are made as the session's account; `with session.acting_as(account):` makes those inside as another one.
A session keeps its store in a new folder that goes with it, or in the folder that is given, where a later session finds it again.
`with Connection(port) as connection:` has the same calls, of an `ebsd` that serves this port (`ebsd_server.py` starts one).
`crates/replay/out/replay` is the same program by a clock of its own: its words are the readings, one for each call.
"""
import base64
import contextlib
import dataclasses
import hashlib
import json
import pathlib
import socket
import subprocess
import tempfile
import urllib.parse

BLOCK_BYTES = 524288
ACCOUNT = "000000000001"


@dataclasses.dataclass
class Answer:
    status: int
    headers: dict  # the names in lower case
    body: bytes

    def json(self):
        if self.headers.get("content-type") != "application/json":
            raise Broken(f"status {self.status} without JSON")
        return json.loads(self.body)


class Refused(Exception):
    """The call was answered with an error."""

    def __init__(self, answer):
        fields = answer.json()
        self.status = answer.status
        self.reason = fields["Reason"]
        super().__init__(f"{answer.status} {fields['Type']} {fields['Reason']}: {fields['Message']}")


class Broken(Exception):
    """The program ended, or answered something else than what was asked."""


class Ended(Broken):
    """The program ended, or closed the connection, before the end of an answer."""


def base64_text(data):
    return base64.b64encode(data).decode()


def sha256(data):
    return hashlib.sha256(data).digest()


def linear_checksum(digests):
    """The SHA-256 of the blocks' digests, joined in ascending index. `digests` is a dict by index."""
    return sha256(b"".join(digests[index] for index in sorted(digests)))


def checksum_headers(digest):
    return {"x-amz-Checksum": base64_text(digest), "x-amz-Checksum-Algorithm": "SHA256"}


def put_headers(digest):
    return {"x-amz-Data-Length": BLOCK_BYTES, **checksum_headers(digest)}


def with_query(path, **members):
    """The path with a query of those members that aren't None."""
    query = urllib.parse.urlencode({name: value for name, value in members.items() if value is not None})
    return f"{path}?{query}" if query else path


def retention(days):
    return {"RetentionPeriodValue": days, "RetentionPeriodUnit": "DAYS"}


def resource_tag(key, value):
    return {"ResourceTagKey": key} if value is None else {"ResourceTagKey": key, "ResourceTagValue": value}


def tag_list(tags):
    return [{"Key": key, "Value": value} for key, value in tags.items()]


def lock_configuration(days):
    return {"UnlockDelay": {"UnlockDelayValue": days, "UnlockDelayUnit": "DAYS"}}


def check(holds, what):
    if not holds:
        raise Broken(what)


def refusal(call, *arguments):
    """The reason for which the call is refused."""
    try:
        call(*arguments)
    except Refused as refused:
        return refused.reason
    raise Broken("a call was answered that has to be refused")


def check_digest(answer, digest):
    wanted = {name.lower(): value for name, value in checksum_headers(digest).items()}
    check(wanted.items() <= answer.headers.items(), "another checksum was answered")


class Calls:
    """The calls of an account, over a stream of requests and one of answers."""

    def __init__(self, account, requests, answers):
        self.account, self.requests, self.answers = account, requests, answers

    @contextlib.contextmanager
    def acting_as(self, account):
        """The calls inside are another account's: twelve digits."""
        own, self.account = self.account, account
        try:
            yield
        finally:
            self.account = own

    def start(self, gibibytes, parent=None, tags=None):
        """Starts a snapshot, with the blocks of its parent if it has one, and returns its id."""
        fields = {"VolumeSize": gibibytes}
        if tags is not None:
            fields["Tags"] = tag_list(tags)
        if parent is not None:
            fields["ParentSnapshotId"] = parent
        answer = self.ask(201, "POST", "/snapshots", body=json.dumps(fields).encode()).json()
        check(answer["Status"] == "pending", "the snapshot isn't pending")
        check(answer["BlockSize"] == BLOCK_BYTES, "another block size")
        check(answer.get("ParentSnapshotId") == parent, "another parent")
        return answer["SnapshotId"]

    def put(self, snapshot, index, block):
        """Writes a block, and returns its digest, which the program has compared with the bytes."""
        digest = sha256(block)
        answer = self.ask(201, "PUT", f"/snapshots/{snapshot}/blocks/{index}", put_headers(digest), block)
        check_digest(answer, digest)
        return digest

    def complete(self, snapshot, digests):
        """Completes a snapshot, of which these blocks were put: their digests by index."""
        headers = {
            "x-amz-ChangedBlocksCount": len(digests),
            **checksum_headers(linear_checksum(digests)),
            "x-amz-Checksum-Aggregation-Method": "LINEAR",
        }
        answer = self.ask(202, "POST", f"/snapshots/completion/{snapshot}", headers).json()
        check(answer == {"Status": "completed"}, "the snapshot isn't completed")

    def get(self, snapshot, index, token):
        """Reads a block by the token of a list."""
        return self.block(with_query(f"/snapshots/{snapshot}/blocks/{index}", blockToken=token))

    def block(self, target):
        answer = self.ask(200, "GET", target)
        check(len(answer.body) == BLOCK_BYTES, "another length was answered")
        check_digest(answer, sha256(answer.body))
        return answer.body

    def describe(self, snapshot):
        """The row of a snapshot, as the account sees it."""
        return self.ask(200, "GET", f"/snapshots/{snapshot}").json()

    def describe_all(self, page_size=None):
        """The rows of the account's own snapshots, page by page."""
        return self.rows("/snapshots", page_size)

    def list_bin(self, page_size=None):
        """The rows of the account's own snapshots in the Recycle Bin, page by page."""
        return self.rows("/recycle-bin", page_size)

    def rows(self, path, page_size):
        number = None
        while True:
            page = self.ask(200, "GET", with_query(path, **{"from": number, "max": page_size})).json()
            yield page["Snapshots"]
            number = page.get("NextNumber")
            if number is None:
                return

    def share(self, snapshot, add=None, remove=None):
        """Shares a snapshot with accounts and takes it back from others: lists of accounts, or "all"."""
        members = {name: value for name, value in (("Add", add), ("Remove", remove)) if value is not None}
        answer = self.ask(200, "PATCH", f"/snapshots/{snapshot}/permission", body=json.dumps(members).encode()).json()
        check(answer == {}, "a change of permissions answers more than it should")

    def delete(self, snapshot):
        answer = self.ask(200, "DELETE", f"/snapshots/{snapshot}").json()
        check(answer == {}, "a deletion answers more than it should")

    def lock(self, snapshot, mode, days, cool_off_hours=None):
        """Locks a snapshot for some days, and returns its lock: LockState and LockUntil."""
        fields = {"LockMode": mode, "LockDuration": days, "CoolOffPeriod": cool_off_hours}
        return self.ask(200, "PUT", f"/snapshots/{snapshot}/lock", body=json.dumps(fields).encode()).json()

    def unlock(self, snapshot):
        answer = self.ask(200, "DELETE", f"/snapshots/{snapshot}/lock").json()
        check(answer == {}, "the end of a lock answers more than it should")

    def archive(self, snapshot):
        answer = self.ask(200, "PUT", f"/snapshots/{snapshot}/tier", body=b'{"StorageTier":"archive"}').json()
        check(answer == {}, "an archive answers more than it should")

    def restore(self, snapshot, days=None):
        """Brings a snapshot back from the archive, for some days or for good, and returns its tier."""
        fields = {"PermanentRestore": True} if days is None else {"TemporaryRestoreDays": days}
        return self.ask(200, "POST", f"/snapshots/{snapshot}/restore-tier", body=json.dumps(fields).encode()).json()

    def create_rule(self, days, tags=None, unlock_delay=None):
        """Creates a rule of the Recycle Bin and returns its row. `tags` maps keys to values, or to None for any value."""
        fields = {"RetentionPeriod": retention(days), "ResourceType": "EBS_SNAPSHOT"}
        if tags is not None:
            fields["ResourceTags"] = [resource_tag(key, value) for key, value in tags.items()]
        if unlock_delay is not None:
            fields["LockConfiguration"] = lock_configuration(unlock_delay)
        return self.ask(201, "POST", "/rules", body=json.dumps(fields).encode()).json()

    def get_rule(self, rule):
        return self.ask(200, "GET", f"/rules/{rule}").json()

    def list_rules(self):
        return self.ask(200, "POST", "/list-rules").json()["Rules"]

    def update_rule(self, rule, days):
        """Changes how long deleted snapshots are kept from now on, and returns the rule."""
        fields = {"RetentionPeriod": retention(days)}
        return self.ask(200, "PATCH", f"/rules/{rule}", body=json.dumps(fields).encode()).json()

    def delete_rule(self, rule):
        answer = self.ask(200, "DELETE", f"/rules/{rule}").json()
        check(answer == {}, "a deletion answers more than it should")

    def lock_rule(self, rule, unlock_delay):
        """Locks a rule: its unlock takes so many days."""
        fields = {"LockConfiguration": lock_configuration(unlock_delay)}
        return self.ask(200, "PATCH", f"/rules/{rule}/lock", body=json.dumps(fields).encode()).json()

    def unlock_rule(self, rule):
        return self.ask(200, "PATCH", f"/rules/{rule}/unlock").json()

    def recover(self, snapshot):
        """Takes a snapshot out of the Recycle Bin, and returns its row."""
        return self.ask(200, "POST", f"/recycle-bin/{snapshot}").json()

    def create_policy(self, targets, hours, time, retain, add=None):
        """Creates a lifecycle policy and returns its id. `retain` is a dict of Count, or of Interval and IntervalUnit."""
        fields = {
            "TargetTags": tag_list(targets),
            "Schedule": {"Interval": hours, "IntervalUnit": "HOURS", "Times": [time]},
            "RetainRule": retain,
        }
        if add is not None:
            fields["TagsToAdd"] = tag_list(add)
        return self.ask(201, "POST", "/policies", body=json.dumps(fields).encode()).json()["PolicyId"]

    def get_policy(self, policy):
        """The policy's id and its last run, in seconds since 1970."""
        return self.ask(200, "GET", f"/policies/{policy}").json()

    def run_policy(self, policy):
        """Runs a policy, and returns the snapshots that it made, and those that it deleted."""
        ran = self.ask(200, "POST", f"/policies/{policy}/run").json()
        return ran["Made"], ran["Deleted"]

    def delete_policy(self, policy):
        answer = self.ask(200, "DELETE", f"/policies/{policy}").json()
        check(answer == {}, "a deletion answers more than it should")

    def create_volume(self, gibibytes=None, snapshot=None, token=None, tags=None):
        """Creates a volume, empty or of a snapshot, and returns its id. A repeat with the token creates nothing more."""
        members = {"Size": gibibytes, "SnapshotId": snapshot, "ClientToken": token, "Tags": None if tags is None else tag_list(tags)}
        fields = {name: value for name, value in members.items() if value is not None}
        answer = self.ask(201, "POST", "/volumes", body=json.dumps(fields).encode()).json()
        check(answer.get("SnapshotId") == snapshot, "another origin")
        return answer["VolumeId"]

    def describe_volume(self, volume):
        return self.ask(200, "GET", f"/volumes/{volume}").json()

    def delete_volume(self, volume):
        answer = self.ask(200, "DELETE", f"/volumes/{volume}").json()
        check(answer == {}, "a deletion answers more than it should")

    def write(self, volume, index, block):
        """Writes a block of a volume, and returns its digest, which the program has compared with the bytes."""
        digest = sha256(block)
        answer = self.ask(201, "PUT", f"/volumes/{volume}/blocks/{index}", put_headers(digest), block)
        check_digest(answer, digest)
        return digest

    def read(self, volume, index):
        """Reads a block of a volume: zeros where none was written."""
        return self.block(f"/volumes/{volume}/blocks/{index}")

    def snapshot_volume(self, volume, description=None):
        """Makes a snapshot of a volume as it is now, and returns its row."""
        fields = {} if description is None else {"Description": description}
        row = self.ask(201, "POST", f"/volumes/{volume}/snapshots", body=json.dumps(fields).encode()).json()
        check(row["Status"] == "completed", "the snapshot isn't completed")
        check(row["VolumeId"] == volume, "another volume")
        return row

    def list_blocks(self, snapshot, page_size=None, start=None):
        """The pages of the list of a snapshot's blocks, each a list of BlockIndex and BlockToken."""
        return self.pages("Blocks", f"/snapshots/{snapshot}/blocks", page_size, start)

    def list_changed(self, first, second, page_size=None, start=None):
        """The pages of the list of what changed, each a list of BlockIndex, FirstBlockToken and SecondBlockToken.

        A token is left out where its snapshot has no block.
        """
        path = f"/snapshots/{second}/changedblocks"
        return self.pages("ChangedBlocks", path, page_size, start, firstSnapshotId=first)

    def pages(self, name, path, page_size, start, **members):
        token = None
        while True:
            target = with_query(path, **members, maxResults=page_size, startingBlockIndex=start, pageToken=token)
            page = self.ask(200, "GET", target).json()
            yield page[name]
            token = page.get("NextToken")
            if token is None:
                return

    def ask(self, wanted, method, target, headers=None, body=b""):
        """The answer to a request, which must have the wanted status."""
        answer = self.call(method, target, headers, body)
        if answer.status >= 400:
            raise Refused(answer)
        check(answer.status == wanted, f"status {answer.status} in place of {wanted}")
        return answer

    def call(self, method, target, headers=None, body=b""):
        """The answer to a request, whatever it is."""
        self.send(method, target, headers, body)
        return self.read_answer()

    def send(self, method, target, headers=None, body=b""):
        """Asks without waiting. `read_answer` gives the answers in the order in which they were asked for."""
        lines = [f"{method} {target} HTTP/1.1", "Host: ebs", f"x-ebs-account: {self.account}"]
        lines += [f"{name}: {value}" for name, value in (headers or {}).items()]
        lines += [f"Content-Length: {len(body)}", "", ""]
        self.requests.write("\r\n".join(lines).encode())
        self.requests.write(body)
        self.requests.flush()

    def read_answer(self):
        status = self.read_line().split(b" ", 2)
        headers = {}
        while (line := self.read_line()):
            name, _, value = line.decode().partition(": ")
            headers[name.lower()] = value
        size = int(headers["content-length"])
        body = self.answers.read(size)
        if len(body) < size:
            raise Ended("the program ended inside an answer")
        return Answer(int(status[1]), headers, body)

    def read_line(self):
        line = self.answers.readline()
        if not line.endswith(b"\n"):
            raise Ended("the program answers nothing more")
        return line.rstrip(b"\r\n")


class Session(Calls):
    def __init__(self, program, account=ACCOUNT, words=("session",), folder=None):
        self.own_folder = tempfile.TemporaryDirectory() if folder is None else None
        self.process = subprocess.Popen(
            [pathlib.Path(program).resolve(), *words],
            stdin=subprocess.PIPE,
            stdout=subprocess.PIPE,
            cwd=self.own_folder.name if folder is None else folder,
        )
        super().__init__(account, self.process.stdin, self.process.stdout)

    def __enter__(self):
        return self

    def __exit__(self, kind, value, trace):
        try:
            if kind is None:
                self.close()
            else:
                self.process.kill()
                self.process.wait()
        finally:
            if self.own_folder is not None:
                self.own_folder.cleanup()

    def close(self):
        """Ends the input. The program must then end with status 0 and have written nothing more."""
        self.process.stdin.close()
        more = self.process.stdout.read()
        status = self.process.wait()
        check(status == 0 and not more, f"the session ended with status {status}")


class Connection(Calls):
    """A connection to an `ebsd` of this machine, which stays open until it is closed. No answer is waited for longer than the timeout, in seconds."""

    def __init__(self, port, account=ACCOUNT, timeout=60):
        self.socket = socket.create_connection(("127.0.0.1", port), timeout)
        self.socket.setsockopt(socket.IPPROTO_TCP, socket.TCP_NODELAY, 1)
        super().__init__(account, self.socket.makefile("wb"), self.socket.makefile("rb"))

    def __enter__(self):
        return self

    def __exit__(self, kind, value, trace):
        self.close()

    def close(self):
        for stream in (self.requests, self.answers, self.socket):
            with contextlib.suppress(OSError):
                stream.close()
