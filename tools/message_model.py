"""What docs/DEFINITIONS.md says of bytes that come in: which messages stand in them, which call each makes, and how it is refused.

A module of `tools/broken_messages`. It is written after the definitions ('Messages', 'From a message to a call', 'Tokens and lists') and shares nothing with the program:
JSON, Base64, UTF-8 and SHA-256 are Python's. `frame` takes a message off a stream, `call_of` reads its call or raises Refused.
"""
import base64
import binascii
import hashlib
import json
import re
import typing

BLOCK_BYTES = 524288
MOST_HEAD, MOST_FIELDS, MOST_BODY = 65536, 64, 4194304
TOKEN = rb"[!#$%&'*+\-.^_`|~0-9A-Za-z]+"
TARGET = rb"[\x21-\x7e\x80-\xff]+"
FIELD = rb"(" + TOKEN + rb"):([\t\x20-\x7e\x80-\xff]*)\r?\n"
HEAD = re.compile(rb"(?:\r?\n)*(" + TOKEN + rb") (" + TARGET + rb") HTTP/1\.[01]\r?\n((?:" + FIELD + rb")*)\r?\n")
FIELDS = re.compile(FIELD)
DECIMAL = re.compile(rb"[0-9]{1,10}\Z")

# What a head may be up to its end, piece by piece: each front of it goes on so.
FRONT = re.compile(rb"(?:\r?\n)*(?:\r?\Z|(?:" + TOKEN + rb"(?:\Z| (?P<target>" + TARGET + rb")?(?:\Z| (?:H?\Z|HT\Z|HTT\Z|HTTP\Z|HTTP/\Z|HTTP/1\Z|HTTP/1\.\Z|HTTP/1\.[01](?:\Z|\r\Z|\r?\n(?:" + FIELD
                   + rb")*(?:\Z|\r\Z|" + TOKEN + rb"\Z|" + TOKEN + rb":[\t\x20-\x7e\x80-\xff]*\r?\Z)))))))")


class Message(typing.NamedTuple):
    method: bytes
    target: bytes
    fields: list  # of name in lower case and value
    body: bytes


class Refused(Exception):
    """A refusal: its status, type, reason and message."""

    def row(self):
        return self.args


def bad_parameter(name):
    is_snapshot = name in ("snapshotId", "firstSnapshotId", "secondSnapshotId", "ParentSnapshotId", "SnapshotId")
    return Refused(400, "ValidationException", "INVALID_SNAPSHOT_ID" if is_snapshot else "INVALID_PARAMETER_VALUE", f"bad parameter: {name}")


NO_SUCH_CALL = (404, "ValidationException", "UNKNOWN_CALL", "no such call")
PHRASES = {200: "OK", 201: "Created", 202: "Accepted", 400: "Bad Request", 402: "Payment Required", 403: "Forbidden", 404: "Not Found", 409: "Conflict"}


def refusal_text(row):
    status, kind, reason, message = row
    body = json.dumps({"Message": message, "Reason": reason, "Type": kind}, separators=(",", ":")).encode()
    return f"HTTP/1.1 {status} {PHRASES[status]}\r\nContent-Type: application/json\r\nContent-Length: {len(body)}\r\n\r\n".encode() + body


# Framing

WAITS, LOST, BAD = "waits", "lost", "bad"  # more may make a message; nothing can, but it ends inside the target; none begins here


def is_utf8(text):
    try:
        text.decode()
    except UnicodeDecodeError:
        return False
    return True


def may_become_utf8(text):
    """Whether some bytes behind it make it UTF-8."""
    try:
        text.decode()
    except UnicodeDecodeError as error:
        if error.reason != "unexpected end of data":
            return False
    return True


def frame(stream, begin):
    """The message that begins there with the place behind it, or what else stands there."""
    head = HEAD.match(stream, begin)
    if head is None:
        return None, unfinished(bytes(stream[begin:]))
    fields = [(name.lower(), value.strip(b" \t")) for name, value in FIELDS.findall(head[3])]
    if head.end() - begin > MOST_HEAD or len(fields) > MOST_FIELDS or not is_utf8(head[2]):
        return None, BAD
    size = body_size(fields)
    if size is None or size > MOST_BODY:
        return None, BAD
    end = head.end() + size
    if end > len(stream):
        return None, WAITS
    return Message(head[1], head[2], fields, bytes(stream[head.end():end])), end


def unfinished(rest):
    front = FRONT.match(rest)
    if front is None or len(rest) >= MOST_HEAD:
        return BAD
    target = front["target"]
    if target is None:
        return WAITS
    if front.end("target") < len(rest):
        return WAITS if is_utf8(target) else BAD
    return WAITS if may_become_utf8(target) else LOST


def body_size(fields):
    names = [name for name, _ in fields]
    if b"transfer-encoding" in names:
        return None
    stated = [value for name, value in fields if name == b"content-length"]
    if not stated:
        return 0
    if any(value != stated[0] for value in stated) or not DECIMAL.match(stated[0]):
        return None
    return int(stated[0])


# Members

SNAPSHOT, VOLUME, RULE, POLICY = b"snap-", b"vol-", b"rule-", b"policy-"
MOST_GIB = 16384
HEX = re.compile(rb"[0-9a-f]{17}\Z")
ACCOUNT = re.compile(rb"[0-9]{12}\Z")
VISIBLE = re.compile(rb"[\x21-\x7e]{1,255}\Z")


def key_of(front, text):
    if text is None or not text.startswith(front) or not HEX.match(text[len(front):]):
        return None
    digits = text[len(front):]
    account = int(digits[:10], 16)
    return (front.decode()[:-1], account, int(digits[10:], 16)) if account < 10**12 else None


def number_of(text):
    return int(text) if text is not None and DECIMAL.match(text) else None


def account_of(text):
    return int(text) if text is not None and ACCOUNT.match(text) else None


def digest_of(text):
    if text is None:
        return None
    try:
        digest = base64.b64decode(text, validate=True)
    except (binascii.Error, ValueError):
        return None
    return digest if len(digest) == 32 and base64.b64encode(digest) == text else None


class NotJson(Exception):
    pass


def finite(text):
    value = float(text)
    if value in (float("inf"), float("-inf")):
        raise NotJson
    return value


def whole(text):
    if not text.startswith("-") and len(text) <= 20 and int(text) < 2**64:
        return int(text)
    return finite(text)


def no_constant(text):
    raise NotJson


STRINGS = re.compile(r'"(?:[^"\\]|\\.)*"')
ESCAPES = re.compile(r"\\(?:u([0-9a-fA-F]{4})|.)")
MOST_DEPTH = 127


def depth_of(text):
    """How deep arrays and objects of a text in JSON are nested."""
    depth = deepest = 0
    for letter in re.findall(r"[\[\]{}]", STRINGS.sub("", text)):
        depth += 1 if letter in "[{" else -1
        deepest = max(deepest, depth)
    return deepest


def has_half_pair(text):
    """Whether a text in JSON escapes a half of a surrogate pair alone."""
    waiting = None
    for escape in ESCAPES.finditer(text):
        code = int(escape[1], 16) if escape[1] else 0
        is_second = 0xDC00 <= code < 0xE000
        if is_second != (waiting is not None and waiting == escape.start()):
            return True
        if waiting is not None and not is_second:
            return True
        waiting = escape.end() if 0xD800 <= code < 0xDC00 else None
    return waiting is not None


def read_body(body):
    """The object that a body is, or None."""
    try:
        text = body.decode()
        data = json.loads(text, parse_float=finite, parse_int=whole, parse_constant=no_constant)
    except (UnicodeDecodeError, ValueError, NotJson):
        return None
    if not isinstance(data, dict) or ("\\u" in text and has_half_pair(text)) or (text.count("[") + text.count("{") > MOST_DEPTH and depth_of(text) > MOST_DEPTH):
        return None
    return data


def is_whole(data):
    return isinstance(data, int) and not isinstance(data, bool)


def text_in(data):
    return data.encode() if isinstance(data, str) else None


def are_distinct(keys):
    return len(set(keys)) == len(keys)


def tags(data, least=0):
    if not isinstance(data, list):
        return None
    read = [(text_in(tag.get("Key")), text_in(tag.get("Value"))) if isinstance(tag, dict) else (None, None) for tag in data]
    if any(key is None or value is None or not 1 <= len(key) <= 128 or len(value) > 256 for key, value in read):
        return None
    return read if least <= len(read) <= 50 and are_distinct([key for key, _ in read]) else None


def rule_tag(tag):
    if not isinstance(tag, dict):
        return None
    key, value = text_in(tag.get("ResourceTagKey")), tag.get("ResourceTagValue")
    if key is None or not 1 <= len(key) <= 128:
        return None
    if value is not None and (text_in(value) is None or len(text_in(value)) > 256):
        return None
    return key


def rule_tags(data):
    if not isinstance(data, list):
        return None
    keys = [rule_tag(tag) for tag in data]
    return keys if None not in keys and len(keys) <= 50 and are_distinct(keys) else None


def description(data):
    text = text_in(data)
    return text if text is not None and len(text) <= 255 else None


def client_token(data):
    text = text_in(data)
    return text if text is not None and VISIBLE.match(text) else None


def within(low, high):
    return lambda data: data if is_whole(data) and low <= data <= high else None


def number(data):
    return data if is_whole(data) else None


def only_false(data):
    return True if data is False else None


def absent(data):
    return None


def exactly(text):
    return lambda data: True if data == text and isinstance(data, str) else None


def boolean(data):
    return data if isinstance(data, bool) else None


def accounts(data):
    if data == "all" and isinstance(data, str):
        return "all"
    if not isinstance(data, list) or len(data) > 1000:
        return None
    read = [account_of(text_in(one)) for one in data]
    return None if None in read else set(read)


def period(value, unit, low, high):
    def read(data):
        if not isinstance(data, dict) or data.get(unit) != "DAYS":
            return None
        return within(low, high)(data.get(value))
    return read


RETENTION = period("RetentionPeriodValue", "RetentionPeriodUnit", 1, 365)
DELAY = period("UnlockDelayValue", "UnlockDelayUnit", 7, 30)


def lock_configuration(data):
    return DELAY(data.get("UnlockDelay")) if isinstance(data, dict) else None


TIME = re.compile(r"([0-9]{2}):([0-9]{2})\Z")


def schedule(data):
    if not isinstance(data, dict) or data.get("IntervalUnit") != "HOURS" or not is_whole(data.get("Interval")) or data["Interval"] not in (1, 2, 3, 4, 6, 8, 12, 24):
        return None
    times = data.get("Times")
    if not isinstance(times, list) or len(times) != 1 or not isinstance(times[0], str):
        return None
    time = TIME.match(times[0])
    return True if time and int(time[1]) < 24 and int(time[2]) < 60 else None


UNITS = {"DAYS": 36500, "WEEKS": 5200, "MONTHS": 1200, "YEARS": 100}


def retain_rule(data):
    if not isinstance(data, dict):
        return None
    count, many, unit = data.get("Count"), data.get("Interval"), data.get("IntervalUnit")
    if count is not None:
        return within(1, 1000)(count) if many is None and unit is None else None
    return within(1, UNITS[unit])(many) if isinstance(unit, str) and unit in UNITS else None


def policy_targets(data):
    return tags(data, least=1)


class Members:
    """The members of a body, read in their order."""

    def __init__(self, body):
        self.found = body

    def optional(self, name, kind):
        given = self.found.get(name)
        if given is None:
            return None
        read = kind(given)
        if read is None:
            raise bad_parameter(name)
        return read

    def required(self, name, kind):
        read = self.optional(name, kind)
        if read is None:
            raise bad_parameter(name)
        return read


def body_members(message):
    body = read_body(message.body)
    if body is None:
        raise bad_parameter("body")
    return Members(body)


def field(message, name):
    return next((value for own, value in message.fields if own == name), None)


PERCENT = re.compile(rb"%([0-9A-Fa-f]{2})")


def decoded(text):
    return PERCENT.sub(lambda found: bytes([int(found[1], 16)]), text.replace(b"+", b" ")).decode("utf-8", "replace").encode()


def query_members(message):
    """The first value of each name."""
    found = {}
    for piece in message.target.partition(b"?")[2].split(b"&"):
        if piece:
            name, _, value = piece.partition(b"=")
            found.setdefault(decoded(name), decoded(value))
    return found


def need(name, value):
    if value is None:
        raise bad_parameter(name)
    return value


def number_in(found, name, low, high):
    """A number of the query, or None where there is none."""
    text = found.get(name.encode())
    if text is None:
        return None
    value = number_of(text)
    if value is None or not low <= value <= high:
        raise bad_parameter(name)
    return value


# Calls

ROUTES = {
    ("snapshots",): {"POST": "start", "GET": "describe_all"},
    ("snapshots", "{snapshotId}"): {"GET": "describe", "DELETE": "delete"},
    ("snapshots", "completion", "{snapshotId}"): {"POST": "complete"},
    ("snapshots", "{snapshotId}", "blocks"): {"GET": "list_blocks"},
    ("snapshots", "{snapshotId}", "changedblocks"): {"GET": "changed"},
    ("snapshots", "{snapshotId}", "blocks", "{blockIndex}"): {"PUT": "put", "GET": "get"},
    ("snapshots", "{snapshotId}", "permission"): {"PATCH": "share"},
    ("snapshots", "{snapshotId}", "lock"): {"PUT": "lock", "DELETE": "unlock"},
    ("snapshots", "{snapshotId}", "tier"): {"PUT": "archive"},
    ("snapshots", "{snapshotId}", "restore-tier"): {"POST": "restore"},
    ("volumes",): {"POST": "create_volume"},
    ("volumes", "{volumeId}"): {"GET": "describe_volume", "DELETE": "delete_volume"},
    ("volumes", "{volumeId}", "snapshots"): {"POST": "snapshot_volume"},
    ("volumes", "{volumeId}", "blocks", "{blockIndex}"): {"PUT": "write", "GET": "read"},
    ("rules",): {"POST": "create_rule"},
    ("rules", "{identifier}"): {"GET": "get_rule", "PATCH": "update_rule", "DELETE": "delete_rule"},
    ("rules", "{identifier}", "lock"): {"PATCH": "lock_rule"},
    ("rules", "{identifier}", "unlock"): {"PATCH": "unlock_rule"},
    ("list-rules",): {"POST": "list_rules"},
    ("recycle-bin",): {"GET": "list_bin"},
    ("recycle-bin", "{snapshotId}"): {"POST": "recover"},
    ("policies",): {"POST": "create_policy"},
    ("policies", "{policyId}"): {"GET": "get_policy", "DELETE": "delete_policy"},
    ("policies", "{policyId}", "run"): {"POST": "run_policy"},
}
BY_LENGTH = {}
for one_route in ROUTES:
    BY_LENGTH.setdefault(len(one_route), []).append((one_route, [None if place.startswith("{") else place.encode() for place in one_route]))
for same_length in BY_LENGTH.values():
    same_length.sort(key=lambda route: [word is None for word in route[1]])


def route_of(path):
    """The route that a path fits; of several the one that has its own words first."""
    if not path.startswith(b"/"):
        return None
    parts = path[1:].split(b"/")
    for route, words in BY_LENGTH.get(len(parts), []):
        if all(part == word if word else part for part, word in zip(parts, words)):
            return route
    return None


class Call(typing.NamedTuple):
    kind: str
    account: int
    members: dict


def call_of(message):
    """The call that a message makes, or Refused."""
    path = message.target.partition(b"?")[0]
    route = route_of(path)
    kind = route and ROUTES[route].get(message.method.decode("latin-1"))
    if kind is None:
        raise Refused(*NO_SUCH_CALL)
    account = need("x-ebs-account", account_of(field(message, b"x-ebs-account")))
    parts = dict(zip(route, path[1:].split(b"/")))
    return Call(kind, account, READERS[kind](message, parts))


def path_key(front, name, place=None):
    def read(parts):
        return need(name, key_of(front, parts["{" + (place or name) + "}"]))
    return read


SNAPSHOT_ID, VOLUME_ID = path_key(SNAPSHOT, "snapshotId"), path_key(VOLUME, "volumeId")
RULE_ID, POLICY_ID = path_key(RULE, "identifier"), path_key(POLICY, "policyId")


def keyed(path_of):
    return lambda message, parts: {"key": path_of(parts)}


def read_index(parts):
    return need("blockIndex", number_of(parts["{blockIndex}"]))


def read_start(message, parts):
    body = body_members(message)
    found = {"size": body.required("VolumeSize", number), "parent": body.optional("ParentSnapshotId", lambda data: key_of(SNAPSHOT, text_in(data)))}
    found["description"] = body.optional("Description", description)
    found["tags"] = body.optional("Tags", tags)
    found["token"] = body.optional("ClientToken", client_token)
    found["timeout"] = body.optional("Timeout", within(10, 4320))
    body.optional("Encrypted", only_false)
    body.optional("KmsKeyArn", absent)
    return found


def read_block(message, parts, key):
    found = {"key": key(parts), "index": read_index(parts)}
    if field(message, b"x-amz-data-length") != b"524288":
        raise bad_parameter("x-amz-Data-Length")
    found["digest"] = need("x-amz-Checksum", digest_of(field(message, b"x-amz-checksum")))
    if field(message, b"x-amz-checksum-algorithm") != b"SHA256":
        raise bad_parameter("x-amz-Checksum-Algorithm")
    progress = field(message, b"x-amz-progress")
    if progress is not None and (number_of(progress) is None or number_of(progress) > 100):
        raise bad_parameter("x-amz-Progress")
    if len(message.body) != BLOCK_BYTES:
        raise bad_parameter("body")
    found["found"] = hashlib.sha256(message.body).digest()
    return found


def read_complete(message, parts):
    found = {"key": SNAPSHOT_ID(parts), "count": need("x-amz-ChangedBlocksCount", number_of(field(message, b"x-amz-changedblockscount"))), "checksum": None}
    checksum = field(message, b"x-amz-checksum")
    if checksum is not None:
        found["checksum"] = need("x-amz-Checksum", digest_of(checksum))
        for name, only in (("x-amz-Checksum-Algorithm", b"SHA256"), ("x-amz-Checksum-Aggregation-Method", b"LINEAR")):
            if field(message, name.lower().encode()) not in (None, only):
                raise bad_parameter(name)
    return found


def read_page(query, found):
    found["page"] = query.get(b"pageToken")
    found["most"] = number_in(query, "maxResults", 100, 10000) or 1000
    found["start"] = number_in(query, "startingBlockIndex", 0, 10**10) or 0
    return found


def read_list(message, parts):
    key = SNAPSHOT_ID(parts)
    return read_page(query_members(message), {"key": key})


def read_changed(message, parts):
    query = query_members(message)
    first = need("firstSnapshotId", key_of(SNAPSHOT, query.get(b"firstSnapshotId")))
    second = path_key(SNAPSHOT, "secondSnapshotId", "snapshotId")(parts)
    return read_page(query, {"first": first, "key": second})


def read_get(message, parts):
    found = {"key": SNAPSHOT_ID(parts), "index": read_index(parts)}
    found["token"] = need("blockToken", query_members(message).get(b"blockToken"))
    return found


def read_rows(message, parts):
    query = query_members(message)
    start = number_in(query, "from", 0, 2**28 - 1) or 0
    return {"from": start, "max": number_in(query, "max", 1, 1000) or 1000}


def read_share(message, parts):
    key, body = SNAPSHOT_ID(parts), body_members(message)
    add, remove = body.optional("Add", accounts), body.optional("Remove", accounts)
    if add == remove == "all" or (isinstance(add, set) and isinstance(remove, set) and add & remove):
        raise bad_parameter("Remove")
    return {"key": key}


def read_lock(message, parts):
    key, body = SNAPSHOT_ID(parts), body_members(message)
    mode = body.required("LockMode", lambda data: data if data in ("governance", "compliance") and isinstance(data, str) else None)
    days = body.optional("LockDuration", within(1, 36500))
    date = body.optional("ExpirationDate", number)
    if days is None and date is None:
        raise bad_parameter("LockDuration")
    if days is not None and date is not None:
        raise bad_parameter("ExpirationDate")
    body.optional("CoolOffPeriod", within(1, 72) if mode == "compliance" else absent)
    return {"key": key, "date": date}


def read_archive(message, parts):
    key, body = SNAPSHOT_ID(parts), body_members(message)
    body.required("StorageTier", exactly("archive"))
    return {"key": key}


def read_restore(message, parts):
    key, body = SNAPSHOT_ID(parts), body_members(message)
    days = body.optional("TemporaryRestoreDays", within(1, 180))
    for_good = body.optional("PermanentRestore", boolean)
    if days is None and not for_good:
        raise bad_parameter("TemporaryRestoreDays")
    if days is not None and for_good:
        raise bad_parameter("PermanentRestore")
    return {"key": key}


def read_create_volume(message, parts):
    body = body_members(message)
    found = {"origin": body.optional("SnapshotId", lambda data: key_of(SNAPSHOT, text_in(data))), "size": body.optional("Size", number)}
    if found["origin"] is None and found["size"] is None:
        raise bad_parameter("Size")
    found["tags"] = body.optional("Tags", tags)
    found["token"] = body.optional("ClientToken", client_token)
    return found


def read_snapshot_volume(message, parts):
    key, body = VOLUME_ID(parts), body_members(message)
    body.optional("Description", description)
    body.optional("Tags", tags)
    return {"key": key}


def read_create_rule(message, parts):
    body = body_members(message)
    days = body.required("RetentionPeriod", RETENTION)
    body.required("ResourceType", exactly("EBS_SNAPSHOT"))
    own_tags = body.optional("ResourceTags", rule_tags)
    body.optional("Description", description)
    delay = body.optional("LockConfiguration", lock_configuration)
    if own_tags and delay is not None:
        raise bad_parameter("LockConfiguration")
    return {"days": days}


def read_update_rule(message, parts):
    key, body = RULE_ID(parts), body_members(message)
    body.optional("RetentionPeriod", RETENTION)
    body.optional("ResourceTags", rule_tags)
    body.optional("Description", description)
    return {"key": key}


def read_lock_rule(message, parts):
    key, body = RULE_ID(parts), body_members(message)
    body.required("LockConfiguration", lock_configuration)
    return {"key": key}


def read_create_policy(message, parts):
    body = body_members(message)
    body.required("TargetTags", policy_targets)
    body.required("Schedule", schedule)
    body.required("RetainRule", retain_rule)
    body.optional("TagsToAdd", tags)
    return {}


READERS = {
    "start": read_start, "describe_all": read_rows, "describe": keyed(SNAPSHOT_ID), "delete": keyed(SNAPSHOT_ID), "complete": read_complete, "list_blocks": read_list,
    "changed": read_changed, "put": lambda message, parts: read_block(message, parts, SNAPSHOT_ID), "get": read_get, "share": read_share, "lock": read_lock,
    "unlock": keyed(SNAPSHOT_ID), "archive": read_archive, "restore": read_restore, "create_volume": read_create_volume, "describe_volume": keyed(VOLUME_ID),
    "delete_volume": keyed(VOLUME_ID), "snapshot_volume": read_snapshot_volume, "write": lambda message, parts: read_block(message, parts, VOLUME_ID),
    "read": lambda message, parts: {"key": VOLUME_ID(parts), "index": read_index(parts)}, "create_rule": read_create_rule, "get_rule": keyed(RULE_ID),
    "update_rule": read_update_rule, "delete_rule": keyed(RULE_ID), "list_rules": lambda message, parts: {}, "lock_rule": read_lock_rule, "unlock_rule": keyed(RULE_ID),
    "list_bin": read_rows, "recover": keyed(SNAPSHOT_ID), "create_policy": read_create_policy, "get_policy": keyed(POLICY_ID), "delete_policy": keyed(POLICY_ID),
    "run_policy": keyed(POLICY_ID),
}


# Tokens

SECRET = bytes(32)


def sealed(frame_bytes, secret=SECRET):
    return (frame_bytes + hashlib.sha256(secret + frame_bytes).digest()).hex().encode()


def key_bytes(key):
    return key[1].to_bytes(8, "big") + key[2].to_bytes(4, "big")


def block_token(key, index, expiry):
    return sealed(b"\1" + key_bytes(key) + index.to_bytes(4, "big") + expiry.to_bytes(8, "big"))


def page_token(kind, first, second, index, expiry):
    return sealed(bytes([kind]) + key_bytes(first) + key_bytes(second) + index.to_bytes(4, "big") + expiry.to_bytes(8, "big"))


def unhexed(text):
    """The bytes that a text in lower case writes, or none."""
    return bytes.fromhex(text.decode()) if re.fullmatch(rb"(?:[0-9a-f]{2})+", text) else b""


def is_block_token(text, key, index, now):
    expiry = int.from_bytes(unhexed(text)[17:25], "big")
    return index < 2**32 and now < expiry and text == block_token(key, index, expiry)


def page_start(text, kind, first, second, now):
    """The index at which the page begins, or None where the token isn't good."""
    told = unhexed(text)
    index, expiry = int.from_bytes(told[25:29], "big"), int.from_bytes(told[29:37], "big")
    return index if now < expiry and text == page_token(kind, first, second, index, expiry) else None


BLOCK_PAGE, CHANGED_PAGE = 2, 3
