"""The order in which a server did what its clients asked, by its journal, and whether the machine answers all of it so.

A module of `tools/serve_many`. The journal (docs/FORMAT.md) has each accepted change with its moment, in the order in which they were done. Each record must be spelled as an
accepted call of the history, in an order that doesn't turn round what was asked behind an answer. `replay`, the same machine on a disk in memory by a clock of its own, is then asked
the same changes at the same moments. Between two changes it is asked whatever else may have been done there: what was refused, what changes nothing, and repeats with a client token. Where
one that was refused is accepted it wasn't done there, and the machine is started anew. All answers to changes are compared byte for byte, and of the others one place must be found for
each where its answer is the same, so that one that was answered before another was sent has no later place than that.
"""
import base64
import bisect
import collections
import contextlib
import itertools
import math
import struct
import subprocess
import typing

from ebs_client import check
from history import MADE, Call, number_in, owner_of
from random_calls import Draw, read_answer

BLOCK_LIFE = 604800
FIRST_RECORD_LENGTH_PLACE = 21
CHANGE, ADVANCE = 1, 2
NUMBERS = {"start": 1, "put": 2, "complete": 3, "delete": 9, "share": 10, "lock": 11, "unlock": 12, "archive": 13, "restore": 14, "create_volume": 15, "snapshot_volume": 16, "write": 17,
           "delete_volume": 20, "create_rule": 21, "update_rule": 23, "delete_rule": 24, "lock_rule": 26, "unlock_rule": 27, "recover": 29, "create_policy": 30, "delete_policy": 32, "run_policy": 33}
WITH_SLOTS = {NUMBERS["put"], NUMBERS["write"]}


def be32(number):
    return struct.pack(">I", number)


def be64(number):
    return struct.pack(">Q", number)


def option(spell, value):
    return b"\0" if value is None else b"\1" + spell(value)


def text(value):
    return be32(len(value.encode())) + value.encode()


def key(identifier):
    return be64(int(owner_of(identifier))) + be32(number_in(identifier))


def members(spell, values):
    return be32(len(values)) + b"".join(map(spell, values))


def tags(values):
    return members(lambda tag: text(tag["Key"]) + text(tag["Value"]), values or [])


def accounts(value):
    """The accounts that are added or removed, and whether all are."""
    return members(lambda account: be64(int(account)), [] if value in (None, "all") else sorted(value)) + bytes([value == "all"])


def digest_field(call, name):
    value = call.fields.get(name)
    return None if value is None else base64.b64decode(value)


def time_of_day(text_of_time):
    hours, minutes = map(int, text_of_time.split(":"))
    return 3600 * hours + 60 * minutes


def fields_of(call):
    """The fields of an accepted call's record, but for a slot."""
    asked, named = call.request(), call.identifier() and key(call.identifier())
    kind = call.kind
    if kind == "start":
        token, timeout = asked.get("ClientToken"), asked.get("Timeout", 60)
        return be64(asked["VolumeSize"]) + option(key, asked.get("ParentSnapshotId")) + option(text, asked.get("Description")) + tags(asked.get("Tags")) + option(text, token) + be32(timeout)
    if kind == "create_volume":
        return option(key, asked.get("SnapshotId")) + option(be64, call.answer()["Size"]) + tags(asked.get("Tags")) + option(text, asked.get("ClientToken"))
    if kind in ("put", "write"):
        return named + be64(call.index()) + digest_field(call, "x-amz-Checksum")
    if kind == "complete":
        return named + be64(call.fields["x-amz-ChangedBlocksCount"]) + option(bytes, digest_field(call, "x-amz-Checksum"))
    if kind == "share":
        return named + accounts(asked.get("Add")) + accounts(asked.get("Remove"))
    if kind == "lock":
        return named + bytes([asked["LockMode"] == "compliance", 0]) + be32(asked["LockDuration"]) + option(be32, asked.get("CoolOffPeriod"))
    if kind == "restore":
        return named + option(be32, asked.get("TemporaryRestoreDays"))
    if kind == "snapshot_volume":
        return named + option(text, asked.get("Description")) + tags(asked.get("Tags"))
    if kind == "create_rule":
        return be32(asked["RetentionPeriod"]["RetentionPeriodValue"]) + be32(0) + b"\0" + b"\0"
    if kind == "update_rule":
        return named + option(be32, asked["RetentionPeriod"]["RetentionPeriodValue"]) + b"\0" + b"\0"
    if kind == "lock_rule":
        return named + be32(asked["LockConfiguration"]["UnlockDelay"]["UnlockDelayValue"])
    if kind == "create_policy":
        schedule = asked["Schedule"]
        return tags(asked["TargetTags"]) + be32(schedule["Interval"]) + be32(time_of_day(schedule["Times"][0])) + b"\0" + be32(asked["RetainRule"]["Count"]) + tags(asked.get("TagsToAdd"))
    return named


def spelling(call):
    return be64(int(call.account)) + bytes([NUMBERS[call.kind]]) + fields_of(call)


def token_of(call):
    """What a repeat of the call has too, or nothing where it has no client token."""
    token = call.request().get("ClientToken")
    return token and (call.account, token)


def changes_in(journal):
    """The moments of the accepted changes in a journal, and their records without moments and slots."""
    length = int.from_bytes(journal[FIRST_RECORD_LENGTH_PLACE:][:8], "big")
    place = FIRST_RECORD_LENGTH_PLACE + 8 + length
    while journal[place : place + 1] == b"\1":
        size = int.from_bytes(journal[place + 1 : place + 5], "big")
        record = journal[place + 5 : place + 5 + size]
        place += 5 + size
        if record[0] != ADVANCE:
            check(record[0] == CHANGE, "a record of another kind")
            yield int.from_bytes(record[1:9], "big"), record[9:-8] if record[17] in WITH_SLOTS else record[9:]


class Order:
    """The accepted changes of a history as a journal has them, and what else was asked."""

    def __init__(self, history, journal):
        self.moments, self.changes, self.others = [], [], []
        waiting = collections.defaultdict(list)
        for call in history:
            if call.is_accepted() and call.kind in NUMBERS:
                waiting[spelling(call)].append(call)
            else:
                self.others.append(call)
        self.counters = collections.Counter()
        self.first_uses = {}  # the places behind the first calls with client tokens
        for moment, record in changes_in(journal):
            call = self.take(waiting[record], record)
            self.moments.append(moment)
            self.changes.append(call)
            if token_of(call):
                self.first_uses[token_of(call)] = len(self.changes)
        for call in (call for calls in waiting.values() for call in calls):
            check(token_of(call) in self.first_uses, f"an accepted change isn't in the journal: {call}")
            self.others.append(call)
        self.look_at_times()

    def take(self, calls, record):
        """The call of the next record, of those that are spelled so: the one that made the next id, or else the one that was answered first."""
        check(calls, f"a record is of no call that was accepted, or of one twice: {record.hex()}")
        found = next(filter(self.makes_next, calls), None) or min((call for call in calls if not self.made_by(call)), key=lambda call: call.end, default=None)
        check(found is not None, f"ids aren't in the order of the journal: {calls[0]}")
        calls.remove(found)
        for kind, _ in self.made_by(found):
            self.counters[kind, found.account] += 1
        return found

    def made_by(self, call):
        if call.kind == "run_policy":
            return [("snap", number_in(identifier)) for identifier in call.answer()["Made"]]
        if call.kind in MADE:
            kind, member = MADE[call.kind]
            return [(kind, number_in(call.answer()[member]))]
        return []

    def makes_next(self, call):
        made = self.made_by(call)
        return bool(made) and made[0][1] == self.counters[made[0][0], call.account]

    def look_at_times(self):
        """No change stands before one that was answered before it was sent."""
        begun = 0.0
        for call in self.changes:
            check(call.end > begun, f"the journal has it behind what was asked for behind its answer: {call}")
            begun = max(begun, call.begin)
        check(self.moments == sorted(self.moments), "moments run back in the journal")

    def seconds_at(self, place):
        """The first second and the last that a call can have behind so many changes."""
        before = self.moments[max(place - 1, 0)] if place or not self.moments else 0
        return before, self.moments[place] if place < len(self.moments) else math.inf

    def places(self):
        """For each of the others, behind how many changes it may have been done, at least and at most."""
        ends = sorted((call.end, place + 1) for place, call in enumerate(self.changes))
        least = [0]
        for _, place in ends:
            least.append(max(least[-1], place))
        begins = sorted(((call.begin, place) for place, call in enumerate(self.changes)), reverse=True)
        most = [len(self.changes)]
        for _, place in begins:
            most.append(min(most[-1], place))
        end_times, begin_times = [end for end, _ in ends], [-begin for begin, _ in begins]
        for call in self.others:
            first_use = self.first_uses[token_of(call)] if call.is_accepted() and token_of(call) else 0
            yield call, max(first_use, least[bisect.bisect_left(end_times, call.begin)]), most[bisect.bisect_left(begin_times, -call.end)]


def second_of(call):
    """The second at which it was answered, where its answer tells that."""
    if call.is_accepted() and call.kind in ("list_blocks", "changed"):
        return call.answer()["ExpiryTime"] - BLOCK_LIFE
    return None


def message_of(call):
    return Draw(call.kind, call.account, call.method, call.target, call.fields, call.asked.data(), None).message()


class Others:
    """The calls besides the changes, for each of which a place in the order is looked for."""

    def __init__(self, order):
        self.calls = order.others
        self.at = collections.defaultdict(list)  # by place: the second, the call's number
        self.last = {}
        for number, (call, least, most) in enumerate(order.places()):
            second = second_of(call)
            for place in range(least, most + 1):
                before, after = order.seconds_at(place)
                if second is None or before <= second <= after:
                    self.at[place].append((before if second is None else second, number))
                    self.last[number] = place
            check(number in self.last, f"no place in the journal's order is at the second of this answer: {call}")
        self.by_end = sorted(range(len(self.calls)), key=lambda number: self.calls[number].end)
        self.placed, self.settled = set(), 0

    def place(self, same):
        """Gives those a place here whose answers are the same, unless one that was answered before they were sent has none yet."""
        for number in sorted(same, key=lambda number: self.calls[number].begin):
            while self.settled < len(self.by_end) and self.by_end[self.settled] in self.placed:
                self.settled += 1
            if self.calls[self.by_end[self.settled]].end >= self.calls[number].begin:
                self.placed.add(number)

    def must_be_placed(self, numbers, place):
        for number in numbers:
            check(number in self.placed or self.last[number] > place, f"the machine has this answer at no place of the journal's order: {self.calls[number]}")


class Step(typing.NamedTuple):
    """What the machine is asked at a place of the order: a change, which has no number, or one of the others."""
    second: int
    place: int
    call: Call
    number: typing.Optional[int]


def steps_of(order, others):
    for place in range(len(order.changes) + 1):
        if place:
            yield Step(order.moments[place - 1], place, order.changes[place - 1], None)
        for second, number in sorted(others.at[place]):
            yield Step(second, place, others.calls[number], number)


class Machine:
    """`replay`, which is asked the steps of an order."""

    def __init__(self, replay, steps):
        self.replay, self.steps = replay, steps
        self.process, self.starts = None, 0

    def start_at(self, at):
        """Starts it, and asks the changes before this step."""
        self.close()
        before = [step for step in self.steps[:at] if step.number is None]
        words = [str(step.second) for step in before + self.steps[at:]]
        self.process = subprocess.Popen([self.replay, *words], stdin=subprocess.PIPE, stdout=subprocess.PIPE)
        self.starts += 1
        for step in before:
            self.ask(step.call)

    def ask(self, call):
        with contextlib.suppress(BrokenPipeError):
            self.process.stdin.write(message_of(call))
            self.process.stdin.flush()
        answer = read_answer(self.process.stdout)
        check(answer is not None, "the machine in memory ended")
        return answer

    def close(self):
        if self.process is not None:
            self.process.kill()
            self.process.wait()
            self.process.stdout.close()
            with contextlib.suppress(BrokenPipeError):
                self.process.stdin.close()


def judge(replay, history, journal):
    """Raises Broken where the machine answers anything otherwise; else tells how many calls were compared."""
    order = Order(history, journal)
    others = Others(order)
    machine = Machine(replay, list(steps_of(order, others)))
    with contextlib.closing(machine):
        machine.start_at(0)
        for place, group in itertools.groupby(enumerate(machine.steps), lambda it: it[1].place):
            compare_at(machine, others, place, list(group))
    return f"{len(order.changes)} changes in the journal's order and {len(order.others)} other calls between them were answered as the machine answers them, byte for byte; it was asked {len(machine.steps)} times, and started {machine.starts} times"


def compare_at(machine, others, place, group):
    """What is answered at one place: the change before it, and the others that may have been done there."""
    same = set()
    for at, step in group:
        told = machine.ask(step.call)
        is_same = told == (step.call.head, step.call.told.data())
        if step.number is None:
            check(is_same, f"the machine answers {told[0][:60]!r} {told[1][:300]!r} in place of this: {step.call}")
        elif is_same:
            same.add(step.number)
        elif step.call.kind in NUMBERS and told[0].split(b" ", 2)[1] < b"400":
            # here the call would have changed something: it wasn't done here
            machine.start_at(at + 1)
    others.place(same - others.placed)
    others.must_be_placed([step.number for _, step in group if step.number is not None], place)
