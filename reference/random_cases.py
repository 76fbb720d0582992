#!/usr/bin/env python3
"""random_cases.py SEED COUNT: writes a file of cases with COUNT random steps, for comparing two programs call by call.

Each step sets something up and calls; each call is followed by a case, its expectation computed by the second receiver.
Steps know what is open, so that most packets belong to something and every refusal comes up; the same seed gives the same file."""

import random, sys

from cases import Case, Run
from random_descriptions import Choices, Descriptions
from receiver import COLUMNS, GENERATOR, MARK, PLACE, PLACE_LENGTH, RECORD_LENGTH, ROWS, coded_length, header_of, house, place_at, read_description, up

FIELDS = ["resource", "type", "update", "protection", "rows", "size"]
RESOURCES = list(range(1, 12)) + [256, 65535]
ODD_TYPES = [0, 0, 0, 0, 3, 3, 5, 6, 129, 255]
ODD_EDITIONS = [0, 3, 255, 256, 257, 258, 513, 32769, 65535]
ODD_ORDERS = [2, 3, 255, 256, 257, 32768, 65535]


def named(s):
    return s["resource"], s["type"]


def words(s):
    return f"{s['resource']} {s['type']}"


def hexes(data):
    return " ".join(f"{b:02x}" for b in data)


def count_of(s):
    """The number of packets of a sender's file."""
    return up(coded_length(s["length"], s["rows"]) if s["protection"] else s["length"], s["size"])


def in_columns(s):
    return s["order"] == COLUMNS


class Writer(Choices):
    """The lines so far, what they left at hand, and the senders whose files are being collected, by resource and type."""

    def __init__(self, seed):
        self.random, self.run, self.lines, self.senders = random.Random(seed), Run(), [], {}
        self.descriptions = Descriptions(self.random)
        self.step, self.named = 0, 0

    def say(self, line):
        self.run.do(line)
        self.lines.append(line)

    def case(self, expectation):
        """A case line; its expectation is replaced by what came out."""
        self.named += 1
        self.lines.append(Case(f"case step-{self.step}-{self.named} {expectation}", self.run).answered())

    def call(self, line):
        """True if it was accepted."""
        self.say(line)
        self.case("accepted")
        return self.run.answer.number == 0

    # ---- choices

    def wrapped(self, n, modulus):
        """Now and then the same number modulo the range of its argument."""
        return n + modulus * self.pick(1, 2, 3) if self.often(0.01) else n

    def resource_and_type(self):
        """As they stand in a line: mostly something that is being collected, or its resource with another type."""
        if self.senders and self.often(0.85):
            resource, kind = self.random.choice(sorted(self.senders))
            kind = self.pick(kind, kind, kind, kind, 3 - kind, self.pick(*ODD_TYPES))
        else:
            resource, kind = self.wrapped(self.pick(0, *RESOURCES), 65536), self.pick(1, 1, 2, 2, *ODD_TYPES)
        return f"{resource} {self.wrapped(kind, 256)}"

    def sender(self):
        """A file and good settings for it, small as a rule; now and then beside what is being collected, under its resource or with all its settings."""
        if self.senders and self.often(0.35):
            beside = self.senders[self.random.choice(sorted(self.senders))]
            other = {"resource": beside["resource"], "type": 3 - beside["type"]}
            return {**beside, **other, "seed": beside["seed"] + 1} if self.often(0.3) else {**self.any_file(), **other}
        return self.any_file()

    def any_file(self):
        s = {"resource": self.pick(*RESOURCES), "type": self.pick(1, 2), "update": self.below(16), "protection": self.pick(0, 1), "edition": self.pick(1, 2),
             "order": ROWS, "seed": self.below(1 << 32)}
        if s["protection"]:
            s["rows"], s["size"] = self.pick(1, 2, 2, 3, 4, 5, 9), 255 * self.pick(1, 1, 1, 2, 2, 3, 15)
            s["length"] = 1 + self.below(239 * s["rows"] * self.pick(1, 1, 1, 2, 3))
            if self.often(0.35):
                s["order"], s["size"] = COLUMNS, self.column_size(s)
        else:
            s["rows"], s["size"] = self.pick(0, 0, 0, 7, 255), self.pick(1, 2, 7, 8, 30, 30, 100, 100, 255, 1000, 4077)
            s["length"] = 1 + self.below(s["size"] * self.pick(1, 3, 8, 12))
        return s

    def column_size(self, s):
        """Mostly such that a lost packet costs a row no more than sixteen bytes, and no more than some hundred packets."""
        columns = self.pick(1, 1, 2, 3, 5, 8, 15, 16, 17)
        size = self.pick(1, s["rows"], 255, 256, 510, 1000, 4077, *[max(s["rows"] * columns + self.pick(-1, 0, 0, 1), 1)] * 8)
        return max(size, up(coded_length(s["length"], s["rows"]), 400))

    def any_sender(self):
        if self.senders and self.often(0.9):
            return self.senders[self.random.choice(sorted(self.senders))]
        return self.sender()

    def broken(self, s):
        """The same with one setting out of its range or at its edge."""
        wrong = {"resource": [0], "type": [0, 3, 4, 255], "update": [16, 255], "protection": [2, 3, 255], "rows": [0, 255],
                 "size": [0, 1, 254, 256, 3825, 3826, 4077, 4078, 4080, 65535], "edition": ODD_EDITIONS, "order": [1 - s["order"], *ODD_ORDERS]}
        if in_columns(s):
            wrong["protection"] = [0, 0, 2]
        name = self.pick(*wrong)
        return {**s, name: self.pick(*wrong[name])}

    # ---- lines that several steps share

    def say_settings(self, s):
        ranges = [65536, 256, 256, 256, 256, 65536]
        self.say("settings " + " ".join(str(self.wrapped(s[name], r)) for name, r in zip(FIELDS, ranges)))
        self.say_edition(s["edition"])
        self.say_order(s["order"])

    def say_order(self, order):
        """Only where it is another, since settings leave it."""
        if self.run.settings["order"] != order or self.often(0.1):
            self.say(f"order {self.wrapped(order, 65536)}")

    def say_edition(self, edition):
        """Only where it is another, since settings leave it."""
        if self.run.settings["edition"] != edition or self.often(0.1):
            self.say(f"edition {self.wrapped(edition, 65536)}")

    def named_or_not(self, call, s):
        """The call by its name that takes edition and order; or, where these are the ones meant without a name, now and then by the other, whatever is
        set."""
        if s["edition"] != 2 or s["order"] != ROWS or self.often(0.5):
            return call + "-as"
        if self.often(0.3):
            self.say_edition(self.pick(1, 1, *ODD_EDITIONS))
        if self.often(0.3):
            self.say_order(self.pick(COLUMNS, COLUMNS, *ODD_ORDERS))
        return call

    def say_file(self, s):
        self.say(f"file {s['seed']} {s['length']}")

    def say_packet(self, s, n):
        """Bytes: packet n of the sender's file, as long as the settings are good."""
        self.say_file(s)
        self.say_settings(s)
        self.say("out 0 4095")
        if self.call(f"{self.named_or_not('pack', s)} {n}"):
            self.say(f"take {self.run.answer.value}")

    def say_header(self, **fields):
        """The header at the start of bytes, each field cut to its width."""
        widths = {"mark": 24, "resource": 16, "number": 20, "update": 4, "length": 12, "count": 20, "type": 2, "protection": 2, "rows": 8, "reserved": 4}
        full = {"mark": MARK, "reserved": 0, "length": len(self.run.bytes), **fields}
        self.say("put 0 " + hexes(header_of({k: full[k] % (1 << w) for k, w in widths.items()})))

    def header_fields(self, s):
        """Of one of its packets, in its edition."""
        ones = s["edition"] == 1
        return {"resource": s["resource"], "number": self.below(count_of(s)), "update": s["update"], "count": count_of(s), "type": s["type"],
                "protection": s["protection"], "rows": s["rows"] if s["protection"] else 255 * ones, "reserved": 15 * ones}

    def edged(self, fields, length, times):
        """So many fields at the edge of their range, or beyond it."""
        edges = {"resource": [0, 0, 65535], "type": [0, 0, 3, 3], "protection": [0, 1, 2, 3], "rows": [0, 1, 254, 255], "count": [0, 1, 1048575],
                 "number": [0, 1, 1048574, 1048575], "reserved": [0, 1, 8, 14, 15], "length": [0, length + 1, length - 1], "mark": [0, MARK ^ 1]}
        for _ in range(times):
            name = self.pick(*edges)
            fields[name] = self.pick(*edges[name])
        if fields["type"] == 0 and self.often(0.7):
            fields["count"], fields["number"] = 0, self.pick(0, 1048574, 1048575)
        return fields

    def payload_length(self, s):
        """Mostly such as may stand in a packet of this sender."""
        if self.often(0.2):
            return self.pick(0, 1, 2, 254, 256, 4077, 4078)
        return 255 * self.pick(1, 1, 2, 3, 15) if s["protection"] and (not in_columns(s) or self.often(0.4)) else self.pick(1, s["size"], s["size"], min(s["size"] + 1, 4077))

    # ---- steps: a new record and store, opening and closing

    def step_fresh(self):
        self.senders = {}
        if self.often(0.3):
            self.say(f"held {self.pick(0, 1, 128, 144, RECORD_LENGTH - 1, RECORD_LENGTH + 1, 256)}")
            self.any_call()
        self.say(f"store {self.below(256)} {self.pick(self.below(100), 1500, 6000, 6000, 20000, 20000, 60000, 60000)}")
        self.say(f"held {RECORD_LENGTH}")
        for _ in range(self.pick(1, 5, 5, 16)):
            self.open_well(self.sender())

    def step_open(self):
        s = self.sender()
        self.random.choices([self.open_well, self.open_house, self.open_badly], [70, 5, 25])[0](s)

    def open_well(self, s):
        self.say_settings(s)
        if self.call(f"{self.named_or_not('open', s)} {self.wrapped(count_of(s), 1 << 32)}"):
            self.senders[named(s)] = s

    def open_badly(self, s):
        self.say_settings(self.broken(s) if self.often(0.6) else s)
        self.call(f"{self.pick('open', 'open-as', 'open-as')} {self.pick(count_of(s), count_of(s), 0, 1, 1048575, 1048576, 4294967295)}")

    def open_house(self, s):
        s = {**s, **house(*named(s), s["update"]), "length": 1 + self.below(7648)}
        self.say_other_settings(s)
        if self.call(f"open-house {count_of(s)}"):
            self.senders[named(s)] = s

    def say_other_settings(self, s):
        """For a call under the house setting, which takes nothing of them but resource, type and update."""
        self.say_settings({**s, "rows": self.below(256), "size": self.below(5000), "edition": self.pick(1, 2, *ODD_EDITIONS), "order": self.pick(0, 1, *ODD_ORDERS)})

    # ---- steps: callers that mix the house setting with that of before

    def step_sizes(self):
        """A place in the one or the other, for the count that either gives, mostly where it has room; and packets of both."""
        new = self.any_file()
        new |= house(*named(new), new["update"]) | {"length": 1 + self.below(15000)}
        old = {**new, "size": 255}
        if self.often(0.7):
            self.senders = {}
            self.say(f"store {self.below(256)} {self.pick(8224, 12000, 40000, 130000)}")
            self.say(f"held {RECORD_LENGTH}")
        place, count = self.pick(old, new), count_of(self.pick(old, new))
        if not self.call_in_either("open", place, count):
            return
        if count == count_of(place):
            self.senders[named(place)] = place
        for _ in range(self.pick(2, 4, 6)):
            s = self.pick(old, new)
            self.say_file(s)
            self.say("out 0 4095")
            if self.call_in_either("pack", s, self.pick(0, self.below(count_of(s)), count_of(s) - 1)):
                self.say(f"take {self.run.answer.value}")
                if self.often(0.3):
                    self.spoil_each_row()
                self.call("offer")

    def call_in_either(self, call, s, number):
        """By default where that is the house setting, and by name where it is that of before."""
        if s["size"] == 255:
            self.say_settings(s)
            return self.call(f"{self.named_or_not(call, s)} {number}")
        self.say_other_settings(s)
        return self.call(f"{call}-house {number}")

    def step_close(self):
        if self.call(f"close {self.resource_and_type()}"):
            self.refresh_senders()

    # ---- steps: offers

    def step_offer(self):
        s = self.any_sender()
        s = self.pick(s, s, s, s, s, {**s, "seed": s["seed"] + 1}, {**s, "update": (s["update"] + 1) % 16}, {**s, "type": 3 - s["type"]},
                      {**s, "edition": 3 - s["edition"]}, {**s, "edition": 3 - s["edition"], "seed": s["seed"] + 1}, {**s, "order": 1 - s["order"]})
        self.say_packet(s, self.below(count_of(s)))
        for _ in range(self.pick(0, 0, 0, 1, 1, 1, 2)):
            self.pick(self.spoil_rows, self.spoil_rows, self.spoil_each_row, self.spoil_each_row, self.spoil_row, self.spoil_bits, self.spoil_header,
                      self.spoil_header, self.spoil_spare, self.spoil_spare, self.spoil_length)()
        self.call("offer")
        if self.often(0.2):
            self.call("offer")

    def offer_mendable(self, s, n):
        """Altered where that can be mended."""
        self.say_packet(s, n)
        if s["protection"] and not in_columns(s):
            self.spoil_each_row()
        self.call("offer")

    def step_mend(self):
        """Packets of a protected file in row order, each in copies that are altered in other places; mostly into a place that is opened anew for them."""
        protected = [s for s in self.senders.values() if s["protection"] and not in_columns(s)]
        if not protected:
            return self.step_open()
        s = self.pick(*protected)
        if self.often(0.6) and self.call(f"close {words(s)}"):
            self.open_well(s)
        for n in self.random.sample(range(count_of(s)), min(count_of(s), self.pick(1, 2, 3))):
            for _ in range(self.pick(1, 2, 2, 3)):
                self.offer_mendable({**s, "seed": s["seed"] + 1} if self.often(0.1) else s, n)
            if self.often(0.2):
                self.say(f"flip {len(self.run.bytes) - 1 - self.below(4)} {1 + self.below(255)}")
                self.call("offer")

    def step_edition(self):
        """A packet in the edition of its place, in the other one or in none; and what else may be wrong with it, too wide a payload or a damaged slot
        among it."""
        s = self.any_sender()
        sent = {**s, "edition": self.pick(s["edition"], 3 - s["edition"], 3 - s["edition"]), "seed": s["seed"] + self.pick(0, 0, 0, 1)}
        if self.often(0.2):
            self.say(f"random {self.below(1000)} {min(18 + s['size'] + (255 if s['protection'] and not in_columns(s) else 1), 4095)}")
            self.say_header(**self.header_fields(sent))
            self.say("seal")
        else:
            self.say_packet(sent, self.below(count_of(s)))
        if self.often(0.4):
            self.spoil_spare()
        number = int.from_bytes(self.run.bytes[5:8].ljust(3, b"\0"), "big") >> 4
        self.random.choices([self.offer, self.offer_spoilt, self.offer_other_update, lambda: self.offer_to_damaged_slot(s, number)], [3, 2, 1, 2])[0]()

    def step_rows(self):
        """A packet of a column sender at whatever holds its resource and type, or only one of them, or nothing; its header altered as a rule."""
        of_columns = [s for s in self.senders.values() if in_columns(s)]
        s = self.pick(*of_columns) if of_columns and self.often(0.8) else {**self.any_file(), "protection": 1, "rows": 2, "size": 7, "length": 300, "order": COLUMNS}
        self.say_packet(s, self.below(count_of(s)))
        for _ in range(self.pick(0, 0, 1, 1, 2)):
            self.say(self.pick("flip 7 1", "flip 11 1", "flip 13 16", "flip 13 15", "flip 13 1", "flip 12 192", "flip 12 192", "flip 12 48", "flip 4 1", "flip 4 3", "put 3 00 00",
                               f"cut {self.below(60)}", "grow 4095", f"put 8 {hexes([len(self.run.bytes) >> 4 & 255, (len(self.run.bytes) & 15) << 4])}"))
        if self.often(0.8):
            self.say("seal")
        self.call("offer")
        self.call(f"{self.pick('read', 'read-header')} 10")

    def step_columns(self):
        """A file in column order, all or most of its packets sent; then losses up to and beyond what can be restored, a wrong byte or a wrong length in a
        slot now and then, and the file handed out."""
        of_columns = [s for s in self.senders.values() if in_columns(s)]
        if not of_columns:
            return self.open_well({**self.any_file(), "protection": 1, "rows": 2, "size": self.pick(1, 2, 16, 32, 33, 255), "length": 1 + self.below(900), "order": COLUMNS})
        s = self.pick(*of_columns)
        self.say_file(s)
        self.say_settings(s)
        count = count_of(s)
        self.call(f"send {count} {self.pick(1, 7, 11)} {count} 0 {self.pick(0, 0, 1)} {self.below(1 << 32)}")
        for _ in range(self.pick(1, 2, 4)):
            self.lose_and_hand_out(s, count)

    def lose_and_hand_out(self, s, count):
        """As many packets as cost a row about so many bytes, in a run or anywhere; some are offered again."""
        gone = max(self.pick(0, 1, 1, 8, 15, 15, 15, 16, 16, 17, 20) * s["rows"] // s["size"], self.pick(0, 1, 1))
        first = self.pick(0, max(count - gone, 0), self.below(count))
        lost = self.pick(list(range(first, min(first + gone, count))), self.random.sample(range(count), min(gone, count)))
        for k in lost:
            self.say(f"poke {self.slot_at(s, k)} 00 00" + self.pick("", "", f" {self.below(256):02x}"))
        k = self.below(count)
        kept = self.slot_at(s, k) + 2 + self.below(s["size"]), self.slot_at(s, k)
        before = [self.run.store[at : at + 2] for at in kept]
        if self.often(0.3):
            self.say(f"poke {kept[0]} {self.below(256):02x}")
        if self.often(0.15):
            length = self.pick(1, s["size"] - 1, s["size"], s["size"] + 1)
            self.say(f"poke {kept[1]} {length % 256:02x} {length // 256:02x}")
        for _ in range(self.pick(1, 1, 2)):
            self.hand_out_columns(s)
        for at, there in zip(kept, before):
            if there:
                self.say(f"poke {at} {hexes(there)}")
        for k in lost if len(lost) < 6 or self.often(0.5) else []:
            self.say_packet(s, k)
            self.call("offer")

    def hand_out_columns(self, s):
        table = 239 * s["rows"]
        length = self.pick(*[s["length"]] * 6, s["length"] - 1, s["length"] - 1, s["length"] + 1, up(s["length"], table) * table, s["length"] + table, 0, 1, 16777216, 16777217)
        self.say_file(s)
        self.say(f"out {self.below(256)} {self.pick(length, length, length, length + 5, max(length - 1, 0)) if length < 100000 else 50}")
        if self.call(f"hand {words(s)} {length}"):
            self.case("file" if self.run.out[: s["length"]] == self.run.file else "out")

    def offer(self):
        self.call("offer")

    def offer_spoilt(self):
        self.pick(self.spoil_row, lambda: self.say(f"flip {max(len(self.run.bytes) - 1, 0)} 1"))()
        self.call("offer")

    def offer_other_update(self):
        self.say("flip 7 1")
        self.say("seal")
        self.call("offer")

    def offer_to_damaged_slot(self, s, number):
        at = self.slot_at(s, number)
        before = self.run.store[at : at + 2]
        self.say(f"poke {at} ff ff")
        self.call("offer")
        if before:
            self.say(f"poke {at} {hexes(before)}")

    def spoil_rows(self):
        self.say(f"damage {self.pick(0, 1, 2, 3, 4, 4, 5)} {self.below(1 << 32)}")

    def spoil_row(self):
        """One row anywhere in the payload, by up to twelve flips."""
        rows = max(len(self.run.bytes) - 18, 1)
        base = 14 + 255 * self.below(up(rows, 255))
        for _ in range(self.pick(1, 5, 7, 8, 8, 9, 10, 12)):
            self.say(f"flip {base + self.below(255)} {1 + self.below(255)}")

    def spoil_each_row(self):
        """Each row of the payload at a number of places of its own, all of which can be mended as a rule."""
        for base in range(14, len(self.run.bytes) - 258, 255):
            self.flip_places(base, range(255), self.pick(0, 0, 0, 1, 1, 2, 3, 4, 5, 6, 7, 8) if self.often(0.99) else 9)

    def flip_places(self, base, part, count):
        for at in self.random.sample(part, count):
            self.say(f"flip {base + at} {1 + self.below(255)}")

    def flip_towards(self, base, count):
        """So many of the seventeen places at which another coded row differs from this one, so that from nine on it is the nearer of the two: the
        generator's coefficients, wherever they begin, are a coded row."""
        shift = self.below(255)
        for i in self.random.sample(range(17), count):
            self.say(f"flip {base + (shift + i) % 255} {GENERATOR[i]}")

    def spoil_bits(self):
        for _ in range(self.pick(1, 1, 2)):
            self.say(f"flip {self.below(len(self.run.bytes) + 1)} {1 << self.below(8)}")

    def spoil_header(self):
        self.say(f"flip {self.below(14)} {1 << self.below(8)}")
        if self.often(0.8):
            self.say("seal")

    def spoil_spare(self):
        """Into the other edition with protection, or without it; or only M, a part of M, or some of the reserved bits, which is neither edition."""
        for line in self.pick(["flip 13 15"], ["flip 12 15", "flip 13 255"], ["flip 12 15", "flip 13 240"], [f"flip 13 {16 + 16 * self.below(15)}"],
                              [f"flip 13 {1 + self.below(14)}"], [f"flip 13 {1 + self.below(14)}"]):
            self.say(line)
        if self.often(0.8):
            self.say("seal")

    def spoil_length(self):
        length = len(self.run.bytes)
        self.say(self.pick(f"cut {max(length - 1, 0)}", f"cut {self.below(30)}", f"grow {length + 1}", f"grow {length + 255}", "grow 4096"))

    def step_offer_made(self):
        """A packet made by hand: the fields of a place, zeros or random bytes as payload."""
        s = self.any_sender()
        length = self.payload_length(s)
        self.say(self.pick(f"fill 0 {18 + length}", f"random {self.below(1000)} {18 + length}"))
        stream = {"type": 0, "count": 0} if self.often(0.25) else {}
        self.say_header(**self.edged({**self.header_fields(s), **stream}, 18 + length, self.pick(0, 0, 0, 0, 1, 2)))
        self.say("seal")
        self.call("offer")

    def step_offer_noise(self):
        self.say(f"random {self.below(1 << 32)} {self.pick(0, 18, 19, 40, 273, 4095, 8192)}")
        if self.often(0.7):
            self.say("put 0 49 59 69")
        self.call("offer")

    # ---- steps: looking and handing out

    def step_status(self):
        self.call(f"status {self.resource_and_type()}")

    def step_hand(self):
        s = self.any_sender()
        table = 239 * s["rows"]
        length = self.pick(s["length"], s["length"], s["length"] - 1, s["length"] + 1, 0, s["length"] + table, table, 1, 1 << 40)
        self.say(f"out {self.below(256)} {self.pick(length, length, length + 5, max(length - 1, 0), 0)}")
        self.call(f"hand {self.pick(words(s), words(s), self.resource_and_type())} {length}")

    def step_complete(self):
        """A whole transmission, and the file handed out."""
        s = self.any_sender()
        count = count_of(s)
        self.say_file(s)
        self.say_settings({**s, "edition": 3 - s["edition"]} if self.often(0.1) else s)
        step, turns = self.pick(1, 1, 7, 11, 13), self.pick(count, count, count + 2, count // 2)
        self.call(f"send {self.pick(count, count, count, count, 0, count + 1)} {step} {turns} {self.below(6)} {self.pick(0, 0, 1)} {self.below(1 << 32)}")
        self.call(f"status {words(s)}")
        self.say(f"out 85 {s['length'] + self.pick(0, 0, 0, 3)}")
        if self.call(f"hand {words(s)} {s['length'] - self.pick(0, 0, 0, 1)}"):
            self.case("file" if self.run.out[: s["length"]] == self.run.file else "out")

    # ---- steps: a store and a record that somebody else has written in

    def slot_at(self, s, k):
        """Where slot k of the sender's place begins, or 0 where nothing holds it."""
        for i in range(8):
            p = place_at(self.run.held, i)
            if named(p) == named(s):
                return p["start"] + k * (p["slot"] + 2)
        return 0

    def step_poke(self):
        """One slot's length or a byte of its payload, put back as a rule."""
        s = self.any_sender()
        k = self.below(count_of(s))
        at = self.slot_at(s, k) + self.pick(0, 0, 0, 2)
        before = self.run.store[at : at + 2]
        length = self.pick(0, 1, 254, 255, 256, 510, s["size"], s["size"] + 1, 65535)
        self.say(f"poke {at} {length % 256:02x} {length // 256:02x}")
        self.pick(self.step_status, self.step_hand, lambda: self.offer_mendable(s, k))()
        self.call(self.pick(f"status {words(s)}", f"hand {words(s)} {s['length']}"))
        if before and self.often(0.8):
            self.say(f"poke {at} {hexes(before)}")

    def step_fill_slots(self):
        """Every slot of a place gets a length of its own; under protection most of them whole rows."""
        s = self.any_sender()
        size, total = s["size"], 0
        for k in range(min(count_of(s), 20)):
            length = 255 * (1 + self.below(max(size // 255, 1))) if s["protection"] and not in_columns(s) else 1 + self.below(size)
            self.say(f"poke {self.slot_at(s, k)} {length % 256:02x} {length // 256:02x}")
            total += length
        self.say(f"out 0 {total + 10}")
        for length in (total, s["length"], total * 239 // 255):
            self.call(f"hand {words(s)} {length}")

    def step_place(self):
        """A place altered, some calls, and the place as it was."""
        i = self.below(8)
        before = place_at(self.run.held, i)
        edges = [0, 1, 2, 3, 15, 16, 253, 254, 255, 256, 510, 3825, 4077, 4080, 65535, 1048575, 1048576, 16777216, 4294967295]
        near, name = self.pick("start", "count", "slot"), self.pick(*before)
        resource, kind = self.random.choice(sorted(self.senders)) if self.senders else (1, 1)
        altered = self.pick({**before, name: self.pick(*edges)}, {**before, near: max(before[near] + self.pick(-1, 1), 0)},
                            {**before, "resource": resource, "type": kind}, {**before, "resource": resource, "type": 3 - kind},
                            place_at(bytes(self.below(256) for _ in range(PLACE_LENGTH)), 0), place_at(self.run.held, 0))
        self.say_place(i, altered)
        for _ in range(self.pick(1, 2)):
            self.any_call()
        if altered["resource"] or self.often(0.5):
            self.say_place(i, before)

    def step_held_edition(self):
        """A place, mostly one in use, whose edition is another or none, some calls, and the place as it was."""
        used = [i for i in range(8) if place_at(self.run.held, i)["resource"]]
        i = self.pick(*used) if used and self.often(0.7) else self.below(8)
        before = place_at(self.run.held, i)
        self.say_place(i, {**before, "edition": self.pick(3 - before["edition"] % 3, *ODD_EDITIONS)})
        for _ in range(self.pick(1, 2, 3)):
            self.any_call()
        if i in used:
            self.say_place(i, before)
            self.refresh_senders()

    def step_held_order(self):
        """A place, mostly one in use, whose order is the other or none, some calls, and the place as it was."""
        used = [i for i in range(8) if place_at(self.run.held, i)["resource"]]
        i = self.pick(*used) if used and self.often(0.7) else self.below(8)
        before = place_at(self.run.held, i)
        self.say_place(i, {**before, "order": self.pick(COLUMNS, COLUMNS, ROWS, ROWS, *ODD_ORDERS)})
        for _ in range(self.pick(1, 2, 3)):
            self.any_call()
        if i in used:
            self.say_place(i, before)
            self.refresh_senders()

    def say_place(self, i, p):
        self.say(f"place {i} " + " ".join(str(p[name]) for name, _ in PLACE))

    def any_call(self):
        """A call that takes the record, with whatever is at hand."""
        it = self.resource_and_type()
        if self.call(self.pick("offer", f"status {it}", f"hand {it} 5", f"close {it}", "open 1", "open-as 1", "open-house 1")):
            self.refresh_senders()

    def refresh_senders(self):
        """After a call that may have opened or closed: only what is still held counts."""
        held = {named(place_at(self.run.held, i)) for i in range(8)}
        self.senders = {it: s for it, s in self.senders.items() if it in held}

    # ---- steps: packing, fields, rows and the CRC

    def step_pack(self):
        s = self.sender()
        if self.often(0.1):
            s["length"] = 0
        self.say_file(s)
        if self.often(0.2):
            self.say(f"file-put {self.below(s['length'] + 2)} {hexes(bytes(self.below(256) for _ in range(5)))}")
        self.say_settings(self.broken(s) if self.often(0.3) else s)
        self.say(f"out {self.below(256)} {self.pick(0, 18, 19, 272, 273, 4094, 4095, 4095, 4095, 5000)}")
        n = self.pick(0, self.below(count_of(s) + 1), self.below(count_of(s) + 1), count_of(s), 4294967295)
        self.call(f"{self.pick('pack', 'pack-as', 'pack-as', 'pack-as', 'pack-house')} {n}")
        self.some_bytes_of_out()

    def step_pack_many(self):
        """More packets than a count can say, or just as many."""
        self.say(f"file {self.below(2)} {self.pick(1048575, 1048576, 1048577)}")
        self.say("settings 5 1 3 0 0 1")
        self.say("out 0 19")
        self.call(f"{self.pick('pack', 'pack-as')} {self.pick(0, 1048574, 1048575, 1048577)}")
        self.say(f"file {self.below(2)} {self.pick(982768, 982769)}")
        self.say_settings({"resource": 5, "type": 1, "update": 3, "protection": 1, "rows": 1, "size": self.pick(1, 1, 2), "edition": 2, "order": COLUMNS})
        self.call(f"pack-as {self.pick(0, 524407, 524408, 1048559, 1048560)}")
        self.say("file 0 0")

    def step_read(self):
        s = self.sender()
        length = 18 + self.payload_length(s)
        self.say(f"random {self.below(1000)} {length}")
        stream = {"type": 0, "count": 0} if self.often(0.3) else {}
        self.say_header(**self.edged({**self.header_fields(s), **stream}, length, self.pick(0, 0, 0, 1, 1, 1, 2, 3, 5)))
        self.say(f"out {self.below(256)} {self.pick(0, 36, 39, 40, 40, 44)}")
        self.call(f"{self.pick('read', 'read', 'read-header')} {self.pick(10, 10, 10, 11, 9, 8, 0)}")
        self.some_bytes_of_out()
        for _ in range(self.pick(0, 1, 2)):
            self.spoil_spare()
            self.call(self.pick("read 10", "read 10", "read-header 10"))
            self.some_bytes_of_out()

    def step_encode(self):
        self.say(f"random {self.below(1 << 32)} {self.pick(239, 239, 239, 238, 240, 0)}")
        self.say(f"out {self.below(256)} {self.pick(16, 16, 15, 20)}")
        self.call("encode")
        self.some_bytes_of_out()

    def step_repair(self):
        """A coded row with some bytes altered, anywhere, in the information or in the checks, or none; or altered towards another coded row."""
        self.say(f"random {self.below(1 << 32)} 239")
        self.say("out 0 16")
        self.call("encode")
        self.say("append 16")
        if self.often(0.2):
            self.flip_towards(0, self.below(18))
        else:
            self.flip_places(0, self.pick(range(255), range(239), range(239, 255)), self.pick(*range(10), self.below(14)))
        if self.often(0.1):
            self.say(self.pick("cut 254", "grow 256", "cut 0"))
        self.say(f"out {self.below(256)} {self.pick(255, 255, 254, 300)}")
        self.call("repair")
        self.case("out")

    def step_crc(self):
        self.say(f"random {self.below(1 << 32)} {self.below(300)}")
        self.say(f"out 0 {self.pick(4, 4, 3, 9)}")
        self.call("crc")
        self.some_bytes_of_out()

    # ---- steps: description files

    def say_text(self, text):
        """In bytes, which takes no more than its limit."""
        self.say("bytes " + hexes(text) if text else "cut 0")

    def describe(self, room):
        """Reads bytes into numbers in out, and shows them."""
        self.say(f"out {self.below(256)} {self.pick(256, 256, 256, 240, 45, 0)}")
        if self.call(f"describe {room}"):
            self.case("out")

    def step_describe(self):
        if self.often(0.03):
            self.say(f"random {self.below(1 << 32)} {self.below(100)}")
        else:
            self.say_text(self.descriptions.any())
        self.describe(self.pick(30, 30, 30, 30, 31, 32, 29, 0))

    def step_edit_lines(self):
        """Lines put in and taken away, and what is then read."""
        self.say_text(self.descriptions.joined(self.descriptions.sound()))
        if self.often(0.1):
            self.say(f"grow {self.pick(8190, 8192)}")
        for _ in range(self.pick(1, 1, 2, 3)):
            k, text = self.pick(0, 16, 17, *range(1, 16)), self.pick("", "01:9000", "05:a b  c", "07:", "12:5", "15:1", "no line")
            self.say(self.pick(f"drop {k}", f"insert {k} {text}", f"swap {k} {text}", f"swap {k} {k:02d}:1", f"line {text}"))
        self.case("packet")
        self.call("describe 30")

    def step_compose(self):
        """The numbers of a sound description, some of them altered, written; what is written is read back."""
        text = self.descriptions.joined(self.descriptions.sound())
        values = read_description(text)
        self.say_text(text)
        self.say(f"file {self.below(1 << 32)} {self.pick(256, 256, 256, 256, 256, 240, 239, 20)}")
        self.say("value 0 " + " ".join(map(str, values)))
        for _ in range(self.pick(0, 1, 1, 1, 2)):
            i, n = self.descriptions.spoil_number(values, len(text))
            self.say(f"value {i} {self.wrapped(n, 1 << 64)}")
        if self.often(0.05):
            self.say(f"value {self.pick(0, 28, 31, 32)} 1 2 3")
        if self.often(0.1):
            self.say(f"cut {self.below(len(text))}")
        self.say(f"out {self.below(256)} {self.pick(1000, 1000, 1000, len(text), len(text) - 1, 0)}")
        if self.call(f"compose {self.pick(30, 30, 30, 30, 30, 30, 29, 31, 0)}"):
            self.case("out")
            self.say(f"take {self.run.answer.value}")
            self.describe(30)

    def some_bytes_of_out(self):
        if len(self.run.out):
            at = self.below(min(len(self.run.out), 40))
            self.case(f"bytes {at} " + " ".join(["00"] * min(12, len(self.run.out) - at)))

    # ---- all together

    WEIGHTS = {"fresh": 3, "open": 16, "close": 5, "offer": 28, "offer_made": 7, "offer_noise": 3, "edition": 18, "rows": 12, "columns": 14, "mend": 7, "sizes": 5, "status": 5, "hand": 7,
               "complete": 6, "poke": 8, "fill_slots": 3, "place": 6, "held_edition": 5, "held_order": 5, "pack": 12, "pack_many": 1, "read": 22, "encode": 2, "repair": 8, "crc": 2,
               "describe": 18, "edit_lines": 2, "compose": 14}

    def look(self):
        """Now and then all that is at hand, or a part of it."""
        if self.often(0.1):
            self.case(self.pick("store", "held", "out", "packet"))
        if self.often(0.03):
            self.say(self.pick(f"show-held 0 {RECORD_LENGTH}", f"show-store {self.below(3000)} 100"))
            self.case("out")

    def write(self, count):
        self.step_fresh()
        for self.step in range(1, count + 1):
            self.named = 0
            name = self.random.choices(list(self.WEIGHTS), list(self.WEIGHTS.values()))[0]
            getattr(self, "step_" + name)()
            self.look()
        for kind in ("store", "held", "out", "packet"):
            self.case(kind)
        return self.lines


def written(seed, count):
    return [f"# random steps: seed {seed}, {count} of them"] + Writer(seed).write(count)


if __name__ == "__main__":
    print("\n".join(written(int(sys.argv[1]), int(sys.argv[2]))))
