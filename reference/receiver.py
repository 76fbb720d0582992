"""A second receiver and packer, written from documents 01, 02, 001 and 000 alone, to compare with.

It shares nothing with the library: no table, no code, and other methods where another is natural. Products and CRC go bit by bit, checks come from
the matrix of the code, repair is by Euclid's algorithm, losses are restored by elimination in that matrix, fields are cut from one long number, tables
are filled by a plain loop, lines of a description are taken by regular expressions, its texts and dates by the standard library. Plain on purpose."""

import datetime, functools, itertools, re

LIMIT = 16_777_216
REFUSALS = (*range(1, 27), *range(29, 34))
GENERATOR = [1, 59, 13, 104, 189, 68, 209, 30, 8, 163, 65, 41, 229, 98, 50, 36, 59]


class Refused(Exception):
    """A refusal by its number (document 01, section 6, and document 02), with the extra value where one is named."""

    def __init__(self, number, value=0):
        super().__init__(f"{number} {value}")
        self.number, self.value = number, value


# ---- the field, section 3: polynomials over the bits modulo x^8 + x^4 + x^3 + x^2 + 1


def product(a, b):
    """Bit by bit: a times each power of x that b holds."""
    total = 0
    while b:
        if b & 1:
            total ^= a
        a, b = a << 1, b >> 1
        if a & 256:
            a ^= 0b100011101
    return total


# MUL[a] holds the products of a with every byte
MUL = [bytes(product(a, b) for b in range(256)) for a in range(256)]
INVERSE = [0] + [MUL[a].index(1) for a in range(1, 256)]


def powers_of_alpha():
    out = [1]
    while len(out) < 255:
        out.append(product(out[-1], 2))
    return out


ALPHA = powers_of_alpha()


# ---- the CRC, 000 Annex C: a shift register. The polynomial's own top bit takes away the bit that leaves


def crc32(data):
    return crc_of(bytes(data))


def shifted_out(register):
    """Eight bits leave at the top, one by one."""
    for _ in range(8):
        register = register << 1 ^ 0x104C11DB7 if register >> 31 else register << 1
    return register


# what is left of each byte that stands alone at the register's top; the step is linear, so the other 24 bits only move up
LEAVING = [shifted_out(byte << 24) for byte in range(256)]


@functools.lru_cache(maxsize=64)
def crc_of(data):
    register = 0xFFFFFFFF
    for byte in data:
        register = (register & 0xFFFFFF) << 8 ^ LEAVING[register >> 24 ^ byte]
    return register ^ 0xFFFFFFFF


# ---- polynomials over the field, the highest power first


def trim(a):
    """Without leading zeros; the zero polynomial is empty."""
    lead = next((i for i, c in enumerate(a) if c), len(a))
    return list(a[lead:])


def add(a, b):
    n = max(len(a), len(b))
    a, b = [0] * (n - len(a)) + list(a), [0] * (n - len(b)) + list(b)
    return [x ^ y for x, y in zip(a, b)]


def times(a, b):
    out = [0] * max(len(a) + len(b) - 1, 0)
    for i, x in enumerate(a):
        for j, y in enumerate(b):
            out[i + j] ^= MUL[x][y]
    return out


def divide(a, b):
    """Quotient and rest; b is not zero."""
    a, b = trim(a), trim(b)
    quotient, inverse = [], INVERSE[b[0]]
    while len(a) >= len(b):
        q = MUL[a[0]][inverse]
        quotient.append(q)
        a = [x ^ MUL[q][y] for x, y in zip(a, b + [0] * (len(a) - len(b)))][1:]
    return quotient, trim(a)


def value(a, x):
    by, v = MUL[x], 0
    for c in a:
        v = by[v] ^ c
    return v


def derivative(a):
    """Of x^n it is n·x^(n - 1), and n counts modulo 2."""
    top = len(a) - 1
    return [c if (top - k) % 2 else 0 for k, c in enumerate(a[:-1])]


# ---- rows, section 3. Byte i of a row is the coefficient of x^(254 - i)


def check_matrix():
    """Line i: the remainder of x^(254 - i) by the generator, i = 0..238."""
    rest, powers = [0] * 15 + [1], []
    for _ in range(255):
        powers.append(bytes(rest))
        top, rest = rest[0], rest[1:] + [0]
        rest = [r ^ MUL[top][g] for r, g in zip(rest, GENERATOR[1:])]
    return [powers[254 - i] for i in range(239)]


MATRIX = check_matrix()


def encode_row(info):
    """The sixteen checks: the sum of the matrix's lines, each times its byte."""
    if len(info) != 239:
        raise Refused(1)
    checks = 0
    for byte, line in zip(info, MATRIX):
        checks ^= int.from_bytes(line.translate(MUL[byte]), "big")
    return checks.to_bytes(16, "big")


def rest_of(row):
    """What the row leaves when it is divided by the generator; all zero for a coded row."""
    return [a ^ b for a, b in zip(encode_row(row[:239]), row[239:])]


def key_equation(syndromes):
    """Euclid's algorithm on x^16 and the syndromes, up to the first rest of degree below 8: locator and evaluator."""
    before, now = [1] + [0] * 16, trim(syndromes[::-1])
    u, v = [], [1]
    while len(now) > 8:
        quotient, rest = divide(before, now)
        u, v = v, add(u, times(quotient, v))
        before, now = now, rest
    return trim(v), now


# where the locator is zero if byte i is wrong
POINTS = [INVERSE[ALPHA[254 - i]] for i in range(255)]


def places_apart(a, b):
    """The number of places at which two equally long parts differ."""
    return sum(x != y for x, y in zip(a, b, strict=True))


def repair_row(row):
    """The coded row within eight bytes, and at how many of them it differs from what came in (document 02, R-7). What the algorithm proposes is judged
    by the code itself."""
    if len(row) != 255:
        raise Refused(1)
    rest = rest_of(row)
    if not any(rest):
        return bytes(row), 0
    locator, evaluator = key_equation([value(rest, ALPHA[j]) for j in range(16)])
    slope, fixed = derivative(locator), bytearray(row)
    for i in range(255):
        if value(locator, POINTS[i]) == 0:
            quotient = MUL[value(evaluator, POINTS[i])][INVERSE[value(slope, POINTS[i])]]
            fixed[i] ^= MUL[ALPHA[254 - i]][quotient]
    apart = places_apart(fixed, row)
    if apart > 8 or any(rest_of(fixed)):
        raise Refused(13)
    return bytes(fixed), apart


def repair_rows(payload):
    """All rows of a payload, and the sum over them of what was mended: what differs from the payload that came. The refusal names the first row that cannot
    be repaired."""
    fixed = bytearray()
    for k in range(len(payload) // 255):
        try:
            fixed += repair_row(payload[255 * k : 255 * k + 255])[0]
        except Refused:
            raise Refused(13, k) from None
    return bytes(fixed), places_apart(fixed, payload)


# ---- losses of a row, document 02, R-8


def rest_of_one(i):
    """What a row leaves that is 0 but for a 1 at byte i."""
    return MATRIX[i] if i < 239 else bytes(i == 239 + j for j in range(16))


def scaled(line, by):
    return line.translate(MUL[by])


def plus(a, b):
    return bytes(x ^ y for x, y in zip(a, b))


@functools.lru_cache(maxsize=4096)
def elimination(lost):
    """Of a row with these losses, at most sixteen: sixteen combinations of what its known bytes leave. The first ones are the lost bytes in their order,
    the others have to be 0. Found by elimination: a line says how much of each lost byte's rest stands in one byte of the whole rest, and behind that
    which bytes of it were combined."""
    rests = [rest_of_one(i) for i in lost]
    lines = [bytes(rest[j] for rest in rests) + bytes(j == i for i in range(16)) for j in range(16)]
    for k in range(len(lost)):
        pivot = next(j for j in range(k, 16) if lines[j][k])
        lines[k], lines[pivot] = lines[pivot], lines[k]
        lines[k] = scaled(lines[k], INVERSE[lines[k][k]])
        lines = [plus(line, scaled(lines[k], line[k])) if j != k else line for j, line in enumerate(lines)]
    # by bytes of the rest: what each of them adds to all sixteen
    return [bytes(line[len(lost) + j] for line in lines) for j in range(16)]


def restored_row(row, lost):
    """The one coded row that has the known bytes of this one; the bytes at the lost places, at most sixteen, are not looked at."""
    fixed = bytearray(row)
    for i in lost:
        fixed[i] = 0
    told = 0
    for byte, adds in zip(rest_of(fixed), elimination(tuple(lost))):
        told ^= int.from_bytes(scaled(adds, byte), "big")
    told = told.to_bytes(16, "big")
    if any(told[len(lost) :]):
        raise Refused(32)
    for i, byte in zip(lost, told):
        fixed[i] = byte
    return bytes(fixed)


# ---- fields, section 2: one long number, cut into its fields

WIDTHS = [("mark", 24), ("resource", 16), ("number", 20), ("update", 4), ("length", 12), ("count", 20), ("type", 2), ("protection", 2), ("rows", 8), ("reserved", 4)]
TEN = ["resource", "number", "update", "length", "count", "type", "protection", "rows", "reserved", "edition"]
MARK = 0x495969


def fields_of(packet):
    whole, left, out = int.from_bytes(packet[:14], "big"), 112, {}
    for name, width in WIDTHS:
        left -= width
        out[name] = whole >> left & (1 << width) - 1
    return out


def header_of(fields):
    bits = 0
    for name, width in WIDTHS:
        bits = bits << width | fields[name]
    return bits.to_bytes(14, "big")


def spare_ones(protection):
    """All of the header's last bits that say nothing, as ones: the reserved four, and without protection M before them (document 02, R-9)."""
    return (1 << (4 if protection else 12)) - 1


def in_edition(header, protection, edition):
    """The header with its spare bits as the edition has them: all one in edition 1, all zero in edition 2."""
    whole, ones = int.from_bytes(header, "big"), spare_ones(protection)
    return (whole | ones if edition == 1 else whole & ~ones).to_bytes(14, "big")


def edition_of(packet, protection):
    """1 or 2, or 0 for neither."""
    whole, ones = int.from_bytes(packet[:14], "big"), spare_ones(protection)
    return {ones: 1, 0: 2}.get(whole & ones, 0)


def number_fits(f):
    if f["type"] == 0:
        return f["count"] == 0 and f["number"] != 1048575
    return f["number"] < f["count"]


def read_header(packet):
    """The same as read_fields for packets of either order: any payload will do (document 02, R-8)."""
    return read_fields(packet, whole_rows=False)


def read_fields(packet, whole_rows=True):
    """The fields as sent and the packet's edition, or the first refusal of 1 to 8."""
    if len(packet) < 19:
        raise Refused(1)
    f = fields_of(packet)
    if f["mark"] != MARK:
        raise Refused(2)
    if f["length"] != len(packet):
        raise Refused(3)
    if f["type"] == 3:
        raise Refused(4)
    if f["protection"] > 1 or (f["protection"] == 1 and f["rows"] == 0):
        raise Refused(5)
    if not number_fits(f):
        raise Refused(6)
    if whole_rows and f["protection"] == 1 and (len(packet) - 18) % 255:
        raise Refused(7)
    if f["resource"] == 0:
        raise Refused(8)
    return {**f, "edition": edition_of(packet, f["protection"])}


# ---- packing, sections 3 and 4


ROWS, COLUMNS = 0, 1


def size_fits(s):
    """The range of P, which is that of S too. Whole rows are asked for only where rows are sent."""
    return 255 <= s["size"] <= 3825 and s["size"] % 255 == 0 if s["protection"] and s["order"] == ROWS else 1 <= s["size"] <= 4077


def order_fits(s):
    """Columns are those of a coded table, so without protection there are none."""
    return s["order"] == ROWS or s["order"] == COLUMNS and s["protection"] == 1


def settings_fit(s):
    """M is not judged without protection."""
    return (1 <= s["resource"] <= 65535 and s["type"] in (1, 2) and 0 <= s["update"] <= 15 and s["protection"] in (0, 1)
            and (s["protection"] == 0 or 1 <= s["rows"] <= 255) and size_fits(s) and s["edition"] in (1, 2) and order_fits(s))


def house(resource, kind, update):
    """Fifteen rows a packet (document 02, R-6)."""
    return {"resource": resource, "type": kind, "update": update, "protection": 1, "rows": 32, "size": 15 * 255, "edition": 2, "order": ROWS}


def up(a, b):
    return -(-a // b)


def coded_table(file, m, t, order=ROWS):
    """Table t as it is sent: its rows with their checks, or the columns of these. It is filled position by position, down each column, as the text says
    it."""
    table = [bytearray(239) for _ in range(m)]
    for place, byte in enumerate(file[t * 239 * m : (t + 1) * 239 * m]):
        table[place % m][place // m] = byte
    rows = [row + encode_row(row) for row in table]
    return b"".join(rows if order == ROWS else map(bytes, zip(*rows)))


def coded_file(file, m, order=ROWS):
    """All bytes that are sent under protection, table after table."""
    return b"".join(coded_table(file, m, t, order) for t in range(up(len(file), 239 * m)))


def coded_length(length, m):
    return 255 * m * up(length, 239 * m)


class Packer:
    """Packs one file. Its tables are coded when a packet asks for them, and kept, so that packets can be asked for one after the other."""

    def __init__(self, file):
        self.file, self.kept = bytes(file), {}

    def table(self, m, order, t):
        if (m, order, t) not in self.kept:
            self.kept[m, order, t] = coded_table(self.file, m, t, order)
        return self.kept[m, order, t]

    def sent(self, m, order, start, end):
        """These bytes of what is sent: of the file itself where m is 0, else of the tables in which they stand."""
        if m == 0:
            return self.file[start:end]
        first = start // (255 * m)
        tables = b"".join(self.table(m, order, t) for t in range(first, up(end, 255 * m)))
        return tables[start - first * 255 * m : end - first * 255 * m]

    def packet(self, s, n, room):
        """Packet n under the settings, for an output of that room; refusals 17, 23, 25, 6, 26."""
        if not settings_fit(s):
            raise Refused(17)
        if not 1 <= len(self.file) <= LIMIT:
            raise Refused(23)
        m, size = s["rows"] if s["protection"] else 0, s["size"]
        length = coded_length(len(self.file), m) if m else len(self.file)
        count = up(length, size)
        if count > 1048575:
            raise Refused(25)
        if n >= count:
            raise Refused(6)
        if 18 + min(size, length - n * size) > room:
            raise Refused(26)
        payload = self.sent(m, s["order"], n * size, min((n + 1) * size, length))
        header = header_of({**s, "mark": MARK, "number": n, "length": 18 + len(payload), "count": count, "rows": m, "reserved": 0})
        packet = in_edition(header, m, s["edition"]) + payload
        return packet + crc32(packet).to_bytes(4, "big")


# ---- the record, section 5: eight places of equal length, one behind the other, numbers little-endian. A place is in use if its resource is not 0

PLACE = [("resource", 2), ("type", 1), ("update", 1), ("count", 4), ("protection", 1), ("rows", 1), ("slot", 2), ("start", 4), ("edition", 2), ("order", 2)]
PLACE_LENGTH = sum(width for _, width in PLACE)
RECORD_LENGTH = 8 * PLACE_LENGTH


def span(i):
    """Where place i stands in the record."""
    return slice(PLACE_LENGTH * i, PLACE_LENGTH * (i + 1))


def place_at(held, i):
    """Place i; what a shorter record lacks is 0."""
    left, p = iter(held[span(i)].ljust(PLACE_LENGTH, b"\0")), {}
    for name, width in PLACE:
        p[name] = int.from_bytes(bytes(itertools.islice(left, width)), "little")
    return p


def bytes_of(place):
    return b"".join(place[name].to_bytes(width, "little") for name, width in PLACE)


def end_of(p):
    return p["start"] + p["count"] * (p["slot"] + 2)


def named(it):
    """What a place, a packet or settings are about: resource and type together (document 02, R-1)."""
    return it["resource"], it["type"]


def meet(p, q):
    return max(p["start"], q["start"]) < min(end_of(p), end_of(q))


def place_fits(p, usable):
    """A place in use by itself: its ranges, and the end of the usable store."""
    return (settings_fit({**p, "size": p["slot"]}) and 1 <= p["count"] <= 1048575 and (p["protection"] == 1 or p["rows"] == 0)
            and end_of(p) <= usable)


@functools.lru_cache(maxsize=64)
def places_in_use(held, usable):
    """The places in use by their index, or None for a record that is refused. The caller changes nothing in them."""
    if len(held) != RECORD_LENGTH:
        return None
    places = {i: place_at(held, i) for i in range(8)}
    used = {i: p for i, p in places.items() if p["resource"]}
    if not all(place_fits(p, usable) for p in used.values()):
        return None
    if any(named(p) == named(q) or meet(p, q) for p, q in itertools.combinations(used.values(), 2)):
        return None
    return used


class Receiver:
    """A record and a store, both lent as bytearrays and changed in place. Each call raises Refused, with nothing changed, or answers."""

    def __init__(self, held, store):
        self.held, self.store = held, store

    def usable(self):
        return min(len(self.store), LIMIT)

    def used(self):
        used = places_in_use(bytes(self.held), self.usable())
        if used is None:
            raise Refused(9)
        return used

    def find(self, resource, kind):
        """Index and place of the resource and type, in a record that is not refused."""
        for i, p in self.used().items():
            if named(p) == (resource, kind):
                return i, p
        raise Refused(10)

    def open(self, s, count):
        used = self.used()
        if not settings_fit(s) or not 1 <= count <= 1048575:
            raise Refused(17)
        if any(named(p) == named(s) for p in used.values()):
            raise Refused(18)
        if len(used) == 8:
            raise Refused(19)
        place = {**s, "count": count, "rows": s["rows"] if s["protection"] else 0, "slot": s["size"]}
        place["start"] = self.lowest_start(place, used.values())
        for at in range(place["start"], end_of(place), place["slot"] + 2):
            self.store[at : at + 2] = b"\0\0"
        i = min(set(range(8)) - set(used))
        self.held[span(i)] = bytes_of(place)

    def lowest_start(self, place, others):
        """0 or the end of another place: below the lowest free start something is in the way, and it ends there."""
        for start in sorted([0] + [end_of(p) for p in others]):
            moved = {**place, "start": start}
            if end_of(moved) <= self.usable() and not any(meet(moved, p) for p in others):
                return start
        raise Refused(20)

    def slot(self, p, k):
        """The payload in slot k, empty for an empty slot."""
        at = p["start"] + k * (p["slot"] + 2)
        length = self.store[at] + 256 * self.store[at + 1]
        if length > p["slot"] or (p["protection"] == 1 and p["order"] == ROWS and length % 255):
            raise Refused(15)
        return bytes(self.store[at + 2 : at + 2 + length])

    def slots(self, p):
        return [self.slot(p, k) for k in range(p["count"])]

    def offer(self, packet):
        """Stored or Repeat, and how many bytes of the payload were mended: 0 without protection, and in column order, where nothing is."""
        columns = [named(p) for p in self.used().values() if p["order"] == COLUMNS]
        f = read_header(packet) if named(fields_of(packet)) in columns else read_fields(packet)
        _, p = self.find(*named(f))
        if any(f[k] != p[k] for k in ("update", "count", "protection")) or (f["protection"] == 1 and f["rows"] != p["rows"]):
            raise Refused(11)
        if f["edition"] != p["edition"]:
            raise Refused(33)
        payload, mended = bytes(packet[14:-4]), 0
        if len(payload) > p["slot"]:
            raise Refused(12)
        if f["protection"] == 1 and p["order"] == ROWS:
            payload, mended = repair_rows(payload)
        if crc32(packet[:14] + payload) != int.from_bytes(packet[-4:], "big"):
            raise Refused(14)
        return self.keep(p, f["number"], payload), mended

    def keep(self, p, k, payload):
        there = self.slot(p, k)
        if there == payload:
            return "Repeat"
        if there:
            raise Refused(16)
        at = p["start"] + k * (p["slot"] + 2)
        self.store[at : at + 2 + len(payload)] = len(payload).to_bytes(2, "little") + payload
        return "Stored"

    def status(self, resource, kind):
        """The number of filled slots and the lowest empty one, or None."""
        _, p = self.find(resource, kind)
        slots = self.slots(p)
        return sum(1 for b in slots if b), next((k for k, b in enumerate(slots) if not b), None)

    def hand_out(self, resource, kind, length, room):
        """The file of that length, for an output of that room."""
        _, p = self.find(resource, kind)
        slots = self.slots(p)
        if p["order"] == COLUMNS:
            file = file_of_columns(slots, p["rows"], p["slot"], length)
        else:
            file = file_of_rows(slots, p["rows"] if p["protection"] else 0, length)
        if room < length:
            raise Refused(26)
        return file

    def close(self, resource, kind):
        i, _ = self.find(resource, kind)
        self.held[span(i)] = bytes(PLACE_LENGTH)


def file_of_rows(slots, m, length):
    """The file of that length out of what all slots hold; m is 0 without protection. Refusals 21 to 24."""
    if b"" in slots:
        raise Refused(21, slots.index(b""))
    sent = b"".join(slots)
    file = undo_tables(sent, m, length) if m else sent
    if length != len(file):
        raise Refused(23)
    return file


def file_of_columns(slots, m, size, length):
    """The file of that length out of what some slots hold; refusals 23, 22, 31, 32, 24."""
    total = coded_length(length, m)
    if not 1 <= length <= LIMIT or up(total, size) != len(slots):
        raise Refused(23)
    sizes = [min(size, total - k * size) for k in range(len(slots))]
    if any(payload and len(payload) != n for payload, n in zip(slots, sizes)):
        raise Refused(22)
    sent = b"".join(payload.ljust(n, b"\0") for payload, n in zip(slots, sizes))
    lacks = b"".join(bytes([not payload]) * n for payload, n in zip(slots, sizes))
    starts = [at + row for at in range(0, total, 255 * m) for row in range(m)]
    lost = [[c for c, gone in enumerate(lacks[at : at + 255 * m : m]) if gone] for at in starts]
    for k, places in enumerate(lost):
        if len(places) > 16:
            raise Refused(31, k)
    rows = [restored_row(sent[at : at + 255 * m : m], places) for at, places in zip(starts, lost)]
    return cut_padding(joined_tables(rows, m), length)


def undo_tables(sent, m, length):
    """The file of that length out of the joined rows; refusals 22, 23, 24."""
    rows = [sent[at : at + 255] for at in range(0, len(sent), 255)]
    if len(rows) % m:
        raise Refused(22)
    if up(length, 239 * m) != len(rows) // m:
        raise Refused(23)
    return cut_padding(joined_tables(rows, m), length)


def joined_tables(rows, m):
    """What stands in the information columns of all tables, down each column."""
    whole = bytearray()
    for t in range(len(rows) // m):
        for column in range(239):
            for row in range(m):
                whole.append(rows[t * m + row][column])
    return bytes(whole)


def cut_padding(whole, length):
    if any(whole[length:]):
        raise Refused(24)
    return whole[:length]


# ---- description files, document 02, R-4, and 001, section 7.2. An attribute a line, by the line's number: a text as its bytes, a number, a time as
# six numbers, or None where a number or a time is not given. Of the thirty numbers outside, each line has its share

NUMBERS_OF_LINE = {1: 1, 2: 1, 3: 1, 4: 1, 5: 2, 6: 1, 7: 2, 8: 2, 9: 2, 10: 1, 11: 2, 12: 1, 13: 6, 14: 6, 15: 1}
TEXTS, TIMES = (5, 7, 8, 9, 11), (13, 14)
RANGES = {1: range(9000, 10000), 2: range(2), 3: range(1, 65536), 4: range(16), 15: range(2)}
FILE_KINDS = {0, 1, 2, 3, 4, 21, 22, 23, 24, 41, 42, 43, 44, 61}
STREAM_KINDS = {128, 129, 130, 131}
TEXT_KIND, NO_CHARSET, NO_LENGTH, NO_TIME = 21, 255, 0, (0, 0, 0, 0, 0, 0)


def is_text(data):
    """Valid UTF-8 without CR or LF."""
    try:
        return not set("\r\n") & set(data.decode("utf-8"))
    except UnicodeDecodeError:
        return False


def is_real(time):
    """A Gregorian date of year 1 to 9999, and a time of day."""
    try:
        return bool(datetime.datetime(*time))
    except (ValueError, OverflowError):
        return False


def stands(k, a):
    """Whether attribute k can be what it is, beside those of the lines before it."""
    it = a[k]
    if k in TEXTS:
        return it is not None and is_text(it) and (k != 5 or it != b"")
    if k == 6:
        return it in (FILE_KINDS if a[2] else STREAM_KINDS)
    if k == 10:
        return it in range(5) if a[6] == TEXT_KIND else it is None
    if k == 12:
        return it in range(1, LIMIT + 1) if a[2] else it is None
    if k in TIMES:
        return it is None or is_real(it) and (k == 13 or a[13] is None or a[13] <= it)
    return it in RANGES[k]


def time_read(value):
    """A value that is no time gives one that is not real."""
    found = re.fullmatch(rb"([0-9]{4})\.([0-9]{2})\.([0-9]{2})/([0-9]{2}):([0-9]{2}):([0-9]{2})", value)
    return tuple(int(digits) for digits in found.groups()) if found else NO_TIME


def number_read(value):
    """A number as str writes it; -1, which stands nowhere, for what is none or has more than nine digits."""
    return int(value) if re.fullmatch(rb"[0-9]{1,9}", value) and str(int(value)).encode() == value else -1


def attribute_read(k, value):
    if k in TEXTS:
        return value
    if value == b"":
        return None
    return time_read(value) if k in TIMES else number_read(value)


def numbers_told(k, attribute, at):
    """The numbers of line k, whose value stands at that position."""
    if k in TEXTS:
        return at, len(attribute)
    if attribute is None:
        return {10: (NO_CHARSET,), 12: (NO_LENGTH,)}.get(k, NO_TIME)
    return attribute if k in TIMES else (attribute,)


def read_description(text):
    """The thirty numbers; refusals 29, 30."""
    at, a, told = 0, {}, []
    for k in NUMBERS_OF_LINE:
        line = re.compile(rb"%02d:([^\r\n]*)\r?\n" % k).match(text, at)
        if line:
            a[k] = attribute_read(k, line[1])
        if not line or not stands(k, a):
            raise Refused(29, k)
        told.extend(numbers_told(k, a[k], line.start(1)))
        at = line.end()
    if at < len(text):
        raise Refused(30)
    return told


def attribute_given(k, numbers, text):
    """The attribute of these numbers; None for a part that lies beyond the text, and as a text stands nowhere."""
    if k in TEXTS:
        at, length = numbers
        return text[at : at + length] if at + length <= len(text) else None
    if k in TIMES:
        return None if numbers == NO_TIME else numbers
    return None if numbers[0] == {10: NO_CHARSET, 12: NO_LENGTH}.get(k) else numbers[0]


def attribute_written(k, attribute):
    if k in TEXTS:
        return attribute
    if attribute is None:
        return b""
    return b"%04d.%02d.%02d/%02d:%02d:%02d" % attribute if k in TIMES else b"%d" % attribute


def write_description(values, text):
    """The description of thirty numbers whose texts are parts of this one; refusals 17, 29."""
    if len(values) != 30:
        raise Refused(17)
    left, a, lines = iter(values), {}, []
    for k, share in NUMBERS_OF_LINE.items():
        a[k] = attribute_given(k, tuple(itertools.islice(left, share)), bytes(text))
        if not stands(k, a):
            raise Refused(29, k)
        lines.append(b"%02d:%s\n" % (k, attribute_written(k, a[k])))
    return b"".join(lines)
