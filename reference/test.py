#!/usr/bin/env python3
"""The second program's own tests: published values of the CRC, of RS(255,239) and of UTF-8, the values of document 01, section 8, a second decoder
beside the first, files sent and handed out, descriptions read and written, every refusal by a case written by hand, and that compare sees a changed
byte. The last line says how many checks passed."""

import concurrent.futures, itertools, multiprocessing, os, pathlib, random, re, subprocess, sys, tempfile, zlib

import cases, random_cases
import receiver as r

HERE = pathlib.Path(__file__).resolve().parent
CHECKS = 0
RANDOM = random.Random(20)


def same(got, wanted):
    global CHECKS
    assert got == wanted, f"got {got!r}, wanted {wanted!r}"
    CHECKS += 1


def refused(number, value, call, *arguments):
    try:
        got = call(*arguments)
    except r.Refused as no:
        same((no.number, no.value), (number, value))
    else:
        assert False, f"got {got!r}, wanted refusal {number}"


def some(n):
    return bytes(RANDOM.randrange(256) for _ in range(n))


# ---- the CRC


def mirrored(n, bits):
    return int(f"{n:0{bits}b}"[::-1], 2)


def crc_by_mirror(data):
    """The standard library has the same CRC with every byte and the result mirrored."""
    return mirrored(zlib.crc32(bytes(mirrored(b, 8) for b in data)), 32)


def test_crc():
    same(r.crc32(b"123456789"), 0xFC891918)
    same(r.crc32(b""), 0)
    same(r.crc32(b"\xff"), 0x000000FF)
    same(r.crc32(b"\xff" * 4), 0xFFFFFFFF)
    for n in list(range(1, 40)) + [255, 4091]:
        data = some(n)
        same(r.crc32(data), crc_by_mirror(data))
    # a packet with its CRC behind it leaves the same rest whatever it was
    same({r.crc32(d + r.crc32(d).to_bytes(4, "big")) for d in map(some, range(20))}, {0x38FB2284})


# ---- the field and the generator


def product_of_numbers(a, b):
    """First the product without carries, then the rest by 100011101, from the top down."""
    total = 0
    for k in range(8):
        total ^= (a << k) * (b >> k & 1)
    for k in range(14, 7, -1):
        total ^= (0b100011101 << k - 8) * (total >> k & 1)
    return total


def test_field():
    same(all(r.MUL[a][b] == product_of_numbers(a, b) for a in range(256) for b in range(256)), True)
    same((r.ALPHA[8], r.ALPHA[16], r.MUL[3][59]), (29, 76, 77))
    same(sorted(r.ALPHA), list(range(1, 256)))
    same(r.product(r.ALPHA[254], 2), 1)
    same(all(r.MUL[a][r.INVERSE[a]] == 1 for a in range(1, 256)), True)


def test_generator():
    by_roots = [1]
    for root in r.ALPHA[:16]:
        by_roots = r.times(by_roots, [1, root])
    same(by_roots, r.GENERATOR)


# ---- rows

CASE_5 = bytes(238) + bytes([1]) + bytes([59, 13, 104, 189, 68, 209, 30, 8, 163, 65, 41, 229, 98, 50, 36, 59])


def test_checks():
    same(r.encode_row(bytes(239)), bytes(16))
    same(r.encode_row(CASE_5[:239]), CASE_5[239:])
    same(r.encode_row(bytes(238) + b"\2"), bytes([118, 26, 208, 103, 136, 191, 60, 16, 91, 130, 82, 215, 196, 100, 72, 118]))
    for _ in range(20):
        info = some(239)
        row = info + r.encode_row(info)
        same([r.value(row, root) for root in r.ALPHA[:16]], [0] * 16)
        same(r.divide(list(row), r.GENERATOR)[1], [])
    for n in (0, 238, 240, 255):
        refused(1, 0, r.encode_row, bytes(n))


def test_seventeen():
    """Case 5's row with eight and with nine of its seventeen nonzero bytes set to 0."""
    for _ in range(20):
        places = RANDOM.sample(range(238, 255), 9)
        row = bytearray(CASE_5)
        for i in places[:8]:
            row[i] = 0
        same(r.repair_row(row), (CASE_5, 8))
        row[places[8]] = 0
        same(r.repair_row(row), (bytes(255), 8))


# ---- a second decoder: Peterson, Gorenstein and Zierler's, by elimination


def solve(matrix, right):
    """The one solution of a square system, or None."""
    n, m = len(matrix), [list(line) + [b] for line, b in zip(matrix, right)]
    for k in range(n):
        pivot = next((i for i in range(k, n) if m[i][k]), None)
        if pivot is None:
            return None
        m[k], m[pivot] = m[pivot], m[k]
        m[k] = [r.MUL[r.INVERSE[m[k][k]]][x] for x in m[k]]
        for i in range(n):
            if i != k and m[i][k]:
                m[i] = [x ^ r.MUL[m[i][k]][y] for x, y in zip(m[i], m[k])]
    return [line[-1] for line in m]


def sums(row):
    """The row's value at each root, term by term."""
    out = []
    for j in range(16):
        total = 0
        for i, c in enumerate(row):
            total ^= r.MUL[c][r.ALPHA[j * (254 - i) % 255]]
        out.append(total)
    return out


def second_repair(row):
    """The coded row within eight bytes, or None."""
    s = sums(row)
    if not any(s):
        return bytes(row)
    for v in range(8, 0, -1):
        backward = solve([s[i : i + v] for i in range(v)], s[v : 2 * v])
        if backward is not None:
            return place_and_mend(row, s, v, backward)
    return None


def place_and_mend(row, s, v, backward):
    """The locator's coefficients give v wrong places, these the wrong values; judged by all sixteen sums."""
    places = [i for i in range(255) if r.value(backward + [1], r.INVERSE[r.ALPHA[254 - i]]) == 0]
    if len(places) != v:
        return None
    wrong = solve([[r.ALPHA[j * (254 - i) % 255] for i in places] for j in range(v)], s[:v])
    fixed = bytearray(row)
    for i, e in zip(places, wrong):
        fixed[i] ^= e
    return bytes(fixed) if not any(sums(fixed)) else None


def both_repair(row, *wanted):
    """Both decoders say the same, and what was to come: a row and how much of it was mended."""
    second = second_repair(row)
    if second is None:
        refused(13, 0, r.repair_row, row)
    else:
        same(r.repair_row(row), (second, sum(1 for a, b in zip(row, second) if a ^ b)))
    if wanted:
        same(r.repair_row(row), wanted)


def altered(row, places):
    row = bytearray(row)
    for i in places:
        row[i] ^= 1 + RANDOM.randrange(255)
    return bytes(row)


def coded_row():
    info = some(239)
    return info + r.encode_row(info)


def test_repair_up_to_eight():
    for wrong in range(9):
        for places in [RANDOM.sample(range(255), wrong) for _ in range(6)] + [range(wrong), range(255 - wrong, 255), range(235, 235 + wrong)]:
            row = coded_row()
            both_repair(altered(row, places), row, wrong)


def test_repair_beyond():
    """Rows with more wrong bytes, random rows, rows between two coded rows."""
    for wrong in (9, 9, 9, 10, 11, 12, 16, 17, 40):
        for _ in range(5):
            both_repair(altered(coded_row(), RANDOM.sample(range(255), wrong)))
    for _ in range(20):
        both_repair(some(255))
    for _ in range(20):
        between_two()


def between_two():
    """Two coded rows that differ in seventeen bytes, the rows on a way from the one to the other, and one that is nine from both."""
    row, by = coded_row(), 1 + RANDOM.randrange(255)
    shift = RANDOM.randrange(239)
    other = bytes(a ^ r.MUL[by][b] for a, b in zip(row, CASE_5[shift:] + CASE_5[:shift]))
    apart = [i for i in range(255) if row[i] != other[i]]
    same(len(apart), 17)
    RANDOM.shuffle(apart)
    mixed = bytearray(row)
    for k, i in enumerate(apart, 1):
        mixed[i] = other[i]
        both_repair(mixed, *((row, k) if k <= 8 else (other, 17 - k)))
    for i in apart[9:]:
        mixed[i] = row[i]
    mixed[apart[8]] = next(b for b in range(256) if b not in (row[apart[8]], other[apart[8]]))
    both_repair(mixed)
    for n in (0, 254, 256):
        refused(1, 0, r.repair_row, bytes(n))


# ---- how much was mended, document 02, R-7


def test_mended_in_a_row():
    """Any number of places, in the information, in the checks or in both; bits and values do not matter."""
    for wrong in range(9):
        for part in (range(239), range(239, 255), range(255)):
            row = coded_row()
            places = RANDOM.sample(part, wrong)
            same(r.repair_row(altered(row, places)), (row, wrong))
            flipped = bytearray(row)
            for i in places:
                flipped[i] ^= 255
            same(r.repair_row(flipped), (row, wrong))


def test_mended_in_rows():
    """The sum over the rows, each of which may have any number; a row beyond repair leaves none to tell."""
    for rows in (1, 2, 3, 15):
        for wrong in ([8] * rows, [0] * (rows - 1) + [5], [5] + [0] * (rows - 1), [RANDOM.randrange(9) for _ in range(rows)]):
            sound = [coded_row() for _ in range(rows)]
            came = [altered(row, RANDOM.sample(range(255), k)) for row, k in zip(sound, wrong)]
            same(r.repair_rows(b"".join(came)), (b"".join(sound), sum(wrong)))
        refused(13, rows - 1, r.repair_rows, b"".join(came[:-1]) + cases.generated(3, 255))


def spoilt(packet, wrong):
    """So many bytes altered in each of its rows."""
    rows = [altered(packet[14 + 255 * k : 269 + 255 * k], RANDOM.sample(range(255), n)) for k, n in enumerate(wrong)]
    return packet[:14] + b"".join(rows) + packet[-4:]


def test_mended_in_a_packet():
    """Each copy tells its own sum, whether it is stored or not; a refusal tells none, and leaves none behind."""
    s = settings(9, 2, 1, 1, 15, 3825)
    one, two = packets_of(s, some(2 * 239 * 15))
    other, _ = packets_of(s, some(2 * 239 * 15))
    record = r.Receiver(bytearray(r.RECORD_LENGTH), bytearray(8000))
    record.open(s, 2)
    refused(14, 0, record.offer, altered(spoilt(one, [8] * 15), [3842]))
    refused(13, 14, record.offer, spoilt(one, [8] * 14 + [12]))
    same(record.offer(spoilt(one, [8] * 15)), ("Stored", 120))
    for wrong in ([0] * 15, [0] * 14 + [1], [7] + [0] * 14, list(range(8, 0, -1)) + list(range(7)), [1] * 15):
        same(record.offer(spoilt(one, wrong)), ("Repeat", sum(wrong)))
        refused(16, 0, record.offer, spoilt(other, wrong))
    same([record.offer(two), record.offer(spoilt(two, [8] * 15))], [("Stored", 0), ("Repeat", 120)])
    record.store[1] = 255
    refused(15, 0, record.offer, spoilt(one, [8] * 15))


def test_mended_without_protection():
    """Also where the payload is a row that could be mended."""
    s = settings(9, 1, 1, 0, 0, 255)
    record = r.Receiver(bytearray(r.RECORD_LENGTH), bytearray(257))
    record.open(s, 1)
    row = altered(coded_row(), range(8))
    same([record.offer(packets_of(s, row)[0]) for _ in range(2)], [("Stored", 0), ("Repeat", 0)])
    same(record.hand_out(9, 1, 255, 255), row)


# ---- headers and packing


def settings(resource, kind, update, protection, rows, size, edition=2, order=0):
    return {"resource": resource, "type": kind, "update": update, "protection": protection, "rows": rows, "size": size, "edition": edition, "order": order}


def test_headers():
    nine = r.Packer(b"\7").packet(settings(5, 1, 3, 0, 0, 1), 0, 19)
    same(nine[:14].hex(" "), "49 59 69 00 05 00 00 03 01 30 00 01 40 00")
    ten = r.Packer(some(239 * 3)).packet(settings(0x1234, 2, 15, 1, 32, 255), 2, 4095)
    same(ten[:14].hex(" "), "49 59 69 12 34 00 00 2f 11 10 00 20 92 00")
    fields = {"resource": 0x1234, "number": 2, "update": 15, "length": 273, "count": 3, "type": 2, "protection": 1, "rows": 32, "reserved": 0, "edition": 2}
    head = r.header_of({**fields, "mark": r.MARK})
    same(head.hex(" "), "49 59 69 12 34 00 00 2f 11 10 00 03 92 00")
    read = r.read_fields(head + bytes(259))
    same({k: read[k] for k in r.TEN}, fields)
    refused(6, 0, r.read_fields, r.header_of({**fields, "mark": r.MARK, "number": 3}) + bytes(259))


# ---- editions, document 02, R-9

ODD_EDITIONS = (0, 3, 4, 255, 256, 257, 258, 65535)


def edition_by_words(protection, rows, reserved):
    """As the request says it, sentence by sentence."""
    if reserved == 15 and (rows == 255 or protection == 1):
        return 1
    if reserved == 0 and (rows == 0 or protection == 1):
        return 2
    return 0


def test_editions_read():
    """Every M and every value of the reserved bits, with protection and without, of files, descriptions and streams."""
    fields = {"mark": r.MARK, "resource": 5, "number": 0, "update": 3, "length": 273}
    for kind, protection, rows in itertools.product(range(3), range(2), range(256)):
        if protection and not rows:
            continue
        told = []
        for reserved in range(16):
            head = r.header_of({**fields, "count": kind != 0, "type": kind, "protection": protection, "rows": rows, "reserved": reserved})
            told.append(r.read_fields(head + bytes(259)))
        same([(f["edition"], f["rows"], f["reserved"]) for f in told], [(edition_by_words(protection, rows, n), rows, n) for n in range(16)])


def test_editions_packed():
    """The two editions of a packet differ in the spare bits and in the CRC alone; without protection M counts for nothing."""
    nine = r.Packer(b"\7").packet(settings(5, 1, 3, 0, 7, 1, 1), 0, 19)
    same(nine[:14].hex(" "), "49 59 69 00 05 00 00 03 01 30 00 01 4f ff")
    ten = r.Packer(some(239 * 3)).packet(settings(0x1234, 2, 15, 1, 32, 255, 1), 2, 4095)
    same(ten[:14].hex(" "), "49 59 69 12 34 00 00 2f 11 10 00 20 92 0f")
    for s, spare in ((settings(9, 1, 1, 0, 0, 50), "0fff"), (settings(9, 1, 1, 0, 255, 50), "0fff"), (settings(9, 2, 1, 1, 3, 510), "000f"), (settings(9, 2, 1, 1, 255, 255), "000f")):
        file = some(300)
        for one, two in zip(packets_of({**s, "edition": 1}, file), packets_of(s, file)):
            same(bytes(a ^ b for a, b in zip(one[:-4], two[:-4])).hex(), "00" * 12 + spare + "00" * (len(two) - 18))
            same([crc_by_mirror(p[:-4]) == int.from_bytes(p[-4:], "big") for p in (one, two)], [True, True])
            same([r.read_fields(p)["edition"] for p in (one, two)], [1, 2])
    same(r.house(9, 1, 2)["edition"], 2)
    for edition in ODD_EDITIONS:
        refused(17, 0, r.Packer(b"").packet, settings(9, 1, 1, 0, 0, 50, edition), 9, 0)


def test_editions_held():
    """An unprotected place holds M 0 in either edition; a place in use with no edition spoils the record for every call, an unused one does not."""
    same((r.PLACE_LENGTH, r.RECORD_LENGTH), (20, 160))
    for edition, rows in itertools.product((1, 2), (0, 7, 255)):
        record = r.Receiver(bytearray(160), bytearray(20))
        record.open(settings(9, 1, 1, 0, rows, 8, edition), 1)
        same(r.place_at(record.held, 0), {"resource": 9, "type": 1, "update": 1, "count": 1, "protection": 0, "rows": 0, "slot": 8, "start": 0, "edition": edition, "order": 0})
        same(record.held[16:20], bytes([edition, 0, 0, 0]))
    for edition in ODD_EDITIONS:
        refused(17, 0, record.open, settings(9, 1, 1, 0, 0, 8, edition), 1)
        refused(17, 0, record.open, settings(10, 1, 1, 0, 0, 8, edition), 100)
    for i, edition in itertools.product(range(8), ODD_EDITIONS):
        held = bytearray(160)
        held[r.span(i)] = r.bytes_of({**r.place_at(record.held, 0), "edition": edition})
        bad, unused = r.Receiver(held, bytearray(20)), r.Receiver(bytearray(held), bytearray(20))
        for call, *arguments in ((bad.status, 9, 1), (bad.hand_out, 9, 1, 1, 1), (bad.close, 9, 1), (bad.offer, b""), (bad.open, settings(0, 1, 1, 0, 0, 8), 1)):
            refused(9, 0, call, *arguments)
        unused.held[20 * i] = 0
        refused(10, 0, unused.status, 9, 1)


def in_spare(packet, rows, reserved):
    """The packet with these reserved bits and, without protection, this M, under its CRC."""
    f = r.fields_of(packet)
    head = r.header_of({**f, "rows": f["rows"] if f["protection"] else rows, "reserved": reserved}) + packet[14:-4]
    return head + r.crc32(head).to_bytes(4, "big")


def test_editions_offered():
    """A place takes its own edition only: each value of the spare bits, at a place of each edition, with protection and without; nothing else changes."""
    for s in (settings(9, 1, 1, 0, 0, 8), settings(9, 1, 1, 1, 2, 255)):
        packet = packets_of(s, b"12345678")[0]
        count = r.fields_of(packet)["count"]
        for edition, rows, reserved in itertools.product((1, 2), (0, 1, 15, 240, 254, 255), range(16)):
            record = r.Receiver(bytearray(160), bytearray(600))
            record.open({**s, "edition": edition}, count)
            offered = in_spare(packet, rows, reserved)
            if edition_by_words(s["protection"], rows, reserved) == edition:
                same([record.offer(offered)[0] for _ in range(2)], ["Stored", "Repeat"])
                continue
            before = bytes(record.held), bytes(record.store)
            refused(33, 0, record.offer, offered)
            same((bytes(record.held), bytes(record.store)), before)


def test_edition_in_order():
    """33 straight after 11, and before 12 to 16, whichever of the two is of edition 1."""
    for edition in (1, 2):
        s, other = settings(9, 1, 1, 1, 1, 255, edition), settings(9, 1, 1, 1, 1, 255, 3 - edition)
        record, file = r.Receiver(bytearray(160), bytearray(600)), some(239)
        record.open(s, 1)
        own, (packet,) = packets_of(s, file)[0], packets_of(other, file)
        refused(9, 0, r.Receiver(bytearray(128), bytearray(600)).offer, packet)
        refused(3, 0, record.offer, packet[:-1])
        refused(10, 0, record.offer, packets_of({**other, "type": 2}, file)[0])
        for name, n in (("update", 2), ("rows", 255)):
            refused(11, 0, record.offer, packets_of({**other, name: n, "size": 3825}, file)[0])
        refused(11, 0, record.offer, packets_of(settings(9, 1, 1, 0, 0, 300, 3 - edition), file)[0])
        refused(11, 0, record.offer, packets_of(other, some(500))[0])
        refused(33, 0, record.offer, packet)
        wide = r.header_of({**r.fields_of(packet), "length": 528}) + packet[14:-4] * 2 + packet[-4:]
        refused(33, 0, record.offer, wide)
        refused(33, 0, record.offer, altered(packet, range(14, 269, 5)))
        refused(33, 0, record.offer, altered(packet, [272]))
        record.store[0] = 9
        refused(33, 0, record.offer, packet)
        record.store[0] = 0
        same(record.offer(own), ("Stored", 0))
        refused(33, 0, record.offer, packet)
        refused(33, 0, record.offer, packets_of(other, some(239))[0])
        refused(16, 0, record.offer, packets_of(s, some(239))[0])


# ---- column order, document 02, R-8

ODD_ORDERS = (2, 3, 255, 256, 257, 65535)


def sent_by_words(file, m):
    """As the request says it: table byte j is row j mod M, column j div M; a row is its information and behind it its checks."""
    out = bytearray()
    for t in range(-(-len(file) // (239 * m))):
        part = file[t * 239 * m : (t + 1) * 239 * m].ljust(239 * m, b"\0")
        rows = [bytes(part[c * m + k] for c in range(239)) for k in range(m)]
        rows = [row + r.encode_row(row) for row in rows]
        out += bytes(rows[j % m][j // m] for j in range(255 * m))
    return bytes(out)


def test_columns_packed():
    """Packets carry the tables column by column; the header is that of a row packet, with a count of its own."""
    for m, size, length in ((1, 1, 5), (2, 2, 470), (2, 16, 478), (3, 7, 1500), (2, 255, 479), (2, 510, 900), (32, 4077, 7649), (255, 4077, 3)):
        file, s = some(length), settings(0x1234, 2, 15, 1, m, size, order=1)
        sent = sent_by_words(file, m)
        same(r.coded_file(file, m, r.COLUMNS), sent)
        same(r.Packer(file).packet(s, 0, 4095)[14:-4], sent[:size])
        packer, count = r.Packer(file), -(-len(sent) // size)
        same(b"".join(packer.packet(s, n, 4095)[14:-4] for n in range(count)), sent)
        for n in {0, count // 2, count - 1}:
            packet, part = packer.packet(s, n, 4095), sent[n * size : (n + 1) * size]
            same((len(packet), packet[14:-4], crc_by_mirror(packet[:-4])), (18 + len(part), part, int.from_bytes(packet[-4:], "big")))
            fields = {"resource": 0x1234, "number": n, "update": 15, "length": len(packet), "count": count, "type": 2, "protection": 1, "rows": m, "reserved": 0, "edition": 2}
            same({k: r.read_header(packet)[k] for k in r.TEN}, fields)
            if len(part) % 255:
                refused(7, 0, r.read_fields, packet)
            else:
                same(r.read_fields(packet), r.read_header(packet))
            same(packer.packet({**s, "edition": 1}, n, 4095)[:14], packet[:13] + bytes([packet[13] | 15]))
        refused(6, 0, packer.packet, s, count, 4095)
        refused(26, 0, packer.packet, s, 0, 17 + min(size, len(sent)))
    same((r.house(9, 1, 2)["order"], r.ROWS, r.COLUMNS), (0, 0, 1))


def test_columns_range():
    """The order and the size in packing, in opening and in a place; columns only with protection."""
    file, big = b"1", bytes(982769)
    for order, protection, size in itertools.product((0, 1, *ODD_ORDERS), (0, 1, 2), (0, 1, 254, 255, 256, 510, 3825, 4077, 4078, 4080, 65535)):
        fits = protection == 0 and order == 0 and 1 <= size <= 4077 or protection == 1 and (order == 0 and size in (255, 510, 3825) or order == 1 and 1 <= size <= 4077)
        s = settings(9, 1, 1, protection, 2, size, 2, order)
        record = r.Receiver(bytearray(160), bytearray(4079))
        held = bytearray(160)
        held[20:40] = b"".join(n.to_bytes(w, "little") for n, w in ((9, 2), (1, 1), (1, 1), (1, 4), (protection, 1), (2 * (protection == 1), 1), (size, 2), (0, 4), (2, 2), (order, 2)))
        if fits:
            r.Packer(file).packet(s, 0, 4095)
            record.open(s, 1)
            same(record.held[:20], held[20:40])
            same(r.Receiver(held, bytearray(4079)).status(9, 1), (0, 0))
            record.close(9, 1)
            same(record.held, bytes(160))
        else:
            refused(17, 0, r.Packer(b"").packet, s, 9, 0)
            refused(17, 0, record.open, s, 1)
            bad = r.Receiver(held, bytearray(4079))
            for call, *arguments in ((bad.status, 9, 1), (bad.hand_out, 9, 1, 1, 1), (bad.close, 9, 1), (bad.offer, b""), (bad.open, settings(0, 1, 1, 0, 0, 8), 1)):
                refused(9, 0, call, *arguments)
            held[20:22] = b"\0\0"
            refused(10, 0, bad.status, 9, 1)
    s = settings(9, 1, 1, 1, 1, 1, order=1)
    refused(25, 0, r.Packer(big).packet, s, 0, 0)
    same(len(r.Packer(big[1:]).packet(s, 1048559, 19)), 19)
    refused(6, 0, r.Packer(big[1:]).packet, s, 1048560, 19)
    refused(23, 0, r.Packer(b"").packet, s, 0, 0)


def test_header_read():
    """The reader without Rows refuses what the other does, but that; any payload of a protected packet passes."""
    fields = {"mark": r.MARK, "resource": 5, "number": 0, "update": 3, "count": 1, "type": 1, "protection": 1, "rows": 2, "reserved": 0}
    for length in (19, 20, 272, 273, 274, 528, 4095):
        packet = r.header_of({**fields, "length": length}) + bytes(length - 14)
        same(r.read_header(packet)["length"], length)
        for name, n, number in (("resource", 0, 8), ("count", 0, 6), ("number", 1, 6), ("rows", 0, 5), ("protection", 2, 5), ("type", 3, 4), ("length", length - 1, 3), ("mark", 1, 2)):
            bad = r.header_of({**fields, "length": length, name: n}) + bytes(length - 14)
            refused(number, 0, r.read_header, bad)
            refused(7 if number == 8 and length not in (273, 528) else number, 0, r.read_fields, bad)
        refused(1, 0, r.read_header, packet[:18])


def row_by_places(row, lost):
    """A second way to restore: the lost bytes are wrong by what sixteen sums say of them, and all sixteen have to agree. None where they do not."""
    fixed = bytearray(row)
    for i in lost:
        fixed[i] = 0
    s, powers = sums(fixed), [[r.ALPHA[j * (254 - i) % 255] for i in lost] for j in range(16)]
    for i, byte in zip(lost, solve(powers[: len(lost)], s[: len(lost)]) if lost else []):
        fixed[i] = byte
    return bytes(fixed) if not any(sums(fixed)) else None


def both_restore(row, lost, *wanted):
    second = row_by_places(row, lost)
    if second is None:
        refused(32, 0, r.restored_row, row, lost)
    else:
        same(r.restored_row(row, lost), second)
    if wanted:
        same((second, *wanted), (*wanted, second))


def test_restored_rows():
    """Up to sixteen losses anywhere; what stood in the lost places does not count. A wrong byte beside at most fifteen is always seen, beside sixteen never."""
    for number in range(17):
        for lost in [sorted(RANDOM.sample(range(255), number)) for _ in range(4)] + [list(range(number)), list(range(255 - number, 255)), list(range(231, 231 + number))]:
            row = coded_row()
            both_restore(altered(row, lost), lost, row)
            known = RANDOM.choice([i for i in range(255) if i not in lost])
            wrong = altered(row, [known])
            both_restore(wrong, lost)
            if number < 16:
                refused(32, 0, r.restored_row, wrong, lost)
            else:
                fixed = r.restored_row(wrong, lost)
                same(([i for i in range(255) if fixed[i] != row[i]] == sorted(lost + [known]), r.rest_of(fixed)), (True, [0] * 16))
    for _ in range(10):
        both_restore(some(255), sorted(RANDOM.sample(range(255), 16)))
        both_restore(some(255), sorted(RANDOM.sample(range(255), RANDOM.randrange(16))))


def in_columns(m, size, length, edition=2):
    """Settings, a file, its packets, and a record in which all of them were offered, in any order and twice."""
    s, file = settings(9, 1, 1, 1, m, size, edition, 1), some(length)
    packer, count = r.Packer(file), -(-len(sent_by_words(bytes(length), m)) // size)
    packets = [packer.packet(s, n, 4095) for n in range(count)]
    record = r.Receiver(bytearray(160), bytearray(b"\xee" * (count * (size + 2) + 3)))
    record.open(s, count)
    for n in RANDOM.sample(range(count), count):
        same([record.offer(packets[n]), record.offer(packets[n])], [("Stored", 0), ("Repeat", 0)])
    same(record.status(9, 1), (count, None))
    return s, file, packets, record


def empty(record, size, *slots):
    """The slots of the place at 0 as they are before anything comes; what they held stays behind."""
    for k in slots:
        record.store[k * (size + 2) : k * (size + 2) + 2] = b"\0\0"


def losses(m, size, count, slots):
    """How many bytes each row lacks, by counting each byte of the slots."""
    lacks = [0] * (-(-(count * size) // (255 * m)) * m)
    for k in slots:
        for i in range(k * size, (k + 1) * size):
            lacks[i // (255 * m) * m + i % m] += 1
    return lacks


def test_columns_restored():
    """Slots emptied one after the other, at random and at the ends: the file as long as no row lacks more than sixteen bytes, else the first row that does."""
    for m, size, length, edition in ((1, 1, 239, 2), (2, 2, 470, 1), (2, 16, 478, 2), (3, 7, 1500, 2), (3, 5, 700, 1), (32, 255, 7000, 2), (32, 100, 7649, 2), (255, 4077, 60000, 2)):
        s, file, packets, record = in_columns(m, size, length, edition)
        count, whole = len(packets), bytes(record.store)
        for order in (list(range(count)), list(range(count))[::-1], RANDOM.sample(range(count), count)):
            record.store[:] = whole
            same(record.hand_out(9, 1, length, length), file)
            for done in range(1, 40):
                empty(record, size, order[done - 1])
                rows = 255 * m * -(-length // (239 * m)) // 255
                short = [k for k, n in enumerate(losses(m, size, count, order[:done])[:rows]) if n > 16]
                if short:
                    refused(31, short[0], record.hand_out, 9, 1, length, 0)
                    break
                same(record.hand_out(9, 1, length, length), file)
            same((record.status(9, 1)[0], record.status(9, 1)[1]), (count - done, min(order[:done])))
            for n in order[:done]:
                same(record.offer(packets[n]), ("Stored", 0))
            same(bytes(record.store) == whole, True)


def test_columns_refused():
    """Each refusal of hand out before each that comes behind it; nothing is written."""
    s, file, packets, record = in_columns(2, 16, 470)
    whole = bytes(record.store)

    def hand(number, value, length=470, room=470, **slots):
        record.store[:] = whole
        for name, n in slots.items():
            at = 18 * int(name[1:])
            record.store[at : at + 2] = n.to_bytes(2, "little") if n >= 0 else record.store[at : at + 2]
            record.store[at + 2] ^= n < 0
        before = bytes(record.store)
        refused(number, value, record.hand_out, 9, 1, length, room)
        same(bytes(record.store) == before, True)

    wrong, lost, short = {"_4": -1}, {"_7": 0, "_8": 0, "_9": 0}, {"_12": 15}
    hand(15, 0, 0, 0, _3=17, **short)
    for length in (0, 479, 16777216, 16777217, 1 << 63):
        hand(23, 0, length, 0, **short, **lost)
    hand(22, 0, 469, 0, **short, **lost, **wrong)
    for n in (1, 13, 15, 16):
        hand(22, 0, 470, 470, _31=n)
    hand(31, 0, 469, 0, **lost, **wrong)
    hand(32, 0, 469, 0, **wrong)
    hand(24, 0, 469, 0, _29=0)
    hand(24, 0, 469, 0)
    hand(26, 0, 470, 469, _29=0, _31=0)
    same(record.hand_out(9, 1, 470, 470), file)
    same(record.hand_out(9, 1, 478, 478), file + bytes(8))
    refused(10, 0, record.hand_out, 9, 2, 470, 470)
    record.held[18] = 2
    refused(9, 0, record.hand_out, 9, 2, 470, 470)


def test_columns_refused_over_rows():
    """31 of a later row comes before 32 of an earlier one. A length out of its range is 23 also where it would give the count, which no store has room for."""
    s, file, packets, record = in_columns(2, 1, 470)
    record.store[3 * 100 + 2] ^= 1
    refused(32, 0, record.hand_out, 9, 1, 470, 470)
    empty(record, 1, *range(1, 35, 2))
    refused(31, 1, record.hand_out, 9, 1, 470, 470)
    empty(record, 1, *range(0, 34, 2))
    refused(31, 0, record.hand_out, 9, 1, 470, 470)
    refused(31, 0, r.file_of_columns, [b""] * 4402, 255, 4077, r.LIMIT)
    refused(23, 0, r.file_of_columns, [b""] * 4402, 255, 4077, r.LIMIT + 1)
    refused(23, 0, r.file_of_columns, [], 255, 4077, 0)


def test_columns_wrong():
    """Any one byte of the store's payloads altered is 32 where its row lacks at most fifteen bytes, and never where it lacks sixteen."""
    s, file, packets, record = in_columns(2, 2, 470)
    whole = bytes(record.store)
    for number in (0, 1, 15, 16):
        for _ in range(10):
            gone = RANDOM.sample(range(255), number + 1)
            k = gone.pop()
            record.store[:] = whole
            empty(record, 2, *gone)
            record.store[4 * k + 2 + RANDOM.randrange(2)] ^= 1 + RANDOM.randrange(255)
            if number < 16:
                refused(32, 0, record.hand_out, 9, 1, 470, 470)
                refused(32, 0, record.hand_out, 9, 1, 469, 0)
                continue
            try:
                out = record.hand_out(9, 1, 470, 470)
                same((len(out), out != file or min(gone + [k]) >= 239), (470, True))
            except r.Refused as no:
                same(no.number, 24)


def test_columns_offered():
    """No repair in column order: any altered byte is 14. Slot judges S alone; the order of the refusals stands."""
    for size in (16, 255, 510):
        s, file, packets, record = in_columns(2, size, 470)
        other = r.Packer(some(470)).packet(s, 0, 4095)
        empty(record, size, 0)
        before = bytes(record.store)
        for i in range(14, len(packets[0])):
            refused(14, 0, record.offer, altered(packets[0], [i]))
        record.store[0:2] = (size + 1).to_bytes(2, "little")
        refused(15, 0, record.offer, packets[0])
        refused(14, 0, record.offer, altered(packets[0], [20]))
        refused(15, 0, record.status, 9, 1)
        for n in (1, 5, size - 1):
            record.store[0:2] = n.to_bytes(2, "little")
            refused(16, 0, record.offer, packets[0])
            same(record.status(9, 1), (len(packets), None))
        record.store[0:2] = b"\0\0"
        same(bytes(record.store) == before, True)
        same(record.offer(packets[0]), ("Stored", 0))
        refused(16, 0, record.offer, other)
        f = r.fields_of(packets[0])
        wide = r.header_of({**f, "length": f["length"] + 1}) + packets[0][14:] + b"\0"
        refused(12, 0, record.offer, wide)
        refused(33, 0, record.offer, in_spare(wide, 0, 15))
        refused(11, 0, record.offer, r.header_of({**f, "length": f["length"] + 1, "rows": 3, "reserved": 15}) + packets[0][14:] + b"\0")


def test_rows_passed_over():
    """By the packet's own resource and type alone: for each of file and description a place in columns, in rows, without protection or none."""
    ways = {"columns": settings(9, 1, 1, 1, 2, 16, 2, 1), "rows": settings(9, 1, 1, 1, 2, 255), "plain": settings(9, 1, 1, 0, 0, 16)}
    packet = r.Packer(some(470)).packet(ways["columns"], 0, 4095)
    f = r.fields_of(packet)
    for first, second in itertools.product([*ways, None], repeat=2):
        record = r.Receiver(bytearray(160), bytearray(20000))
        for kind, way in ((1, first), (2, second)):
            if way:
                record.open({**ways[way], "type": kind}, 32)
        for kind, way in ((1, first), (2, second)):
            named = r.header_of({**f, "type": kind}) + packet[14:-4]
            named += r.crc32(named).to_bytes(4, "big")
            if way != "columns":
                refused(7, 0, record.offer, named)
                continue
            same(record.offer(named), ("Stored", 0))
            for name, n, number in (("update", 2, 11), ("count", 33, 11), ("rows", 3, 11), ("reserved", 15, 33), ("reserved", 1, 33), ("rows", 0, 5), ("number", 32, 6), ("type", 3, 4), ("length", 9, 3), ("mark", 3, 2)):
                refused(number, 0, record.offer, r.header_of({**f, "type": kind, name: n}) + packet[14:])
        refused(7, 0, record.offer, r.header_of({**f, "resource": 0}) + packet[14:])
        refused(7, 0, record.offer, r.header_of({**f, "resource": 10}) + packet[14:])
        refused(7, 0, record.offer, r.header_of({**f, "type": 0, "count": 0}) + packet[14:])


def test_tables():
    coded = r.coded_file(bytes([10, 11, 12, 13, 14]), 2)
    same((list(coded[:4]), list(coded[255:259])), ([10, 12, 14, 0], [11, 13, 0, 0]))
    for length, m in ((1, 1), (239, 1), (240, 1), (1000, 3), (2000, 4)):
        file = some(length)
        coded = r.coded_file(file, m)
        same(len(coded), 255 * m * -(-length // (239 * m)))
        for i in range(length):
            t, c, row = i // (239 * m), i // m % 239, i % m
            assert coded[(t * m + row) * 255 + c] == file[i]


def count_sent(length, m, size):
    return r.fields_of(r.Packer(bytes(length)).packet(settings(1, 1, 0, 1, m, size), 0, 4095))["count"]


def test_counts():
    same([count_sent(7648, 32, 255), count_sent(7649, 32, 255), count_sent(7648, 32, 3825)], [32, 64, 3])


def test_house():
    """Fifteen rows a packet and M still 32, in packing and in opening; what mixes it with one row a packet is Other, or Wide where the count agrees and the
    payload is longer than 255 bytes."""
    new, old = r.house(7, 1, 2), settings(7, 1, 2, 1, 32, 255)
    same(new, {**old, "size": 3825})
    file = some(7000)
    first = {size: packets_of(s, file)[0] for size, s in ((255, old), (3825, new))}
    last = packets_of(new, some(61184))[-1]
    for size, count, packet, number in ((255, 32, first[255], 0), (3825, 3, first[3825], 0), (255, 32, first[3825], 11), (3825, 3, first[255], 11), (255, 3, first[3825], 12),
                                        (3825, 32, first[255], 0), (255, 18, last, 0)):
        record = r.Receiver(bytearray(r.RECORD_LENGTH), bytearray(count * (size + 2)))
        record.open({**new, "size": size}, count)
        if number:
            refused(number, 0, record.offer, packet)
        else:
            same(record.offer(packet), ("Stored", 0))


def test_packets_joined():
    """Packets carry the coded file in order, each but the last full, under a CRC of their own."""
    for s in (settings(7, 1, 0, 0, 0, 100), settings(7, 1, 0, 0, 9, 4077), settings(7, 2, 1, 1, 3, 510), settings(7, 1, 2, 1, 32, 255), r.house(7, 1, 2)):
        file = some(5000)
        packer = r.Packer(file)
        first = r.read_fields(packer.packet(s, 0, 4095))
        packets = [packer.packet(s, n, 4095) for n in range(first["count"])]
        same(b"".join(p[14:-4] for p in packets), r.coded_file(file, s["rows"]) if s["protection"] else file)
        same({len(p) for p in packets[:-1]} <= {18 + s["size"]}, True)
        same([r.read_fields(p)["number"] for p in packets], list(range(first["count"])))
        same(all(crc_by_mirror(p[:-4]) == int.from_bytes(p[-4:], "big") for p in packets), True)
        same(first["rows"], s["rows"] if s["protection"] else 0)
        refused(6, 0, packer.packet, s, first["count"], 4095)
        refused(26, 0, packer.packet, s, 0, len(packets[0]) - 1)


# ---- the record


def test_places():
    """Section 8: a store of 100 bytes."""
    held, store = bytearray(r.RECORD_LENGTH), bytearray(b"\xee" * 100)
    record = r.Receiver(held, store)
    for resource in (1, 2):
        record.open(settings(resource, 1, 0, 0, 5, 8), 5)
    same([r.place_at(held, i)["start"] for i in (0, 1)], [0, 50])
    same(r.place_at(held, 0)["rows"], 0)
    same(store, (b"\0\0" + b"\xee" * 8) * 10)
    before = bytes(held)
    refused(20, 0, record.open, settings(3, 1, 0, 0, 0, 8), 5)
    same(held, before)
    record.close(1, 1)
    record.open(settings(3, 1, 0, 0, 0, 8), 5)
    same((r.place_at(held, 0)["resource"], r.place_at(held, 0)["start"]), (3, 0))


def test_unused_places():
    """What an unused place holds is not judged and stays; opening writes all of it, closing makes it zero."""
    unused = bytes(2) + b"\xff" * 18
    held = bytearray(unused) * 8
    record = r.Receiver(held, bytearray(100))
    for kind in (0, 1, 255):
        refused(10, 0, record.status, 0, kind)
        refused(10, 0, record.close, 0, kind)
    record.open(settings(3, 2, 1, 0, 0, 8), 1)
    same(held[:20].hex(), "0300020101000000000008000000000002000000")
    same(held[20:], unused * 7)
    record.close(3, 2)
    same(held, bytes(20) + unused * 7)


def test_usable_store():
    """Only the first 16,777,216 bytes."""
    held, store = bytearray(r.RECORD_LENGTH), bytearray(r.LIMIT + 100)
    record = r.Receiver(held, store)
    record.open(settings(1, 1, 0, 0, 0, 14), 1048575)
    record.open(settings(2, 1, 0, 0, 0, 14), 1)
    refused(20, 0, record.open, settings(3, 1, 0, 0, 0, 1), 1)
    held[20 + 12] += 1
    refused(9, 0, record.status, 2, 1)


def send(s, file, spoil):
    """Packed, each packet spoilt and offered twice in any order, handed out."""
    packer, held, store = r.Packer(file), bytearray(r.RECORD_LENGTH), bytearray(200_000)
    record = r.Receiver(held, store)
    count = r.read_fields(packer.packet(s, 0, 4095))["count"]
    record.open(s, count)
    order = list(range(count))
    RANDOM.shuffle(order)
    for k, n in enumerate(order):
        same(record.status(s["resource"], s["type"]), (k, min(order[k:])))
        sound = packer.packet(s, n, 4095)
        packet = spoil(sound)
        spoilt = sum(a != b for a, b in zip(packet, sound))
        same([record.offer(packet), record.offer(packet), record.offer(sound)], [("Stored", spoilt), ("Repeat", spoilt), ("Repeat", 0)])
    same(record.status(s["resource"], s["type"]), (count, None))
    same(record.hand_out(s["resource"], s["type"], len(file), len(file)), file)
    refused(26, 0, record.hand_out, s["resource"], s["type"], len(file), len(file) - 1)


def packets_of(s, file):
    packer = r.Packer(file)
    count = r.read_fields(packer.packet(s, 0, 4095))["count"]
    return [packer.packet(s, n, 4095) for n in range(count)]


def test_file_and_description():
    """Document 02, R-1: the packets of both under one resource, in any order and mixed; each has the answers it has alone."""
    for first, second in ((settings(9, 1, 1, 1, 2, 255), settings(9, 2, 1, 0, 0, 50)), (settings(9, 2, 3, 0, 0, 7), settings(9, 1, 3, 0, 0, 7))):
        files = {1: some(700), 2: some(320)}
        record = r.Receiver(bytearray(r.RECORD_LENGTH), bytearray(5000))
        sent = [(s, packet) for s in (first, second) for packet in packets_of(s, files[s["type"]])]
        count = {s["type"]: sum(s is t for t, _ in sent) for s in (first, second)}
        for s in (first, second):
            record.open(s, count[s["type"]])
        for s in (first, second):
            refused(18, 0, record.open, s, 1)
        RANDOM.shuffle(sent)
        done = {1: 0, 2: 0}
        for s, packet in sent:
            same([record.offer(packet), record.offer(packet)], [("Stored", 0), ("Repeat", 0)])
            done[s["type"]] += 1
            same({k: record.status(9, k)[0] for k in (1, 2)}, done)
        same({k: record.hand_out(9, k, len(file), len(file)) for k, file in files.items()}, files)
        leave_one(record, first["type"], second["type"], files, count)


def leave_one(record, gone, kept, files, count):
    """One of the two is closed; types that no place can have are unknown before and after it."""
    for close in (False, True):
        if close:
            record.close(9, gone)
        for kind in (0, 3, 4, 255) + ((gone,) if close else ()):
            refused(10, 0, record.status, 9, kind)
            refused(10, 0, record.hand_out, 9, kind, len(files[kept]), 1000)
            refused(10, 0, record.close, 9, kind)
        same(record.status(9, kept), (count[kept], None))
        same(record.hand_out(9, kept, len(files[kept]), 1000), files[kept])


def stream_packet(resource, update):
    head = r.header_of({"mark": r.MARK, "resource": resource, "number": 0, "update": update, "length": 19, "count": 0, "type": 0, "protection": 0, "rows": 0, "reserved": 0})
    return head + b"\7" + r.crc32(head + b"\7").to_bytes(4, "big")


def test_streams():
    """A stream packet is unknown, whatever is open."""
    for kinds in ((), (1,), (2,), (1, 2)):
        record = r.Receiver(bytearray(r.RECORD_LENGTH), bytearray(100))
        for kind in kinds:
            record.open(settings(9, kind, 3, 0, 0, 8), 1)
        refused(10, 0, record.offer, stream_packet(9, 3))


def test_shares():
    """Any two places that have both resource and type are refused; that have one of them are not."""
    place = {"update": 0, "count": 1, "protection": 0, "rows": 0, "slot": 8, "edition": 2, "order": 0}
    for i, j in itertools.combinations(range(8), 2):
        for resource, kind in itertools.product((5, 6), (1, 2)):
            held = bytearray(r.RECORD_LENGTH)
            held[r.span(i)] = r.bytes_of({**place, "resource": 5, "type": 1, "start": 0})
            held[r.span(j)] = r.bytes_of({**place, "resource": resource, "type": kind, "start": 10})
            record = r.Receiver(held, bytearray(20))
            if (resource, kind) == (5, 1):
                refused(9, 0, record.status, 5, 1)
            else:
                same([record.status(5, 1), record.status(resource, kind)], [(0, 0), (0, 0)])


def test_files():
    """In edition 2 and, the shorter ones, in edition 1."""
    for length, m, size in ((1, 1, 255), (239, 1, 255), (240, 1, 510), (2000, 4, 765), (3000, 255, 3825), (7648, 32, 255)):
        for edition in (1, 2) if length < 2500 else (2,):
            send(settings(9, 1, 1, 1, m, size, edition), some(length), lambda p: bytes(cases.damaged(p, RANDOM.randrange(6), RANDOM.randrange(1000))))
    for length, size in ((1, 1), (100, 1), (100, 7), (4077, 4077), (10_000, 4077)):
        for edition in (1, 2):
            send(settings(9, 2, 1, 0, 0, size, edition), some(length), lambda p: p)


# ---- description files

DESCRIPTION = ["9001", "1", "300", "3", "forecast.txt", "21", "天气预报", "Rain in the north", "weather", "3", ".\\aaa\\ddd", "2048", "2024.02.29/06:30:00", "2024.03.01/06:30:00", "0"]
NUMBERS = [9001, 1, 300, 3, 28, 12, 21, 50, 12, 66, 17, 87, 7, 3, 103, 9, 2048, 2024, 2, 29, 6, 30, 0, 2024, 3, 1, 6, 30, 0, 0]


def described(values=DESCRIPTION, end="\n"):
    """The text of fifteen values; one may be bytes."""
    return b"".join(b"%02d:" % k + (v if isinstance(v, bytes) else v.encode()) + end.encode() for k, v in enumerate(values, 1))


def with_line(k, value, values=DESCRIPTION):
    return values[: k - 1] + [value] + values[k:]


def is_taken(k, *values):
    """Whether line k may have this value, and the lines behind it these; what else is wrong is a fault of the test."""
    lines = DESCRIPTION
    for i, value in enumerate(values):
        lines = with_line(k + i, value, lines)
    try:
        return len(r.read_description(described(lines))) == 30
    except r.Refused as no:
        same(no.number == 29 and no.value in range(k, k + len(values)), True)
        return False


def test_descriptions():
    text = described()
    same(r.read_description(text), NUMBERS)
    same(r.write_description(NUMBERS, text), text)
    crlf = described(end="\r\n")
    told = r.read_description(crlf)
    same((told[:6], told[27:]), (NUMBERS[:4] + [32, 12], [30, 0, 0]))
    same(r.write_description(told, crlf), text)
    stream = described(["9999", "0", "65535", "15", "news", "128", "", "", "", "", "", "", "", "", "1"])
    same(r.read_description(stream), [9999, 0, 65535, 15, 31, 4, 128, 46, 0, 50, 0, 54, 0, 255, 62, 0] + [0] * 13 + [1])
    same(r.write_description(r.read_description(stream), stream), stream)
    for k in range(1, 16):
        lines = text.splitlines(keepends=True)
        refused(29, k, r.read_description, b"".join(lines[: k - 1] + lines[k:]))
        refused(29, k, r.read_description, b"".join(lines[: k - 1]) + lines[k - 1][:-1])
        refused(*((29, k + 1) if k < 15 else (30, 0)), r.read_description, b"".join(lines[:k] + lines[k - 1 :]))
    for extra in (b"\n", b"\r", b"\0", b"16:\n"):
        refused(30, 0, r.read_description, text + extra)


def test_numbers_of_lines():
    """Every value of the small ranges, and the ends of the others; a number of thousands of digits ends nothing."""
    taken = lambda k, numbers: [n for n in numbers if is_taken(k, str(n))]
    same(taken(1, [0, 8999, 9000, 9999, 10000]), [9000, 9999])
    same([taken(k, range(300)) for k in (4, 15)], [list(range(16)), [0, 1]])
    same(taken(3, [0, 1, 65535, 65536]), [1, 65535])
    same(taken(12, [0, 1, 16777216, 16777217, 10**40]), [1, 16777216])
    same([n for n in range(300) if is_taken(2, str(n), "300", "3", "a", "22", "", "", "", "", "", "5")], [1])
    same([n for n in range(300) if is_taken(2, str(n), "300", "3", "a", "129", "", "", "", "", "", "")], [0])
    for k in (1, 2, 3, 4, 6, 10, 12, 15):
        good = DESCRIPTION[k - 1]
        same([v for v in ("", "0" + good, "+" + good, " " + good, good + " ", good + "\0", "9" * 5000, "0" * 5000) if is_taken(k, v)], [])


def test_kinds():
    """001, table 3, line by line: the kinds of files and of streams; what is between them is reserved."""
    files = [0, 1, 2, 3, 4, *range(21, 25), *range(41, 45), 61]
    same([n for n in range(300) if is_taken(6, str(n), "", "", "", "3" if n == 21 else "")], files)
    stream = with_line(2, "0", with_line(12, ""))
    same([n for n in range(300) if n in (128, 129, 130, 131)], [n for n in range(300) if reads(with_line(6, str(n), with_line(10, "", stream)))])
    same([c for c in map(str, range(300)) if is_taken(10, c)], ["0", "1", "2", "3", "4"])
    same([reads(with_line(6, "22", with_line(10, c))) for c in ("", "0", "3", "255")], [True, False, False, False])


def reads(lines):
    try:
        return len(r.read_description(described(lines))) == 30
    except r.Refused:
        return False


# Unicode, table 3-7: the well-formed sequences of bytes
WELL_FORMED = [["00-7f"], ["c2-df", "80-bf"], ["e0-e0", "a0-bf", "80-bf"], ["e1-ec", "80-bf", "80-bf"], ["ed-ed", "80-9f", "80-bf"], ["ee-ef", "80-bf", "80-bf"],
               ["f0-f0", "90-bf", "80-bf", "80-bf"], ["f1-f3", "80-bf", "80-bf", "80-bf"], ["f4-f4", "80-8f", "80-bf", "80-bf"]]


SEQUENCES = re.compile("(?:%s)*" % "|".join("".join(r"[\x%s-\x%s]" % tuple(span.split("-")) for span in row) for row in WELL_FORMED))


def by_table(data):
    """By the table, with its bytes as letters; without CR and LF."""
    return SEQUENCES.fullmatch(data.decode("latin-1")) is not None and not {10, 13} & set(data)


def test_utf_8():
    """RFC 3629, section 7; Unicode, tables 3-8 to 3-11, whose sequences are ill-formed; and the whole of table 3-7 at its edges."""
    for good in ("41 e2 89 a2 ce 91 2e", "ed 95 9c ea b5 ad ec 96 b4", "e6 97 a5 e6 9c ac e8 aa 9e", "ef bb bf f0 a3 8e b4", "4d d0 b0 e4 ba 8c f0 90 8c 82", "00", "7f", ""):
        same((r.is_text(bytes.fromhex(good)), by_table(bytes.fromhex(good))), (True, True))
    for bad in ("c0 af", "e0 80 bf", "f0 81 82 41", "c0 af e0 80 bf f0 81 82 41", "ed a0 80 ed bf bf ed af 41", "f4 91 92 93 ff 41 80 bf 42", "e1 80 e2 f0 91 92 f1 bf 41", "c0 80", "ed a1 8c ed be b4"):
        same((r.is_text(bytes.fromhex(bad)), by_table(bytes.fromhex(bad))), (False, False))
    edges = [0x00, 0x0A, 0x0D, 0x41, 0x7F, 0x80, 0x8F, 0x90, 0x9F, 0xA0, 0xBF, 0xC0, 0xC1, 0xC2, 0xDF, 0xE0, 0xE1, 0xEC, 0xED, 0xEE, 0xEF, 0xF0, 0xF1, 0xF3, 0xF4, 0xF5, 0xFF]
    behind = [0x41, 0x7F, 0x80, 0xBF, 0xC0]
    for bytes_at in ([range(256)], [range(256)] * 2, [edges] * 3, [edges[14:], edges, behind, behind]):
        same([d for d in map(bytes, itertools.product(*bytes_at)) if r.is_text(d) != by_table(d)], [])


def test_texts_of_lines():
    for k in (5, 7, 8, 9, 11):
        same([is_taken(k, v) for v in ("a", ":", "\0", "\u2028", "天", " ", b"\xc0\x80", b"\xff", b"a\rb", b"\r\r")], [True] * 6 + [False] * 4)
        same(is_taken(k, ""), k != 5)
    refused(29, 8, r.read_description, described(with_line(7, "a\nb")))
    refused(29, 1, r.read_description, b"\xef\xbb\xbf" + described())
    same(r.read_description(described(with_line(7, b"abc\r")))[7:9], [50, 3])


def days_of(year, month):
    """By the rule: every fourth year is a leap year, except every hundredth, except every four hundredth."""
    leap = year % 4 == 0 and (year % 100 != 0 or year % 400 == 0)
    return {2: 29 if leap else 28, 4: 30, 6: 30, 9: 30, 11: 30}.get(month, 31) if 1 <= year <= 9999 and 1 <= month <= 12 else 0


def test_dates():
    for year in (0, 1, 4, 100, 400, 1582, 1600, 1700, 1900, 1996, 2000, 2023, 2024, 2100, 2400, 9999, 10000, 1 << 40):
        for month in (*range(15), 1 << 64):
            same([d for d in (*range(35), 256, 1 << 63) if r.is_real((year, month, d, 0, 0, 0))], list(range(1, days_of(year, month) + 1)))
    same([t for t in itertools.product((0, 23, 24, 25), (0, 59, 60), (0, 59, 60, 61)) if r.is_real((2024, 2, 29, *t))], list(itertools.product((0, 23), (0, 59), (0, 59))))
    for k in (13, 14):
        good = "2024.02.29/23:59:59"
        wrong = ["24.02.29/23:59:59", good + " ", good + "\0", "2024.2.29/23:59:59", "2024-02-29/23:59:59", "2024.02.29T23:59:59", "0000.00.00/00:00:00", "２024.02.29/23:59:59", "2023.02.29/00:00:00"]
        same([v for v in wrong if is_taken(k, v)], [])
        same(is_taken(k, ""), True)
    same([is_taken(13, a, b) for a, b in (("2000.01.01/00:00:00", "2000.01.01/00:00:00"), ("2000.01.01/00:00:01", "2000.01.01/00:00:00"), ("1999.12.31/23:59:59", "2000.01.01/00:00:00"), ("2000.01.01/00:00:00", ""), ("", "0001.01.01/00:00:00"))],
         [True, False, True, True, True])


def refused_number(line, i, *values):
    """Each of these as number i is a fault of that line."""
    for v in values:
        refused(29, line, r.write_description, NUMBERS[:i] + [v] + NUMBERS[i + 1 :], described())


def test_written_numbers():
    large = (1 << 32, (1 << 64) - 1)
    for line, i, values in ((1, 0, (8999, 10000)), (2, 1, (2,)), (3, 2, (0, 65536)), (4, 3, (16,)), (6, 6, (5, 128, 255, 256)), (10, 13, (5, 254, 255, 256)), (12, 16, (0, 16777217)), (15, 29, (2,)),
                            (13, 17, (0, 10000)), (13, 18, (0, 13)), (13, 19, (0, 30)), (13, 20, (24,)), (13, 21, (60,)), (13, 22, (60,)), (14, 23, (0, 2023, 10000)), (14, 24, (2, 13)), (14, 28, (60,))):
        refused_number(line, i, *values, *large)
    length = len(described())
    for line, i in ((5, 4), (7, 7), (8, 9), (9, 11), (11, 14)):
        refused_number(line, i, length, *large)
        refused_number(line, i + 1, length, *large)
        empty = NUMBERS[:i] + [length, 0] + NUMBERS[i + 2 :]
        if line == 5:
            refused(29, 5, r.write_description, empty, described())
        else:
            same(r.write_description(empty, described()), described(with_line(line, "")))
        refused(29, line, r.write_description, NUMBERS[:i] + [length + 1, 0] + NUMBERS[i + 2 :], described())
        refused(29, line, r.write_description, NUMBERS[:i] + [0, 8] + NUMBERS[i + 2 :], described())
    for count in (0, 29, 31):
        refused(17, 0, r.write_description, (NUMBERS + [0])[:count], b"")
    same(r.write_description(NUMBERS[:17] + [0] * 13, described()), described(with_line(13, "", with_line(14, ""))))


def test_read_back():
    """What is written reads back as the same attributes, and is written again as the same text."""
    random_ones = random_cases.Descriptions(RANDOM)
    for _ in range(300):
        text = random_ones.joined(random_ones.sound())
        told = r.read_description(text)
        written = r.write_description(told, text)
        same(written, text.replace(b"\r\n", b"\n"))
        again = r.read_description(written)
        same([attributes(told, text), r.write_description(again, written)], [attributes(again, written), written])


def attributes(told, text):
    """The numbers, with the bytes of each text in place of its part."""
    parts = (4, 7, 9, 11, 14)
    return [text[n : n + told[i + 1]] if i in parts else n for i, n in enumerate(told) if i - 1 not in parts]


# ---- the language of cases

# every refusal in turn, what is expected written by hand
EVERY = """
# fields: 1 to 8, and 26 for too little room
out 170 4095
bytes 49 59 69
read 10
case short refused 1
file 1 20
settings 5 1 3 0 0 8
pack 0
case packed accepted 26
take 26
read 10
case fields-taken accepted
case fields bytes 0 00 00 00 05 00 00 00 00 00 00 00 03 00 00 00 1a 00 00 00 03 00 00 00 01 00 00 00 00 00 00 00 00 00 00 00 00 00 00 00 02
read 9
case room refused 26
put 0 48
read 10
case mark refused 2
put 0 49
cut 25
read 10
case length refused 3
grow 26
put 12 c0
read 10
case type-3 refused 4
put 12 60
read 10
case protection-2 refused 5
put 12 50 00
read 10
case protection-without-rows refused 5
put 12 40 00
put 7 33
read 10
case number-3-of-3 refused 6
put 7 23
read 10
case number-2-of-3 accepted
put 12 50 10
read 10
case rows refused 7
put 12 40
put 3 00 00
read 10
case resource-0 refused 8
# the record: 9 to 21
held 127
store 0 400
status 5 1
case held-127 refused 9
held 160
status 5 1
case unknown refused 10
open 3
case opened accepted
status 5 2
case description-unknown refused 10
status 5
case type-0-unknown refused 10
settings 5 1 4 0 0 8
pack 0
take 26
offer
case other-update refused 11
edition 1
settings 5 1 3 0 0 8
pack-as 0
take 26
offer
case other-edition refused 33
edition 0
pack-as 0
case no-edition refused 17
file 1 30
settings 5 1 3 0 0 10
pack 0
take 28
offer
case wide refused 12
settings 6 1 3 1 1 510
file 1 300
open 1
case opened-with-protection refused 20
store 0 600
open 1
case opened-with-rows accepted
pack 0
case packed-with-rows accepted 528
take 528
flip 269 1
flip 271 1
flip 273 1
flip 275 1
flip 277 1
flip 279 1
flip 281 1
flip 283 1
flip 285 1
offer
case second-row-spoilt refused 13 1
flip 285 1
flip 527 1
offer
case crc-altered refused 14
flip 527 1
offer
case repaired-and-stored accepted 16
offer
case repeated accepted 17
take 528
offer
case repeated-unaltered accepted 1
poke 0 09 00
status 5 1
case slot-too-long refused 15
poke 0 00 00
settings 5 1 3 0 0 8
file 1 20
pack 0
take 26
offer
case stored accepted
file 2 20
pack 0
take 26
offer
case conflict refused 16
settings 0 1 3 0 0 8
open 1
case no-resource refused 17
settings 5 1 3 0 0 8
open 1
case held-already refused 18
settings 7 1 0 0 0 1
open 1
settings 8 1 0 0 0 1
open 1
settings 9 1 0 0 0 1
open 1
settings 10 1 0 0 0 1
open 1
settings 11 1 0 0 0 1
open 1
settings 12 1 0 0 0 1
open 1
case eighth accepted
settings 13 1 0 0 0 1
open 1
case ninth refused 19
close 12 1
case closed accepted
open 1000
case no-room refused 20
out 170 20
hand 5 1 20
case slot-1-empty refused 21 1
status 5 1
case one-filled accepted 33554433
# handing out: 22 to 24
store 0 300
held 160
place 0 9 1 1 1 1 2 255 0 2
poke 0 ff 00
hand 9 1 10
case one-row-of-two refused 22
place 0 9 1 1 1 1 1 255 0 2
hand 9 1 240
case two-tables refused 23
poke 3 01
hand 9 1 1
case padding refused 24
hand 9 1 21
case output-before-nothing refused 26
hand 9 1 2
case two-bytes accepted
case two-bytes-out bytes 0 00 01 aa aa
# handing out by columns: 31, 32
store 0 768
held 160
edition 2
order 1
settings 9 1 1 1 1 1
open-as 255
case opened-in-columns accepted
file 1 239
send 255 1 255 0 0 0
case sent-in-columns accepted 255
out 170 239
poke 3 00 00
hand 9 1 239
case a-byte-restored file
poke 8 01
hand 9 1 239
case a-byte-wrong refused 32
poke 717 00 00 00 00 00 00 00 00 00 00 00 00 00 00 00 00 00 00 00 00 00 00 00 00 00 00 00 00 00 00 00 00 00 00 00 00 00 00 00 00 00 00 00 00 00 00 00 00
hand 9 1 239
case seventeen-lost refused 31
out 0 19
pack-as 254
take 19
read-header 10
case header-read accepted
read 10
case rows-of-one-byte refused 7
order 2
pack-as 254
case no-order refused 17
order 0
# packing: 17, 23, 25, 6, 26
settings 5 1 3 0 0 1
file 1 1048576
pack 0
case too-many refused 25
file-put 1048570 09
file 1 7
pack 7
case behind-the-last refused 6
pack 6
case last accepted 19
file 1 0
pack 0
case nothing-to-pack refused 23
# descriptions: 29, 30, 26, 17
cut 0
line 01:9000
line 02:0
line 03:1
line 04:0
line 05:news of the day
line 06:131
line 07:
line 08:
line 09:
line 10:
line 11:
line 12:
line 13:
line 14:
line 15:0
out 170 53
describe 30
case stream-described accepted
case stream-name-part bytes 32 00 00 00 00 00 00 00 1a 00 00 00 00 00 00 00 0f aa aa aa aa aa
file 1 256
value 0 9000 0 1 0 26 15 131 52 0 56 0 60 0 255 68 0 0 0 0 0 0 0 0 0 0 0 0 0 0 0
out 170 86
compose 30
case composed accepted 86
out 170 85
compose 30
case composed-into-too-little refused 26
compose 29
case composed-of-29 refused 17
value 29 2
compose 30
case composed-with-a-wrong-mark refused 29 15
describe 29
case described-into-too-little refused 26
line 16:
describe 30
case described-with-more refused 30
swap 3 03:0
describe 29
case described-with-a-fault refused 29 3
"""


def test_every_refusal():
    lines = EVERY.split("\n")
    out = cases.checked(lines)
    same([line for line in out[:-1] if line.endswith(" wrong")], [])
    same({n for n in range(100) if any(f" got refused {n} " in line for line in out)}, set(r.REFUSALS))
    same(cases.computed(lines), out)
    spoilt = [line.replace("refused", "accepted") for line in lines]
    same(cases.computed(spoilt), out)
    same(cases.answered(spoilt), lines)
    same(cases.checked(spoilt)[-1] != out[-1], True)


def at_hand(name, *lines):
    run = cases.Run()
    for line in lines:
        run.do(line)
    return bytes(getattr(run, name))


def test_commands():
    same(list(at_hand("bytes", "random 1 3")), [(1015568748 >> 24), (1586005467 >> 24), (2165703038 >> 24)])
    same(at_hand("bytes", "bytes 01 02 03", "put 2 09 09", "flip 0 255", "flip 3 1"), b"\xfe\2\x09")
    same(at_hand("bytes", "fill 7 3", "cut 2", "cut 5", "grow 4", "grow 1"), b"\7\7\0\0")
    same(at_hand("bytes", "out 5 3", "bytes 01", "append 2", "append 9"), b"\1\5\5\5\5\5")
    same(at_hand("bytes", "out 5 3", "take 9"), b"\5\5\5")
    same(at_hand("bytes", "bytes ff 00 00 00 00", "seal"), b"\xff\0\0\0\xff")
    same(at_hand("bytes", "bytes ff 00 00", "seal"), b"\xff\0\0")
    same([len(at_hand(name, line)) for name, line in (("bytes", "fill 1 9999"), ("out", "out 1 999999"), ("store", "store 1 999999"), ("held", "held 257"))],
         [8192, 131072, 262144, 256])
    same(len(at_hand("bytes", "out 1 8000", "take 8000", "append 8000")), 8192)
    same(at_hand("file", "file 1 3", "file-put 2 aa bb")[2:], b"\xaa")
    same(at_hand("store", "store 1 3", "poke 1 02 03 04", "poke 9 01"), b"\1\2\3")
    same(at_hand("held", "held 24", "place 1 258 1 2 3 1 5 255 9"), bytes(20) + b"\2\1\1\2")
    same(at_hand("out", "held 160", "place 7 65541 257 2 3 1 5 255 9 65794 66052", "show-held 140 22").hex(), "05000102030000000105ff000900000002010402")
    same(at_hand("out", "store 3 5", "show-store 3 9"), b"\3\3")
    same(at_hand("out", "out 3 2", "nonsense 5", "file_put 1 00"), b"\3\3")
    same(at_hand("bytes", "line", "line ", "line a  b ", "bytes 41", "line c", "line caf\xe9"), b"Ac\ncaf\xe9\n")
    lines = ["line a", "line b", "line c", "cut 5"]
    same([at_hand("bytes", *lines, edit) for edit in ("drop 0", "drop 1", "drop 2", "drop 3", "drop 4")], [b"b\nc"] * 2 + [b"a\nc", b"a\nb\n", b"a\nb\nc"])
    same([at_hand("bytes", *lines, f"insert {k} d e") for k in range(5)], [b"d e\na\nb\nc"] * 2 + [b"a\nd e\nb\nc", b"a\nb\nd e\nc", b"a\nb\ncd e\n"])
    same([at_hand("bytes", *lines, edit) for edit in ("swap 2 d", "swap 3 d", "swap 9 d", "swap 1")], [b"a\nd\nc", b"a\nb\nd\n", b"a\nb\ncd\n", b"\nb\nc"])
    same([len(at_hand("bytes", "fill 97 8191", edit)) for edit in ("line b", "insert 1 b", "swap 1 b")], [8192, 8192, 2])
    same(at_hand("file", "file 1 20", "file-put 0 00 00", "value 1 5 18446744073709551617", "value 32 7", "value 2")[8:], bytes(7) + b"\5" + bytes(4))
    same(at_hand("file", "file 1 257", "value 31 258 1", "value 99 511")[240:], at_hand("file", "file 1 248")[240:] + bytes(6) + b"\1\2\0")


def test_edition_commands():
    """What `edition` sets is taken by the calls that name it and by `send`; it begins as 2, and settings leave it."""
    start = ["file 1 8", "out 0 26", "held 160", "store 0 20", "settings 5 1 3 0 7 8"]
    spare = lambda *lines: at_hand("out", *start, *lines)[12:14].hex()
    same([spare("pack 0"), spare("pack-as 0")], ["4000", "4000"])
    same([spare("edition 1", "pack 0"), spare("edition 1", "pack-as 0"), spare("edition 65537", "settings 5 1 3 0 0 8", "pack-as 0")], ["4000", "4fff", "4fff"])
    same([spare("edition 9", "pack 0"), spare("edition 9", "pack-as 0"), spare("edition", "pack-as 0"), spare("edition 257", "pack-as 0")], ["4000"] + ["0000"] * 3)
    same(at_hand("out", *start, "out 0 3843", "edition 1", "pack-house 0")[12:14].hex(), "5200")
    same([at_hand("held", *start, "edition 1", call)[16] for call in ("open 1", "open-as 1")], [2, 1])
    same(at_hand("held", *start, "store 0 3827", "edition 1", "open-house 1")[16], 2)
    same([at_hand("store", *start, *lines, "send 1 1 1 0 0 0")[0] for lines in (["open 1"], ["edition 1", "open 1"], ["edition 1", "open-as 1"])], [8, 0, 8])


def test_order_commands():
    """What `order` sets is taken by the calls that name it and by `send`; it begins as 0, and settings leave it."""
    start = ["file 1 470", "out 0 300", "held 160", "store 0 4000", "settings 5 1 3 1 2 255"]
    sent = {order: r.coded_file(cases.generated(1, 470), 2, order)[:255] for order in (0, 1)}
    payload = lambda *lines: at_hand("out", *start, *lines)[14:269]
    same([payload("pack-as 0"), payload("order 1", "pack 0"), payload("order 9", "pack 0")], [sent[0]] * 3)
    same([payload("order 1", "pack-as 0"), payload("order 65537", "settings 5 1 3 1 2 255", "pack-as 0"), payload("order 1", "edition 1", "pack-as 0")], [sent[1]] * 3)
    same([payload(f"order {n}", "pack-as 0") for n in (2, 257)], [bytes(255)] * 2)
    same(payload("order 1", "order", "pack-as 0"), sent[0])
    same([at_hand("held", *start, "order 1", call)[18] for call in ("open 1", "open-as 1", "open-house 1")], [0, 1, 0])
    same([at_hand("store", *start, "order 1", "open-as 2", *lines, "send 2 1 2 0 0 0")[2:257] for lines in ([], ["order 0"])], [sent[1], sent[0]])
    lines = [*start, "order 1", "settings 5 1 3 1 2 7", "pack-as 0", "take 25", "out 170 40"]
    same([at_hand("out", *lines, call)[:4].hex() for call in ("read 10", "read-header 9", "read-header 10")], ["aaaaaaaa", "aaaaaaaa", "00000005"])


def test_damage():
    row = bytes(14 + 2 * 255 + 4)
    same([i - 14 for i, b in enumerate(cases.damaged(row, 1, 5)) if b], [*range(8), *range(255, 263)])
    same([i - 14 for i, b in enumerate(cases.damaged(row, 2, 5)) if b][:8], list(range(247, 255)))
    same([i - 14 for i, b in enumerate(cases.damaged(row, 3, 5)) if b][:8], list(range(239, 255, 2)))
    same(sum(1 for b in cases.damaged(row, 4, 5)[:269] if b) in range(1, 9), True)
    same([bytes(cases.damaged(row, f, 5)) for f in (0, 5)] + [bytes(cases.damaged(row[:272], 1, 5))], [row, row, row[:272]])


def test_send():
    start = ["file 3 2000", "held 160", "store 0 20000", "settings 9 1 1 1 4 255", "open 12"]
    for line, answer in (("send 12 1 12 4 1 5", "accepted 12"), ("send 12 5 7 3 0 5", "accepted 7"), ("send 12 1 30 0 0 5", "accepted 12"),
                         ("send 0 1 30 0 0 5", "accepted"), ("send 13 1 13 0 0 5", "refused 6"), ("send 13 1 12 2 1 4294967295", "accepted 12")):
        run = cases.Run()
        for each in start + [line]:
            run.do(each)
        same(run.answer.text(), answer)


# ---- random files, and comparing


def used_places(run):
    return [p for p in (r.place_at(run.held, i) for i in range(8)) if p["resource"]]


def told_of_types(run, words, places):
    """What a call's answer shows of resource and type together; its words and the places in use before it. None for most."""
    number, beside = run.answer.number, {(p["resource"], p["type"]) for p in places}
    if words[0] in ("status", "hand", "close"):
        resource, kind = int(words[1]) % 65536, int(words[2]) % 256
        return f"{words[0]} of type {min(kind, 3)}: {number}" if number == 10 and any(resource == other for other, _ in beside) else None
    if words[0] == "offer" and len(run.bytes) >= 19:
        f = r.fields_of(run.bytes)
        kinds = [k for k in (1, 2) if (f["resource"], k) in beside]
        return f"offer of type {f['type']} beside {kinds}: 10" if number == 10 and kinds else f"offer beside both: {number}" if kinds == [1, 2] else None
    if words[0] in ("open", "open-as", "open-house") and number in (0, 18):
        kinds = [k for k in (1, 2) if (run.settings["resource"], k) in beside]
        return f"open of type {run.settings['type']} beside {kinds}: {number}" if kinds else None
    return None


def told_of_shares(run, places):
    """What a call that takes the record shows of a share, where nothing else is wrong with the record."""
    pairs = list(itertools.combinations(places, 2))
    if len(run.held) != r.RECORD_LENGTH or not all(r.place_fits(p, len(run.store)) for p in places) or any(r.meet(p, q) for p, q in pairs):
        return None
    both, one = (any([p["resource"] == q["resource"], p["type"] == q["type"]] == want for p, q in pairs) for want in ([True, True], [True, False]))
    return f"share of both: {run.answer.number}" if both else f"share of the resource: {run.answer.number}" if one else None


def told_of_mended(run, call):
    """How much a repair or an offer says that it mended; or the refusal of a packet in which something was."""
    number, value = run.answer.number, run.answer.value
    if call == "repair" and number == 0:
        return f"repair: {value}"
    if call == "offer" and number == 0:
        return f"{'Repeat' if value % 2 else 'Stored'}: {value // 2 if value < 18 else 'more than a row can have'}"
    if call == "offer" and number in (14, 15, 16) and place_of(run, *r.named(r.fields_of(run.bytes)))["order"] == 0 and r.fields_of(run.bytes)["protection"] == 1 and r.repair_rows(run.bytes[14:-4])[1]:
        return f"mended, and refused {number}"
    return None


def told_of_an_offer(run):
    """How the edition of an offered packet, whose fields were taken, stands to that of its place; and what 33 came before."""
    number, f = run.answer.number, r.read_header(run.bytes)
    _, p = r.Receiver(run.held, run.store).find(f["resource"], f["type"])
    apart = "its own" if f["edition"] == p["edition"] else f"edition {f['edition']}"
    told = {f"{apart} at a place of edition {p['edition']}, protection {p['protection']}: {number}"}
    if number == 33 and f["edition"]:
        told.add(f"33 before {number_in_edition(run, f)}")
    return told


def number_in_edition(run, f):
    """What is told of the packet at hand where the place of its resource and type has its edition."""
    held = bytearray(run.held)
    i, p = r.Receiver(held, run.store).find(f["resource"], f["type"])
    held[r.span(i)] = r.bytes_of({**p, "edition": f["edition"]})
    try:
        return int(r.Receiver(held, bytearray(run.store)).offer(run.bytes) is None)
    except r.Refused as no:
        return no.number


def told_of_editions(run, words):
    """What a call's answer shows of the edition; its words."""
    number, odd = run.answer.number, run.settings["edition"] not in (1, 2)
    if words[0] == "offer" and number in (0, 11, 12, 13, 14, 15, 16, 33):
        return told_of_an_offer(run)
    if words[0] == "read" and number == 0:
        f = r.read_fields(run.bytes)
        return {f"read edition {f['edition']} of type {f['type']}, protection {f['protection']}"}
    if words[0] == "read" and words[1] == "9" and number == 26:
        return {"read 9: 26"}
    if words[0] in ("open", "open-as", "pack", "pack-as") and odd and r.settings_fit({**run.settings, "edition": 1}):
        return {f"{words[0]} in an odd edition: {number}"}
    return set()


def told_of_held_editions(run, words, places):
    """A call that takes the record, in which a place in use has no edition, and nothing else is wrong; or only an unused one has a number there."""
    if len(run.held) != r.RECORD_LENGTH or all(p["edition"] in (1, 2) for p in places):
        odd = any(p["edition"] > 2 for p in (r.place_at(run.held, i) for i in range(8)) if not p["resource"])
        return {f"{words[0]} beside an unused place with a number: taken"} if odd and run.answer.number != 9 else set()
    held = b"".join(r.bytes_of({**p, "edition": 1}) for p in places).ljust(r.RECORD_LENGTH, b"\0")
    return {f"{words[0]} with an odd edition held: {run.answer.number}"} if r.places_in_use(held, len(run.store)) else set()


def place_of(run, resource, kind):
    """The place of a resource and type in a record that is not refused, or None."""
    try:
        return r.Receiver(run.held, run.store).find(resource, kind)[1]
    except r.Refused:
        return None


def told_of_rows(run):
    """What an offer of a packet whose payload is no whole rows shows of the place that holds its resource and type, or of what does not."""
    f = r.fields_of(run.bytes)
    if len(run.bytes) < 19 or run.answer.number in (1, 2, 3, 4, 5, 6, 9) or f["protection"] != 1 or (len(run.bytes) - 18) % 255 == 0:
        return set()
    places = {k: place_of(run, f["resource"], k) for k in (f["type"], 3 - f["type"])}
    orders = [None if p is None else p["order"] for p in places.values()]
    return {f"rows at {orders[0]}: {run.answer.number}", f"rows at {orders[0]} beside {orders[1]}: {run.answer.number}"}


def told_of_a_hand_out(run, words):
    """Of a column place: the answer, and how many bytes a row lacked at most where it was accepted."""
    p, number = place_of(run, int(words[1]) % 65536, int(words[2]) % 256), run.answer.number
    if p is None or p["order"] != 1:
        return set()
    told = {f"hand in columns: {number}"} | ({"hand in columns: 31 behind row 0"} if number == 31 and run.answer.value else set())
    if number in (0, 24, 26, 32):
        slots = r.Receiver(run.held, run.store).slots(p)
        most = max(losses(p["rows"], p["slot"], p["count"], [k for k, b in enumerate(slots) if not b]))
        told.add(f"{number} where a row lacks {'nothing' if not most else most if most in (1, 15, 16) else 'some'}")
    return told


def told_of_orders(run, words, places):
    """What a call's answer shows of the order; its words, and the places in use before it."""
    number, call = run.answer.number, words[0]
    told = told_of_rows(run) if call == "offer" else told_of_a_hand_out(run, words) if call == "hand" else set()
    if call == "offer" and number in (0, 11, 12, 14, 15, 16, 33) and place_of(run, *r.named(r.fields_of(run.bytes)))["order"] == 1:
        told.add(f"offer in columns: {number}")
    if call in ("open-as", "pack-as") and number == 17 and any(r.settings_fit({**run.settings, "order": n}) for n in (0, 1)):
        told.add(f"{call} by its order: 17")
    if call in ("open", "pack") and run.settings["order"] and number == 0:
        told.add(f"{call} beside order {min(run.settings['order'], 2)}: 0")
    if call == "read-header":
        told.add(f"read-header: {number}" if number or len(run.bytes) % 255 == 18 else "read-header: 0 where read says 7")
    if number == 9 and call in ("status", "hand", "close", "offer", "open", "open-as", "open-house") and len(run.held) == r.RECORD_LENGTH:
        for order in (0, 1):
            held = b"".join(r.bytes_of({**p, "order": order if not r.order_fits(p) or not r.size_fits({**p, "size": p["slot"]}) else p["order"]}) for p in places)
            if r.places_in_use(held.ljust(r.RECORD_LENGTH, b"\0"), len(run.store)):
                told.add(f"{call} with an order held: 9")
    return told


def told_of_sizes(run, words):
    """What an offer of a full payload shows where the house setting, with fifteen rows a packet, and that of before, with one, may be mixed."""
    number = run.answer.number
    if words[0] != "offer" or number not in (0, 11, 12) or len(run.bytes) not in (273, 3843):
        return set()
    f = r.read_header(run.bytes)
    p = place_of(run, *r.named(f))
    if p["slot"] not in (255, 3825) or p["order"] or f["update"] != p["update"] or any(x[k] != v for x in (f, p) for k, v in (("protection", 1), ("rows", 32), ("edition", 2))):
        return set()
    return {f"{len(run.bytes) - 18} bytes in slots of {p['slot']}, {'as many' if f['count'] == p['count'] else 'another count'}: {number}"}


def every_size(told):
    """Both settings by themselves and mixed: Other where the counts differ, Wide where the count agrees and the payload is longer than the slots."""
    wanted = {f"{size} bytes in slots of {size}, as many: 0" for size in (255, 3825)} | {"255 bytes in slots of 3825, as many: 0", "3825 bytes in slots of 255, as many: 12"}
    wanted |= {f"{size} bytes in slots of {slot}, another count: 11" for size in (255, 3825) for slot in (255, 3825)}
    same({t for t in told if t and " in slots of " in t}, wanted)


def every_order(told):
    """Column order in each way: Rows passed over and not, each refusal of hand out, what is restored and what is not, 17 and 9 by the order alone."""
    wanted = {f"offer in columns: {number}" for number in (0, 11, 12, 14, 15, 16, 33)} | {f"rows at 1: {number}" for number in (0, 11, 12, 14, 33)}
    wanted |= {"rows at 0: 7", "rows at None: 7", "rows at None beside 1: 7", "rows at 0 beside 1: 7"}
    wanted |= {f"hand in columns: {number}" for number in (0, 15, 22, 23, 24, 26, 31, 32)} | {"hand in columns: 31 behind row 0"}
    wanted |= {f"0 where a row lacks {n}" for n in ("nothing", 1, "some", 15, 16)} | {f"32 where a row lacks {n}" for n in ("nothing", "some", 15)}
    wanted |= {"24 where a row lacks some", "26 where a row lacks some"}
    wanted |= {f"{call} by its order: 17" for call in ("open-as", "pack-as")} | {f"{call} beside order {n}: 0" for call in ("open", "pack") for n in (1, 2)}
    wanted |= {f"read-header: {number}" for number in (0, 2, 3, 4, 5, 6, 8, 26)} | {"read-header: 0 where read says 7"}
    wanted |= {f"{call} with an order held: 9" for call in ("status", "hand", "close", "offer", "open", "open-as", "open-house")}
    same(wanted - told, set())
    same([t for t in told if t and t.startswith(("rows at 0:", "rows at None:", "rows at 1: 7", "hand in columns: 21", "offer in columns: 13", "read-header: 7")) and t not in wanted], [])


class Watched(random_cases.Writer):
    """Writes a random file, and keeps what its answers show of resource and type together, of what was mended, of editions, of orders and of sizes."""

    def __init__(self, seed):
        super().__init__(seed)
        self.told = set()

    def say(self, line):
        words, places = line.split(" "), used_places(self.run)
        super().say(line)
        if words[0] in ("status", "hand", "close", "offer", "open", "open-as", "open-house"):
            self.told |= {told_of_types(self.run, words, places), told_of_shares(self.run, places)} | told_of_held_editions(self.run, words, places)
        self.told |= {told_of_mended(self.run, words[0])} | told_of_editions(self.run, words) | told_of_orders(self.run, words, places) | told_of_sizes(self.run, words)


def every_way(told):
    """What document 02, R-1, says of resource and type comes up in each way that it can."""
    wanted = {f"{call} of type {kind}: 10" for call in ("status", "hand", "close") for kind in range(4)}
    wanted |= {f"offer of type 0 beside {kinds}: 10" for kinds in ([1], [2], [1, 2])}
    wanted |= {"offer of type 1 beside [2]: 10", "offer of type 2 beside [1]: 10"}
    wanted |= {f"offer beside both: {number}" for number in (0, 11, 12, 13, 14, 15, 16)}
    wanted |= {f"open of type {kind} beside {kinds}: {18 if kind in kinds else 0}" for kind in (1, 2) for kinds in ([1], [2], [1, 2])}
    wanted |= {"share of both: 9", "share of the resource: 0", "share of the resource: 18", "share of the resource: 19", "share of the resource: 20"}
    same(wanted - told, set())
    same([t for t in told if t and t.startswith("share of both") and t != "share of both: 9" or t == "share of the resource: 9"], [])


def every_number(told):
    """Repair, Stored and Repeat each with every number that a row can have; an offer with more too, and refused although its rows were mended."""
    wanted = {f"{answer}: {number}" for answer in ("repair", "Stored", "Repeat") for number in range(9)}
    wanted |= {f"{answer}: more than a row can have" for answer in ("Stored", "Repeat")}
    wanted |= {f"mended, and refused {number}" for number in (14, 15, 16)}
    same(wanted - told, set())


def every_edition(told):
    """33 in each way that it can come, both editions taken and refused otherwise, 17 and 9 by the edition alone, each edition read, and room for nine numbers."""
    pairs = list(itertools.product((1, 2), (0, 1)))
    wanted = {f"its own at a place of edition {e}, protection {p}: {number}" for e, p in pairs for number in (0, 11, 14, 15, 16)}
    wanted |= {f"edition {n} at a place of edition {e}, protection {p}: {number}" for e, p in pairs for n in {0, 3 - e} for number in (11, 33)}
    wanted |= {f"33 before {number}" for number in (0, 12, 13, 14, 15, 16)}
    wanted |= {f"{call} in an odd edition: {number}" for call, number in (("open", 0), ("open-as", 17), ("pack", 0), ("pack-as", 17))}
    wanted |= {f"{call} with an odd edition held: 9" for call in ("status", "hand", "close", "offer", "open", "open-as", "open-house")}
    wanted |= {f"{call} beside an unused place with a number: taken" for call in ("status", "offer", "open-as")}
    wanted |= {f"read edition {e} of type {kind}, protection {p}" for e in range(3) for kind in range(3) for p in range(2)} | {"read 9: 26"}
    same(wanted - told, set())
    same([t for t in told if t and (t.startswith("edition") and not t.endswith((": 11", ": 33")) or t.startswith("its own") and t.endswith(": 33"))], [])


def watched(seed):
    writer = Watched(seed)
    return writer.write(3000), writer.told


def test_random_files():
    """What comes up in two files, written beside each other."""
    with concurrent.futures.ProcessPoolExecutor(2, multiprocessing.get_context("fork")) as pool:
        (lines, told), (others, too) = pool.map(watched, (6, 8))
    lines, told = lines + others, told | too
    every_way(told)
    every_number(told)
    every_edition(told)
    every_order(told)
    every_size(told)
    same([n for n in r.REFUSALS if not any(f" refused {n} " in line + " " for line in lines)], [])
    for call in ("describe", "compose"):
        answers = {answer.split(" ", 2)[2] for line, answer in zip(lines, lines[1:]) if line.startswith(call + " ")}
        same({f"refused 29 {k}" for k in range(1, 16)} <= answers, True)
        same({"describe": "refused 30", "compose": "refused 17"}[call] in answers and "refused 26" in answers, True)
    lines = random_cases.written(4, 200)
    same(random_cases.written(4, 200), lines)
    same(cases.checked(lines)[-1].endswith(" cases, 0 wrong"), True)
    same(cases.checked(lines), cases.computed(lines))


def compare(stdin, stdout, listed):
    """The exit status and what was said."""
    with tempfile.TemporaryDirectory() as folder:
        folder = pathlib.Path(folder)
        (folder / "stdin").write_bytes(stdin)
        (folder / "stdout").write_bytes(stdout)
        (folder / "CASES.md").write_bytes(listed)
        done = subprocess.run([sys.executable, HERE / "compare", folder, folder / "CASES.md"], capture_output=True, text=True)
        return done.returncode, done.stdout


def changed(data, at):
    return data[:at] + bytes([data[at] ^ 1]) + data[at + 1 :]


def refused_by_compare(*runs):
    """Each is told to be wrong. They run beside each other, a process each."""
    with concurrent.futures.ThreadPoolExecutor(os.cpu_count()) as pool:
        for code, _ in pool.map(lambda run: compare(*run), runs):
            same(code, 1)


def test_compare():
    stdin = EVERY.encode()
    stdout = "".join(line + "\n" for line in cases.computed(EVERY.split("\n"))).encode()
    names = [line.split()[1] for line in EVERY.split("\n") if line.startswith("case ")]
    listed = " ".join(f"`{n}`" for n in names).encode()
    same(compare(stdin, stdout, listed), (0, f"ok, {len(names)} cases\n"))
    code, said = compare(stdin, stdout.replace(b"refused 24", b"refused 22"), listed)
    same((code, said.startswith("padding differs\n")), (1, True))
    places = RANDOM.sample(range(len(stdout)), 6) + [0, len(stdout) - 1]
    parts = (b"case packed accepted 26", b"poke 0 ff", b"refused 9", b"case ninth", b"fields bytes 0 00")
    refused_by_compare(
        *((stdin, changed(stdout, at), listed) for at in places),
        *((changed(stdin, stdin.index(part) + len(part) - 1), stdout, listed) for part in parts),
        (stdin, stdout[: stdout.rindex(b"case")], listed),
        (stdin, stdout + b"\n", listed),
        (stdin, stdout[:-1], listed),
        (stdin, stdout, listed.replace(b"`padding`", b"`padded`")),
        (stdin.replace(b"case unknown", b"case held-127"), stdout.replace(b"case unknown", b"case held-127"), listed),
        (stdin.replace(b"case unknown refused 10", b"# unknown: left out"), b"", listed),
    )


def test_compare_the_cases():
    """The same with the files of the repository, where they are there: one byte of the output, one of the last expectation. The file names all its cases."""
    folder = HERE.parent / "crates/cases"
    if not (folder / "stdout").exists():
        print("crates/cases has no stdout yet: not looked at")
        return
    stdin, stdout = (folder / "stdin").read_bytes(), (folder / "stdout").read_bytes()
    end = stdin.index(b"\n", stdin.rindex(b"\ncase ") + 1)
    refused_by_compare((stdin, changed(stdout, RANDOM.randrange(len(stdout))), stdin), (changed(stdin, end - 1), stdout, stdin))


for name, test in list(globals().items()):
    if name.startswith("test_"):
        test()
print(f"{CHECKS} checks passed")
