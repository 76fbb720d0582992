"""Random description files for random_cases.py: sound ones, each kind of fault in each line, and numbers to write one from."""

from receiver import FILE_KINDS, LIMIT, NUMBERS_OF_LINE, STREAM_KINDS, TEXTS, TIMES

LARGEST = (1 << 64) - 1
CHARACTERS = ["a", "b", " ", ":", "\0", "\t", "\x7f", "\x80", "\x85", "\u07ff", "\u0800", "\u2028", "\u597d", "\ud7ff", "\ue000", "\ufeff", "\uffff", "\U00010000", "\U0010ffff"]
NO_UTF_8 = ["80", "bf", "c0 80", "c1 bf", "c2", "c2 41", "e0 9f bf", "e0 a0", "ed a0 80", "ed bf bf", "ef bf", "f0 8f bf bf", "f0 90 80", "f4 90 80 80", "f5 80 80 80", "f8 88 80 80 80", "ff"]
NO_TIMES = ["1900.02.29/00:00:00", "2023.02.29/23:59:59", "0000.01.01/00:00:00", "2024.00.01/00:00:00", "2024.13.01/00:00:00", "2024.04.31/00:00:00", "2024.12.00/00:00:00",
            "2024.01.01/24:00:00", "2024.01.01/00:60:00", "2024.01.01/00:00:60", "2024.1.1/00:00:00", "2024.01.01 00:00:00", "2024.01.01/00:00:0", "12024.01.01/00:00:00", "2024.01.01"]
NO_NUMBERS = ["", "00", "01", "-1", "+1", "1 ", " 1", "0x1", "1.0", "a", "2", "5", "16", "20", "25", "62", "132", "255", "256", "277", "8999", "10000", "65536", str(LIMIT + 1), str(1 << 32), str(1 << 64),
              str((1 << 64) + 1), str((1 << 64) + 9000), "1" * 40]


class Choices:
    """What is chosen at random; whoever chooses has `random`."""

    def below(self, n):
        return self.random.randrange(n)

    def often(self, share):
        return self.random.random() < share

    def pick(self, *choices):
        return self.random.choice(choices)


class Descriptions(Choices):
    """Texts as a list of the fifteen values, each line's behind its colon."""

    def __init__(self, random):
        self.random = random

    # ---- sound ones

    def text(self, least):
        length = self.pick(0, 0, 1, 2, 3, 8, 30)
        return "".join(self.random.choices(CHARACTERS, k=max(length, least))).encode()

    def time(self):
        year, month = self.pick(1, 4, 100, 400, 1900, 1999, 2000, 2023, 2024, 9999), self.pick(1, 2, 4, 12)
        day = 1 + self.below(28) if self.often(0.7) else {1: 31, 2: 28, 4: 30, 12: 31}[month]
        return b"%04d.%02d.%02d/%02d:%02d:%02d" % (year, month, day, self.pick(0, 7, 23), self.pick(0, 59), self.pick(0, 1, 59))

    def times(self):
        """Two, the earlier first, or only one of them, or none."""
        pair = sorted([self.time(), self.time()])
        return self.pick(pair, pair, [pair[0], pair[0]], [pair[0], b""], [b"", pair[1]], [b"", b""])

    def sound(self):
        file = self.often(0.6)
        kind = self.pick(21, 21, *sorted(FILE_KINDS)) if file else self.pick(*sorted(STREAM_KINDS))
        charset = self.pick(b"0", b"1", b"2", b"3", b"4") if kind == 21 else b""
        length = b"%d" % self.pick(1, 2, 239, 65536, LIMIT - 1, LIMIT) if file else b""
        start, end = self.times()
        return [b"%d" % self.pick(9000, 9001, 9999), b"%d" % file, b"%d" % self.pick(1, 300, 65535), b"%d" % self.pick(0, 9, 10, 15), self.text(1), b"%d" % kind,
                self.text(0), self.text(0), self.text(0), charset, self.text(0), length, start, end, self.pick(b"0", b"1")]

    def joined(self, values):
        ends = self.pick([b"\n"], [b"\n"], [b"\r\n"], [b"\n", b"\r\n"])
        return b"".join(b"%02d:%s%s" % (k, value, self.pick(*ends)) for k, value in enumerate(values, 1))

    # ---- faults

    def spoil_value(self, values):
        """One line's value becomes one that cannot stand there, as a rule."""
        k = 1 + self.below(15)
        if k in TEXTS:
            value = values[k - 1]
            at = self.below(len(value) + 1)
            values[k - 1] = self.pick(value[:at] + bytes.fromhex(self.pick(*NO_UTF_8)) + value[at:], value[:at] + self.pick(b"\r", b"\r\r", b"\n", b"\r\n") + value[at:], b"")
        elif k in TIMES:
            values[k - 1] = self.pick(*NO_TIMES).encode()
            if self.often(0.3):
                values[12:14] = sorted([self.time(), self.time()], reverse=True)
        else:
            values[k - 1] = self.pick(*NO_NUMBERS).encode()

    def spoil_lines(self, text):
        """A line is missing, doubled, exchanged, misnumbered, or something stands behind the last."""
        lines = text.splitlines(keepends=True)
        i, j = self.below(len(lines)), self.below(len(lines))
        way = self.below(8)
        if way == 0:
            del lines[i]
        elif way == 1:
            lines.insert(i, lines[j])
        elif way == 2:
            lines[i], lines[j] = lines[j], lines[i]
        elif way == 3:
            lines[i] = b"%02d" % (j + 1) + lines[i][2:]
        elif way == 4:
            lines[i] = self.pick(lines[i][1:], b" " + lines[i], b"0" + lines[i], lines[i][:2] + lines[i][3:], b"\xef\xbb\xbf" + lines[i], b"")
        elif way == 5:
            lines.append(self.pick(b"\n", b"\r", b"\0", b"16:\n", lines[-1]))
        elif way == 6:
            lines[-1] = self.pick(lines[-1][:-1], lines[-1][:-1] + b"\r", b"15:0")
        else:
            lines[i] = lines[i].replace(b"\n", b"\r\r\n")
        return b"".join(lines)

    def spoil_bytes(self, text):
        at = self.below(len(text))
        return text[:at] + bytes([self.below(256)]) + text[at + 1 :]

    def any(self):
        """A text, sound in one of three."""
        values = self.sound()
        for _ in range(self.pick(0, 0, 1, 1, 2)):
            self.spoil_value(values)
        text = self.joined(values)
        for _ in range(self.pick(0, 0, 0, 1, 2)):
            text = self.pick(self.spoil_lines, self.spoil_lines, self.spoil_bytes)(text) if text else text
        return text

    # ---- numbers to write one from

    def spoil_number(self, values, length):
        """One number of a line, and what it becomes. The lent text has that length."""
        k = 1 + self.below(15)
        i = sum(NUMBERS_OF_LINE[line] for line in range(1, k)) + self.below(NUMBERS_OF_LINE[k])
        it = values[i]
        edges = [0, 1, 2, 4, 5, 13, 16, 21, 22, 24, 31, 32, 60, 61, 128, 131, 255, 256, 8999, 9000, 10000, 65536, LIMIT + 1, length, length + 1, 1 << 32, LARGEST]
        return i, self.pick(it + 1, max(it - 1, 0), it + 256, it + 65536, it + (1 << 32), *edges)
