"""A reader of LIF that knows nothing of the programs, and volumes that are made at random."""
from typing import NamedTuple

from harness import entry, image

TYPES = {0x0001: "TEXT", 0xE020: "WALL", 0xE030: "KEY", 0xE040: "STATUS", 0xE050: "ROM", 0xE080: "PROG", 0xE0D0: "SDATA",
         0xE0D5: "TEXT-S", 0xE0F0: "DATA", 0xE0F1: "DATA-S", 0xE204: "BIN", 0xE208: "LEX", 0xE20C: "KEY", 0xE214: "BASIC",
         0xE215: "BASIC-S", 0xE216: "BASIC-P", 0xE217: "BASIC-SP", 0xE218: "FORTH", 0xE21C: "ROM", 0xE052: "TEXT",
         0xE088: "BASIC", 0xE089: "LEX"}
HALVES = (0xE204, 0xE208, 0xE20C, 0xE214, 0xE215, 0xE216, 0xE217, 0xE218, 0xE21C)
REDO = b"REDOFILE  "


# ---- a reader of LIF, by the format's description

def number(bytes_, at, size):
    return int.from_bytes(bytes_[at:at + size], "big")


def shown(text):
    """A name or a label as the program prints it: other bytes than 21 to 7E hex, and the percent sign, as %HH."""
    text = text.rstrip(b" ") or b" "
    return "".join(chr(b) if 0x21 <= b <= 0x7E and b != 37 else f"%{b:02X}" for b in text)


def is_redo(slot, records):
    start, length = number(slot, 12, 4), number(slot, 16, 4)
    return slot[:10] == REDO and number(slot, 10, 2) == 0xE0D0 and (start, length) in ((records - 4, 4), (records - 34, 34))


def size_of(slot):
    """The bytes of a file, if its field tells them and they end in its last record."""
    kind, records, field = number(slot, 10, 2), number(slot, 16, 4), slot[28:32]
    low = field[0] + 256 * field[1]
    count = {0xE080: number(field, 0, 2), 0xE0D0: 8 * number(field, 0, 2), 0xE0F0: low * (field[2] + 256 * field[3]),
             0xE0F1: low * (field[2] + 256 * field[3])}.get(kind)
    if kind in HALVES:
        count = (low + 65_536 * field[2] + 1) // 2
    return str(count) if count is not None and 256 * (max(records, 1) - 1) < count <= 256 * records else "-"


def date_of(slot):
    digits = [(b >> 4, b & 15) for b in slot[20:26]]
    parts = [10 * high + low for high, low in digits]
    ranges = ((0, 99), (1, 12), (1, 31), (0, 23), (0, 59), (0, 59))
    if any(d > 9 for pair in digits for d in pair) or any(not a <= p <= b for p, (a, b) in zip(parts, ranges)):
        return "-"
    year = parts[0] + (1900 if parts[0] >= 60 else 2000)
    return f"{year}-{parts[1]:02}-{parts[2]:02} {parts[3]:02}:{parts[4]:02}"


def plural(count, noun):
    return f"{count} {noun}" + ("" if count == 1 else "s")


class Volume(NamedTuple):
    """What an image holds."""
    label: bytes
    records: int
    free: int
    slots: list
    unused: int
    live: list


def volume_of(name):
    with open(name, "rb") as file:
        bytes_ = file.read()
    records = 512 if len(bytes_) <= 131_072 else 2_464
    start, length = number(bytes_, 8, 4), number(bytes_, 16, 4)
    slots = [bytes_[256 * start + 32 * k:256 * start + 32 * k + 32] for k in range(8 * length)]
    ends = [k for k, slot in enumerate(slots) if number(slot, 10, 2) == 0xFFFF]
    slots = slots[:ends[0]] if ends else slots
    live = [slot for slot in slots if number(slot, 10, 2)]
    free = records - start - length - sum(number(slot, 16, 4) for slot in live)
    return Volume(bytes_[2:8], records, free, slots, 8 * length - len(slots), live)


def listing(name, with_redo=False):
    """What `dir` is to print for an image."""
    volume = volume_of(name)
    files = [slot for slot in volume.live if not is_redo(slot, volume.records)]
    redo = next((k for k, slot in enumerate(volume.slots) if slot[:10] == REDO and number(slot, 10, 2)), len(volume.slots))
    purged = sum(1 for slot in volume.slots[:redo] if not number(slot, 10, 2))
    lines = [f"volume {shown(volume.label)}, {plural(len(files), 'file')}, {purged} purged, "
             f"{plural(volume.unused, 'slot')} free, {plural(volume.free, 'record')} free"]
    table = [(shown(s[:10]), f"{number(s, 10, 2):04X} {TYPES.get(number(s, 10, 2), '-')}", str(number(s, 16, 4)), size_of(s),
              date_of(s), s[28:32].hex().upper()) for s in (volume.live if with_redo else files)]
    wide = [max((len(row[k]) for row in table), default=0) for k in range(5)]
    for name_, kind, count, size, date, field in table:
        lines.append(f"{name_:<{wide[0]}}  {kind:<{wide[1]}}  {count:>{wide[2]}} records  {size:>{wide[3]}} bytes  "
                     f"{date:<{wide[4]}}  {field}")
    return "".join(line + "\n" for line in lines).encode()


# ---- directories made at random

def any_name(chance):
    if chance.random() < 0.6:
        return bytes(chance.choice(b"ABCDEFGHIJKLMNOPQRSTUVWXYZ0123456789_") for _ in range(chance.randint(1, 10)))
    return bytes(chance.randrange(256) for _ in range(chance.randint(1, 10)))


def any_field(chance, kind, records):
    """A field that often tells a number of bytes which ends in the last record, or just outside it."""
    count = max(0, 256 * records - chance.choice((0, 1, 100, 255, 256, -1)))
    if kind == 0xE080:
        return (count % 65_536).to_bytes(2, "big") + bytes(2)
    if kind == 0xE0D0:
        return (count // 8 % 65_536).to_bytes(2, "big") + bytes(2)
    if kind in HALVES:
        return (max(0, 2 * count - chance.randint(0, 1)) % 2**24).to_bytes(3, "little") + bytes(1)
    return bytes(chance.randrange(256) for _ in range(4))


def any_date(chance):
    good = [chance.randint(0, 99), chance.randint(1, 12), chance.randint(1, 31), chance.randint(0, 23),
            chance.randint(0, 59), chance.randint(0, 59)]
    date = bytearray(16 * (n // 10) + n % 10 for n in good)
    if chance.random() < 0.5:
        date[chance.randrange(6)] = chance.choice((0, 0x0A, 0xA0, 0x13, 0x24, 0x32, 0x60, 0x99, chance.randrange(256)))
    return bytes(date) if chance.random() < 0.9 else bytes(6)


def any_volume(chance, name):
    """Writes a legal volume: files in a shuffled order, purged slots, and often a redo file."""
    records = chance.choice((512, 512, 2_464))
    length = chance.randint(1, 12)
    start, at, slots, names = chance.choice((1, 2, 5)), 0, [], {REDO}
    at = start + length + chance.randint(0, 3)
    end = records - 34
    for _ in range(chance.randint(0, 8 * length - 2)):
        count = chance.choice((0, 1, 1, 2, 3, chance.randint(0, 40)))
        word = any_name(chance)
        if at + count > end or word.ljust(10) in names:
            continue
        names.add(word.ljust(10))
        kind = chance.choice([*TYPES, 0, 0, chance.randint(2, 0xFFFE)])
        slots.append(entry(word, kind, at, count, any_field(chance, kind, count), any_date(chance)))
        at += count + chance.choice((0, 0, 1, 5))
    chance.shuffle(slots)
    if chance.random() < 0.7:
        long = chance.choice((4, 34))
        slots.insert(chance.randint(0, len(slots)) if chance.random() < 0.3 else len(slots),
                     entry(REDO, 0xE0D0, records - long, long))
    image(name, slots, start, length, size=256 * records, label=any_name(chance)[:6].ljust(6))
