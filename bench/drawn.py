"""Files of units and cards, drawn at random: as other devices may write them, and as the program makes and records them."""
import random

import appendix
import shared

DAY = 86400
FIRST = 1267401600  # 2010-03-01
DRAWN = [0x0002, 0x0005, 0x0502, 0x0503, 0x0506, 0x0507, 0x0508, 0x0520, 0x0521, 0x0522, 0xC100, 0xC108]  # what `view` passes over


def drawn(width, count, least, most):
    """So many records of a width behind their count, of which some are zeros."""
    many = random.randint(least, most)
    records = (bytes(width) if random.random() < 0.3 else random.randbytes(width) for _ in range(many))
    return many.to_bytes(count, "big") + b"".join(records)


def plain(width):
    """Bytes as a field may have them: text with spaces, zeros, or any."""
    return random.choice([b"\1" + b"Meier".ljust(width - 1), bytes(width), random.randbytes(width)])[:width]


def drawn_unit():
    """A unit file as another device may write it, of days in any order."""
    dates = random.sample(range(12000, 16000), random.randint(1, 12))
    now = max(dates) * DAY + random.randrange(DAY)
    file = b"\x76\x01" + random.randbytes(388) + plain(17) + plain(15) + now.to_bytes(4, "big") + random.randbytes(4 + 4 + 1) + plain(58)
    file += drawn(98, 1, 0, 20) + drawn(31, 1, 0, 5) + random.randbytes(128)
    for date in dates:
        words = [0, 0x8000] + [random.randrange(32) << 11 | minute for minute in sorted(random.sample(range(1, 1440), random.randrange(60)))]
        file += b"\x76\x02" + (date * DAY).to_bytes(4, "big") + random.randbytes(3) + drawn(129, 2, 0, 4) + len(words).to_bytes(2, "big")
        file += b"".join(word.to_bytes(2, "big") for word in words) + drawn(28, 1, 0, 3) + drawn(5, 2, 0, 3) + random.randbytes(128)
    rest = [b"\x76\x03" + drawn(82, 1, 0, 8) + drawn(83, 1, 0, 30) + random.randbytes(9) + drawn(31, 1, 0, 8) + drawn(98, 1, 0, 4),
            b"\x76\x04" + drawn(64, 2, 0, 40), b"\x76\x05" + plain(116) + plain(20) + drawn(167, 1, 0, 5)]
    random.shuffle(rest)
    return file + b"".join(it + random.randbytes(128) for it in rest)


def drawn_card(file):
    """A card file with other records in the files that `view` passes over."""
    made = b""
    for _, fid, kind, content in appendix.files(file):
        if fid in DRAWN:
            pieces = (random.choice([random.randbytes(24), bytes(24), b"\1" + b"Roe".ljust(23)]) for _ in range(len(content) // 24 + 1))
            content = b"".join(pieces)[: len(content)]
        made += fid.to_bytes(2, "big") + bytes([kind]) + len(content).to_bytes(2, "big") + content
        if random.random() < 0.2:
            made += fid.to_bytes(2, "big") + b"\1" + b"\0\x80" + random.randbytes(128)
    return made


def by_hand(slot):
    """What the driver of a slot enters by hand, at rising minutes; those that are not free are refused."""
    minutes = sorted(random.sample(range(1440), random.choice([0, 0, 1, 3, 9])))
    return [f"manual {slot} {random.choice(['rest', 'available', 'work'])} {minute}" for minute in minutes]


def drawn_trace():
    """The trace of some days of two drivers."""
    lines, slots, free = [f"start {FIRST + 60 * random.randrange(DAY)}"], {"driver": None, "codriver": None}, ["a", "b"]
    for _ in range(random.randint(5, 60)):
        slot = random.choice(list(slots))
        act = random.randrange(10)
        if act < 2 and not slots[slot] and free:
            slots[slot] = free.pop(random.randrange(len(free)))
            lines.append(f"insert {slot} {slots[slot]}")
            lines += by_hand(slot)
            lines.append("run 1 0")
        elif act == 2 and slots[slot]:
            free.append(slots[slot])
            slots[slot] = None
            lines += [f"withdraw {slot}", "run 1 0"]
        elif act == 3:
            lines.append(f"off {60 * random.randint(1, 3000)}")
        elif act == 4 and slots[slot]:
            lines += [f"place {slot} {random.choice(['begin', 'end'])} {random.randrange(256)} {random.randrange(256)}", "run 1 0"]
        elif act == 5:
            lines += [f"select {slot} {random.choice(['rest', 'available', 'work'])}"]
        lines.append(f"run {random.randint(1, 20000)} {random.choice([0, 0, 50, 80, 95, 120])}")
    return ("\n".join(lines) + "\n").encode()


def made_files(folder):
    """The files of a unit and two cards that the program makes and records on."""
    shared.new_devices(folder)
    if random.random() < 0.3:
        shared.run(["upgrade"], folder)
    if random.random() < 0.2:
        shared.run(["demo", str(random.randrange(100))], folder)
    else:
        status, _, line = shared.run(["record"], folder, drawn_trace())
        if status != 0:
            print(f"record: status {status}, {line}")
    for words in (["download"], ["card", "a"], ["card", "b"]):
        yield shared.run(words, folder)[1]
