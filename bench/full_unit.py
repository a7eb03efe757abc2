"""A full unit: 366 days with 2880 words each, and full of insertions and places."""
import struct
import time

DAYS, WORDS, INSERTIONS, PLACES = 366, 2880, 2048, 255
NEWEST = 14669  # 2010-03-01, by days since 1970
DATES = [86400 * (NEWEST - DAYS + 1 + n) for n in range(DAYS)]
SIGNATURE = bytes(128)


def spread(n, count):
    """The day of the nth of so many entries, which are spread over all days."""
    return DATES[n * DAYS // count] + 3600


def insertion(n):
    """An insertion that is still open."""
    return bytes([n % 251]) * 94 + struct.pack(">I", spread(n, INSERTIONS)) + bytes(31)


def place(n):
    """A place."""
    return bytes([n % 241]) * 18 + struct.pack(">I", spread(n, PLACES)) + bytes([0, 13, 0]) + bytes(3)


def words():
    """The words of a day: each minute changes both states."""
    return b"".join(struct.pack(">HH", m % 2 * 0x1800 + m, 0x8000 + m % 2 * 0x0800 + m) for m in range(1440))


def full_image(words_of=lambda n: words()):
    """The unit's image; the words of a day by its number."""
    image = bytearray(2485808)

    def put(at, data):
        image[at : at + len(data)] = data

    put(0, struct.pack(">I", 1))
    put(564, struct.pack(">II", NEWEST * 1440 + 1439, 9999999))
    put(1024, struct.pack(">I", DAYS - 1))
    for n, date in enumerate(DATES):
        put(1028 + 5776 * n, struct.pack(">IIHxxxxxx", date, 9000000, WORDS) + words_of(n))
    put(2115044, struct.pack(">I", INSERTIONS - 1) + b"".join(map(insertion, range(INSERTIONS))))
    put(2379240, struct.pack(">I", PLACES - 1) + b"".join(map(place, range(PLACES))))
    return bytes(image)


def view_lines():
    """The view text of the unit's file: each minute is a line."""
    for date in DATES:
        day = time.strftime("%Y-%m-%d", time.gmtime(date))
        for m in range(1440):
            clock = f"{m // 60:02}:{m % 60:02}"
            driver, codriver = ("drive", "available") if m % 2 else ("rest", "rest")
            yield f"{day} {clock}-{clock} driver={driver},in codriver={codriver},in single\n"
