"""What bench/damage compares the program with: the definitions of crates/*/specs, written down once more. Each function names its own."""

DAY = 86400


def number(image, place, size):
    return int.from_bytes(image[place:place + size], "big")


def word_minute(word):
    return word % 2048


def first(checks):
    """The place of the first check that fails."""
    return next((place for place, passes in checks if not passes), None)


# A unit: unit_model/specs/Decoding, `first_bad_place`

DAYS, SLOTS, SLOT = 1024, 366, 5776
KEPT = 564


def there(image, index):
    return number(image, slot(index), 4) != 0


def slot(index):
    return DAYS + 4 + index * SLOT


def day_of(image, index):
    return number(image, slot(index), 4) // DAY


def is_kept_good(image):
    kept = number(image, KEPT, 4)
    return kept <= 71582788 and (kept == 0 or any(there(image, i) and day_of(image, i) == kept // 1440 for i in range(SLOTS)))


def is_pointer_good(image):
    newest = number(image, DAYS, 4)
    if newest >= SLOTS:
        return False
    order = [(newest + 1 + n) % SLOTS for n in range(SLOTS)]
    filled = [there(image, i) for i in order]
    if True in filled:
        behind = filled[filled.index(True):]
        if False in behind and behind.index(False) != len(behind) - 1:
            return False
    indices = [i for i in order if there(image, i)]
    return not indices or day_of(image, indices[-1]) <= number(image, KEPT, 4) // 1440 or indices[-1] == newest


def day_checks(image, index):
    kept, newest = number(image, KEPT, 4), number(image, DAYS, 4)
    behind = newest + 1
    order = range(behind, index) if behind <= index else [*range(behind, SLOTS), *range(index)]
    before = [number(image, slot(i), 4) for i in order if there(image, i)]
    date, place = number(image, slot(index), 4), slot(index)
    yield place, date % DAY == 0 and all(d < date for d in before) and (
        date // DAY <= kept // 1440 or all(d // DAY <= kept // 1440 for d in before))
    yield place + 4, number(image, place + 4, 4) <= 9999999
    count = number(image, place + 8, 2)
    yield place + 8, 2 <= count <= 2880
    told, latest = set(), 0
    for n in range(count):
        word = number(image, place + 16 + 2 * n, 2)
        minute, side = word_minute(word), word // 32768
        yield place + 16 + 2 * n, minute < 1440 and latest <= minute and (side, minute) not in told and (n > 1 or (side == n and minute == 0))
        told.add((side, minute))
        latest = max(latest, minute)


def unit_checks(image):
    yield 0, number(image, 0, 4) == 1
    yield KEPT, is_kept_good(image)
    yield 568, number(image, 568, 4) <= 9999999
    yield 576, number(image, 576, 4) <= 255
    for row in range(8):
        for cell in range(4):
            place = 624 + 48 * row + 24 + 6 * cell
            yield place + 4, number(image, place, 4) == 0 or word_minute(number(image, place + 4, 2)) < 1440
    yield DAYS, is_pointer_good(image)
    for index in range(SLOTS):
        if there(image, index):
            yield from day_checks(image, index)
    yield 2115044, number(image, 2115044, 4) < 2048
    yield 2379240, number(image, 2379240, 4) < 255


def bad_unit(image):
    """The place of the first field of a unit that fails, or None."""
    return first(unit_checks(image))


# A card's sizes and days: card_layout/specs/Application, Files; card_model/specs/Checks, `first_bad`


def bad_field(value):
    """The number of the first field of Application_Identification that is out of its range, and its place."""
    fields = [
        (0, 1, lambda n: n == 1), (1, 2, lambda n: True), (3, 1, lambda n: 6 <= n <= 12), (4, 1, lambda n: 12 <= n <= 24),
        (5, 2, lambda n: 5544 <= n <= 13776 and n % 2 == 0), (7, 2, lambda n: 84 <= n <= 200), (9, 1, lambda n: 84 <= n <= 112),
    ]
    return next(((n, place) for n, (place, size, good) in enumerate(fields, 1) if not good(number(value, place, size))), None)


class Sizes:
    """What Application_Identification tells."""

    def __init__(self, value):
        self.events, self.faults, self.string = value[3], value[4], number(value, 5, 2)
        self.vehicles, self.places = number(value, 7, 2), value[9]

    def files(self):
        return [(0x0002, 25), (0x0005, 8), (0x0501, 10), (0x0502, 144 * self.events), (0x0503, 48 * self.faults), (0x0504, 4 + self.string),
                (0x0505, 2 + 31 * self.vehicles), (0x0506, 1 + 10 * self.places), (0x0507, 19), (0x0508, 46), (0x050E, 4), (0x0520, 143),
                (0x0521, 53), (0x0522, 280), (0xC100, 194), (0xC108, 194)]

    def values(self, image):
        """The value of each file of a card's image."""
        found, place = {}, 0
        for name, size in self.files():
            found[name] = image[place:place + size]
            place += size
        return found


class Days:
    """The value of Driver_Activity_Data."""

    def __init__(self, value):
        self.size, self.oldest, self.newest = len(value) - 4, number(value, 0, 2), number(value, 2, 2)
        string = value[4:]
        self.circle = string[self.oldest:] + string[:self.oldest]

    def place(self, distance):
        return 4 + (self.oldest + distance) % self.size

    def bad(self):
        """The place at which it first fails."""
        return first(self.checks())

    def checks(self):
        yield 0, self.oldest < self.size and self.oldest % 2 == 0
        yield 2, self.newest < self.size and self.newest % 2 == 0
        if self.oldest == self.newest and number(self.circle, 2, 2) == 0:
            return
        far, so_far, before, date = (self.newest - self.oldest) % self.size, 0, 0, 0
        for _ in range(984):
            record = self.circle[so_far:] + self.circle[:so_far]
            length = number(record, 2, 2)
            yield self.place(so_far + 2), length % 2 == 0 and 14 <= length <= 2892 and so_far + length <= self.size
            yield self.place(so_far), so_far == 0 or number(record, 0, 2) == before
            yield self.place(so_far + 4), number(record, 4, 4) % DAY == 0 and date < number(record, 4, 4)
            counter = number(record, 8, 2)
            yield self.place(so_far + 8), all(counter >> 4 * n & 15 < 10 for n in range(4))
            latest, below = 0, 1
            for offset in range(12, length, 2):
                minute = word_minute(number(record, offset, 2))
                yield self.place(so_far + offset), latest <= minute < below
                latest, below = minute, 1440
            if so_far == far:
                return
            yield self.place(so_far + 2), so_far + length <= far
            so_far, before, date = so_far + length, length, number(record, 4, 4)

    def told(self):
        """Of a string that does not fail: each day by its date, its words and the place of each."""
        far, so_far, found = (self.newest - self.oldest) % self.size, 0, []
        while number(self.circle, (so_far + 2), 2) >= 14:
            record = self.circle[so_far:]
            length = number(record, 2, 2)
            words = [(number(record, offset, 2), self.place(so_far + offset)) for offset in range(12, length, 2)]
            found.append((number(record, 4, 4), words))
            if so_far == far:
                break
            so_far += length
        return found


# A card as an insertion judges it: card_image/specs/Judging, `first_bad_file`


def end_mark(vehicles, count):
    """The minute of the last use of the newest vehicle entry, 0 without one."""
    pointer = number(vehicles, 0, 2)
    for n in range(count):
        place = 2 + 31 * ((pointer - n) % count)
        if number(vehicles, place + 6, 4) != 0:
            return number(vehicles, place + 10, 4) // 60
    return 0


def rising(words):
    for (word, _), (later, place) in zip(words, words[1:]):
        yield place, word_minute(word) < word_minute(later)


def word_checks(mark, session, days):
    placed = [(date, word, place) for date, words in days for word, place in words]
    if session == 0:
        up_to = [it for it in placed if it[0] // 60 + word_minute(it[1]) <= mark]
        for n, (date, word, place) in enumerate(it for it in placed if it[0] // 60 + word_minute(it[1]) > mark):
            gap = n == 0 and up_to and up_to[-1][0] == mark // 1440 * DAY and not up_to[-1][1] >> 13 & 1 and date // 60 + word_minute(word) != mark + 1
            yield place, word >> 13 & 1 == 1 and not gap
    trimmed = []
    for date, words in days:
        if date > mark // 1440 * DAY:
            break
        trimmed.append((date, words))
    if trimmed:
        date, words = trimmed[-1]
        if date == mark // 1440 * DAY:
            late = next((n for n, (word, _) in enumerate(words) if word_minute(word) > mark % 1440), len(words))
            words = words[:late]
        yield from rising(words)
    if session == 0 and days:
        yield from rising(days[-1][1])


def bad_card(image):
    """The file of a card that first fails, with the place in it, or None."""
    application = image[33:43]
    bad = bad_field(application)
    if bad:
        return 0x0501, bad[1]
    sizes = Sizes(application)
    values = sizes.values(image)
    days = Days(values[0x0504])
    place = days.bad()
    if place is not None:
        return 0x0504, place
    if number(values[0x0505], 0, 2) >= sizes.vehicles:
        return 0x0505, 0
    if values[0x0506][0] >= sizes.places:
        return 0x0506, 0
    place = first(word_checks(end_mark(values[0x0505], sizes.vehicles), number(values[0x0507], 0, 4), days.told()))
    return None if place is None else (0x0504, place)


# Files: file_view/specs/UnitFiles, CardFiles; message_model/specs/Messages


class Short(Exception):
    """The bytes end too early."""


class Reader:
    """Bytes from a place on."""

    def __init__(self, file, place):
        self.file, self.place = file, place

    def take(self, size):
        if len(self.file) - self.place < size:
            raise Short
        self.place += size
        return self.file[self.place - size:self.place]

    def number(self, size):
        return int.from_bytes(self.take(size), "big")

    def entries(self, width, size):
        return self.take(self.number(width) * size)


def message_end(file, place):
    """Where the message that begins at this place ends, or None where none does."""
    reader = Reader(file, place)
    try:
        if reader.number(1) != 0x76:
            return None
        kind = reader.number(1)
        if kind == 1:
            reader.take(194 + 194 + 17 + 15 + 4 + 4 + 4 + 1 + 58)
            reader.entries(1, 98)
            reader.entries(1, 31)
        elif kind == 2:
            if reader.number(4) % DAY != 0:
                return None
            reader.take(3)
            reader.entries(2, 129)
            words = reader.entries(2, 2)
            if any(word_minute(number(words, n, 2)) >= 1440 for n in range(0, len(words), 2)):
                return None
            reader.entries(1, 28)
            reader.entries(2, 5)
        elif kind == 3:
            reader.entries(1, 82)
            reader.entries(1, 83)
            reader.take(9)
            reader.entries(1, 31)
            reader.entries(1, 98)
        elif kind == 4:
            reader.entries(2, 64)
        elif kind == 5:
            reader.take(116 + 20)
            reader.entries(1, 167)
        else:
            return None
        reader.take(128)
    except Short:
        return None
    return reader.place


def bad_unit_file(file):
    place = 0
    while place < len(file) or place == 0:
        end = message_end(file, place)
        if end is None:
            return place
        place = end
    return None


def bad_card_file(file):
    place, sizes, seen = 0, None, set()
    while place < len(file):
        reader = Reader(file, place)
        try:
            name, kind = reader.number(2), reader.number(1)
            value = reader.take(reader.number(2))
        except Short:
            return place
        if kind > 1:
            return place
        if kind == 0 and name in (0x0501, 0x0504, 0x0505):
            if name in seen or (name != 0x0501 and sizes is None):
                return place
            if name == 0x0501:
                if len(value) != 10 or bad_field(value):
                    return place
                sizes = Sizes(value)
            elif name == 0x0504 and (len(value) != 4 + sizes.string or Days(value).bad() is not None):
                return place
            elif name == 0x0505 and (len(value) != 2 + 31 * sizes.vehicles or number(value, 0, 2) >= sizes.vehicles):
                return place
            seen.add(name)
        place = reader.place
    return None if len(seen) == 3 else place


def bad_file(file):
    """The place at which `view` refuses a file, or None."""
    return bad_unit_file(file) if file[:1] == b"\x76" else bad_card_file(file)


# The link: link_model/specs/Frames, Answers

UPLOAD = bytes.fromhex("350000000000FFFFFFFF")


def heard(stream):
    """What a unit hears of a stream: the data of each frame, and whether its sum is right."""
    place = 0
    while place < len(stream):
        rest = stream[place:]
        if rest[:3] == b"\x81\xEE\xF0":
            size = 5
        elif rest[:3] == b"\x80\xEE\xF0" and len(rest) > 3 and rest[3] > 0:
            size = 5 + rest[3]
        elif len(rest) <= 3 and rest in (b"\x80", b"\x81", b"\x80\xEE", b"\x81\xEE", b"\x80\xEE\xF0"):
            return
        else:
            place += 1
            continue
        if len(rest) < size:
            return
        yield rest[3 if rest[0] == 0x81 else 4:size - 1], rest[size - 1] == sum(rest[:size - 1]) % 256
        place += size


def framed(data):
    front = b"\x80\xF0\xEE" + bytes([len(data)]) + data
    return front + bytes([sum(front) % 256])


class Link:
    """A unit on the link. Its messages are those behind 76 and the number, by what is asked for: (2, date) for a day."""

    def __init__(self, messages):
        self.messages, self.state, self.asked, self.counter = messages, "idle", None, 0

    def answers(self, stream):
        return b"".join(framed(answer) for answer in (self.answer(data, right) for data, right in heard(stream)) if answer is not None)

    def refuse(self, service, code):
        return bytes([0x7F, service, code])

    def answer(self, data, right):
        if self.state == "idle":
            if not right or data != b"\x81":
                return None
            self.state = "started"
            return b"\xC1\xEA\x8F"
        if not right:
            return self.refuse(data[0], 0x10)
        service = {0x81: self.start, 0x82: self.stop, 0x10: self.diagnose, 0x35: self.upload, 0x36: self.transfer, 0x37: self.leave,
                   0x83: self.acknowledge}.get(data[0])
        return service(data) if service else self.refuse(data[0], 0x11)

    def checked(self, data, checks, state, answer):
        for holds, code in checks:
            if not holds:
                return self.refuse(data[0], code)
        self.state = state
        return answer

    def start(self, data):
        return self.checked(data, [(len(data) == 1, 0x13)], "started", b"\xC1\xEA\x8F")

    def stop(self, data):
        return self.checked(data, [(len(data) == 1, 0x13)], "idle", b"\xC2")

    def diagnose(self, data):
        return self.checked(data, [(len(data) == 2, 0x13), (data[1:2] == b"\x81", 0x12)], "diagnostic", b"\x50\x81")

    def upload(self, data):
        checks = [(len(data) == 10, 0x13), (self.state in ("diagnostic", "upload", "sending"), 0x22), (data == UPLOAD, 0x50)]
        return self.checked(data, checks, "upload", b"\x75\x00\xFF")

    def leave(self, data):
        return self.checked(data, [(len(data) == 1, 0x13), (self.state in ("upload", "sending"), 0x22)], "diagnostic", b"\x77")

    def transfer(self, data):
        kind = data[1] if len(data) > 1 else 0
        date = number(data, 2, 4) if kind == 2 else 0
        asked = (2, date) if kind == 2 else kind
        content = self.messages.get(asked)
        checks = [(len(data) >= 2, 0x13), (1 <= kind <= 5, 0x12), (len(data) == (6 if kind == 2 else 2), 0x13),
                  (self.state in ("upload", "sending"), 0x22), (date % DAY == 0, 0x31), (content is not None, 0xFA)]
        for holds, code in checks:
            if not holds:
                return self.refuse(0x36, code)
        if len(content) <= 252:
            self.state = "upload"
            return bytes([0x76, kind]) + content
        self.state, self.asked, self.counter = "sending", asked, 1
        return self.piece(content)

    def piece(self, content):
        kind = self.asked[0] if isinstance(self.asked, tuple) else self.asked
        return bytes([0x76, kind]) + self.counter.to_bytes(2, "big") + content[251 * (self.counter - 1):251 * self.counter]

    def acknowledge(self, data):
        for holds, code in ((len(data) == 4, 0x13), (data[1:2] == b"\x76", 0x12), (self.state == "sending", 0x22)):
            if not holds:
                return self.refuse(0x83, code)
        code, content = number(data, 2, 2), self.messages[self.asked]
        if code == 0xFFFF:
            self.state = "upload"
            return None
        if code not in (self.counter, self.counter + 1):
            return self.refuse(0x83, 0x31)
        if code == self.counter or 251 * (code - 1) <= len(content):
            self.counter = code
            return self.piece(content)
        self.state = "upload"
        return None
