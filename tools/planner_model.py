"""The planner's input and the reading of frames, written from docs/ alone, to compare the programs with."""

LONGEST_INPUT = 65536
CLASS_NAMES = ("best-effort", "reserved", "clock", "time-sensitive")


class Fault(Exception):
    """A broken input: the place that refusal 12 names."""


def big(data):
    return int.from_bytes(data, "big")


def records(data):
    """The records of an input, one after the other: (place, kind, body). Raises Fault where it is broken."""
    if len(data) > LONGEST_INPUT:
        raise Fault(LONGEST_INPUT)
    place = 0
    while place < len(data):
        length = big(data[place : place + 2])
        record = data[place : place + 2 + length]
        if len(data) - place < 2 or length < 2 or len(record) < 2 + length:
            raise Fault(place)
        version, kind, body = record[2], record[3], record[4:]
        if version != 1 or kind > 4 or (kind == 0) != (place == 0) or not body_fits(kind, body):
            raise Fault(place)
        yield place, kind, body
        place += 2 + length


def body_fits(kind, body):
    if kind == 0:
        return len(body) >= 22 and len(body) == 22 + 7 * body[21] and body[20] <= 1
    if kind == 1:
        return len(body) >= 1
    return len(body) == (0 if kind == 2 else 1)


class Opening:
    def __init__(self, body):
        self.slot, self.number = big(body[0:6]), big(body[6:12])
        self.rate, self.depth, self.reserved, self.best_effort = (big(body[i : i + 2]) for i in (12, 14, 16, 18))
        self.tap = body[20]
        self.rows = [(body[i : i + 6], body[i + 6]) for i in range(22, len(body), 7)]

    def table_fault(self):
        """The place of the first row that a table cannot hold, or None."""
        for place, (_, ports) in enumerate(self.rows):
            if place >= 12 or ports > 15:
                return place
        return None

    def route(self, destination, port):
        """A port set, 'unknown' or 'tap'."""
        if self.tap and port == 3:
            return "tap"
        if destination == b"\xff" * 6:
            ports = 15 & ~(1 << port)
        else:
            ports = next((s for address, s in self.rows if address == destination), 0) & ~(1 << port)
        if self.tap:
            ports &= 7
            ports = ports | 8 if ports else 0
        return ports or "unknown"


class Frame:
    """A frame of 60 to 1,518 bytes."""

    def __init__(self, data):
        self.destination = data[0:6]
        self.kind, self.place, self.priority = big(data[12:14]), 14, None
        if self.kind == 0x8100:
            self.priority, self.kind, self.place = data[14] >> 5, big(data[16:18]), 18

    def number_of_class(self):
        if self.priority is None:
            return 2 if self.kind == 0x88F7 else 0
        return 3 if self.priority >= 6 else 1 if self.priority >= 3 else 0


def fits(data):
    return 60 <= len(data) <= 1518
