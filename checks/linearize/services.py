"""The two services, as docs/FORMATS.md says: what each answers to ops that it is given one after the other, from its initial state on.

Of ops and results that are drawn at random the keys, values and names are few, so that they meet one another.
"""


def strings(data, size, count):
    """So many byte strings and nothing behind them, each after its length, a number of `size` bytes; None where it is not so."""
    parts = []
    for _ in range(count):
        length = int.from_bytes(data[:size], "big")
        if len(data) < size + length:
            return None
        parts.append(data[size : size + length])
        data = data[size + length :]
    return parts if not data else None


def sized(size, *parts):
    return b"".join(len(part).to_bytes(size, "big") + part for part in parts)


class Kv:
    """A map from keys to values."""

    FIELDS = {b"G": 1, b"P": 2, b"D": 1, b"C": 3}

    def __init__(self):
        self.values = {}

    @classmethod
    def fields(cls, op):
        """The letter of an op, its key and its values; None for other bytes."""
        parts = strings(op[1:], 2, cls.FIELDS[op[:1]]) if op[:1] in cls.FIELDS else None
        if parts is None or not 1 <= len(parts[0]) <= 64 or any(len(value) > 256 for value in parts[1:]):
            return None
        return op[:1], parts[0], parts[1:]

    @classmethod
    def part_of(cls, op):
        """The part of the service that an op is of: its key."""
        fields = cls.fields(op)
        return fields[1] if fields else b""

    def answer(self, op):
        fields = self.fields(op)
        if not fields:
            return b"bad"
        letter, key, given = fields
        before = b"=" + self.values[key] if key in self.values else b"none"
        if letter == b"C":
            if self.values.get(key) != given[0]:
                return b"no"
            self.values[key] = given[1]
            return b"yes"
        if letter == b"P":
            if key not in self.values and len(self.values) == 4096:
                return b"full"
            self.values[key] = given[0]
        elif letter == b"D":
            self.values.pop(key, None)
        return before

    @staticmethod
    def op(rng):
        key, (old, new) = rng.choice([b"a", b"a", b"a", b"b"]), rng.sample([b"1", b"2", b"3"], 2)
        return rng.choice([
            b"G" + sized(2, key), b"G" + sized(2, key), b"P" + sized(2, key, new), b"P" + sized(2, key, new),
            b"D" + sized(2, key), b"C" + sized(2, key, old, new), b"C" + sized(2, key, old, new),
            rng.choice([b"", b"G", b"P" + sized(2, key)]) if rng.randrange(4) == 0 else b"P" + sized(2, key, b""),
        ])

    @staticmethod
    def result(rng):
        return rng.choice([b"none", b"=", b"=1", b"=2", b"=3", b"yes", b"no", b"bad", b"full", b""])


class Locks:
    """Locks by name, each with its owner and its token."""

    def __init__(self):
        self.held, self.last = {}, 0

    @staticmethod
    def fields(op):
        """The letter of an op, its names and its token; None for other bytes."""
        letter, rest, token = op[:1], op[1:], None
        if letter == b"R" and len(rest) >= 8:
            rest, token = rest[:-8], int.from_bytes(rest[-8:], "big")
        names = strings(rest, 1, 1 if letter == b"I" else 2)
        is_op = letter in (b"A", b"I") or token is not None
        if not is_op or names is None or any(not 1 <= len(name) <= 64 for name in names):
            return None
        return letter, names, token

    @staticmethod
    def part_of(_op):
        """The service has one part: a token is one more than the last of any lock."""
        return b""

    def answer(self, op):
        fields = self.fields(op)
        if not fields:
            return b"bad"
        letter, names, token = fields
        owner, by = self.held.get(names[0], (None, None))
        if letter == b"I":
            return b"held" + by.to_bytes(8, "big") + owner if owner else b"free"
        if letter == b"R":
            if (owner, by) != (names[1], token):
                return b"refused"
            del self.held[names[0]]
            return b"released"
        if owner == names[1]:
            return b"granted" + by.to_bytes(8, "big")
        if owner:
            return b"held" + by.to_bytes(8, "big") + owner
        if self.last == 2**64 - 1:
            return b"spent"
        if len(self.held) == 4096:
            return b"full"
        self.last += 1
        self.held[names[0]] = names[1], self.last
        return b"granted" + self.last.to_bytes(8, "big")

    @staticmethod
    def op(rng):
        name, owner, token = rng.choice([b"a", b"a", b"b"]), rng.choice([b"x", b"y"]), rng.randrange(1, 4).to_bytes(8, "big")
        return rng.choice([
            b"A" + sized(1, name, owner), b"A" + sized(1, name, owner), b"R" + sized(1, name, owner) + token,
            b"R" + sized(1, name, owner) + token, b"I" + sized(1, name), rng.choice([b"I" + sized(1, name), b"", b"A"]),
        ])

    @staticmethod
    def result(rng):
        token, owner = rng.randrange(1, 4).to_bytes(8, "big"), rng.choice([b"x", b"y"])
        return rng.choice([b"granted" + token, b"granted" + token, b"held" + token + owner, b"released", b"refused", b"free", b"bad"])


SERVICES = {"kv": Kv, "lock": Locks}
