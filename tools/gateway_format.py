"""The layout of a gateway file (docs/FILE.md), version by version: one description, by which octets are read and made. Beside each number
stands what it must be; whether it is, only the proved reader says."""
import collections

# For each version: the most octets of a file, level pairs and rows of a table.
LIMITS = {1: (32768, 16, 64), 2: (61440, 256, 1024), 3: (61440, 256, 1024)}
LEVELS = {"unclassified": 0xab, "confidential": 0x96, "secret": 0x5a, "top-secret": 0x3d}
SPELLINGS = {"tag1": 1, "tag1-ten": 2, "tag2": 4, "tag5": 8}
# What a port of version 1 has in the later fields.
LATER = {"basic-receiving": None, "basic-sending": None, "spellings": 13, "default": None, "strict": 0}
NO_LABEL = (0, 0, [])
NO_BASIC = (0, 0, [])
# A number of a file: its place and width, the record and the line that it belongs to, and what it must be.
Number = collections.namedtuple("Number", "place width where line rule")


class Record:
    """A port or a table: the value of each field, and the line of the text that says it."""
    def __init__(self, kind, number, line=None):
        self.kind, self.number, self.line = kind, number, line
        self.values, self.lines, self.rows, self.pairs = {}, {}, [], []


class Coder:
    """Octets that are read (where some are given) or made, number by number."""
    def __init__(self, version, octets=None):
        self.version, self.reading = version, octets is not None
        self.octets, self.where, self.line, self.numbers = bytearray(octets or b""), "", 1, []

    def number(self, width, value, name, rule):
        """The number that is read, or the one given. A rule is what follows the name, or tells the whole sentence from the number."""
        at = self.numbers[-1].place + self.numbers[-1].width if self.numbers else 0
        if self.reading:
            there = self.octets[at:at + width]
            value = int.from_bytes(there, "big")
            if len(there) < width:
                self.numbers.append(Number(at, width, self.where, self.line, f"{name} is cut off"))
                raise EOFError
        said = rule(value) if callable(rule) else f"{name} {rule}"
        self.numbers.append(Number(at, width, self.where, self.line, said))
        if not self.reading:
            self.octets += min(value, 256 ** width - 1).to_bytes(width, "big")
        return value

    def label(self, given, name, rule, zero=None):
        """A label; `rule` is that of its domain, `zero` where the whole label must be zero."""
        domain, level, runs = given or NO_LABEL
        domain = self.number(4, domain, f"the domain of the {name} label", rule)
        level = self.number(1, level, f"the level of the {name} label", zero or "may be anything")
        count = self.number(1, len(runs), f"the run count of the {name} label", zero or "must be at most 120")
        got = []
        for i in range(count):
            low, high = (runs or [(0, 0)] * count)[i]
            low = self.number(2, low, f"run {i} of the {name} label", "must begin at least 2 above the end of the run before it")
            got.append((low, self.number(2, high, f"the end of run {i} of the {name} label", "must be at least its beginning, and at most 65534")))
        return domain, level, got

    def basic(self, given, way, on):
        """Basic Security of one way."""
        lowest, highest, flags = given or NO_BASIC
        off = None if on else "must be 0: Basic Security is off"
        four = f"must be one of {', '.join(LEVELS)}"
        lowest = self.number(1, lowest, f"the lowest level of {way}", off or four)
        highest = self.number(1, highest, f"the highest level of {way}", off or f"{four}, and not below the lowest")
        count = self.number(2, len(flags), f"the number of flag fields of {way}", off or "must be at most 256")
        got = [self.number(2, (flags or [0] * count)[i], f"flag field {i} of {way}", "may be anything") for i in range(count)]
        return (lowest, highest, got) if on else None

    def port(self, record):
        values, said = record.values, dict(LATER, **record.values)

        def begin(field):
            self.line = record.lines.get(field, record.line)
            return said.get(field)

        domain = values["domain"] = self.number(4, begin("domain"), "the port's domain", "must not be 0")
        own = "must be the port's"
        values["lowest"] = self.label(begin("lowest"), "lowest", own)
        values["highest"] = self.label(begin("highest"), "highest", lambda got:
            f"the domain of the highest label {own}" if got != domain else "the highest label must be at least the lowest")
        required = values["required"] = self.number(1, begin("required"), "required", "must be 0 or 1")
        none = "must be 0: where a label is required, the assigned label is none" if required else None
        values["assigned"] = self.label(begin("assigned"), "assigned", lambda got:
            f"the domain of the assigned label {none or own}" if required or got != domain else "the assigned label must lie between lowest and highest", none)
        if self.version == 1:
            return
        both = [begin(field) for field in ("basic-sending", "basic-receiving")]
        on = self.number(1, int(both != [None, None]), "Basic Security on", "must be 0 or 1")
        for field in ("basic-receiving", "basic-sending"):
            values[field] = self.basic(begin(field), field, on)
        values["spellings"] = self.number(1, begin("spellings"), "the sum of the spellings", "must be 1 to 15: at least one is permitted")
        given = begin("default")
        unlabelled = self.number(1, int(given is not None), "unlabelled", "must be 0 or 1")
        zero = None if unlabelled else "must be 0: the hosts behind the port have labels"
        label = self.label(given, "default", lambda got:
            f"the domain of the default label {zero or own}" if zero or got != domain else "the default label must lie between lowest and highest", zero)
        values["default"] = label if unlabelled else None
        if self.version > 2:
            values["strict"] = self.number(1, begin("strict"), "strict", "must be 0 or 1")

    def table(self, record):
        _, most_pairs, most_rows = LIMITS[self.version]

        def line_of(items, at):
            return items[at][1] if at < len(items) else record.line

        for field in ("from", "to"):
            self.line = record.lines.get(field, record.line)
            record.values[field] = self.number(4, record.values.get(field), f"the domain that the table goes {field}", "must not be 0")
        pairs, rows, record.pairs, record.rows = record.pairs, record.rows, [], []
        self.line = line_of(pairs, most_pairs)
        count = self.number(2, len(pairs), "the number of level pairs", f"must be at most {most_pairs}")
        for i in range(count):
            self.line = line_of(pairs, i)
            first, second = pairs[i][0] if pairs else (0, 0)
            first = self.number(1, first, f"the first level of pair {i}", "must be above that of the pair before it")
            second = self.number(1, second, f"the second level of pair {i}", "must be above that of the pair before it")
            record.pairs.append(((first, second), self.line))
        self.line = line_of(rows, most_rows)
        count = self.number(2, len(rows), "the number of rows", f"must be at most {most_rows}")
        for i in range(count):
            self.line = line_of(rows, i)
            low, high, target = rows[i][0] if rows else (0, 0, 0)
            low = self.number(2, low, f"row {i}", "must begin above the end of the row before it")
            high = self.number(2, high, f"the end of row {i}", "must be at least its beginning, and at most 65534")
            target = self.number(2, target, f"the target of row {i}", "must end at 65534 at most, and share no number with the target of a row before it")
            record.rows.append(((low, high, target), self.line))

    def file(self, ports=(), tables=(), length=0):
        """The whole file; the length is written by the caller, who knows it at the end."""
        self.number(2, length, "the length of the file", "must say how many octets there are, and these must be at most "
                    f"{LIMITS[self.version][0]}")
        self.number(1, self.version, "the version", "must be known")
        lists = []
        for kind, given, most, code in (("port", ports, 16, self.port), ("table", tables, 8, self.table)):
            self.where, self.line = "", given[most].line if len(given) > most else 1
            count = self.number(1, len(given), f"the number of {kind}s", f"must be at most {most}")
            lists.append([given[i] if given else Record(kind, i) for i in range(count)])
            for record in lists[-1]:
                self.where, self.line = f"{kind} {record.number}: ", record.line
                code(record)
        self.where = ""
        return lists

    def at_place(self, place):
        """The number that begins at a place."""
        after = Number(place, 0, "", 1, "nothing may stand after the last table")
        return next((number for number in self.numbers if number.place == place), after)


def made(version, ports, tables):
    """The octets of a file of these records, with what made them."""
    coder = Coder(version)
    coder.file(ports, tables)
    coder.octets[:2] = len(coder.octets).to_bytes(2, "big") if len(coder.octets) < 65536 else b"\xff\xff"
    return coder


def read(octets):
    """The records of octets as far as they go, with what read them."""
    version = octets[2] if len(octets) > 2 and octets[2] in LIMITS else 1
    coder, lists = Coder(version, octets), []
    try:
        lists = coder.file()
    except EOFError:
        pass
    return coder, lists
