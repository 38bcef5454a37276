"""Words for options areas and decisions, for tools/explain and tools/inspect: a reading of octets that proves nothing. The names of the numbers are those of docs/RULES.md."""
import os
import re

import common

HEADER = 20  # the octets before the area, from which pointers count
KINDS = {12: "parameter problem", 3: "destination unreachable"}
OPTIONS = {0: "end of options", 1: "no operation", 130: "basic security", 133: "extended security", 134: "CIPSO"}


def plain(cell):
    """A cell of a table without its links."""
    return re.sub(r"\[([^\]]*)\]\([^)]*\)", r"\1", cell).strip()


# Document 02's words, for numbers that docs/RULES.md does not have.
LATER = {
    19: "bad option 130 (its level is none of the four, its length is not 3 to 5, or a low bit is wrong)",
    20: "option 130 missing (the arriving port has it switched on, and there is none)",
    21: "option 130 out of range (level or flags out of range at either port; a 130 toward a port without it, or none toward one with it)",
    22: "no matching route (no prefix of the box's routes matches the destination)",
}


def rules():
    """From docs/RULES.md: each number's name and when it is given, and what an operator does about it."""
    names, advice, table = dict(LATER), {}, None
    with open(os.path.join(common.ROOT, "docs", "RULES.md"), encoding="utf-8") as page:
        for line in page:
            if line.startswith("#"):
                table = {"## The numbers": names, "## What an operator does about it": advice}.get(line.strip())
            row = [plain(cell) for cell in line.strip().strip("|").split("|")]
            if table is not None and re.fullmatch(r"\d+", row[0]):
                table[int(row[0])] = f"{row[1]} ({row[2]})" if table is names else row[2]
    return names, advice


def shorts(octets):
    return [octets[i] * 256 + octets[i + 1] for i in range(0, len(octets) - 1, 2)]


def categories(tag, octets):
    """The categories of a tag as pairs of ends, as they stand there."""
    if tag == 1:
        bits = [8 * i + k for i, octet in enumerate(octets) for k in range(8) if octet >> (7 - k) & 1]
        return [(c, c) for c in bits]
    if tag == 2:
        return [(c, c) for c in shorts(octets)]
    ends = shorts(octets)
    if len(ends) % 2 == 1:
        ends.append(0)
    return [(ends[i + 1], ends[i]) for i in range(0, len(ends), 2)]


def spans(pairs):
    """Ascending runs, those that touch joined; pairs that are out of order are told as they stand."""
    told = []
    for low, high in sorted(pairs):
        if told and told[-1][1] + 1 == low:
            told[-1] = (told[-1][0], high)
        else:
            told.append((low, high))
    words = [str(low) if low == high else f"{low} to {high}" for low, high in told]
    return ", ".join(words) if words else "none"


def label(option):
    """What stands in an option 134, as far as it goes."""
    if len(option) < 10:
        return "too short for a label"
    domain, tag, size, level = int.from_bytes(option[2:6], "big"), option[6], option[7], option[9]
    told = f"domain {domain}, tag {tag} of {size} octets, level {level}"
    if tag not in (1, 2, 5):
        return told
    body = option[10:max(10, size + 6)]
    return f"{told}, categories {spans(categories(tag, body))}"


BASIC_LEVELS = {0xab: "Unclassified", 0x96: "Confidential", 0x5a: "Secret", 0x3d: "Top Secret"}


def marking(option):
    """What stands in an option 130, as far as it goes."""
    if len(option) < 3:
        return "no level"
    told = BASIC_LEVELS.get(option[2], f"level octet {option[2]}, which is none of the four")
    flags = [f"{octet >> 1:07b}{' and another follows' if octet & 1 else ''}" for octet in option[3:]]
    return f"{told}, protection authority flags {', '.join(flags) if flags else 'none'}"


def options(area):
    """The options of an area in words, one line each, up to where it cannot be read any further."""
    at = 0
    while at < len(area):
        kind = area[at]
        name = OPTIONS.get(kind, "other")
        where = f"octet {at}: option {kind}, {name}"
        if kind == 0:
            yield where
            return
        if kind == 1:
            yield where
            at += 1
            continue
        size = area[at + 1] if at + 1 < len(area) else None
        if size is None or size < 2 or at + size > len(area):
            yield f"{where}, length {'missing' if size is None else size}"
            return
        told = {130: marking, 134: label}.get(kind)
        yield f"{where}, {size} octets" + (f": {told(area[at:at + size])}" if told else "")
        at += size


def decision(line, names, advice, area):
    """A line of the program in words."""
    words = line.split()
    if words[0] == "FORWARD":
        out = bytes.fromhex(words[2]) if len(words) > 2 else b""
        yield f"0, {names.get(0, 'not in docs/RULES.md')}; {words[1]} octets leave:"
        yield from options(out)
        return
    number, kind, code, pointer = map(int, words[1:5])
    yield f"{number}, {names.get(number, 'not in docs/RULES.md')}"
    report = f"ICMP type {kind} ({KINDS.get(kind, 'other')}), code {code}, pointer {pointer}" if kind else "silent: no ICMP message"
    if kind == 12 and code == 0 and HEADER <= pointer < HEADER + len(area):
        report += f", which is octet {pointer - HEADER} of the area and holds {area[pointer - HEADER]}"
    yield report
    if number in advice:
        yield f"to do: {advice[number]}"
