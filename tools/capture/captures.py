"""Captures made by a script, for tools/capture/test: frames of every kind of link around IPv4 datagrams, and files as pcap and pcapng have them."""
import random
import struct

ETHERNET, RAW, COOKED, IPV4_ONLY, COOKED_2 = 1, 101, 113, 228, 276
BOX, HOST = bytes.fromhex("020000000201"), bytes.fromhex("02000000020a")
GROUP = bytes.fromhex("ffffffffffff")
SOURCE, TARGET = 0xc000020a, 0xc633640a


def checksum(octets):
    total = sum(struct.unpack(f">{len(octets) // 2}H", octets))
    while total > 0xffff:
        total = (total & 0xffff) + (total >> 16)
    return ~total & 0xffff


def datagram(area=b"", payload=b"\x9c\x40\x13\x88\0\x10\0\0inglebre", protocol=17, source=SOURCE, target=TARGET, identification=0, fragment=0, life=64, total=None,
             words=None, right=True):
    """An IPv4 datagram; its header length, total length and checksum may be made wrong."""
    words = 5 + len(area) // 4 if words is None else words
    total = 20 + len(area) + len(payload) if total is None else total
    head = struct.pack(">BBHHHBBHII", 0x40 | words, 0, total, identification & 0xffff, fragment, life, protocol, 0, source, target) + area
    check = checksum(head) ^ (0 if right else 0x0101)
    return head[:10] + struct.pack(">H", check) + head[12:] + payload


def frame(link, octets, tags=(), to=BOX, kind=0x0800):
    """The datagram in a frame of a link, behind VLAN tags where it has them: pairs of a type and a control field."""
    behind = b"".join(struct.pack(">HH", control, following) for (_, control), following in zip(tags, [tag for tag, _ in tags[1:]] + [kind]))
    first = tags[0][0] if tags else kind
    group = 1 if to == GROUP else 0
    if link == ETHERNET:
        return to + HOST + struct.pack(">H", first) + behind + octets
    if link == COOKED:
        return struct.pack(">HHH8sH", group, 1, 6, HOST + b"\0\0", first) + behind + octets
    if link == COOKED_2:
        return struct.pack(">HHIHBB8s", first, 0, 2, 1, group, 6, HOST + b"\0\0") + behind + octets
    return octets


def pcap(link, frames, cut=65535):
    """A pcap file. A frame of more octets than `cut` is cut there, as a capture with a snap length does."""
    out = [struct.pack("<IHHiIII", 0xa1b2c3d4, 2, 4, 0, 0, cut, link)]
    for number, octets in enumerate(frames):
        out.append(struct.pack("<IIII", 1700000000 + number // 1000000, number % 1000000, min(cut, len(octets)), len(octets)) + octets[:cut])
    return b"".join(out)


def block(kind, body):
    body += bytes(-len(body) % 4)
    size = struct.pack("<I", len(body) + 12)
    return struct.pack("<I", kind) + size + body + size


def pcapng(link, frames):
    """A pcapng file of one interface."""
    out = [block(0x0a0d0d0a, struct.pack("<IHHq", 0x1a2b3c4d, 1, 0, -1)), block(1, struct.pack("<HHI", link, 0, 65535))]
    for number, octets in enumerate(frames):
        stamp = (1700000000 * 1000000 + number)
        out.append(block(6, struct.pack("<IIIII", 0, stamp >> 32, stamp & 0xffffffff, len(octets), len(octets)) + octets))
    return b"".join(out)


def option(domain, tag, level, body):
    return bytes([134, 10 + len(body)]) + struct.pack(">I", domain) + bytes([tag, 4 + len(body), 0, level]) + body


def padded(area):
    return area + bytes(-len(area) % 4)


def random_area(draw):
    """An options area with a label of a random tag, most of them of the sample's domain and levels, and now and then another option."""
    domain, level = draw.choice([5, 5, 5, 5, 5, 5, 6]), draw.choice([1, 3, 5, 1, 3, 5, 1, 3, 5, 2, 6])
    tag = draw.choice([1, 2, 5])
    if tag == 1:
        body = bytes(draw.choice([0, 0, 255, draw.randrange(256)]) for _ in range(draw.randrange(31)))
    elif tag == 2:
        body = b"".join(struct.pack(">H", n) for n in sorted(draw.sample(range(draw.choice([20, 301, 310])), draw.randrange(16))))
    else:
        ends = sorted(draw.sample(range(draw.choice([40, 301])), 2 * draw.randrange(8)), reverse=True)
        body = b"".join(struct.pack(">H", n) for n in ends)
    area = option(domain, tag, level, body)
    if draw.random() < 0.1 and len(area) <= 36:
        area = bytes([68, 4, 5, 0]) + area
    if draw.random() < 0.03:
        area = area[:-1]
    return padded(area)


def random_frames(count, seed, link=ETHERNET):
    draw = random.Random(seed)
    return [frame(link, datagram(random_area(draw), identification=number, source=SOURCE + draw.randrange(8))) for number in range(count)]
