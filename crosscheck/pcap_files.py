"""Random pcap files that carry given datagrams, and what hearing them comes to: crosscheck/fuzz compares that with the same datagrams
in a capture."""

MOST_KEPT = 262144
NETWORKS = (1, 113, 276)
OTHER_NETWORKS = (0, 2, 101, 112, 20, 257)
IPV4, IPV6, UDP = 0x0800, 0x86DD, 17
# Where datagrams go that any port may take.
PORT = 5004


def big(number, length):
    return number.to_bytes(length, "big")


# ---- frames


def datagram_of(rnd, port, payload):
    """A UDP datagram, of which nobody looks at the checksum."""
    return big(rnd.randrange(1, 65536), 2) + big(port, 2) + big(8 + len(payload), 2) + rnd.randbytes(2) + payload


def ipv4_packet(rnd, protocol, body, fragment=0):
    options = 4 * rnd.choice([0, 0, 0, 1, 10])
    length = 20 + options + len(body)
    flags = rnd.choice([0, 0x4000]) | fragment
    head = big(0x45 + options // 4, 1) + rnd.randbytes(1) + big(length, 2) + rnd.randbytes(2) + big(flags, 2)
    return head + rnd.randbytes(1) + big(protocol, 1) + rnd.randbytes(10 + options) + body


def ipv6_packet(rnd, protocol, body):
    return b"\x60" + rnd.randbytes(3) + big(len(body), 2) + big(protocol, 1) + rnd.randbytes(33) + body


def framed(rnd, network, kind, packet):
    if network == 113:
        return rnd.randbytes(14) + big(kind, 2) + packet
    if network == 276:
        return big(kind, 2) + rnd.randbytes(18) + packet
    tags = b"".join(rnd.choice([b"\x81\x00", b"\x88\xa8"]) + rnd.randbytes(2) for _ in range(rnd.choice([0, 0, 0, 1, 2])))
    return rnd.randbytes(12) + tags + big(kind, 2) + packet


def frame_of(rnd, network, port, payload):
    """A frame that carries this payload, with bytes behind it now and then."""
    datagram = datagram_of(rnd, port, payload)
    if len(datagram) + 60 < 65536 and rnd.random() < 0.8:
        frame = framed(rnd, network, IPV4, ipv4_packet(rnd, UDP, datagram))
    else:
        frame = framed(rnd, network, IPV6, ipv6_packet(rnd, UDP, datagram))
    return frame + (rnd.randbytes(rnd.randint(1, 20)) if rnd.random() < 0.1 else b"")


def other_frame(rnd, network, port):
    """A frame that carries nothing to the port; at 0, nothing to any."""
    datagram = datagram_of(rnd, port or PORT, rnd.randbytes(rnd.randrange(40)))
    kind = rnd.randrange(7 if port else 6)
    if kind == 0:
        return framed(rnd, network, IPV4, ipv4_packet(rnd, rnd.choice([1, 6, 16, 18]), datagram))
    if kind == 1:
        return framed(rnd, network, IPV4, ipv4_packet(rnd, UDP, datagram, rnd.choice([0x2000, 1, 0x1FFF, 0x2001])))
    if kind == 2:
        return framed(rnd, network, IPV6, ipv6_packet(rnd, rnd.choice([0, 6, 44, 60]), datagram))
    if kind == 3:
        return framed(rnd, network, rnd.choice([0x0806, 0x0801, 0x9100, 46]), ipv4_packet(rnd, UDP, datagram))
    if kind == 4:
        whole = framed(rnd, network, IPV4, ipv4_packet(rnd, UDP, datagram))
        return whole[: rnd.randrange(len(whole))]
    if kind == 5:
        return b""
    datagram = datagram_of(rnd, port % 65535 + 1, b"\x80" * 20)
    return framed(rnd, network, IPV4, ipv4_packet(rnd, UDP, datagram))


# ---- files


def file_of(rnd, datagrams, port):
    """The bytes of a file, and its records: where each begins, and its datagram, or None where it carries none, or where its 16 bytes
    end where it is too long. Every third record carries nothing."""
    order, network = rnd.choice(["big", "little"]), rnd.choice(NETWORKS)

    def number(value):
        return value.to_bytes(4, order)

    head = number(rnd.choice([0xA1B2C3D4, 0xA1B23C4D])) + rnd.randbytes(16) + number(rnd.randrange(65536) << 16 | network)
    data, records, waiting = bytearray(head), [], list(datagrams)
    while waiting or rnd.random() < 0.5:
        datagram = waiting.pop(0) if waiting and rnd.random() < 0.67 else None
        frame = other_frame(rnd, network, port) if datagram is None else frame_of(rnd, network, port or PORT, datagram)
        records.append((len(data), datagram))
        data += rnd.randbytes(8) + number(len(frame)) + number(len(frame) + rnd.randrange(3)) + frame
    if rnd.random() < 0.1:
        records.append((len(data), len(data) + 16))
        data += rnd.randbytes(8) + number(rnd.randint(MOST_KEPT + 1, 2**32 - 1)) + rnd.randbytes(4) + rnd.randbytes(rnd.randrange(30))
    return bytes(data), records


def heard(data, records, length, packets):
    """What is heard of so many bytes of a file: the datagrams, the records, the status and its line."""
    if length < 24:
        return [], 0, 13, "stream bad at 0\n"
    datagrams = []
    for count, (start, datagram) in enumerate(records):
        if count == packets:
            return datagrams, count, *((9, f"packet limit {packets}\n") if start < length else (0, ""))
        if isinstance(datagram, int):
            if start == length:
                return datagrams, count, 0, ""
            bad = datagram <= length
            return datagrams, count, *((13, f"stream bad at {start}\n") if bad else (8, f"capture cut at {start}\n"))
        end = records[count + 1][0] if count + 1 < len(records) else len(data)
        if length < end:
            return datagrams, count, *((8, f"capture cut at {start}\n") if start < length else (0, ""))
        if datagram is not None:
            datagrams.append(datagram)
    return datagrams, len(records), 0, ""


def with_no_head(rnd, data):
    """The same bytes behind 24 that are no head."""
    other = rnd.randrange(3)
    if other == 0:
        return b"\x0a\x0d\x0d\x0a" + data[4:]
    order = "big" if data[0] == 0xA1 else "little"
    if other == 1:
        return data[:20] + rnd.choice(OTHER_NETWORKS).to_bytes(4, order) + data[24:]
    return bytes([data[0] ^ 1]) + data[1:]
