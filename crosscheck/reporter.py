"""What `rtcp` and `rtcp-show` give, by RFC 3550: the algorithms of A.1 and A.3 as they stand there, and the packets of 6.4 and 6.5.

Two things are this project's own: in probation 0 follows 65,535, and the fields that need a clock are 0.
"""

from common import capture_of
from receiver import rtp

RTP_SEQ_MOD = 1 << 16
MAX_DROPOUT = 3000
MAX_MISORDER = 100
MIN_SEQUENTIAL = 2


class Source:
    """A source's state, which `update_seq` keeps (A.1) and of which a reception report is made (A.3)."""

    def __init__(self, seq):
        self.init_seq(seq)
        self.max_seq = (seq - 1) % RTP_SEQ_MOD
        self.probation = MIN_SEQUENTIAL

    def init_seq(self, seq):
        self.base_seq = self.max_seq = seq
        self.bad_seq = RTP_SEQ_MOD + 1
        self.cycles = self.received = self.received_prior = self.expected_prior = 0

    def update_seq(self, seq):
        udelta = (seq - self.max_seq) % RTP_SEQ_MOD
        if self.probation:
            if seq == (self.max_seq + 1) % RTP_SEQ_MOD:
                self.probation -= 1
                self.max_seq = seq
                if self.probation == 0:
                    self.init_seq(seq)
                    self.received += 1
            else:
                self.probation = MIN_SEQUENTIAL - 1
                self.max_seq = seq
            return
        if udelta < MAX_DROPOUT:
            if seq < self.max_seq:
                self.cycles += RTP_SEQ_MOD
            self.max_seq = seq
        elif udelta <= RTP_SEQ_MOD - MAX_MISORDER:
            if seq != self.bad_seq:
                self.bad_seq = (seq + 1) & (RTP_SEQ_MOD - 1)
                return
            self.init_seq(seq)
        self.received += 1

    def report_block(self, ssrc):
        """The block's bytes, or none in probation."""
        if self.probation:
            return b""
        extended_max = self.cycles + self.max_seq
        expected = extended_max - self.base_seq + 1
        lost = max(-0x800000, min(expected - self.received, 0x7FFFFF))
        expected_interval, self.expected_prior = expected - self.expected_prior, expected
        received_interval, self.received_prior = self.received - self.received_prior, self.received
        lost_interval = expected_interval - received_interval
        fraction = 0 if expected_interval == 0 or lost_interval <= 0 else (lost_interval << 8) // expected_interval
        return words(ssrc) + bytes([fraction]) + (lost % 2**24).to_bytes(3, "big") + words(extended_max, 0, 0, 0)


def words(*numbers):
    return b"".join((number % 2**32).to_bytes(4, "big") for number in numbers)


def packet(count, kind, body):
    return bytes([0x80 | count, kind]) + (len(body) // 4).to_bytes(2, "big") + body


def description(ssrc, name):
    """A packet of one source's CNAME."""
    item = words(ssrc) + bytes([1, len(name)]) + name
    return packet(1, 202, item + bytes(4 - len(item) % 4))


def split(capture, packets):
    """The datagrams of a capture, the status and the line of the status."""
    found, at = [], 0
    while at < len(capture):
        end = at + 2 + int.from_bytes(capture[at : at + 2], "big")
        if len(found) == packets:
            return found, 9, f"packet limit {packets}\n"
        if len(capture) < at + 2 or len(capture) < end:
            return found, 8, f"capture cut at {at}\n"
        found.append(capture[at + 2 : end])
        at = end
    return found, 0, ""


def report(capture, every=100, ssrc=2, name=b"vc2link", is_sender=False, ntp=0, packets=2**32 - 1):
    """The status, the output and the report of `rtcp`."""
    datagrams, status, line = split(capture, packets)
    source = track = None
    count = octets = timestamp = 0
    reports, due = [], False

    def write():
        if is_sender:
            first = packet(0, 200, words(source, ntp, 0, timestamp, count, octets))
            reports.append(first + description(source, name))
        else:
            block = track.report_block(source)
            reports.append(packet(len(block) // 24, 201, words(ssrc) + block) + description(ssrc, name))

    for datagram in datagrams:
        of, payload = rtp(datagram)
        if payload is None or of != (of if source is None else source):
            continue
        seq = int.from_bytes(datagram[2:4], "big")
        if source is None:
            source, track = of, Source(seq)
        track.update_seq(seq)
        count, octets, timestamp = count + 1, octets + len(payload), int.from_bytes(datagram[4:8], "big")
        due = count % every != 0
        if not due:
            write()
    if due:
        write()
    counts = f"datagrams {len(datagrams)}\npackets {count}\nreports {len(reports)}\n"
    return status, capture_of(reports), line or counts


def shown(compound):
    """The lines of a compound packet, or the number of its refusal."""
    if len(compound) < 8:
        return "refused 1\n"
    at, first = 0, None
    while at < len(compound):
        if len(compound) < at + 4:
            return "refused 2\n"
        head, kind, length = compound[at], compound[at + 1], 4 + 4 * int.from_bytes(compound[at + 2 : at + 4], "big")
        if head >> 6 != 2:
            return "refused 3\n"
        if first is None and (kind not in (200, 201) or head & 32):
            return "refused 4\n"
        fixed = {200: 28, 201: 8}[kind] + 24 * (head & 31) if first is None else 0
        if len(compound) < at + length or length < fixed:
            return "refused 2\n"
        first = first or (kind, head & 31)
        at += length
    kind, blocks = first
    number = [int.from_bytes(compound[i : i + 4], "big") for i in range(0, len(compound) - 3, 4)]
    lines = f"sr {number[1]} packets {number[5]} octets {number[6]}" if kind == 200 else f"rr {number[1]}"
    lines += f" blocks {blocks}\n"
    for i in range(7 if kind == 200 else 2, (7 if kind == 200 else 2) + 6 * blocks, 6):
        lost = number[i + 1] % 2**24
        lost -= 2**24 if lost >= 2**23 else 0
        lines += f"block {number[i]} fraction {number[i + 1] >> 24} lost {lost} highest {number[i + 2]}\n"
    return lines


def show(capture, packets=2**32 - 1):
    """The status, the output and the report of `rtcp-show`."""
    datagrams, status, line = split(capture, packets)
    text = "".join(map(shown, datagrams))
    return status, text.encode(), line or f"datagrams {len(datagrams)}\n"
