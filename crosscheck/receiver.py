"""A receiver and a player that share no code with the repository, for crosscheck/fuzz and crosscheck/streams.

They were written from docs/FORMATS.md: what each datagram of a capture is judged to be, which pictures are whole, what is
written of them, and what the report says. Pictures are decoded by crosscheck/vc2.py and crosscheck/low_delay.py.
"""

import low_delay
from vc2 import AUXILIARY, END, FRAGMENT, HEADER, LOW_DELAY, PADDING, PICTURE, Refused
from vc2 import frame_of, next_unit, planes_of, raw_frame, read_header, read_parameters, slice_end, stream_of, video_of

COUNTS = (
    "rtp-short rtp-version rtp-shape payload-short payload-code payload-fragment foreign header-new header-same"
    " header-other header-bad end skipped late params-kept params-repeat params-conflict params-bad slices-kept"
    " slices-repeat slices-conflict slices-pending slices-full slices-form slices-place slices-cut"
).split()

# The lines of a tally, in their order.
LINES = ("datagrams", *COUNTS, "incomplete", "unsound", "unpaired", "frames")

# How many parts with slices a picture keeps until its parameters come.
PENDING = 16384


# ---- datagrams


def rtp(datagram):
    """The source and the payload, or the refusal."""
    if len(datagram) < 12:
        return "rtp-short", None
    if datagram[0] >> 6 != 2:
        return "rtp-version", None
    start, end = 12 + 4 * (datagram[0] & 15), len(datagram)
    if datagram[0] & 16 and start + 4 <= end:
        start += 4 + 4 * int.from_bytes(datagram[start + 2 : start + 4], "big")
    elif datagram[0] & 16:
        return "rtp-shape", None
    if start > end:
        return "rtp-shape", None
    if datagram[0] & 32:
        count = datagram[-1] if end > start else 0
        if not 1 <= count <= end - start:
            return "rtp-shape", None
        end -= count
    return int.from_bytes(datagram[8:12], "big"), datagram[start:end]


def fragment(payload):
    """The fields of a fragment, or None."""
    if len(payload) < 16:
        return None
    number, prefix, scaler, length, count = (
        int.from_bytes(payload[a:b], "big") for a, b in ((4, 8), (8, 10), (10, 12), (12, 14), (14, 16))
    )
    start = 20 if count else 16
    if len(payload) < start + length:
        return None
    x, y = int.from_bytes(payload[16:18], "big"), int.from_bytes(payload[18:20], "big")
    return number, prefix, scaler, count, x, y, payload[start : start + length]


class Picture:
    """What is kept of one picture."""

    def __init__(self):
        self.plan = None
        self.parameters = b""
        self.pending = []
        self.slices = {}

    def take_parameters(self, data, video):
        try:
            plan, used = read_parameters(data, video)
        except Refused:
            return "params-bad"
        if self.plan is not None:
            return "params-repeat" if plan == self.plan else "params-conflict"
        self.plan, self.parameters = plan, data[:used]
        for part in self.pending:
            self.take_slices(*part)
        return "params-kept"

    def take_slices(self, prefix, scaler, count, x, y, body):
        if self.plan is None:
            if len(self.pending) == PENDING:
                return "slices-full"
            self.pending.append((prefix, scaler, count, x, y, body))
            return "slices-pending"
        across, down = self.plan.slices
        first = y * across + x
        if (prefix, scaler) != (self.plan.prefix, self.plan.scaler):
            return "slices-form"
        if x >= across or y >= down or first + count > across * down:
            return "slices-place"
        found, at = [], 0
        try:
            for number in range(first, first + count):
                end = slice_end(body, at, self.plan)
                found.append((number, body[at:end]))
                at = end
        except Refused:
            return "slices-cut"
        conflict = any(self.slices.get(number, data) != data for number, data in found)
        fresh = any(number not in self.slices for number, _ in found)
        for number, data in found:
            self.slices.setdefault(number, data)
        return "slices-conflict" if conflict else "slices-kept" if fresh else "slices-repeat"

    def is_complete(self):
        return self.plan is not None and len(self.slices) == self.plan.slice_count

    def bytes(self):
        return self.parameters + b"".join(self.slices[number] for number in sorted(self.slices))


class Session:
    """A source and its pictures by number."""

    def __init__(self, ssrc, header, coded, base):
        self.ssrc, self.header, self.coded, self.base = ssrc, header, coded, base
        self.video = video_of(header)
        self.has_ended = False
        self.greatest = None
        self.pictures = {}
        self.planes = {}

    def number(self, bits):
        if self.greatest is None:
            return self.base + bits
        distance = (bits - self.greatest) % 2**32
        return self.greatest + distance - (2**32 if distance >= 2**31 else 0)

    def take(self, window, bits, prefix, scaler, count, x, y, body):
        number = self.number(bits)
        if self.greatest is not None and number <= self.greatest - window:
            return "late"
        self.greatest = number if self.greatest is None else max(number, self.greatest)
        picture = self.pictures.setdefault(number, Picture())
        if count == 0:
            return picture.take_parameters(body, self.video)
        return picture.take_slices(prefix, scaler, count, x, y, body)

    def decode(self):
        """Decodes what is complete. An unsound picture has no planes."""
        for number, picture in self.pictures.items():
            if picture.is_complete():
                try:
                    self.planes[number] = planes_of(picture.bytes(), self.video)
                except Refused:
                    self.planes[number] = None

    def has_planes(self, number):
        return self.planes.get(number) is not None

    def frames(self):
        """The numbers of each frame's pictures."""
        numbers = sorted(filter(self.has_planes, self.planes))
        if not self.video.fields:
            return [(number,) for number in numbers]
        return [(number, number + 1) for number in numbers if number % 2 == 0 and self.has_planes(number + 1)]

    def raw(self):
        frames = ([self.planes[number] for number in frame] for frame in self.frames())
        return b"".join(raw_frame(frame_of(pictures, self.video), self.video) for pictures in frames)

    def counts(self):
        sound = sum(map(self.has_planes, self.planes))
        frames = self.frames()
        return (
            len(self.pictures) - len(self.planes),
            len(self.planes) - sound,
            sound - 2 * len(frames) if self.video.fields else 0,
            len(frames),
        )

    def units(self):
        """The elementary stream of its frames' pictures."""
        numbers = [number for frame in self.frames() for number in frame]
        if not numbers:
            return b""
        units = [(HEADER, self.coded)]
        for number in numbers:
            units.append((PICTURE, (number % 2**32).to_bytes(4, "big") + self.pictures[number].bytes()))
        return stream_of([*units, (END, b"")])


class Receiver:
    def __init__(self, window):
        self.window = window
        self.sessions = []
        self.counts = dict.fromkeys(COUNTS, 0)

    def enter(self, datagram):
        self.counts[self.judge(datagram)] += 1

    def judge(self, datagram):
        ssrc, payload = rtp(datagram)
        if payload is None:
            return ssrc
        if len(payload) < 4:
            return "payload-short"
        code = payload[3]
        if code not in (HEADER, END, AUXILIARY, PADDING, FRAGMENT):
            return "payload-code"
        part = fragment(payload) if code == FRAGMENT else None
        if code == FRAGMENT and part is None:
            return "payload-fragment"
        if code == HEADER:
            return self.take_header(ssrc, payload[4:])
        session = self.sessions[-1] if self.sessions else None
        if session is None or session.ssrc != ssrc:
            return "foreign"
        if code == END:
            session.has_ended = True
            return "end"
        return session.take(self.window, *part) if part else "skipped"

    def take_header(self, ssrc, data):
        try:
            header, used = read_header(data)
        except Refused:
            header = None
        if not self.sessions:
            return "header-bad" if header is None else self.open(ssrc, header, data[:used])
        session = self.sessions[-1]
        differs = ssrc != session.ssrc or header != session.header
        if header is not None and differs and session.has_ended:
            return self.open(ssrc, header, data[:used])
        if ssrc != session.ssrc:
            return "foreign"
        if header is None:
            return "header-bad"
        return "header-other" if differs else "header-same"

    def open(self, ssrc, header, coded):
        greatest = max((session.greatest or 0 for session in self.sessions), default=0)
        base = ((greatest + 8) // 2**32 + 1) * 2**32
        self.sessions.append(Session(ssrc, header, coded, base))
        return "header-new"

    def finish(self):
        for session in self.sessions:
            session.decode()

    def tally(self):
        pictures = [sum(counts) for counts in zip((0, 0, 0, 0), *(session.counts() for session in self.sessions))]
        counts = [sum(self.counts.values()), *self.counts.values(), *pictures]
        return "".join(f"{name} {count}\n" for name, count in zip(LINES, counts))


def heard(capture, window, packets):
    """A receiver that has heard a capture, the status, and the line of the status."""
    receiver, at, status, line = Receiver(window), 0, 0, ""
    for _ in range(packets):
        if at == len(capture):
            break
        end = at + 2 + int.from_bytes(capture[at : at + 2], "big")
        if len(capture) < at + 2 or len(capture) < end:
            status, line = 8, f"capture cut at {at}\n"
            break
        receiver.enter(capture[at + 2 : end])
        at = end
    else:
        if at < len(capture):
            status, line = 9, f"packet limit {packets}\n"
    receiver.finish()
    return receiver, status, line


def decode(capture, window, packets):
    """The status, the output and the report of `decode`."""
    receiver, status, line = heard(capture, window, packets)
    return status, b"".join(session.raw() for session in receiver.sessions), receiver.tally() + line


def unpack(capture, window, packets):
    """The same of `unpack`."""
    receiver, status, line = heard(capture, window, packets)
    stream = receiver.sessions[0].units() if receiver.sessions else b""
    return status, stream, receiver.tally() + line


# ---- elementary streams


def profile_of(body):
    """The profile of a first header: 3, or where it isn't that, 0."""
    try:
        read_header(body, 3)
        return 3
    except Refused:
        return 0


class Player:
    def __init__(self):
        self.profile = None
        self.header = None
        self.video = None
        self.pictures = 0
        self.frames = []
        self.waiting = None

    def take(self, code, body):
        if code == HEADER:
            self.take_header(body)
        elif code in (PICTURE, LOW_DELAY):
            self.take_picture(code, body)

    def take_header(self, body):
        if self.profile is None:
            self.profile = profile_of(body)
        header, _ = read_header(body, self.profile)
        if self.header not in (None, header):
            raise Refused
        self.header, self.video = header, video_of(header)

    def take_picture(self, code, body):
        if self.video is None or code != (PICTURE if self.profile == 3 else LOW_DELAY) or len(body) < 4:
            raise Refused
        decode = planes_of if self.profile == 3 else low_delay.planes_of
        planes = decode(body[4:], self.video)
        self.pictures += 1
        number = int.from_bytes(body[:4], "big")
        if not self.video.fields:
            self.frames.append([planes])
        elif self.waiting and number == self.waiting[0] + 1:
            self.frames.append([self.waiting[1], planes])
            self.waiting = None
        else:
            self.waiting = (number, planes) if number % 2 == 0 else None

    def raw(self):
        return b"".join(raw_frame(frame_of(pictures, self.video), self.video) for pictures in self.frames)

    def report(self):
        unpaired = self.pictures - 2 * len(self.frames) if self.video and self.video.fields else 0
        return f"pictures {self.pictures}\nunpaired {unpaired}\nframes {len(self.frames)}\n"


def play(stream, packets):
    """The status, the output and the report of `play`."""
    player, at = Player(), 0
    for _ in range(packets):
        if at == len(stream):
            return 0, player.raw(), player.report()
        try:
            code, body, end = next_unit(stream, at)
            player.take(code, body)
        except Refused:
            return 13, player.raw(), f"stream bad at {at}\n"
        if code == END:
            return 0, player.raw(), player.report()
        at = end
    if at < len(stream):
        return 9, player.raw(), f"packet limit {packets}\n"
    return 0, player.raw(), player.report()
