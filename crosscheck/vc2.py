"""High-quality VC-2 (SMPTE ST 2042-1), bit by bit and sample by sample.

It shares no code with the repository: it was written from the standard and docs/FORMATS.md. Headers and parameters are read
with their refusals and written, pictures are decoded, planes are transformed both ways. Nothing here is fast.
"""

import fractions
from typing import NamedTuple

# ---- tables

# Lifting steps of synthesis: even or odd samples, the sign, the taps, S and D.
STEPS = {
    0: [("even", -1, [1, 1], 2, 0), ("odd", 1, [-1, 9, 9, -1], 4, -1)],
    1: [("even", -1, [1, 1], 2, 0), ("odd", 1, [1, 1], 1, 0)],
    2: [("even", -1, [-1, 9, 9, -1], 5, -1), ("odd", 1, [-1, 9, 9, -1], 4, -1)],
    3: [("even", -1, [1], 1, 1), ("odd", 1, [1], 0, 0)],
    4: [("even", -1, [1], 1, 1), ("odd", 1, [1], 0, 0)],
    5: [
        ("odd", 1, [-2, 10, -25, 81, 81, -25, 10, -2], 8, -3),
        ("even", -1, [-8, 21, -46, 161, 161, -46, 21, -8], 8, -3),
    ],
    6: [
        ("even", -1, [1817, 1817], 12, 0),
        ("odd", -1, [113, 113], 7, 0),
        ("even", 1, [217, 217], 12, 0),
        ("odd", 1, [6497, 6497], 12, 0),
    ],
}

# Wavelets whose samples are shifted after each level.
SHIFTED = {0, 1, 2, 4, 6}

# Default matrices: LL, then HL, LH and HH of each level.
MATRICES = {
    0: [5, 3, 3, 0, 4, 4, 1, 5, 5, 2, 6, 6, 3],
    1: [4, 2, 2, 0, 4, 4, 2, 5, 5, 3, 7, 7, 5],
    2: [5, 3, 3, 0, 4, 4, 1, 5, 5, 2, 6, 6, 3],
    4: [8, 4, 4, 0, 4, 4, 0, 4, 4, 0, 4, 4, 0],
    5: [0, 4, 4, 8, 8, 8, 12, 13, 13, 17, 17, 17, 21],
    6: [3, 1, 1, 0, 4, 4, 2, 6, 6, 5, 9, 9, 7],
}

# Base video formats: width, height, sampling (0 is 4:4:4, 1 is 4:2:2, 2 is 4:2:0) and signal range.
BASES = {
    0: (640, 480, 2, 1),
    1: (176, 120, 2, 1),
    2: (176, 144, 2, 1),
    3: (352, 240, 2, 1),
    4: (352, 288, 2, 1),
    5: (704, 480, 2, 1),
    6: (704, 576, 2, 1),
    7: (720, 480, 1, 3),
    8: (720, 576, 1, 3),
    9: (1280, 720, 1, 3),
    10: (1280, 720, 1, 3),
    11: (1920, 1080, 1, 3),
    12: (1920, 1080, 1, 3),
    13: (1920, 1080, 1, 3),
    14: (1920, 1080, 1, 3),
    15: (2048, 1080, 0, 4),
    16: (4096, 2160, 0, 4),
}

# Those of them that are interlaced, and those whose frames have the top field first.
INTERLACED = {7, 8, 11, 12}
TOP_FIRST = {2, 4, 6, 8, 9, 10, 11, 12, 13, 14, 15, 16}

# Luma offset and excursion, colour offset and excursion of the preset signal ranges.
RANGES = {1: (0, 255, 128, 255), 2: (16, 219, 128, 224), 3: (64, 876, 512, 896), 4: (256, 3504, 2048, 3584)}

# The standard's frame rates and pixel aspect ratios, from index 1 on.
FRAME_RATES = [
    (24000, 1001), (24, 1), (25, 1), (30000, 1001), (30, 1), (50, 1), (60000, 1001), (60, 1),
    (15000, 1001), (25, 2), (48, 1), (48000, 1001), (96, 1), (100, 1), (120000, 1001), (120, 1),
]  # fmt: skip
ASPECT_RATIOS = [(1, 1), (10, 11), (12, 11), (40, 33), (16, 11), (4, 3)]

# How the frames of a base video format are shown: the indices of a frame rate and of a pixel aspect ratio, how far from the
# left the clean area begins, and how wide it is where that isn't the whole width; the index of a colour specification.
SHOWN = {
    0: (1, 1, 0, None, 0),
    1: (9, 2, 0, None, 1),
    2: (10, 3, 0, None, 2),
    3: (9, 2, 0, None, 1),
    4: (10, 3, 0, None, 2),
    5: (9, 2, 0, None, 1),
    6: (10, 3, 0, None, 2),
    7: (4, 2, 8, 704, 1),
    8: (3, 3, 8, 704, 2),
    9: (7, 1, 0, None, 3),
    10: (6, 1, 0, None, 3),
    11: (4, 1, 0, None, 3),
    12: (3, 1, 0, None, 3),
    13: (7, 1, 0, None, 3),
    14: (6, 1, 0, None, 3),
    15: (2, 1, 0, None, 4),
    16: (2, 1, 0, None, 4),
}

# Parse codes.
HEADER, END, AUXILIARY, PADDING, LOW_DELAY, PICTURE, FRAGMENT = 0x00, 0x10, 0x20, 0x30, 0xC8, 0xE8, 0xEC


class Refused(Exception):
    """A header, parameters, a slice or a unit are refused."""


# ---- bits


class Writer:
    """Bits of a header, of parameters or of a block."""

    def __init__(self):
        self.bits = []

    def flag(self, value):
        self.bits.append(int(value))

    def uint(self, *values):
        """Interleaved exp-Golomb codes."""
        for value in values:
            for digit in bin(value + 1)[3:]:
                self.bits += [0, int(digit)]
            self.bits.append(1)

    def sint(self, value):
        self.uint(abs(value))
        if value:
            self.flag(value < 0)

    def part(self, value):
        """A flag, and after a 1 the numbers of a custom value."""
        self.flag(value is not None)
        if value is not None:
            self.uint(*value)

    def bytes(self, filling=0):
        bits = self.bits + [filling] * (-len(self.bits) % 8)
        return bytes(int("".join(map(str, bits[i : i + 8])), 2) for i in range(0, len(bits), 8))


class Block:
    """Bits of a slice's block, past whose end there are ones."""

    def __init__(self, data):
        self.data = data
        self.place = 0

    def bit(self):
        byte, place = divmod(self.place, 8)
        self.place += 1
        return (self.data[byte] >> (7 - place)) & 1 if byte < len(self.data) else 1

    def uint(self):
        value = 1
        while self.bit() == 0:
            value = 2 * value + self.bit()
        return value - 1

    def sint(self):
        size = self.uint()
        return -size if size and self.bit() else size


class Fields(Block):
    """Bits of a header or of parameters, which end with the bytes."""

    def bit(self):
        if self.place == 8 * len(self.data):
            raise Refused
        return super().bit()

    def uint(self, most=2**32 - 1, least=0):
        value = super().uint()
        if not least <= value <= most:
            raise Refused
        return value

    def used(self):
        return (self.place + 7) // 8


# ---- sequence headers


class Header(NamedTuple):
    """The value of a sequence header."""

    major: int
    minor: int
    level: int
    base: int
    width: int
    height: int
    sampling: int
    interlaced: bool
    signal: tuple
    fields: bool


class Video(NamedTuple):
    """What decoding needs of a header: sizes and depths are those of a picture's planes."""

    major: int
    fields: bool
    top_first: bool
    sizes: list
    depths: list

    @property
    def is_wide(self):
        """Whether a sample of a raw frame has two bytes."""
        return max(self.depths) > 8

    @property
    def sample_bytes(self):
        return 2 if self.is_wide else 1


class Presentation(NamedTuple):
    """How frames are shown. A ratio is the index of a preset, or a pair; a colour specification is an index, or a list of
    primaries, matrix and transfer function, None where they aren't coded."""

    rate: object
    aspect: object
    clean: tuple
    colour: object


def base_presentation(base):
    rate, aspect, left, clean_width, colour = SHOWN[base]
    width, height = BASES[base][:2]
    return Presentation(rate, aspect, (clean_width or width, height, left, 0), colour or [None] * 3)


def read_ratio(bits, default):
    if not bits.bit():
        return default
    return bits.uint() or (bits.uint(), bits.uint())


def read_colour(bits, default):
    if not bits.bit():
        return default
    return bits.uint() or [bits.uint() if bits.bit() else None for _ in ("primaries", "matrix", "transfer function")]


def read_header(data, profile=3):
    """The value of a sequence header of a profile, 3 or 0, and how many bytes it has."""
    header, _, used = read_whole_header(data, profile)
    return header, used


def read_whole_header(data, profile=3):
    """The value of a sequence header, how its frames are shown, and how many bytes it has."""
    bits = Fields(data)
    major, minor = bits.uint(3, 1 if profile == 0 else 2), bits.uint()
    bits.uint(profile, profile)
    level, base = bits.uint(), bits.uint(16)
    width, height, sampling, preset = BASES[base]
    interlaced = base in INTERLACED
    if bits.bit():
        width, height = bits.uint(), bits.uint()
    if bits.bit():
        sampling = bits.uint(2)
    if bits.bit():
        interlaced = bits.uint(1) == 1
    shown = base_presentation(base)
    rate, aspect = read_ratio(bits, shown.rate), read_ratio(bits, shown.aspect)
    clean = shown.clean
    if bits.bit():
        clean = tuple(bits.uint() for _ in ("width", "height", "left", "top"))
    signal = RANGES[preset]
    if bits.bit():
        preset = bits.uint(4)
        signal = RANGES[preset] if preset else custom_range(bits)
    colour = read_colour(bits, shown.colour)
    fields = bits.uint(1) == 1
    if not has_size(width, height, sampling, fields):
        raise Refused
    header = Header(major, minor, level, base, width, height, sampling, interlaced, signal, fields)
    return header, Presentation(rate, aspect, clean, colour), bits.used()


def custom_range(bits):
    luma = bits.uint(), bits.uint(65535, 1)
    return luma + (bits.uint(), bits.uint(65535, 1))


def has_size(width, height, sampling, fields):
    halved = (2 if sampling == 2 else 1) * (2 if fields else 1)
    return 1 <= width <= 8192 and 1 <= height <= 8192 and not (sampling and width % 2) and height % halved == 0


def coded_ratio(ratio, presets):
    """The numbers that a ratio is coded as: the index of a preset, or 0 and the ratio in lowest terms."""
    lowest = fractions.Fraction(*ratio).as_integer_ratio()
    return [presets.index(lowest) + 1] if lowest in presets else [0, *lowest]


def header_bytes(
    major, minor, level, base, size, sampling, signal, fields, interlaced=None, profile=3, shown=(None,) * 4
):
    """A sequence header with a custom size, sampling and signal range: a preset's number, or 0 and the four of a range.
    Whether it is interlaced is coded where it is given, and so are the numbers of frame rate, pixel aspect ratio, clean area
    and colour specification."""
    bits = Writer()
    bits.uint(major, minor, profile, level, base)
    bits.part(size)
    bits.part([sampling])
    bits.part(None if interlaced is None else [interlaced])
    for part in shown[:3]:
        bits.part(part)
    bits.part(signal)
    bits.part(shown[3])
    bits.uint(int(fields))
    return bits.bytes()


def video_of(header):
    rows = header.height // 2 if header.fields else header.height
    colour = header.width // (2 if header.sampling else 1), rows // (2 if header.sampling == 2 else 1)
    luma_depth, colour_depth = header.signal[1].bit_length(), header.signal[3].bit_length()
    sizes, depths = [(header.width, rows), colour, colour], [luma_depth, colour_depth, colour_depth]
    return Video(header.major, header.fields, header.base in TOP_FIRST, sizes, depths)


# ---- transform parameters


class Transform(NamedTuple):
    """The wavelets down and across, and the levels both ways and across alone."""

    wavelet: int
    across: int
    depth: int
    depth_across: int

    @property
    def has_default(self):
        return self.depth < 5 and (self.across, self.depth_across) == (self.wavelet, 0)

    @property
    def subbands(self):
        return 1 + self.depth_across + 3 * self.depth


class Plan(NamedTuple):
    """The value of transform parameters."""

    transform: Transform
    slices: tuple
    prefix: int
    scaler: int
    matrix: tuple

    @property
    def slice_count(self):
        return self.slices[0] * self.slices[1]


def read_parameters(data, video):
    """The value of transform parameters, and how many bytes they have."""
    bits = Fields(data)
    wavelet, depth = bits.uint(6), bits.uint(5, 1)
    across, depth_across = wavelet, 0
    if video.major == 3:
        across = bits.uint(6) if bits.bit() else wavelet
        depth_across = bits.uint(5 - depth) if bits.bit() else 0
    transform = Transform(wavelet, across, depth, depth_across)
    slices = bits.uint(65535, 1), bits.uint(65535, 1)
    if slices[0] * slices[1] > 131072:
        raise Refused
    prefix, scaler = bits.uint(65535), bits.uint(65535, 1)
    if bits.bit():
        matrix = [bits.uint(127) for _ in range(transform.subbands)]
    elif transform.has_default:
        matrix = default_matrix(wavelet, depth)
    else:
        raise Refused
    width, height = padded(*video.sizes[0], depth, depth_across)
    if width * height > 8912896:
        raise Refused
    return Plan(transform, slices, prefix, scaler, tuple(matrix)), bits.used()


def parameter_bytes(major, wavelet, depth, slices, prefix, scaler):
    """Transform parameters that are the same across as down, with the default matrix."""
    bits = Writer()
    bits.uint(wavelet, depth)
    if major == 3:
        bits.part(None)
        bits.part(None)
    bits.uint(*slices, prefix, scaler)
    bits.flag(0)
    return bits.bytes()


def default_matrix(wavelet, depth):
    if wavelet != 3:
        return MATRICES[wavelet][: 1 + 3 * depth]
    matrix = [8 + 4 * (depth - 1)]
    for level in range(1, depth + 1):
        step = 4 * (depth - level)
        matrix += [4 + step, 4 + step, step]
    return matrix


# ---- quantisation


def factor(index):
    power = 1 << (index // 4)
    return [
        4 * power,
        (503829 * power + 52958) // 105917,
        (665857 * power + 58854) // 117708,
        (440253 * power + 32722) // 65444,
    ][index % 4]


def dequantised(number, index):
    if number == 0:
        return 0
    offset = [1, 2][index] if index < 2 else (factor(index) + 1) // 2
    size = (abs(number) * factor(index) + offset + 2) // 4
    return size if number > 0 else -size


def quantised(number, index):
    size = 4 * abs(number) // factor(index)
    return -size if number < 0 else size


# ---- transforms


def lifted(steps, line):
    length = len(line)
    for parity, sign, taps, shift, first in steps:
        half = 1 << (shift - 1) if shift else 0
        changed = list(line)
        for n in range(length // 2):
            total = half
            for i, tap in enumerate(taps, first):
                if parity == "even":
                    met = min(max(2 * (n + i) - 1, 1), length - 1)
                else:
                    met = min(max(2 * (n + i), 0), length - 2)
                total += tap * line[met]
            own = 2 * n if parity == "even" else 2 * n + 1
            changed[own] = line[own] + sign * (total >> shift)
        line = changed
    return line


def synthesised(wavelet, line):
    return lifted(STEPS[wavelet], line)


def analysed(wavelet, line):
    """The steps in the opposite order, with the opposite signs."""
    return lifted([(parity, -sign, *step) for parity, sign, *step in reversed(STEPS[wavelet])], line)


def interleaved(even, odd):
    return [item for pair in zip(even, odd) for item in pair]


def turned(grid):
    return [list(column) for column in zip(*grid)]


def inverse(transform, bands):
    """The samples of a component's subbands, with levels across alone first."""
    low = bands[0]
    for level in range(transform.depth_across + transform.depth):
        if level < transform.depth_across:
            grid = [interleaved(*rows) for rows in zip(low, bands[1 + level])]
        else:
            first = 1 + transform.depth_across + 3 * (level - transform.depth_across)
            hl, lh, hh = bands[first : first + 3]
            even = [interleaved(*rows) for rows in zip(low, hl)]
            odd = [interleaved(*rows) for rows in zip(lh, hh)]
            columns = turned(interleaved(even, odd))
            grid = turned([synthesised(transform.wavelet, column) for column in columns])
        low = [synthesised(transform.across, row) for row in grid]
        if transform.across in SHIFTED:
            low = [[(sample + 1) >> 1 for sample in row] for row in low]
    return low


def forward(wavelet, depth, rows):
    """The subbands of a padded plane: LL, then HL, LH and HH of each level, the lowest first."""
    bands = []
    for _ in range(depth):
        if wavelet in SHIFTED:
            rows = [[2 * sample for sample in row] for row in rows]
        rows = [analysed(wavelet, row) for row in rows]
        rows = turned([analysed(wavelet, column) for column in turned(rows)])
        even, odd = rows[::2], rows[1::2]
        bands = [[row[1::2] for row in even], [row[::2] for row in odd], [row[1::2] for row in odd], *bands]
        rows = [row[::2] for row in even]
    return [rows, *bands]


def plane_bands(wavelet, depth, rows, bits):
    """The subbands of a plane's samples, of so many bits: its last column and row are repeated as far as it is padded."""
    width, height = padded(len(rows[0]), len(rows), depth, 0)
    half = 1 << (bits - 1)
    wide = [[sample - half for sample in row + row[-1:] * (width - len(row))] for row in rows]
    return forward(wavelet, depth, wide + wide[-1:] * (height - len(rows)))


def padded(width, height, depth, depth_across):
    across, down = 1 << (depth + depth_across), 1 << depth
    return -(-width // across) * across, -(-height // down) * down


def places(width, height, depth, depth_across):
    """Where each subband stands in the grid of a padded plane: x, y, width and height."""
    width, height = padded(width, height, depth, depth_across)
    low, down = width >> (depth + depth_across), height >> depth
    subbands = [(0, 0, low, down)]
    for _ in range(depth_across):
        subbands.append((low, 0, low, down))
        low *= 2
    for _ in range(depth):
        subbands += [(low, 0, low, down), (0, down, low, down), (low, down, low, down)]
        low, down = 2 * low, 2 * down
    return subbands


# ---- slices and pictures


def empty_bands(size, transform):
    subbands = places(*size, transform.depth, transform.depth_across)
    return [[[0] * width for _ in range(height)] for _, _, width, height in subbands]


def rectangle(band, slices, number):
    """The rows and columns of a slice in a subband."""
    (across, down), row, column = slices, number // slices[0], number % slices[0]
    rows, columns = len(band), len(band[0])
    return (
        range(rows * row // down, rows * (row + 1) // down),
        range(columns * column // across, columns * (column + 1) // across),
    )


def slice_end(data, at, plan):
    """Where the slice ends that begins at a place. It is refused where the bytes end first."""
    at += plan.prefix + 1
    for _ in ("Y", "C1", "C2"):
        if at >= len(data):
            raise Refused
        at += 1 + data[at] * plan.scaler
    if at > len(data):
        raise Refused
    return at


def read_block(block, bands, plan, index, number):
    for band, value in zip(bands, plan.matrix):
        rows, columns = rectangle(band, plan.slices, number)
        for y in rows:
            for x in columns:
                band[y][x] = dequantised(block.sint(), max(0, index - value))
                if abs(band[y][x]) >= 1 << 60:
                    raise Refused


def read_slice(data, at, plan, components, number):
    """Where the slice ends that begins at a place. It is refused where it is unsound."""
    index = data[at + plan.prefix]
    at += plan.prefix + 1
    for bands in components:
        length = data[at] * plan.scaler
        if index > 127:
            raise Refused
        read_block(Block(data[at + 1 : at + 1 + length]), bands, plan, index, number)
        at += 1 + length
    return at


def planes_of(body, video):
    """The planes of a picture's own bytes. They are refused with its parameters, or with a slice that is cut or unsound."""
    plan, at = read_parameters(body, video)
    end = at
    for _ in range(plan.slice_count):
        end = slice_end(body, end, plan)
    components = [empty_bands(size, plan.transform) for size in video.sizes]
    for number in range(plan.slice_count):
        at = read_slice(body, at, plan, components, number)
    planes = []
    for bands, (width, height), bits in zip(components, video.sizes, video.depths):
        half = 1 << (bits - 1)
        samples = inverse(plan.transform, bands)
        planes.append([[min(max(s, -half), half - 1) + half for s in row[:width]] for row in samples[:height]])
    return planes


def woven(first, second, video):
    """A frame of two fields, the earlier of which is the first."""
    upper, lower = (first, second) if video.top_first else (second, first)
    return [interleaved(a, b) for a, b in zip(upper, lower)]


def frame_of(pictures, video):
    """The planes of a frame's one picture, or of its two fields."""
    return woven(*pictures, video) if video.fields else pictures[0]


def raw_frame(planes, video):
    size = video.sample_bytes
    return b"".join(sample.to_bytes(size, "little") for plane in planes for row in plane for sample in row)


# ---- data units


def stream_of(units):
    """The bytes of data units, each a code and a body."""
    stream, previous = b"", 0
    for code, body in units:
        size = 13 + len(body)
        following = 0 if code == END else size
        stream += b"BBCD" + bytes([code]) + following.to_bytes(4, "big") + previous.to_bytes(4, "big") + body
        previous = size
    return stream


def next_unit(stream, at):
    """The code, the body and the end of the unit that begins at a place."""
    head = stream[at : at + 13]
    if len(head) < 13 or head[:4] != b"BBCD" or head[4] not in (HEADER, END, AUXILIARY, PADDING, LOW_DELAY, PICTURE):
        raise Refused
    if head[4] == END:
        return END, b"", at + 13
    offset = int.from_bytes(head[5:9], "big")
    if not 13 <= offset <= 268435456 or at + offset > len(stream):
        raise Refused
    return head[4], stream[at + 13 : at + offset], at + offset
