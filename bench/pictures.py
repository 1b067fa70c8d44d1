"""Pictures of 1920 by 1080 to measure with: 4:2:2, 10 bits, LeGall (5,3) or another wavelet of depth 3, 120 by 135 slices. The
coefficients are pseudo-random and the same in every run. A low-delay picture has the same coefficients in as many bytes: a slice
that has more than its share lacks its last ones."""

import random

from low_delay import digits, length_bits, slice_bytes
from vc2 import END, HEADER, LOW_DELAY, PICTURE, Writer, parameter_bytes

WIDTH, HEIGHT = 1920, 1080
SAMPLES = 2 * WIDTH * HEIGHT

# The major version, and the base video format, of which nothing is changed.
MAJOR, BASE_FORMAT = 2, 14
CUSTOM_PARTS = 8
LEGALL, DEPTH = 1, 3
SLICES_X, SLICES_Y = 120, 135
PREFIX_BYTES, SCALER = 0, 2

# A slice has 16 by 8 luma samples, and 8 by 8 of each colour component. Its coefficients in the order of coding, as how
# many there are at LL and then at HL, LH and HH of each level together.
LUMA_COEFFICIENTS = [2, 6, 24, 96]
COLOUR_COEFFICIENTS = [1, 3, 12, 48]

# A coefficient of magnitude m is `ratio` times as likely as one of magnitude m - 1: large ones at LL, small ones at the
# last level. With lengths and filling this gives about 3.6 bits a sample.
RATIOS = [0.95, 0.85, 0.65, 0.4]
LARGEST = 63

# The quantisation index of a slice is one of these.
INDICES = range(12, 20)


def sequence_header(profile=3):
    bits = Writer()
    bits.uint(MAJOR, 0, profile, 0, BASE_FORMAT)
    for _ in range(CUSTOM_PARTS):
        bits.part(None)
    bits.uint(0)
    return bits.bytes()


def transform_parameters(wavelet=LEGALL):
    return parameter_bytes(MAJOR, wavelet, DEPTH, (SLICES_X, SLICES_Y), PREFIX_BYTES, SCALER)


def signed_code(value):
    bits = Writer()
    bits.sint(value)
    return "".join(map(str, bits.bits))


def block(rng, counts, codes, weights):
    """A length byte, and the codes of a component's coefficients with ones after them."""
    bits = "".join("".join(rng.choices(codes, w, k=n)) for n, w in zip(counts, weights))
    units = -(-len(bits) // (8 * SCALER))
    filled = bits.ljust(8 * units * SCALER, "1")
    return bytes([units]) + int(filled or "0", 2).to_bytes(units * SCALER, "big")


def coded_slices():
    """The slices of a picture in raster order, each by itself."""
    rng = random.Random(2042)
    values = range(-LARGEST, LARGEST + 1)
    codes = [signed_code(value) for value in values]
    weights = [[ratio ** abs(value) for value in values] for ratio in RATIOS]
    slices = []
    for _ in range(SLICES_X * SLICES_Y):
        index = bytes([rng.choice(INDICES)])
        counts = (LUMA_COEFFICIENTS, COLOUR_COEFFICIENTS, COLOUR_COEFFICIENTS)
        slices.append(index + b"".join(block(rng, each, codes, weights) for each in counts))
    return slices


def joined(*numbers):
    return "".join(map(str, sum(numbers, [])))


def low_slice(rng, size, codes, weights):
    """A low-delay slice: index, luma's length, luma, and the colours in turn."""
    luma, first, second = (
        [rng.choices(codes, w, k=n) for n, w in zip(counts, weights)]
        for counts in (LUMA_COEFFICIENTS, COLOUR_COEFFICIENTS, COLOUR_COEFFICIENTS)
    )
    own = "".join(code for codes in luma for code in codes)
    colours = "".join(a + b for bands in zip(first, second) for a, b in zip(*bands))
    used = length_bits(size)
    length = min(len(own), 8 * size - 7 - used)
    bits = joined(digits(rng.choice(INDICES), 7), digits(length, used)) + own[:length] + colours
    return int(bits[: 8 * size].ljust(8 * size, "1"), 2).to_bytes(size, "big")


def low_pictures(wavelet):
    """Low-delay parameters, and the slices of a picture in raster order, of as many bytes as `coded_slices`."""
    count, bits = SLICES_X * SLICES_Y, Writer()
    ratio = sum(map(len, coded_slices())), count
    bits.uint(wavelet, DEPTH, SLICES_X, SLICES_Y, *ratio)
    bits.flag(0)
    rng = random.Random(2042)
    values = range(-LARGEST, LARGEST + 1)
    codes = [signed_code(value) for value in values]
    weights = [[odds ** abs(value) for value in values] for odds in RATIOS]
    return bits.bytes(), [low_slice(rng, slice_bytes(ratio, i), codes, weights) for i in range(count)]


class StreamWriter:
    """Data units, each with the distances to the next one and from the one before."""

    def __init__(self, file):
        self.file = file
        self.previous = 0

    def unit(self, code, *body):
        length = 13 + sum(map(len, body))
        following = 0 if code == END else length
        self.file.write(b"BBCD" + bytes([code]) + following.to_bytes(4, "big") + self.previous.to_bytes(4, "big"))
        self.file.writelines(body)
        self.previous = length


def write_stream(path, pictures, wavelet=LEGALL, low_delay=False):
    """A stream of so many pictures. All have the same slices, and each its own number."""
    with open(path, "wb") as file:
        stream = StreamWriter(file)
        stream.unit(HEADER, sequence_header(0 if low_delay else 3))
        if pictures > 0:
            parameters, slices = low_pictures(wavelet) if low_delay else (transform_parameters(wavelet), coded_slices())
            for number in range(pictures):
                stream.unit(LOW_DELAY if low_delay else PICTURE, number.to_bytes(4, "big"), parameters, *slices)
        stream.unit(END)
