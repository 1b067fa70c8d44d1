"""Low-delay pictures (ST 2042-1): a decoder from the standard's text, and an encoder by hand, for no program at hand has one."""

from vc2 import Block, Fields, Plan, Refused, Transform, Writer, default_matrix, dequantised, empty_bands, inverse, padded, quantised
from vc2 import rectangle


class Bits(Block):
    """So many bits of a slice from a place on, past whose end there are ones."""

    def __init__(self, data, place, count):
        super().__init__(data)
        self.place, self.end = place, place + count

    def bit(self):
        if self.place >= self.end:
            return 1
        return super().bit()

    def number(self, bits):
        value = 0
        for _ in range(bits):
            value = 2 * value + self.bit()
        return value


def read_parameters(data, video):
    """The plan, the slice bytes' numerator and denominator, and how many bytes the parameters have."""
    bits = Fields(data)
    wavelet, depth = bits.uint(6), bits.uint(5, 1)
    if video.major == 3:
        across = bits.uint(6) if bits.bit() else wavelet
        depth_across = bits.uint(5 - depth) if bits.bit() else 0
        if (across, depth_across) != (wavelet, 0):
            raise Refused
    transform = Transform(wavelet, wavelet, depth, 0)
    slices = bits.uint(65535, 1), bits.uint(65535, 1)
    if slices[0] * slices[1] > 131072:
        raise Refused
    numerator, denominator = bits.uint(), bits.uint()
    if not 1 <= denominator <= numerator < 65536 * denominator:
        raise Refused
    if bits.bit():
        matrix = [bits.uint(127) for _ in range(transform.subbands)]
    elif transform.has_default:
        matrix = default_matrix(wavelet, depth)
    else:
        raise Refused
    width, height = padded(*video.sizes[0], depth, 0)
    if width * height > 8912896:
        raise Refused
    return Plan(transform, slices, 0, 1, tuple(matrix)), (numerator, denominator), bits.used()


def slice_bytes(ratio, number):
    numerator, denominator = ratio
    return (number + 1) * numerator // denominator - number * numerator // denominator


def length_bits(size):
    """How many bits say how long a slice's luma is."""
    bits = 0
    while 1 << bits < 8 * size - 7:
        bits += 1
    return bits


def read_slice(data, size, plan, components, number):
    bits = Bits(data, 0, 8 * size)
    index, used = bits.number(7), length_bits(size)
    left = 8 * size - 7 - used
    luma = min(bits.number(used), left)
    first, second = Bits(data, 7 + used, luma), Bits(data, 7 + used + luma, left - luma)
    for block, planes in (first, components[:1]), (second, components[1:]):
        for bands in zip(*planes, plan.matrix):
            rows, columns = rectangle(bands[0], plan.slices, number)
            for y in rows:
                for x in columns:
                    for band in bands[:-1]:
                        band[y][x] = dequantised(block.sint(), max(0, index - bands[-1]))


def prediction(band, y, x):
    if y and x:
        return (band[y][x - 1] + band[y - 1][x - 1] + band[y - 1][x] + 1) // 3
    return band[y][x - 1] if x else band[y - 1][x] if y else 0


def grown(band):
    """What was lost to the prediction is given back, in raster order."""
    for y, row in enumerate(band):
        for x in range(len(row)):
            row[x] += prediction(band, y, x)


def planes_of(body, video):
    """The planes of a picture's own bytes. They are refused with its parameters, where they end, or where they grow too large."""
    plan, ratio, at = read_parameters(body, video)
    components = [empty_bands(size, plan.transform) for size in video.sizes]
    if len(body) - at < plan.slice_count * ratio[0] // ratio[1]:
        raise Refused
    for number in range(plan.slice_count):
        size = slice_bytes(ratio, number)
        read_slice(body[at : at + size], size, plan, components, number)
        at += size
    planes = []
    for bands, (width, height), bits in zip(components, video.sizes, video.depths):
        grown(bands[0])
        if any(abs(value) >= 1 << 60 for band in bands for row in band for value in row):
            raise Refused
        half = 1 << (bits - 1)
        samples = inverse(plan.transform, bands)
        planes.append([[min(max(s, -half), half - 1) + half for s in row[:width]] for row in samples[:height]])
    return planes


# ---- the encoder


def shrunk(band, index):
    """What is left of a subband's values by the prediction of what a decoder has: numbers to quantise no further."""
    had = [[0] * len(row) for row in band]
    numbers = [[0] * len(row) for row in band]
    for y, row in enumerate(band):
        for x, value in enumerate(row):
            numbers[y][x] = quantised(value - prediction(had, y, x), index)
            had[y][x] = dequantised(numbers[y][x], index) + prediction(had, y, x)
    return numbers


def codes_within(codes, room):
    """As many codes as have room, one after another, as bits."""
    bits = []
    for code in codes:
        if len(bits) + len(code) > room:
            break
        bits += code
    return bits


def slice_codes(planes, plan, number):
    """The codes of a block: those of its planes at each place in turn."""
    for bands in zip(*planes):
        rows, columns = rectangle(bands[0], plan.slices, number)
        for y in rows:
            for x in columns:
                for band in bands:
                    writer = Writer()
                    writer.sint(band[y][x])
                    yield writer.bits


def digits(value, count):
    return [value >> (count - 1 - i) & 1 for i in range(count)]


def encoded_slice(numbers, plan, size, index, number):
    """A slice of the numbers of the three components, as far as there is room for their codes."""
    used = length_bits(size)
    left = 8 * size - 7 - used
    luma = codes_within(slice_codes(numbers[:1], plan, number), left)
    colour = codes_within(slice_codes(numbers[1:], plan, number), left - len(luma))
    writer = Writer()
    writer.bits = digits(index, 7) + digits(len(luma), used) + luma + colour
    return writer.bytes(filling=1).ljust(size, b"\xff")


def picture_of(components, plan, ratio, index):
    """A picture's own bytes: its subbands at one index, and whatever its slices have room for."""
    numbers = []
    for bands in components:
        low = shrunk(bands[0], max(0, index - plan.matrix[0]))
        rest = [[[quantised(v, max(0, index - m)) for v in row] for row in band] for band, m in zip(bands[1:], plan.matrix[1:])]
        numbers.append([low, *rest])
    bits = Writer()
    bits.uint(plan.transform.wavelet, plan.transform.depth, *plan.slices, *ratio)
    bits.flag(0)
    slices = (encoded_slice(numbers, plan, slice_bytes(ratio, i), index, i) for i in range(plan.slice_count))
    return bits.bytes() + b"".join(slices)
