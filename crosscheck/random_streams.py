"""Elementary streams at random, of small pictures with random bytes in their blocks, so that most samples are clipped and now
and then a slice is unsound."""

import random

import low_delay
from vc2 import AUXILIARY, END, HEADER, LOW_DELAY, PADDING, PICTURE, RANGES, Header, Plan, Transform, Writer
from vc2 import default_matrix, header_bytes, plane_bands, stream_of, video_of


def random_header(rnd, profile=3):
    """A sequence header's bytes, and what they say."""
    fields, sampling = rnd.random() < 0.4, rnd.randint(0, 2)
    across = 2 if sampling else 1
    down = (2 if sampling == 2 else 1) * (2 if fields else 1)
    size = across * rnd.randint(1, 40 // across), down * rnd.randint(1, 20 // down)
    major, base, preset = rnd.choice([2, 3] if profile else [1, 2, 3]), rnd.randint(0, 16), rnd.randint(0, 4)
    signal = RANGES.get(preset) or (0, rnd.choice([1, 255, 256, 65535]), 0, rnd.choice([3, 300, 65535]))
    coded = (preset,) if preset else (0, *signal)
    minor, level = rnd.randint(0, 3), rnd.randint(0, 5)
    header = Header(major, minor, level, base, *size, sampling, False, signal, fields)
    return header_bytes(major, minor, level, base, size, sampling, coded, fields, profile=profile), video_of(header)


def random_transform(rnd, video, bits):
    """Writes both wavelets and both depths, and gives the number of subbands and whether a matrix has to be coded."""
    wavelet, depth = rnd.randint(0, 6), rnd.randint(1, 5)
    across, depth_across = wavelet, 0
    bits.uint(wavelet, depth)
    if video.major == 3:
        if rnd.random() < 0.6:
            across = rnd.randint(0, 6)
        if rnd.random() < 0.6:
            depth_across = rnd.randint(0, 5 - depth)
        for value, default in (across, wavelet), (depth_across, 0):
            coded = value != default or rnd.random() < 0.3
            bits.part([value] if coded else None)
    return 1 + depth_across + 3 * depth, depth == 5 or across != wavelet or depth_across != 0


def random_picture(rnd, video):
    """A picture's own bytes: parameters, slices, and now and then something after them."""
    bits = Writer()
    bands, needs_matrix = random_transform(rnd, video, bits)
    across, down, prefix, scaler = rnd.randint(1, 4), rnd.randint(1, 3), rnd.choice([0, 0, 3]), rnd.choice([1, 2, 5])
    bits.uint(across, down, prefix, scaler)
    custom = rnd.random() < (0.98 if needs_matrix else 0.4)
    bits.part([rnd.randint(0, 12) for _ in range(bands)] if custom else None)
    body = bits.bytes()
    for _ in range(across * down):
        body += rnd.randbytes(prefix)
        body += bytes([rnd.choice([0, 3, 10, 20, 40]) if rnd.random() < 0.995 else 128])
        for _ in ("Y", "C1", "C2"):
            units = rnd.choice([0, 0, 1, 3, 8, 20])
            body += bytes([units]) + bytes(rnd.randrange(256) | rnd.randrange(256) for _ in range(units * scaler))
    return body + rnd.randbytes(rnd.choice([0, 2]))


def random_low_parameters(rnd, video, bits):
    """Writes low-delay parameters, and gives the slices and the ratio of their bytes."""
    wavelet, depth = rnd.randint(0, 6), rnd.randint(1, 4)
    bits.uint(wavelet, depth)
    if video.major == 3:
        for value in wavelet, 0:
            bits.part([value] if rnd.random() < 0.3 else None)
    across, down, denominator = rnd.randint(1, 4), rnd.randint(1, 3), rnd.choice([1, 1, 2, 3, 7])
    ratio = denominator * rnd.choice([1, 2, 5, 20, 60]) + rnd.randrange(denominator), denominator
    bits.uint(across, down, *ratio)
    bits.part([rnd.randint(0, 12) for _ in range(1 + 3 * depth)] if rnd.random() < 0.4 else None)
    return across * down, ratio


def random_low_picture(rnd, video):
    """A low-delay picture's own bytes: parameters, slices of random bits, and now and then something after them."""
    bits = Writer()
    slices, ratio = random_low_parameters(rnd, video, bits)
    body = bits.bytes()
    for number in range(slices):
        size = low_delay.slice_bytes(ratio, number)
        own = bytearray(rnd.randrange(256) | rnd.randrange(256) for _ in range(size))
        own[0] = rnd.choice([0, 6, 20, 40, 80]) | own[0] & 1
        body += bytes(own)
    return body[: -1 if rnd.random() < 0.02 else None] + rnd.randbytes(rnd.choice([0, 2]))


def encoded_low_picture(rnd, video):
    """A low-delay picture of smooth samples, by the encoder of low_delay.py."""
    wavelet, depth = rnd.randint(0, 6), rnd.randint(1, 3)
    bands = []
    for (width, height), bits in zip(video.sizes, video.depths):
        slope, base = rnd.randrange(-3, 4), rnd.randrange(1 << bits)
        rows = [[min(max(base + slope * (x + 2 * y) + rnd.randrange(3), 0), (1 << bits) - 1) for x in range(width)] for y in range(height)]
        bands.append(plane_bands(wavelet, depth, rows, bits))
    plan = Plan(Transform(wavelet, wavelet, depth, 0), (rnd.randint(1, 3), rnd.randint(1, 3)), 0, 1, tuple(default_matrix(wavelet, depth)))
    denominator = rnd.choice([1, 2, 3])
    ratio = denominator * rnd.choice([20, 100, 400]) + rnd.randrange(denominator), denominator
    body = low_delay.picture_of(bands, plan, ratio, rnd.choice([0, 8, 16]))
    return body


def random_low_stream(seed):
    """The same of low delay; with a header of version 3 the encoder's parameters lack their flags, so it makes none there."""
    rnd = random.Random(seed)
    header, video = random_header(rnd, 0)
    units, number = [(HEADER, header)], rnd.choice([0, 1, 5, 6, 0xFFFFFFFE, 0xFFFFFFFF])
    for _ in range(rnd.randint(0, 4)):
        encoded = video.major < 3 and rnd.random() < 0.5
        body = encoded_low_picture(rnd, video) if encoded else random_low_picture(rnd, video)
        units.append((LOW_DELAY if rnd.random() < 0.98 else PICTURE, number.to_bytes(4, "big") + body))
        if rnd.random() < 0.2:
            units.append((HEADER, header))
        number = (number + rnd.choice([1, 1, 1, 2, 0])) % 2**32
    if rnd.random() < 0.5:
        units.append((END, b""))
    return stream_of(units)


def random_stream(seed):
    rnd = random.Random(seed)
    header, video = random_header(rnd)
    units = [(HEADER, header)]
    number = rnd.choice([0, 1, 5, 6, 0xFFFFFFFE, 0xFFFFFFFF])
    for _ in range(rnd.randint(0, 4)):
        units.append((PICTURE, number.to_bytes(4, "big") + random_picture(rnd, video)))
        if rnd.random() < 0.2:
            units.append((rnd.choice([AUXILIARY, PADDING]), rnd.randbytes(5)))
        number = (number + rnd.choice([1, 1, 1, 2, 0])) % 2**32
    after = b""
    if rnd.random() < 0.5:
        units.append((END, b""))
        after = rnd.choice([b"", b"after"])
    return stream_of(units) + after
