"""Rows for crosscheck/program and crosscheck/memory: the words, the input in hexadecimal, and the status, output and report that
the formats of docs/FORMATS.md ask for."""

from receiver import LINES

# Datagrams after their lengths: a sequence header of 8 by 4 samples, transform parameters, and two empty slices.
HEADER = "0015 8060 0000 00000000 00000001 00000000 70F063C080"
PARAMETERS = "001F 8060 0001 00000000 00000001 000000EC 00000000 00000001 0003 0000 096640"
SLICES = "0028 8060 0002 00000000 00000001 000000EC 00000000 00000001 0008 0002 0000 0000 0000000000000000"
CAPTURE = HEADER + PARAMETERS + SLICES


def picture(number, coded):
    """The datagrams of one more picture of two slices: transform parameters, and the slices."""
    slices = bytes.fromhex(coded)
    body = f"000000EC 000000{number:02X} 00000001"
    return (
        f"001F 8060 0000 00000000 00000001 {body} 0003 0000 096640"
        f"{32 + len(slices):04X} 8060 0000 00000000 00000001 {body} {len(slices):04X} 0002 0000 0000 {slices.hex()}"
    )


# Fields, the bottom one first: of a frame two, the earlier with a coefficient of -15 in luma, and one without its partner.
FIELDS = (
    HEADER.replace("C080", "C020")
    + picture(6, "000100000000000000") + picture(7, "0000000000000000") + picture(8, "0000000000000000")
)

# Between two pictures, of which the first has a coefficient of -15 in luma, one that never came.
GAP = HEADER + picture(5, "000100000000000000") + picture(7, "0000000000000000")

# The same picture as data units, and an end of sequence.
UNITS = "42424344 00 00000012 00000000 70F063C080 42424344 E8 0000001C 00000012 00000000 096640 0000000000000000"
END = "42424344 10 00000000 0000001C"

# The datagrams that carry it: the marker is set on the one with its last slice.
PACKED = HEADER + PARAMETERS + SLICES.replace("8060", "80E0")

# A low-delay picture of 4 by 2 samples and one slice, and an end of sequence.
LOW_DELAY = (
    "42424344 00 00000011 00000000 3F1BC080 42424344 C8 00000018 00000011 00000000 092464 0060BFFF"
    "42424344 10 00000000 00000018"
)

# Reports on the first capture's source behind its last packet, and behind each of the first two, and what they say.
NAME = "81CA0002 {:08X} 01016100"
RECEIVER_REPORT = "002C 81C90007 00000002 00000001 00000000 00000002 00000000 00000000 00000000" + NAME.format(2)
SENDER_REPORT = "0028 80C80006 00000001 00000005 00000000 00000000 00000003 00000038" + NAME.format(1)
ON_PROBATION = "0014 80C90001 00000002" + NAME.format(2)
EARLY_REPORT = "002C 81C90007 00000002 00000001 00000000 00000001 00000000 00000000 00000000" + NAME.format(2)
REPORTED = "datagrams 3\npackets 3\nreports 1\n"
SHOWN = b"rr 2 blocks 1\nblock 1 fraction 0 lost 0 highest 2\nsr 1 packets 3 octets 56 blocks 0\n"

# A frame of 2 by 2 samples, one of them darker, and what carries it: the same three datagrams, and the end of the sequence.
FRAME = "80807F80 80808080 80808080"
SENT = (
    "0015 8060 0000 00000000 00000001 00000000 0C3576FC4A"
    "001F 8060 0001 00000000 00000001 000000EC 00000000 00000001 0003 0000 090990"
    "0026 80E0 0002 00000000 00000001 000000EC 00000000 00000001 0006 0001 0000 0000 000294BF0000"
)
SENT_END = "0010 8060 0003 00000000 00000001 00000010"
END_ALONE = "0010 8060 0000 00000000 00000001 00000010"
CODING = "--width 2 --height 2 --sampling 444 --range 1 --wavelet 3 --depth 1 --slices 1x1 --scaler 1"
SMALL = "encode " + CODING

GREY = bytes([0x80]) * 96
WOVEN = bytes(0x71 if place in (8, 9, 24, 25) else 0x80 for place in range(96))
DARK = bytes(0x71 if place in (0, 1, 8, 9) else 0x80 for place in range(96))
PLAYED = "pictures 1\nunpaired 0\nframes 1\n"


def tally(**counts):
    """The lines of a tally: these counts, and 0 for each other one."""
    return "".join(f"{name} {counts.get(name.replace('-', '_'), 0)}\n" for name in LINES)


ONE_PICTURE = tally(datagrams=3, header_new=1, params_kept=1, slices_kept=1, frames=1)

SENT_FRAME = tally(datagrams=4, header_new=1, end=1, params_kept=1, slices_kept=1, frames=1)

TWO_FIELDS = tally(datagrams=7, header_new=1, params_kept=3, slices_kept=3, unpaired=1, frames=1)

TWO_PICTURES = tally(datagrams=5, header_new=1, params_kept=2, slices_kept=2, frames=2)

ROWS = [
    # words, input, status, output, report
    ("decode", CAPTURE, 0, GREY, ONE_PICTURE),
    ("decode --workers 0", CAPTURE, 0, GREY, ONE_PICTURE),
    ("decode", "", 0, b"", tally()),
    ("decode", CAPTURE + "00", 8, GREY, ONE_PICTURE + "capture cut at 98\n"),
    ("decode", FIELDS, 0, WOVEN, TWO_FIELDS),
    ("decode", GAP, 0, DARK + GREY, TWO_PICTURES),
    ("decode --fill 1", GAP, 0, DARK + DARK + GREY, TWO_PICTURES + "missing 6\nfilled 1\n"),
    ("decode --fill 1", CAPTURE, 0, GREY, ONE_PICTURE + "filled 0\n"),
    ("decode --fill 2", "", 2, b"", "usage at 2\n--fill 2: 0 to 1\nsee vc2link decode --help\n"),
    ("play", UNITS + END, 0, GREY, PLAYED),
    ("play", UNITS, 0, GREY, PLAYED),
    ("play", "", 0, b"", "pictures 0\nunpaired 0\nframes 0\n"),
    ("play --packets 2", UNITS + END, 9, GREY, "packet limit 2\n"),
    ("play --packets 3", UNITS + END, 0, GREY, PLAYED),
    ("play", UNITS[:-2], 13, b"", "stream bad at 18\n"),
    ("play", UNITS + "00", 13, GREY, "stream bad at 46\n"),
    (SMALL, FRAME, 0, bytes.fromhex(SENT + SENT_END), "frames 1\ndatagrams 4\nbytes 106\n"),
    ("decode", SENT + SENT_END, 0, bytes.fromhex(FRAME), SENT_FRAME),
    (SMALL, "", 0, bytes.fromhex(END_ALONE), "frames 0\ndatagrams 1\nbytes 16\n"),
    (SMALL, FRAME[:-2], 10, b"", "raw cut at frame 0\na frame of these settings has 12 bytes (yuv444p)\n"),
    (SMALL + " --frames 1", FRAME + FRAME, 14, bytes.fromhex(SENT), "frame limit 1\n"),
    ("pack", UNITS + END, 0, bytes.fromhex(PACKED + SENT_END), "pictures 1\ndatagrams 4\nbytes 108\n"),
    ("play", LOW_DELAY, 0, bytes([0x83] * 8 + [0x80] * 16), PLAYED),
    ("rtcp --cname a", CAPTURE, 0, bytes.fromhex(RECEIVER_REPORT), REPORTED),
    ("rtcp --sender 1 --ntp 5 --cname a", CAPTURE, 0, bytes.fromhex(SENDER_REPORT), REPORTED),
    ("rtcp --every 1 --cname a", CAPTURE[:-2], 8, bytes.fromhex(ON_PROBATION + EARLY_REPORT), "capture cut at 56\n"),
    ("rtcp-show", RECEIVER_REPORT + SENDER_REPORT, 0, SHOWN, "datagrams 2\n"),
    ("gen --width 1 --height 1 --sampling 444 --range 1", "", 0, bytes.fromhex("141A9A"), "frames 1\nsamples 3\n"),
    ("gen --width 1 --height 1 --sampling 444 --range 1 --check 1", "", 0, b"", "frames 1\nsamples 3\ndifferent 0\n"),
    ("unpack", CAPTURE, 0, bytes.fromhex(UNITS + END), ONE_PICTURE),
    ("unpack", "", 0, b"", tally()),
    ("--version", "", 0, b"vc2link 1.0\n", ""),
    ("play --window 4", "", 2, b"", "usage at 1\n--window is no option of play\nsee vc2link play --help\n"),
]
