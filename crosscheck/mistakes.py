"""Rows for crosscheck/program of what `main` says is wrong: a row for each line."""

import shutil
import subprocess
from pathlib import Path

from rows import CAPTURE, FRAME, LOW_DELAY, RECEIVER_REPORT, SMALL, UNITS

SIDES = "encode --width 64 --height 64"

# The words, the place that the report names, and what is wrong.
WORDS = [
    ("nothing", 0, "nothing is no command"),
    ("--width 64", 0, "--width is no command"),
    ("--help --help", 0, "--help is no command"),
    (["en\x1b[1mcode\n"], 0, "en?[1mcode? is no command"),
    (["x" * 40], 0, "x" * 40 + " is no command"),
    (["\u00fc" * 41], 0, "\u00fc" * 40 + ".. is no command"),
    ([""], 0, "'' is no command"),
    ("encode --fps 25", 1, "--fps is no option of encode"),
    ("encode width 64", 1, "width is no option of encode"),
    ("play --window 4", 1, "--window is no option of play"),
    ("encode --fps=25", 1, "--fps=25 is no option of encode"),
    ("encode --width=64", 1, "--width=64: the value is a word of its own, as in --width 64"),
    ("encode --width=", 1, "--width=: the value is a word of its own, as in --width ''"),
    ("encode in.yuv", 1, "in.yuv: files are redirected, as in < in.yuv"),
    ("decode --window 4 ./link", 3, "./link: files are redirected, as in < ./link"),
    ("recv --at 127.0.0.1:5004 out.yuv", 3, "out.yuv: files are redirected, as in > out.yuv"),
    ("record out.cap", 1, "out.cap: files are redirected, as in > out.cap"),
    ("gen out.yuv", 1, "out.yuv: files are redirected, as in > out.yuv"),
    ("decode --window 4 --window 4", 3, "--window: it is given twice"),
    ("encode --fit 96 --budget 5000", 3, "--budget: not with --fit"),
    ("encode --index 0 --fit 96", 3, "--fit: not with --index"),
    ("pack --tick 3600 --rate 25:1", 3, "--rate: not with --tick"),
    ("encode --width 8193", 2, "--width 8193: 1 to 8192"),
    ("encode --fit 3", 2, "--fit 3: 4 to 65535"),
    ("decode --window 9", 2, "--window 9: 2 to 8"),
    ("decode --pcap yes", 2, "--pcap yes: 0 to 1"),
    ("encode --sampling 4:2:2", 2, "--sampling 4:2:2: 444, 422 or 420"),
    ("encode --slices 16", 2, "--slices 16: two of 1 to 65535 with x between, as 120x135"),
    ("encode --rate 29.97", 2, "--rate 29.97: two of 1 to 4294967295 with : between, as 30000:1001"),
    ("encode --aspect 16x9", 2, "--aspect 16x9: two of 1 to 65535 with : between, as 12:11"),
    ("rtcp --cname \u00fc", 2, "--cname \u00fc: 1 to 255 bytes of ASCII"),
    (["send", "--to", ""], 2, "--to '': an address"),
    ("encode --height --width 64", 2, "--height: its value is missing"),
    ("encode --width 64 --height", 4, "--height: its value is missing"),
    ("encode", 1, "--width is missing"),
    ("encode --width 8", 3, "--height is missing"),
    ("send --width 64 --height 64", 5, "--to is missing"),
    ("recv --window 4", 3, "--at is missing"),
    ("encode --width 63 --height 64", 5, "--width 63 is odd: it must be even with --sampling 422"),
    ("gen --width 63 --height 64", 5, "--width 63 is odd: it must be even with --sampling 422"),
    ("encode --width 63 --height 64 --sampling 420", 7, "--width 63 is odd: it must be even with --sampling 420"),
    ("encode --width 64 --height 63 --sampling 420", 7, "--height 63 is odd: it must be even with --sampling 420"),
    ("encode --width 64 --height 63 --fields 1", 7, "--height 63 is odd: it must be even with --fields 1"),
    (
        "encode --width 64 --height 62 --sampling 420 --fields 1",
        9,
        "--height 62 is no multiple of 4: it must be one with --sampling 420 and --fields 1",
    ),
    (SIDES + " --fields 1 --picture 3", 9, "--picture 3 is odd: it must be even with --fields 1"),
    ("encode --width 7680 --height 4320", 5, "7680x4320 has more than 8912896 samples of luma"),
    ("gen --width 7680 --height 4320", 5, "7680x4320 has more than 8912896 samples of luma"),
    (
        "encode --width 8100 --height 1100",
        5,
        "8100x1100 has more than 8912896 samples of luma once its sides are padded for --depth 3",
    ),
    ("encode --width 8192 --height 4320 --fields 1", 7, "a field of 8192x2160 has more than 8912896 samples of luma"),
    (SIDES + " --slices 65535x3", 7, "--slices 65535x3: a picture has at most 131072 slices"),
    (SIDES + " --aspect 12:11", 7, "--aspect: only with --rate"),
    (SIDES + " --tick 3600 --colour 3", 9, "--colour: only with --rate"),
]

COMMANDS = "encode decode send recv loop record replay play unpack pack gen rtcp rtcp-show probe".split()

# ---- inputs of another form

Y4M = b"YUV4MPEG2 W2 H2 F25:1 Ip A0:0 C444\nFRAME\n" + bytes(12)
PCAP = bytes.fromhex("D4C3B2A1 0200 0400 00000000 00000000 00000400 01000000")
PCAPNG = bytes.fromhex("0A0D0D0A 0000001C 1A2B3C4D 0001 0000 FFFFFFFFFFFFFFFF 0000001C")
STREAM = bytes.fromhex(UNITS)
ENTRIES = bytes.fromhex(CAPTURE)
TO_RAW = "the input begins as YUV4MPEG2: make raw frames of it by ffmpeg -f rawvideo"
GIVE_PCAP = "the input is a pcap file: give --pcap 1"
DECODE_PCAP = "the input is a pcap file: use decode --pcap 1"
CONVERT = "the input is a pcapng file: convert it by editcap -F pcap"
PLAY = "the input is an elementary stream: use play"
DECODE = "the input is a capture: use decode"
TEN_BITS = "encode --width 64 --height 64"


def frame(count, name):
    return f"a frame of these settings has {count} bytes ({name})"


# The words, the input, the status, and what the last line says.
INPUTS = [
    (TEN_BITS, Y4M, 10, TO_RAW),
    (SMALL, Y4M, 10, TO_RAW),
    ("decode", Y4M, 8, TO_RAW),
    ("play", Y4M, 13, TO_RAW),
    ("decode", PCAP, 8, GIVE_PCAP),
    ("unpack", bytes.fromhex("A1B2C3D4") + PCAP[4:], 8, GIVE_PCAP),
    ("rtcp", bytes.fromhex("4D3CB2A1") + PCAP[4:], 8, GIVE_PCAP),
    ("rtcp-show", bytes.fromhex("A1B23C4D") + PCAP[4:], 8, GIVE_PCAP),
    ("replay --to 127.0.0.1:9", PCAP, 8, DECODE_PCAP),
    ("play", PCAP, 13, DECODE_PCAP),
    (TEN_BITS, PCAP, 10, DECODE_PCAP),
    ("decode", PCAPNG, 8, CONVERT),
    ("decode --pcap 1", PCAPNG, 13, CONVERT),
    ("play", PCAPNG, 13, CONVERT),
    ("decode", STREAM, 8, PLAY),
    ("decode --pcap 1", STREAM, 13, PLAY),
    (TEN_BITS, STREAM, 10, PLAY),
    ("play", ENTRIES, 13, DECODE),
    ("pack", ENTRIES, 13, DECODE),
    (TEN_BITS, ENTRIES, 10, DECODE),
    ("decode --pcap 1", ENTRIES, 13, "the input is a capture: leave out --pcap 1"),
    (SMALL, bytes.fromhex(FRAME)[:-1], 10, frame(12, "yuv444p")),
    ("encode --width 64 --height 64 --range 2 --sampling 420", bytes(6143), 10, frame(6144, "yuv420p")),
    (TEN_BITS, bytes(16383), 10, frame(16384, "yuv422p10le")),
    (TEN_BITS, b"\xff" * 16384, 11, frame(16384, "yuv422p10le")),
    ("encode --width 64 --height 64 --range 4 --sampling 444", b"\xff" * 30000, 11, frame(24576, "yuv444p12le")),
    ("encode --width 1920 --height 1080", b"\0", 10, frame(8294400, "yuv422p10le")),
]



def record(port):
    """A record of a pcap file: a datagram of UDP and IPv4 of four bytes to a port, in an Ethernet frame."""
    packet = bytes.fromhex("45000020 00000000 40110000 7F000001 7F000001 138C") + port.to_bytes(2, "big") + bytes.fromhex("000C0000 80600000")
    frame = bytes(12) + b"\x08\x00" + packet
    return bytes(8) + 2 * len(frame).to_bytes(4, "little") + frame


def file_to(*ports):
    return PCAP + b"".join(map(record, ports))


PORTS = "datagrams to other ports came: "

INPUTS += [
    ("decode --pcap 1 --port 5005", file_to(5004), 0, PORTS + "5004"),
    ("unpack --pcap 1 --port 1", file_to(5006, 5004, 5006), 0, PORTS + "5006 5004"),
    ("rtcp-show --pcap 1 --port 1", file_to(*range(65535, 65526, -1)), 0, PORTS + " ".join(map(str, range(65535, 65527, -1)))),
    ("decode --pcap 1 --port 5005", file_to(5004)[:-1], 8, None),
    ("decode --pcap 1 --port 5005", file_to(5004) + b"\0", 8, PORTS + "5004"),
    ("decode --pcap 1 --port 5005", file_to(*[5004] * 5000), 0, PORTS + "5004"),
    ("decode --pcap 1 --port 5005", PCAP, 0, "other 0"),
    ("decode --pcap 1", file_to(5004), 0, "other 0"),
    ("decode --pcap 1 --port 5004", file_to(5006, 5004), 0, "other 1"),
]

# The words, the input and the status, where nothing is said after the report.
SILENT = [
    ("decode", ENTRIES[:-1], 8),
    ("rtcp-show", bytes.fromhex(RECEIVER_REPORT)[:-1], 8),
    ("replay --pace 0 --to 127.0.0.1:9", ENTRIES[:-1], 8),
    ("decode --pcap 1", PCAP + b"\0", 8),
    ("play", STREAM[:-1], 13),
    ("play", bytes.fromhex(LOW_DELAY)[:30], 13),
    ("play", b"\xff" * 20, 13),
    ("decode", b"\xff" * 20, 8),
]


def word_rows():
    """Each row's words, and its report."""
    for words, place, line in WORDS:
        first = words[0] if isinstance(words, list) else words.split()[0]
        of = f"{first} " if first in COMMANDS else ""
        yield words, f"usage at {place}\n{line}\nsee vc2link {of}--help\n"


# ---- inputs that other tools make


def made(folder, name, *words):
    """A file that a tool makes of a test picture, or of another file in the folder."""
    subprocess.run([*words, name], cwd=folder, check=True, stdout=subprocess.DEVNULL, stderr=subprocess.DEVNULL)
    return Path(folder, name).read_bytes()


def tool_rows(folder):
    """Rows as those of INPUTS, with files made by ffmpeg, tcpdump and editcap; and the tools that aren't installed."""
    lacking = [tool for tool in ("ffmpeg", "tcpdump", "editcap") if not shutil.which(tool)]
    if lacking:
        return [], lacking
    source = ["ffmpeg", "-y", "-f", "lavfi", "-i", "testsrc2=size=64x64:rate=25", "-frames:v", "2", "-pix_fmt", "yuv422p10le"]
    y4m = made(folder, "in.y4m", *source, "-strict", "-1", "-f", "yuv4mpegpipe")
    stream = made(folder, "in.vc2", *source, "-strict", "-1", "-c:v", "vc2", "-map", "0:v", "-f", "data")
    raw = made(folder, "in.yuv", *source, "-f", "rawvideo")
    Path(folder, "empty.pcap").write_bytes(PCAP)
    pcap = made(folder, "again.pcap", "tcpdump", "-r", "empty.pcap", "-w")
    pcapng = made(folder, "in.pcapng", "editcap", "-F", "pcapng", "again.pcap")
    return [
        (TEN_BITS, y4m, 11, TO_RAW),
        (TEN_BITS + " --range 1", y4m, 10, TO_RAW),
        ("decode", pcap, 8, GIVE_PCAP),
        ("decode", pcapng, 8, CONVERT),
        ("decode --pcap 1", pcapng, 13, CONVERT),
        (TEN_BITS, stream, 11, PLAY),
        ("decode", stream, 8, PLAY),
        (TEN_BITS, raw[:-1], 10, frame(16384, "yuv422p10le")),
    ], []
