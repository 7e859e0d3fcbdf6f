"""Which C functions a program of this machine's kind links, and which the kit declares with a contract."""
import re
import struct

SYMBOLS, LINKED_SYMBOLS = 2, 11
DECLARED_IN = ("libc/src/*.rt", "os/src/*.rt", "std/src/**/*.rt", "io/src/**/*.rt")


def linked(path):
    """The names in the tables of symbols of an ELF file of 64 bits."""
    data = path.read_bytes()
    if data[:6] != b"\x7fELF\x02\x01":
        raise SystemExit(f"{path} is no ELF file of 64 bits")
    start, = struct.unpack_from("<Q", data, 40)
    size, count = struct.unpack_from("<HH", data, 58)
    sections = [struct.unpack_from("<IIQQQQIIQQ", data, start + number * size) for number in range(count)]
    names = set()
    for _, kind, _, _, offset, length, link, _, _, entry in sections:
        if kind in (SYMBOLS, LINKED_SYMBOLS):
            texts = sections[link][4]
            for place in range(offset, offset + length, entry):
                begin = texts + struct.unpack_from("<I", data, place)[0]
                names.add(data[begin:data.index(b"\0", begin)].decode().split("@")[0])
    return names


def declared(kit):
    """The names of the C functions that the kit's crates declare."""
    names = set()
    for pattern in DECLARED_IN:
        for path in kit.glob(pattern):
            for block in re.findall(r'extern "C" \{(.*?)^ *\}$', path.read_text(), re.M | re.S):
                names |= set(re.findall(r"\bfn (\w+)", block))
    return names
