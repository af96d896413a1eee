"""Methods as sheets, how the exported library ends them, and which rows of docs/DIFFERENCES.md their walks meet.

Needs target/staticlib/libworkbook.a (tools/library) and a C compiler.
"""

import pathlib
import re
import subprocess
import sys

ROOT = pathlib.Path(__file__).resolve().parent.parent.parent
NARROW = {"Z": (1, 0), "B": (0xFF, 0x80), "C": (0xFFFF, 0), "S": (0xFFFF, 0x8000)}  # of a returned int: those kept, and the sign among them


class Case:
    def __init__(self, number, sheet, want, rust=None):
        self.number, self.sheet, self.want, self.rust = number, sheet, want, rust
        self.owed, self.rows, self.because = None, [], None


def is_nan(line):
    kind, _, digits = line.removeprefix("return ").partition(" ")
    if kind == "float":
        return int(digits, 16) & 0x7FFFFFFF > 0x7F800000
    return kind == "double" and int(digits, 16) & 0x7FFFFFFFFFFFFFFF > 0x7FF0000000000000


def agrees(line, want):
    """Whether the library's line is HotSpot's."""
    if want.endswith(" nan"):
        return line.startswith(want[:-3]) and is_nan(line)
    return line == want


def narrowed(line, sheet):
    """The line of an int that is returned as the sheet's descriptor says (JVMS 6.5.ireturn)."""
    if not line.startswith("return int "):
        return line
    value, kept, sign = int(line[11:], 16), *NARROW.get(return_type(sheet), (0xFFFFFFFF, 0))
    return f"return int {((value & kept ^ sign) - sign) & 0xFFFFFFFF:08X}"


def return_type(sheet):
    """The first character of the return type of a good descriptor, empty where the sheet has none."""
    if sheet[8:10] != b"DS":
        return ""
    descriptor = sheet[12 : 12 + int.from_bytes(sheet[10:12], "big")]
    return re.match(rb"\((?:\[*(?:[BCDFIJSZ]|L[^;]*;))*\)(.)", descriptor, re.DOTALL)[1].decode()


def records(sheet):
    """The records of a sheet that is whole."""
    at = 0
    while at < len(sheet):
        end = at + 4 + int.from_bytes(sheet[at + 2 : at + 4], "big")
        yield sheet[at:end]
        at = end


def later(sheet):
    """The sheet with each handler's range one byte shorter at its start."""

    def moved(record):
        start = int.from_bytes(record[4:6], "big") + 1
        return record[:4] + start.to_bytes(2, "big") + record[6:]

    return b"".join(moved(record) if record.startswith(b"EX") else record for record in records(sheet))


def unpack(data):
    """The mark and the sheet of each case of a file."""
    out, at = [], 0
    while at < len(data):
        length = int.from_bytes(data[at + 1 : at + 4], "big")
        out.append((data[at], data[at + 4 : at + 4 + length]))
        at += 4 + length
    return out


def read(cases, ends):
    sheets, wants = unpack(pathlib.Path(cases).read_bytes()), pathlib.Path(ends).read_text().splitlines()
    if len(sheets) != len(wants):
        sys.exit(f"{cases} and {ends} do not belong together")
    return [Case(number, sheet, want) for number, ((_, sheet), want) in enumerate(zip(sheets, wants))]


def pack(cases, mark=0):
    """Each sheet after a mark in one byte and its length in three."""
    return b"".join(bytes([mark]) + len(c.sheet).to_bytes(3, "big") + c.sheet for c in cases)


def build_walk(program):
    library = ROOT / "target" / "staticlib" / "libworkbook.a"
    source = ROOT / "tools" / "jvm" / "walk.c"
    subprocess.run(["cc", "-std=c99", "-O2", "-Wall", "-Wextra", "-Werror", f"-I{ROOT / 'include'}", source, library, "-o", program], check=True)


def walked(folder, cases, *option):
    file = folder / "cases"
    file.write_bytes(pack(cases))
    return subprocess.run([folder / "walk", *option, file], check=True, stdout=subprocess.PIPE, text=True).stdout.splitlines()


def walk(folder, cases):
    """The library's line and the rows met, for each case."""
    for case, line in zip(cases, walked(folder, cases), strict=True):
        case.owed, rows, _ = line.split("\t")
        case.rows = rows.split()
