"""The rows of docs/DIFFERENCES.md, as cases: their sheet, what the Rust gives, what is owed."""

import re
import sys

from cases import ROOT, Case

UNDEFINED = "undefined; seen once: "  # before what the Rust gave where anything may come


def rows():
    text = (ROOT / "docs" / "DIFFERENCES.md").read_text()
    out, columns = [], []
    for line in text.splitlines():
        cells = line.strip("| ").split(" | ") if line.startswith("|") else []
        if "Sheet" in columns and len(cells) == len(columns):
            out.append(row(dict(zip(columns, cells))))
        elif not line.startswith("|---"):
            columns = cells
    cited = re.findall(r"`(4C4D[0-9A-F]+)`", text)
    if cited != [c.sheet.hex().upper() for c in out]:
        sys.exit("docs/DIFFERENCES.md cites a sheet outside of its tables")
    return out


def row(cells):
    """A column's name says whose answers it has; `then` is said of those that later requests bring."""
    rust = next(cell for name, cell in cells.items() if "Rust" in name)
    here = next(cell for name, cell in cells.items() if "Here" in name and "then" not in name)
    owed = f"refused {here}" if here.isdecimal() else quoted(here)
    undefined = UNDEFINED if rust.startswith("undefined") else ""
    return Case(cells["No."], bytes.fromhex(cells["Sheet"].strip("`")), owed, undefined + quoted(rust))


def quoted(cell):
    return re.search(r"`([^`]+)`", cell)[1]
