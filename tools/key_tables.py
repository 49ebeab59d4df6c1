"""The keys of a configuration: those that the program has, those of docs/configuration.md, and the man page that is made of them.

The program's are the rows of crates/config_file/src/keys.rt, with the numbers that these name. The page's are its tables below
"Keys", a row for each key or for several that are alike.
"""
import os
import re
from collections import namedtuple

TOP = os.path.dirname(os.path.dirname(os.path.abspath(__file__)))
KEYS, PAGE, MAN, OFFICE = "crates/config_file/src/keys.rt", "docs/configuration.md", "man/ftpd.toml.5", "examples/office.toml"
NUMBERS = (KEYS, "crates/config_file/src/stated.rt", "crates/ftp_terms/src/entries.rt")
# The tables of the page by its headings, and the lists of keys.rt that each has.
TABLES = {
    "At the top": ("TOP",), "`[server]`": ("SERVER",), "`[[group]]` (version 2)": ("GROUP",), "`[[user]]`": ("USER",),
    "`[[user.override]]`": ("OVERRIDE",), "`[[dir]]` and `[[file]]`": ("DIR", "FILE"),
}
# Kinds that the page tells apart and the program does not: what a line has in it is judged later.
LINES = ("line", "path", "letters")

# A key of the program, or of the page: its name, its kind in the page's words, and its default ("" where it has none).
Key = namedtuple("Key", "name kind default")
# A row of the page: its keys, its kind as it is written there, their defaults, and what it says of them.
Row = namedtuple("Row", "keys kind defaults text")

MAN_HEAD = r'''.\" Made by tools/help-pages --write of the tables of docs/configuration.md.
.TH FTPD.TOML 5 2026-11-26 "ftpd 1" "File formats"
.SH NAME
ftpd.toml \- configuration of the FTP server ftpd
.SH SYNOPSIS
.I /etc/ftpd.toml
.SH DESCRIPTION
A TOML file of at most 4 MiB that
.BR ftpd (8)
serves by.
.B "ftpd check\-config"
judges it: it reports the first fault, or what the file says and warnings.
It has passwords in clear text, so only the server's user should be able to read it.
A changed file is read at the next start, or by a reload, which ends no transfer.
.PP
A rate is octets a second, in digits, which may be grouped:
.BR 4_000_000 .
A home is a path within the root, and not one of the machine.
.SH KINDS
'''
MAN_TAIL = r'''.SH EXAMPLE
.\" not run: a configuration
.EX
%s.EE
.SH FILES
.TP
.I /etc/ftpd.toml
The configuration of the service.
.TP
.I /usr/share/doc/ftpd\-exact/docs/configuration.md
Each fault and each warning, with how it is mended, where the package is installed.
.TP
.I /usr/share/doc/ftpd\-exact/examples/office.toml
Every key, with a comment each.
.SH "SEE ALSO"
.BR ftpd (8),
.BR systemctl (1)
'''


def read(path):
    with open(f"{TOP}/{path}", encoding="utf-8") as file:
        return file.read()


def numbers():
    """The constants that ranges and defaults name."""
    found = {}
    for path in NUMBERS:
        found |= {name: int(it.replace("_", "")) for name, it in re.findall(r"const (\w+): u64 = ([\d_]+);", read(path))}
    return found


def number_of(text, known):
    return known[text] if text in known else int(text.replace("_", ""))


def kinds(text, known):
    """The kinds of keys.rt by their names, in the page's words."""
    found = {f"KeyKind::{it}": it.lower() for it in ("Line", "Text", "Flag", "Address", "Table", "Rows")} | {"KeyKind::Password": "line"}
    for name, low, high in re.findall(r"const (\w+): KeyKind = KeyKind::Number \{\s*low: (\w+),\s*high: (\w+),?\s*\};", text):
        found[name] = f"{number_of(low, known)} to {number_of(high, known)}"
    return found


def default_of(text, known):
    """A default of keys.rt in the page's words."""
    kind, _, value = text.removeprefix("Absent::").partition("(")
    value = value.removesuffix(")")
    match kind:
        case "Refused" | "NoRows":
            return ""
        case "Nothing":
            return "none"
        case "Number":
            return str(number_of(value, known))
        case "Address":
            return '"' + value.strip("[]").replace(", ", ".") + '"'
        case _:
            return value


def program_tables():
    """The keys of each list of keys.rt, in its order, but for those that are tables themselves."""
    text, known = read(KEYS), numbers()
    absent = dict(re.findall(r"const (\w+): Absent<'static> = (.*);", text))
    words = kinds(text, known)
    rows = {}
    for name, key, kind, default in re.findall(r"const (\w+): Row<'static> = Row\(\s*\"(\w+)\",\s*([\w:]+),\s*(.*?),?\s*\);", text, re.S):
        rows[name] = Key(key, words[kind], default_of(absent.get(default, default), known))
    found = {}
    for name, listed in re.findall(r"static (\w+): \[Row<'static>; \d+\] = \[(.*?)\];", text, re.S):
        found[name] = [it for it in (rows[word] for word in re.findall(r"\w+", listed)) if it.kind not in ("table", "rows")]
    return found


def page_tables():
    """The rows of each table of the page, by its heading."""
    found = {}
    part = read(PAGE).split("\n## Keys\n")[1].split("\n## ")[0]
    for heading, text in re.findall(r"^### (.*)\n((?:(?!^### ).*\n?)*)", part, re.M):
        found[heading] = []
        for line in re.findall(r"^\| (`.*) \|$", text, re.M):
            keys, kind, default, told = [it.strip() for it in re.split(r"(?<!\\)\|", line)]
            found[heading].append(Row(keys, kind, default, told))
    return found


def keys_of(row):
    """Each key of a row with its kind and its default."""
    names = re.findall(r"`(\w+)`", row.keys)
    defaults = [it.strip("`") for it in row.defaults.split(", ")]
    if len(defaults) == 1:
        defaults *= len(names)
    return [Key(name, row.kind.split(" (")[0], default) for name, default in zip(names, defaults, strict=True)]


def is_alike(written, key, rates):
    """Whether a key of the page says what the program has."""
    if (written.name, written.default) != (key.name, key.default):
        return False
    if key.kind == "line":
        return written.kind in LINES
    return written.kind.replace(" or ", " to ") == key.kind or (written.kind == "rate" and key.kind == rates)


def page_faults():
    """What docs/configuration.md has otherwise than the program."""
    program, page = program_tables(), page_tables()
    if list(page) != list(TABLES):
        yield f"its tables are {list(page)}, and not {list(TABLES)}"
        return
    rates = f"0 to {numbers()['MAX_RATE']}"
    for heading, names in TABLES.items():
        wanted = [it for name in names for it in program[name]]
        # A key of two tables stands once.
        wanted = [it for at, it in enumerate(wanted) if it not in wanted[:at]]
        found = [it for row in page[heading] for it in keys_of(row)]
        if [it.name for it in found] != [it.name for it in wanted]:
            yield f"{heading} has {[it.name for it in found]}, and not {[it.name for it in wanted]}"
            continue
        for written, key in zip(found, wanted):
            if not is_alike(written, key, rates):
                yield f"{heading}: it says {tuple(written)}, and the program has {tuple(key)}"


def office_faults():
    """The keys that examples/office.toml neither states nor has in a comment, though it says that it has all."""
    stated = set(re.findall(r"^(?:# )?(\w+) = ", read(OFFICE), re.M))
    for names in program_tables().values():
        for key in names:
            if key.name not in stated:
                yield f"it has no {key.name}"


def roff(text):
    """A text of the page as man has it."""
    text = re.sub(r"\[([^]]*)\]\([^)]*\)", r"\1", text).replace("\\|", "|").replace("\\", "\\e")
    text = re.sub(r"`([^`]*)`", lambda it: "\\fB" + it[1].replace("-", "\\-") + "\\fR", text)
    return ("\\&" if text[:1] in ".'" else "") + text


def entries(rows):
    """The entries of the man page for rows of the page."""
    for row in rows:
        yield f".TP\n.B {', '.join(re.findall('`([^`]*)`', row.keys))}\n"
        note = re.search(r"`\w+` (\(.*\))$", row.keys)
        many = ", " in row.keys
        default = f" {'Defaults' if ', ' in row.defaults else 'Default'}: {roff(row.defaults)}." if row.defaults not in ("", "none") else ""
        stated = " Any other must be stated." if "may be absent" in row.text else " Both must be stated." if many else " It must be stated."
        needed = stated if row.defaults == "" else ""
        yield f"{roff(row.kind)}{' ' + note[1] if note else ''}: {roff(row.text)}.{default}{needed}\n"


def man_page():
    """The man page of the configuration."""
    page = read(PAGE)
    kinds_part = page.split("\n## Kinds\n")[1].split("\n## ")[0]
    text = MAN_HEAD
    for name, told in re.findall(r"^\| (\w+) \| (.*) \|$", kinds_part, re.M):
        if name != "Kind":
            text += f".TP\n.B {name}\n{roff(told)}\n"
    text += '.SH KEYS\nThe order of the tables, and of the keys in each, is that in which they are judged.\n'
    for heading, rows in page_tables().items():
        text += f'.SS "{roff(heading)}"\n{"".join(entries(rows))}'
    example = re.search(r"```toml\n# ftpd\.toml\n(.*?)```", page, re.S)[1]
    return text + MAN_TAIL % example.replace("\\", "\\e").replace("-", "\\-")


def man_faults():
    if read(MAN) != man_page():
        yield "it is not what is made of docs/configuration.md; tools/help-pages --write makes it anew"


CHECKS = ((PAGE, page_faults), (OFFICE, office_faults), (MAN, man_faults))
