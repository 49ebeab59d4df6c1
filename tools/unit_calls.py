"""What a trace of the server (`strace -f`) did that the unit does not permit: calls outside its filter, sockets of other families,
files that were opened for writing elsewhere, devices, parts of /proc that are not a process, and memory to write and to run.

    tools/unit_calls.py UNIT TRACE FOLDER    FOLDER stands in the trace for all folders that the unit may write to

Prints a line for each; the status is 0 only where there is none. Sets of calls are asked of `systemd-analyze syscall-filter`.
"""
import re
import subprocess
import sys

CALL = re.compile(r"^\d+ +(?:<\.\.\. )?(\w+)(?:\(| resumed)")
# The C library's malloc asks once, when the memory of a thread gets smaller, how the machine hands memory out. Under the unit there is no
# such file, and malloc then keeps to what is safe in each case (`check_may_shrink_heap` of its arena.c).
ASKED_BY_MALLOC = "/proc/sys/vm/overcommit_memory"
DEVICES = {"/dev/null", "/dev/zero", "/dev/full", "/dev/random", "/dev/urandom", "/dev/tty"}


def members(name):
    """The calls of a set, also through sets that it names."""
    if not name.startswith("@"):
        return {name}
    told = subprocess.run(["systemd-analyze", "syscall-filter", name], capture_output=True, text=True, check=True).stdout
    lines = [it.strip() for it in told.split("\n")[1:]]
    return set().union(*[members(it) for it in lines if it and not it.startswith("#")])


def permitted(unit):
    """The calls that the lines of a unit leave, one after another, as systemd does."""
    found = members("@default")
    for line in re.findall(r"^SystemCallFilter=(.*)$", unit, re.M):
        named = set().union(*map(members, line.removeprefix("~").split()))
        found = found - named if line.startswith("~") else found | named
    return found


def faults(unit, trace, folder):
    calls = permitted(unit)
    families = set(re.search(r"^RestrictAddressFamilies=(.*)$", unit, re.M)[1].split())
    # The start of the program itself is systemd's.
    for call in sorted({it[1] for it in map(CALL.match, trace.split("\n")) if it} - calls - {"execve"}):
        yield f"the filter does not permit {call}"
    for family in sorted(set(re.findall(r"\bsocket\((AF_\w+)", trace)) - families):
        yield f"a socket of {family}"
    for path, flags in sorted(set(re.findall(r'\bopen(?:at)?\([^"]*"([^"]*)", ([A-Z_|]+)', trace))):
        is_there = path in DEVICES or not path.startswith("/") or path.startswith((f"{folder}/", "/proc/self/fd/"))
        if re.search("O_WRONLY|O_RDWR|O_CREAT", flags) and not is_there:
            yield f"opened for writing: {path}"
        if path.startswith("/dev/") and path not in DEVICES or re.match(r"/proc/(?!self/|\d+/)", path) and path != ASKED_BY_MALLOC:
            yield f"opened: {path}"
    if re.search(r"\bmmap2?\([^\n]*PROT_WRITE\|PROT_EXEC|\bmprotect\([^\n]*PROT_EXEC", trace):
        yield "memory to write and to run"


def main(unit, trace, folder):
    with open(unit, encoding="utf-8") as one, open(trace, encoding="utf-8", errors="replace") as other:
        found = list(faults(one.read(), other.read(), folder))
    for it in found:
        print(it)
    return 1 if found else 0


if __name__ == "__main__":
    sys.exit(main(*sys.argv[1:]) if len(sys.argv) == 4 else __doc__)
