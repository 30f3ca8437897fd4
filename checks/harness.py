"""What the scripts of checks/ share: where the repository and its program are, the tools that a script needs, and tries
that are counted."""
import os
import re
import shutil
import subprocess
import sys

TOP = os.path.dirname(os.path.dirname(os.path.abspath(__file__)))
PROGRAM = os.path.join(TOP, "crates/il_command/out/il_command")
TAPE = os.path.join(TOP, "crates/tape/out/tape")
# Each tool that a script of checks/ needs, and the Debian packages that it comes with. Rattle's kit brings rt.
PACKAGES = {
    "awk": "mawk",
    "bash": "bash",
    "busybox": "busybox",
    "cc": "gcc libc6-dev",
    "dash": "dash",
    "gawk": "gawk",
    "gzip": "gzip",
    "man": "man-db",
    "mawk": "mawk",
    "mount": "mount",
    "original-awk": "original-awk",
    "rt": "",
    "shellcheck": "shellcheck",
    "strace": "strace",
    "time": "time",
    "valgrind": "valgrind",
    "xxd": "xxd",
}


def missing_tools(tools):
    """Those of the tools that are not on the PATH."""
    return [tool for tool in tools if not shutil.which(tool)]


def need(*tools, root=False, program=PROGRAM):
    """Ends the script with exit status 1 if it lacks a tool, root's rights or the program, and names what it lacks."""
    lacks = [
        f"{tool} ({PACKAGES[tool] and 'Debian: ' + PACKAGES[tool] or 'of the kit'})" for tool in missing_tools(tools)
    ]
    if root and os.geteuid() != 0:
        lacks.append("root's rights")
    if program and not os.access(program, os.X_OK):
        lacks.append(f"the built program {os.path.relpath(program, TOP)} (`rt ci` leaves it there)")
    if lacks:
        sys.exit(f"{os.path.relpath(sys.argv[0], TOP)} needs {', '.join(lacks)}")


# ---- images

def entry(name, kind, start, length, field=bytes(4), date=bytes(6)):
    """A slot of a directory. The name is a text, or bytes."""
    name = name.encode() if isinstance(name, str) else name
    place = start.to_bytes(4, "big") + length.to_bytes(4, "big")
    return name.ljust(10) + kind.to_bytes(2, "big") + place + date + b"\x80\x01" + field


def image(name, slots, start=2, length=2, mark=b"\x80\0", contents=(), size=131_072, geometry=(0, 0, 0), label=b"HPTAPE"):
    """Writes an image with these slots, records with these contents, and a header that tells this geometry."""
    bytes_ = bytearray(size)
    bytes_[:20] = mark + label + start.to_bytes(4, "big") + b"\x10\0\0\0" + length.to_bytes(4, "big")
    bytes_[24:36] = b"".join(number.to_bytes(4, "big") for number in geometry)
    first = 256 * start if 0 < start < 100 else 512
    for k, slot in enumerate([*slots, b" " * 10 + b"\xFF\xFF"]):
        if k < 8 * length and length < 500:
            bytes_[first + 32 * k:first + 32 * k + len(slot)] = slot
    for record, content in contents:
        bytes_[256 * record:256 * record + len(content)] = content
    write(name, bytes_)


def write(name, content):
    with open(name, "wb") as file:
        file.write(content)


class Tries:
    """Comparisons, counted."""

    def __init__(self):
        self.tried = self.wrong = 0

    def same(self, got, want, what):
        """Counts one comparison, and prints both values if they differ."""
        self.tried += 1
        if got != want:
            self.wrong += 1
            print(f"{what}\n  is:     {got!r:.3000}\n  wanted: {want!r:.3000}")

    def end(self, of_what):
        """Prints the counts, and ends the script: with exit status 0 if something was tried and nothing is wrong."""
        print(f"{self.tried} tries of {of_what}, {self.wrong} of them wrong")
        sys.exit(1 if self.wrong or not self.tried else 0)


# ---- calls of the system

def system_calls(program, *words):
    """The calls that a program makes of the system: each by its name, and what it concerns. A file descriptor is told by the
    path that it was opened by."""
    kinds = "openat,fcntl,mkdir,write,pwrite64,fsync,link,linkat,rename,unlink,flock,close"
    done = subprocess.run(["strace", "-f", "-e", f"trace={kinds}", program, *words], stdin=subprocess.DEVNULL,
                          stdout=subprocess.DEVNULL, stderr=subprocess.PIPE, text=True, timeout=60)
    calls, paths = [], {"1": "standard output", "2": "standard error"}
    for line in done.stderr.splitlines():
        call = re.match(r"(?:\[pid +\d+\] )?(\w+)\((.*)\) += (-?\d+)", line)
        if not call or int(call[3]) < 0:
            continue
        kind, told = call[1], re.findall(r'"([^"]*)"', call[2])
        first = call[2].split(",")[0]
        if kind == "openat":
            paths[call[3]] = told[0]
            calls.append((kind, told[0], *re.findall(r"O_(?:EXCL|RDONLY|RDWR)", call[2])))
        elif kind == "fcntl":
            paths[call[3]] = paths.get(first, first)
        elif kind in ("link", "linkat", "rename", "unlink", "mkdir"):
            calls.append((kind, told[-1]))
        else:
            calls.append((kind, paths.get(first, first), *re.findall(r"LOCK_\w\w\b", call[2])))
    return [call for call in calls if not re.search(r"/lib|/etc/|^3$", call[1])]
