"""What the tools that make modules and measure programs have in common."""
import re
import subprocess
import sys
import tempfile

HEAD = b"\0asm\1\0\0\0"


def unsigned(n):
    """Returns the number in LEB128."""
    out = bytearray()
    while n > 0x7F:
        out.append(n & 0x7F | 0x80)
        n >>= 7
    return bytes(out + bytes([n]))


def section(number, contents):
    return bytes([number]) + unsigned(len(contents)) + contents


def instructions(*command):
    """Returns how many instructions the command takes, by valgrind's callgrind."""
    with tempfile.NamedTemporaryFile() as out:
        said = subprocess.run(["valgrind", "--tool=callgrind", f"--callgrind-out-file={out.name}", *command], stdout=subprocess.PIPE, stderr=subprocess.STDOUT, text=True)
    found = re.search(r"Collected : (\d+)", said.stdout)
    if not found:
        sys.exit(f"{command[0]}: {said.stdout[-500:]}")
    return int(found.group(1))
