"""The program that bin/wasm-check or bin/wasm-validate runs, for tools that call it often: the wrapper looks at all sources at each call; and where
the files are put that it is called with."""
import os
import subprocess
import sys

TOP = os.path.dirname(os.path.dirname(os.path.realpath(__file__)))
HEAD = b"\0asm\1\0\0\0"
# Prints the path of the program that is built of the sources as they are.
SCRIPT = """top=$1; . "$top/bin/sources.sh"; choose_program "$2"; look_for_kit
for kind in proved unproved; do
    if [ -x "$built/$kind" ]; then find_sum "$kind"; if is_built "$kind" "$sum"; then echo "$built/$kind"; exit; fi; fi
done"""


def built_program(crate):
    """The path of the program of this crate, which the wrapper has built before, if it wasn't; or that of the wrapper, where none can be kept."""
    wrapper = f"{TOP}/bin/{crate.replace('_', '-')}"
    ran = subprocess.run([wrapper, "/dev/stdin"], input=HEAD, stdout=subprocess.PIPE)
    if ran.returncode:
        sys.exit(f"{wrapper} ended with status {ran.returncode} on an empty module: {ran.stdout.decode(errors='replace')[-300:]}")
    path = subprocess.run(["bash", "-c", SCRIPT, "bash", TOP, crate], stdout=subprocess.PIPE, text=True).stdout.strip()
    return path if os.access(path, os.X_OK) else wrapper


def memory_folder():
    """A folder whose files are in memory, if there is one with room for the modules of all rows: ten thousand files take as long elsewhere as all the
    rest."""
    try:
        there = os.statvfs("/dev/shm")
        return "/dev/shm" if os.access("/dev/shm", os.W_OK | os.X_OK) and there.f_bavail * there.f_frsize > 1 << 28 else None
    except OSError:
        return None
