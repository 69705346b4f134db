"""The files that a program writes into crates, in the layout of `rt fmt`: written, or held against those that are there."""
import os
import subprocess
import sys
import tempfile

from schema_lists import Refused

TOP = os.path.join(os.path.dirname(os.path.abspath(__file__)), "..")


def laid_out(files):
    """The texts of files, each in the layout that `rt fmt` gives it. Their paths begin with crates/NAME."""
    with tempfile.TemporaryDirectory() as folder:
        for path, text in files.items():
            os.makedirs(os.path.dirname(os.path.join(folder, path)), exist_ok=True)
            with open(os.path.join(folder, path), "w", encoding="utf-8") as it:
                it.write(text)
        for crate in sorted(os.listdir(os.path.join(folder, "crates"))):
            ran = subprocess.run(["rt", "fmt"], cwd=os.path.join(folder, "crates", crate), capture_output=True, text=True)
            if ran.returncode:
                raise Refused(f"what is written for crates/{crate} has no layout:\n{ran.stdout}{ran.stderr}")
        return {path: read(os.path.join(folder, path)) for path in files}


def read(path):
    with open(path, encoding="utf-8") as it:
        return it.read()


def settle(files, checks, program, top=TOP):
    """Writes what differs, or with `checks` names it. Every crate that files are written to names the program in its head."""
    differ = []
    for path, text in laid_out(files).items():
        file = os.path.join(top, path)
        if os.path.exists(file) and read(file) == text:
            continue
        differ.append(path)
        if not checks:
            os.makedirs(os.path.dirname(file), exist_ok=True)
            with open(file, "w", encoding="utf-8") as it:
                it.write(text)
    if checks and differ:
        raise Refused(f"not what {program} writes: {', '.join(differ)}")
    for crate in sorted({path.split("/")[1] for path in files}):
        head = os.path.join(top, "crates", crate, "src", "lib.rt")
        if not os.path.exists(head) or program not in "".join(it for it in read(head).splitlines() if it.startswith("//!")):
            raise Refused(f"crates/{crate}/src/lib.rt: its head doesn't name {program}")


def told(work):
    """Does the work, and ends the program with the reason where it is refused."""
    try:
        work()
    except Refused as refused:
        sys.exit(str(refused))
