"""Files and lines of addresses, as an addr2line or an llvm-symbolizer finds them in a program that was compiled with -g."""

import os
import re
import shutil
import subprocess

from .running import Refused, readable, tell

LINE = re.compile(rb"(.+):([1-9][0-9]*)(?: \(discriminator [0-9]+\))?")


def source_tool():
    """What finds files and lines, or nothing."""
    named = os.environ.get("ADDR2LINE")
    if named and not shutil.which(named):
        raise Refused(f"{named}, which ADDR2LINE names, isn't there")
    return named or shutil.which("riscv64-unknown-elf-addr2line") or shutil.which("llvm-symbolizer")


def sources_of(elf, addresses):
    """The file and line of each address that has them. One process finds all of them."""
    with open(elf, "rb") as file:
        if b".debug_line\0" not in file.read():
            return {}
    tool = source_tool()
    if not tool:
        tell("no addr2line is there, so files and lines are missing")
        return {}
    is_llvm = "symbolizer" in os.path.basename(tool)
    words = [tool, f"--obj={elf}", "--output-style=GNU", "--functions=none", "--no-inlines"] if is_llvm else [tool, "-e", elf]
    asked = "".join(f"0x{address:x}\n" for address in addresses).encode()
    try:
        ran = subprocess.run(words, input=asked, stdout=subprocess.PIPE, stderr=subprocess.DEVNULL)
    except OSError as error:
        raise Refused(f"{tool}: {error.strerror}") from error
    lines = ran.stdout.split(b"\n")[:-1]
    if ran.returncode != 0 or len(lines) != len(addresses):
        tell(f"{tool} doesn't tell files and lines of {elf}, so they are missing")
        return {}
    sources, here = {}, os.getcwd() + "/"
    for address, line in zip(addresses, lines):
        found = LINE.fullmatch(line)
        if found and not found[1].endswith(b"<artificial>"):    # as of -flto
            # callgrind_annotate takes the name of the folder that it runs in off some names, and not off those of callees.
            sources[address] = readable(found[1]).removeprefix(here), int(found[2])
    return sources
