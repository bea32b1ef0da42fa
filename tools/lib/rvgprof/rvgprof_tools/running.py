"""How a tool asks rvgprof, says why it stops, and puts its text out."""

import contextlib
import os
import re
import shutil
import subprocess
import sys

# Options of a run whose every instruction is looked at.
OF_A_RUN = ("--budget", "--ram", "--harts", "--quantum", "--seed")
# Statuses below this one say that rvgprof refused, and its own line says why.
OWN_STATUSES = range(1, 12)


class Refused(Exception):
    """Why a tool stops, in one line."""


class Ended(Exception):
    """The status of rvgprof, whose own line said why it refused."""


def program():
    """The rvgprof that is asked: named by RVGPROF, beside the tool, or on PATH."""
    beside = os.path.join(os.path.dirname(os.path.realpath(sys.argv[0])), "rvgprof")
    found = os.environ.get("RVGPROF") or (beside if os.access(beside, os.X_OK) else shutil.which("rvgprof"))
    if not found:
        raise Refused("rvgprof is neither beside this program nor on PATH, nor named by RVGPROF")
    return found


def started(words, errors=None):
    """A process whose output is read."""
    try:
        return subprocess.Popen(words, stdin=subprocess.DEVNULL, stdout=subprocess.PIPE, stderr=errors)
    except OSError as error:
        raise Refused(f"{words[0]}: {error.strerror}") from error


def look_at(status):
    """Ends as rvgprof ended, if it refused."""
    if status in OWN_STATUSES:
        raise Ended(status)
    if status != 0:
        raise Refused(f"{program()} ended with status {status}")


def asked(*words):
    """What rvgprof prints."""
    with started([program(), *words]) as process:
        printed = process.stdout.read()
    look_at(process.returncode)
    return printed


def passed_over(stream, most=sys.maxsize):
    """How many bytes were read of a stream, which is then at its end, or has given the most that it may."""
    count = 0
    while count < most:
        piece = stream.read(min(1 << 16, most - count))
        if not piece:
            break
        count += len(piece)
    return count


def operand(word):
    """A file's name as rvgprof takes it, which reads a word that begins with `-` as an option."""
    return "./" + word if word.startswith("-") else word


def parted(words, with_value, alone=()):
    """The operands among the words, and the options by name."""
    operands, options = [], {}
    words = iter(words)
    for word in words:
        if word in alone:
            options[word] = True
        elif word in with_value:
            value = next(words, None)
            if value is None:
                raise Refused(f"{word} has no value")
            options[word] = value
        elif word.startswith("-") and word != "-":
            raise Refused(f"{word} isn't understood (see --help)")
        else:
            operands.append(word)
    return operands, options


def of_the_run(options):
    """The options of a run as words of rvgprof."""
    return [word for name in OF_A_RUN if name in options for word in (name, options[name])]


def readable(name):
    """The bytes of a name as a line of text: what isn't text is shown as escapes."""
    text = name.decode("utf-8", "backslashreplace")
    return re.sub("[\x00-\x1f\x7f-\x9f\u2028\u2029]", lambda found: f"\\x{ord(found[0]):02x}", text)


def tell(text):
    """Says something in a line on the error output, if that can be written."""
    tool = os.path.basename(sys.argv[0])
    tool = tool if tool.startswith("rvgprof-") else f"rvgprof-{tool}"
    with contextlib.suppress(OSError):
        os.write(2, f"{tool}: {readable(str(text).encode('utf-8', 'surrogateescape'))}\n".encode())


def input_lines():
    """The lines on the input."""
    try:
        with open(0, "rb", closefd=False) as lines:
            yield from lines
    except OSError as error:
        raise Refused(f"the input: {error.strerror}") from error


def hold_closed_files():
    """Opens an input or an output that is closed, so that no file or pipe takes its number. It can't be read or written."""
    for number, other_way in ((0, os.O_WRONLY), (1, os.O_RDONLY), (2, os.O_RDONLY)):
        try:
            os.fstat(number)
        except OSError:
            os.open(os.devnull, other_way)


def put_out(text):
    """Puts all of a text on the output, without a buffer that would fail again at the end."""
    try:
        while text:
            text = text[os.write(1, text):]
    except OSError as error:
        raise Refused(f"the output: {error.strerror}") from error


def put_lines(lines):
    """Puts lines of text or bytes on the output, some thousand at a time."""
    waiting, size = [], 0
    for line in lines:
        waiting.append(line if isinstance(line, bytes) else line.encode())
        size += len(line)
        if size > 1 << 16:
            put_out(b"\n".join(waiting) + b"\n")
            waiting, size = [], 0
    if waiting:
        put_out(b"\n".join(waiting) + b"\n")


def number_of(options, name, otherwise):
    """The value of an option that is a whole number, or another where it isn't given."""
    value = options.get(name, otherwise)
    if value is not otherwise and not (value.isascii() and value.isdigit()):
        raise Refused(f"{name} takes a whole number, and {value} is none")
    return value if value is otherwise else int(value)


def ended(main, doc, refused=None):
    """Runs a tool with the words of the command line. Where rvgprof refuses, the status is its own, and 1 where the tool
    does; or one status for both."""
    words = sys.argv[1:]
    hold_closed_files()
    try:
        if words in (["-h"], ["--help"]):
            put_out(doc.encode())
            return
        sys.exit(main(words))
    except Refused as refusal:
        why = str(refusal)
    except MemoryError:
        why = "there is too little memory for this"
    except Ended as end:
        sys.exit(refused or end.args[0])
    except KeyboardInterrupt:
        sys.exit(130)
    # Here all is let go that was read, and what was asked has ended and said its own line.
    tell(why)
    sys.exit(refused or 1)
