"""What the Python tools share: the root, --help and --version, and one line for what goes wrong."""
import os
import sys

ROOT = os.path.dirname(os.path.dirname(os.path.abspath(__file__)))
TOOL = os.path.relpath(os.path.realpath(sys.argv[0]), os.path.realpath(ROOT))


def stop(words, status=1):
    """What went wrong, in one line."""
    print(f"{TOOL}: {words}", file=sys.stderr)
    sys.exit(status)


def refuse(words):
    """A wrong argument: status 2."""
    stop(f"{words} ({TOOL} --help tells the usage)", 2)


def answer_common(usage):
    """Answers --help and --version, before anything is done."""
    if "--help" in sys.argv[1:] or "-h" in sys.argv[1:]:
        put(usage.strip() + "\n")
        sys.exit(0)
    if "--version" in sys.argv[1:]:
        with open(os.path.join(ROOT, "VERSION"), encoding="utf-8") as file:
            put(f"Inglebreek {file.read().strip()}\n")
        sys.exit(0)


def arguments(usage, *known):
    """The one argument that was given, or none; any other is refused."""
    answer_common(usage)
    given = sys.argv[1:]
    for word in given:
        if word not in known:
            refuse(f"{word} is not known")
    if len(given) > 1:
        refuse("one argument at most")
    return given[0] if given else None


def put(text):
    """Writes to standard output, all of it or in one line why not."""
    try:
        out = sys.stdout.buffer
        out.write(text.encode() if isinstance(text, str) else text)
        out.flush()
    except BrokenPipeError:
        # whoever read it has enough; nothing is left to write at the end
        os.dup2(os.open(os.devnull, os.O_WRONLY), sys.stdout.fileno())
        sys.exit(1)
    except OSError as fault:
        os.dup2(os.open(os.devnull, os.O_WRONLY), sys.stdout.fileno())
        stop(f"cannot write standard output: {fault.strerror}")
