"""Commands of the program `weaver`, and what a run prints; for the scripts beside."""
import os
import re
import resource
import subprocess
import sys
import tempfile

HERE = os.path.dirname(os.path.abspath(__file__))

# The program that the gate or `rt run` leaves, and the word for one that is unproved.
PROGRAM = os.path.join(HERE, "..", "crates", "weaver", "out", "weaver")
UNPROVED = "unproved"
SECONDS = 3600

ESCAPE = re.compile(r'\\(?:u([0-9a-f]{4})|(.))')


def program_of(arguments):
    """The program that the script's first argument names, else the proved one, else the unproved one."""
    if not arguments:
        return PROGRAM if os.access(PROGRAM, os.X_OK) else UNPROVED
    if arguments[0] == UNPROVED:
        return UNPROVED
    if not os.access(arguments[0], os.X_OK):
        sys.exit(f"there is no program at {arguments[0]}")
    return os.path.abspath(arguments[0])


def say_which(program):
    if program == UNPROVED:
        print("with the program as it is before any proof (tools/run-each); rt run in crates/weaver proves and builds it", flush=True)
    else:
        print("with the program", os.path.relpath(program))


def answer_one(program, words):
    before = resource.getrusage(resource.RUSAGE_CHILDREN)
    done = subprocess.run([program, *words], stdin=subprocess.DEVNULL, stdout=subprocess.PIPE)
    after = resource.getrusage(resource.RUSAGE_CHILDREN)
    return done.returncode, after.ru_utime + after.ru_stime - before.ru_utime - before.ru_stime, done.stdout


def answer_unproved(commands):
    with tempfile.TemporaryDirectory() as place:
        with open(place + "/commands", "w", encoding="utf-8") as file:
            file.writelines("\t".join(words) + "\n" for words in commands)
        open(place + "/answers", "wb").close()
        each = [os.path.join(HERE, "run-each"), place + "/commands", place + "/answers", str(SECONDS)]
        done = subprocess.run(each, stdin=subprocess.DEVNULL, stderr=subprocess.PIPE)
        with open(place + "/answers", "rb") as file:
            records = file.read().split(b"\0")[:-1]
        if len(records) < len(commands):
            sys.stderr.buffer.write(done.stderr)
            sys.exit(f"only {len(records)} of {len(commands)} commands were answered")
        for record in records:
            status, micros, printed = record.split(b" ", 2)
            yield int(status), int(micros) / 1e6, printed


def answers(program, commands):
    """What came of each command, a list of words with files by absolute paths: (status, seconds, printed).
    The seconds are those of the processor, and with the unproved program those that went by."""
    if program == UNPROVED:
        return list(answer_unproved(commands))
    return [answer_one(program, words) for words in commands]


def text_of(quoted):
    """The text that stands there in quotes, with a surrogate for each unit that is one."""
    def unit(found):
        if found[1]:
            return chr(int(found[1], 16))
        return "\n" if found[2] == "n" else found[2]
    return ESCAPE.sub(unit, quoted[1:-1])


def utf8_of(text):
    """The bytes of a text as Java writes them in UTF-8: `?` stands for a surrogate that is alone."""
    paired = text.encode("utf-16", "surrogatepass").decode("utf-16", "surrogatepass")
    return paired.encode("utf-8", "replace")


def told(printed):
    """What a run printed: (the text of all its prints, its native calls, its last line)."""
    *events, ending = printed.decode("utf-8").split("\n")[:-1] or ["nothing"]
    prints = [text_of(event[len("print "):]) for event in events if event.startswith("print ")]
    natives = [event[len("native "):] for event in events if event.startswith("native ")]
    assert len(prints) + len(natives) == len(events), events
    return "".join(prints), natives, ending
