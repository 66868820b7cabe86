"""The class files of this machine, and whether the weaver answers to each alone what a reader of its own
finds (tools/class_faults.py); for the scripts beside."""
import multiprocessing
import os
import subprocess
import sys
import tempfile
import zipfile

HERE = os.path.dirname(os.path.abspath(__file__))
sys.path.insert(0, HERE)
import class_faults  # noqa: E402

# The program that the gate or `rt run` leaves, and the word for one that is unproved.
PROGRAM = os.path.join(HERE, "..", "crates", "weaver", "out", "weaver")
UNPROVED = "unproved"
SECONDS = 3600
ROOM = "/dev/shm" if os.path.isdir("/dev/shm") else None


def jars(places):
    found = set()
    for place in places:
        if os.path.isfile(place):
            found.add(os.path.realpath(place))
        for folder, folders, files in os.walk(place):
            folders[:] = [f for f in folders if os.path.join(folder, f) not in ("/proc", "/sys", "/work")]
            found.update(os.path.realpath(os.path.join(folder, f)) for f in files if f.endswith(".jar"))
    return sorted(found)


def classes(places):
    """The class files of Java 1.2 to 5 in these jars and in those below these folders: (origin, bytes)."""
    for jar in jars(places):
        try:
            archive = zipfile.ZipFile(jar)
        except (OSError, zipfile.BadZipFile):
            continue
        for name in archive.namelist():
            if name.endswith(".class"):
                with archive.open(name) as file:
                    head = file.read(8)
                    if len(head) == 8 and 46 <= int.from_bytes(head[6:], "big") <= 49:
                        yield f"{jar} {name}", head + file.read()


def judge(origin, data, status, printed, written):
    """What came of one class: (kind, what is wrong). Of each written file `written` has the name under the
    output folder, and whether its bytes are those of the class."""
    (found, fault), named = class_faults.read(data), "X.class"
    if fault is None:
        fault, named = class_faults.world_fault(found), class_faults.printed(found.name)
    if fault is not None:
        if status != 1 or written or printed != f"refused: {named} {fault}\n".encode():
            return "wrong", f"{origin}: {status} {printed!r} {written}, wanted {named} {fault}"
        return "refused: " + fault.split()[0], None
    if status != 0 or printed or written != [(named.replace(".", "/") + ".class", True)]:
        return "wrong", f"{origin}: {status} {printed!r} {written}, wanted its own bytes as {named}"
    return "given back byte for byte", None


def weave(job):
    """Weaves one class alone in a folder, and gives what came of it."""
    program, origin, data = job
    with tempfile.TemporaryDirectory(dir=ROOM) as place:
        os.mkdir(place + "/in")
        with open(place + "/in/X.class", "wb") as file:
            file.write(data)
        done = subprocess.run([program, "weave", place + "/in", place + "/out"], capture_output=True, timeout=60)
        written = []
        for folder, _, files in os.walk(place + "/out"):
            for name in files:
                path = os.path.join(folder, name)
                with open(path, "rb") as file:
                    written.append((os.path.relpath(path, place + "/out"), file.read() == data))
        return origin, data, *judge(origin, data, done.returncode, done.stdout, written)


def weave_unproved(jobs):
    """The same of all jobs in one run of an unproved program (tools/weave-each), as far as its time goes."""
    with tempfile.TemporaryDirectory(dir=ROOM) as place:
        os.mkdir(place + "/in")
        for number, (origin, data) in enumerate(jobs):
            with open(f"{place}/in/{number:07}", "wb") as file:
                file.write(data)
        subprocess.run([os.path.join(HERE, "weave-each"), place + "/in", place + "/out", str(SECONDS)], stdout=subprocess.DEVNULL)
        with open(place + "/out/answers", "rb") as file:
            records = file.read().split(b"\0")[:-1]
        print(f"{len(records)} of {len(jobs)} files were woven")
        for record in records:
            number, status, said = record.split(b" ", 2)
            origin, data = jobs[int(number)]
            written = []
            if status == b"0" and said:
                path = said.removesuffix(b" other")
                written = [(path.decode().removeprefix("out/"), path == said)]
            yield origin, data, *judge(origin, data, int(status), b"" if written else said, written)


def weave_all(program, jobs):
    """Weaves the class of each job, (origin, bytes), alone: (origin, bytes, kind, what is wrong)."""
    if program == UNPROVED:
        yield from weave_unproved(list(jobs))
        return
    with multiprocessing.Pool() as pool:
        yield from pool.imap_unordered(weave, ((program, *job) for job in jobs), 32)


def is_there(program):
    if program == UNPROVED or os.access(program, os.X_OK):
        return True
    print(f"skipped: there is no program at {program}")
    return False


def print_counts(counts):
    """Prints how many files came to each kind, and answers the script's status."""
    for kind, count in sorted(counts.items()):
        print(f"{count:6} {kind}")
    return 1 if counts["wrong"] else 0
