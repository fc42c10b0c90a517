"""What the tests in Python have in common: checks that are counted, programs that are run, the samples, surveys as bytes."""

import os
import shutil
import signal
import subprocess

HOME = os.path.realpath(os.path.join(os.path.dirname(os.path.abspath(__file__)), ".."))
SAMPLES = os.path.join(HOME, "samples")
PIPES = {"stdin": subprocess.PIPE, "stdout": subprocess.PIPE, "stderr": subprocess.PIPE}
checks = failed = 0


def check(what, good, *shown):
    global checks, failed
    checks += 1
    if not good:
        failed += 1
        print("FAILED: " + what, *("\n    %.300r" % (x,) for x in shown))


def finish():
    """Prints the last line of a test, and gives its exit status. A test that checked nothing has failed."""
    print("%d checks, %d failed" % (checks, failed))
    return 1 if failed or not checks else 0


# Programs.


def ended(child, data=None, seconds=60):
    """How a program ends: its status, or the name of the signal that ended it, or 'it hangs'; then what it prints and says,
    where there are pipes for it."""
    try:
        out, err = child.communicate(data, seconds)
    except subprocess.TimeoutExpired:
        child.kill()
        child.communicate()
        return "it hangs", None, None
    status = child.returncode
    return status if status >= 0 else signal.Signals(-status).name, out, err


def run(words, data=b"", seconds=60, **options):
    """How a program ends that has these bytes as its input."""
    return ended(subprocess.Popen(words, **PIPES, **options), data, seconds)


def home(*names):
    """A file of the project."""
    return os.path.join(HOME, *names)


def words_of(program, *words):
    """The words that run a program for x86-64 on this machine; as they are on x86-64."""
    status, out, err = run([home("tools", "x86"), "words", program, *words])
    if status != 0:
        raise SystemExit(err.decode())
    return out.decode().splitlines()


def put(file, content, mode=0o644):
    with open(file, "wb" if isinstance(content, bytes) else "w") as out:
        out.write(content)
    os.chmod(file, mode)


def read(file):
    with open(file, "rb") as data:
        return data.read()


# Stand-ins for a machine.


def commands(folder, names):
    """A folder for PATH with these commands of the machine, as far as it has them, and no other."""
    os.makedirs(folder)
    for name in names.split():
        if shutil.which(name):
            os.symlink(shutil.which(name), os.path.join(folder, name))
    return folder


def processor(folder, name):
    """A folder for PATH whose `uname` names a processor."""
    os.makedirs(folder)
    put(os.path.join(folder, "uname"), "#!/bin/sh\necho %s\n" % name, 0o755)
    return folder


def emulator(kit, line, name="aarch64"):
    """A kit for that processor with an emulator that is a line of the shell, before the words of what it is to run."""
    tools = os.path.join(kit, "on", name, "toolchain", "bin")
    os.makedirs(tools)
    put(os.path.join(tools, "qemu-x86_64"), '#!/bin/sh\n%s "$@"\n' % line, 0o755)
    return kit


# Surveys.


TEXTS = ["none", "one", "five", "ring", "triangles", "fours", "morning", "lattice"]  # the samples that are not refused


def sample_path(name):
    return os.path.join(SAMPLES, name)


def sample(name):
    return read(sample_path(name))


def survey_bytes(serials, links, mark=b"RLM", version=1, n=None, m=None):
    """A survey file field by field, also one that is not good."""
    out = bytearray(mark)
    for number in (version, len(serials) if n is None else n, len(links) if m is None else m):
        out += number.to_bytes(2, "little")
    for serial in serials:
        out += serial.to_bytes(4, "little")
    for a, b in links:
        out += a.to_bytes(2, "little") + b.to_bytes(2, "little")
    return bytes(out)
