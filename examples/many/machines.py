"""Pieces of work on many machines: GNU parallel does them on the cores of this one, or by ssh on others, and what they write comes in their order.

A piece is a line of up to three words: a folder, and what the script `job` in there is given. The folder has the program `atomfs` and all else that the
piece needs, is sent with each piece, and is removed behind it. `job` writes lines, and ends with 0 once it has done its piece. After any other end, as that
of a lost host, parallel does the piece again, on another host where there is one.
"""
import contextlib
import os
import pathlib
import shlex
import shutil
import signal
import subprocess
import sys
import tempfile
import threading
import time

ROOT = pathlib.Path(__file__).resolve().parent.parent.parent
PROVED = ROOT / "crates" / "atomfs" / "out" / "atomfs"
# Nobody is asked for a password, and a host that does not answer is soon given up.
SSH = "ssh -o BatchMode=yes -o ConnectTimeout=10 -o ServerAliveInterval=10"
THIS_MACHINE = ":"

sys.dont_write_bytecode = True
sys.path.insert(0, str(ROOT / "tests"))
import harness
import unproved


def say(line):
    print(f"examples/many/{pathlib.Path(sys.argv[0]).name}: {line}", file=sys.stderr)


def fail(line, status=2):
    say(line)
    sys.exit(status)


def bytes_of(path, most=-1):
    """The first bytes of a file, or all."""
    try:
        with open(path, "rb") as file:
            return file.read(most)
    except OSError as error:
        return fail(f"cannot read {path}: {error.strerror}")


def seed_of(word, most):
    if word.isascii() and word.isdigit() and int(word) <= most:
        return int(word)
    return fail(f"{word} is no seed: 0 to {most}")


def range_of(first, last, most):
    """The seeds from one word to another."""
    first, last = seed_of(first, most), seed_of(last, most)
    if last < first:
        fail(f"{last} is less than {first}")
    return first, last


def seconds_of(folder, script, *words):
    """How long the first run takes. What is wrong with a script is told here, once, before any host is asked."""
    start = time.monotonic()
    try:
        status = subprocess.run((folder / "atomfs", *words), input=script, stdout=subprocess.DEVNULL).returncode
    except OSError as error:
        fail(f"cannot run {os.environ.get('ATOMFS', PROVED)}: {error.strerror}")
    if status not in (0, 1):
        sys.exit(abs(status))
    return time.monotonic() - start


def hosts_of(word):
    """The hosts of a file, one a line, or of a word, with commas between."""
    lines = (os.fsdecode(bytes_of(word)) if os.path.exists(word) else word.replace(",", "\n")).splitlines()
    hosts = [line.strip() for line in lines if line.strip() and not line.startswith("#")]
    return hosts or fail(f"{word} names no host")


def is_far(host):
    return host.rpartition("/")[2] != THIS_MACHINE


def look_for_tools(hosts):
    """Ends where what this needs is not there. There are other programs that are called parallel."""
    with contextlib.suppress(OSError):
        if subprocess.run(("parallel", "--version"), capture_output=True).stdout.startswith(b"GNU parallel"):
            if not any(map(is_far, hosts)) or shutil.which("rsync"):
                return
            fail(
                "rsync is not on the path, by which GNU parallel sends files: apt-get install rsync, here and on the hosts"
            )
    fail("GNU parallel is not on the path: apt-get install parallel")


def put_program(folder, hosts):
    """Lays the program into a folder, so that one does all, whatever is built meanwhile: the one that ATOMFS names, or the proved one. Without one it is
    the unproved one, as of examples/run, but only this machine can start that."""
    program = pathlib.Path(os.environ.get("ATOMFS", PROVED)).absolute()
    if (
        program.is_file()
        and os.access(program, os.X_OK)
        and ("ATOMFS" in os.environ or not harness.newer_source(program))
    ):
        shutil.copy(program, folder / "atomfs")
    elif "ATOMFS" in os.environ:
        fail(f"{program} is not there, which ATOMFS names")
    elif any(map(is_far, hosts)):
        fail("no proved program is built yet, and other machines get no other: examples/run --proved builds it")
    elif not shutil.which("rt") and not unproved.is_kept("atomfs"):
        fail(
            "no program is built, and the command rt of the Rattle kit is not on the path: README.md says which kit it is"
        )
    else:
        say(f"{unproved.told_before('atomfs')} To prove the program and build it: examples/run --proved")
        (folder / "atomfs").write_text(f'#!/bin/sh\nexec {shlex.join(unproved.started("atomfs"))} "$@"\n')
        (folder / "atomfs").chmod(0o755)


def add_folder(folder, name, job, files):
    """Lays out a folder for pieces: the program, the script `job`, and links to files by the names that they have there."""
    (folder / name).mkdir()
    (folder / name / "job").write_text(job)
    for link, path in {"atomfs": folder / "atomfs", **files}.items():
        (folder / name / link).symlink_to(os.path.abspath(path))


def command(folder, hosts):
    """The words of parallel, and what it does of each piece: here where it was laid out, elsewhere where it was sent."""
    (folder / "hosts").write_bytes(b"".join(os.fsencode(f"{host}\n") for host in hosts))
    # As often as there are hosts, which may all be lost but one, and twice more.
    words = ["parallel", "--keep-order", "--colsep", " ", "--retries", str(len(hosts) + 2), "--halt", "soon,fail=1"]
    words += ["--joblog", folder / "log", "--sshloginfile", folder / "hosts"]
    if any(map(is_far, hosts)):
        words += ["--workdir", "...", "--transferfile", "./{1}", "--rsync-opts", "-rLDzR"]
    return [
        *words,
        f'[ "$PARALLEL_SSHLOGIN" != {THIS_MACHINE} ] || cd {shlex.quote(str(folder))}; cd {{1}} && sh ./job {{2}} {{3}}',
    ]


def feed(pipe, pieces):
    with contextlib.suppress(OSError, ValueError), pipe:
        pipe.writelines(f"{piece}\n".encode() for piece in pieces)


def ends(folder):
    """The host of each piece, as parallel tells it last, and the status."""
    log = folder / "log"
    rows = [line.split("\t") for line in os.fsdecode(log.read_bytes()).splitlines()[1:]] if log.exists() else []
    return [(row[1], int(row[6])) for row in rows]


def put(line):
    try:
        sys.stdout.buffer.write(line)
        sys.stdout.buffer.flush()
    except OSError:
        os.dup2(os.open(os.devnull, os.O_WRONLY), 1)
        fail("write failed", 5)


def lost(parallel, key, folder):
    """Ends where a line is not there, once the pieces that are under way have ended: with the status of the program, if it had no memory or no device."""
    for _ in parallel.stdout:
        pass
    parallel.wait()
    status = next((status for _, status in ends(folder) if status in (4, 5)), 5)
    fail(f"{key.decode().strip()} and what follows is not done: no host did it", status)


def run(folder, hosts, pieces, keys, answer):
    """Has pieces done. Each line is to begin with its key; `answer` tells what is written of it, and a status. The first that is not 0 is that of all."""
    environment = os.environ | {"PARALLEL_SHELL": "/bin/sh", "PARALLEL_SSH": os.environ.get("PARALLEL_SSH", SSH)}
    pipes, first = {"stdin": subprocess.PIPE, "stdout": subprocess.PIPE}, 0
    with subprocess.Popen(command(folder, hosts), cwd=folder, env=environment, **pipes) as parallel:
        # There may be more than a pipe holds. Who feeds it closes it.
        pipe, parallel.stdin = parallel.stdin, None
        threading.Thread(target=feed, args=(pipe, pieces), daemon=True).start()
        try:
            for key in keys:
                line = parallel.stdout.readline()
                if not line.startswith(key):
                    lost(parallel, key, folder)
                text, status = answer(line)
                put(text)
                first = first or status
        except BaseException:
            parallel.terminate()
            raise
    # Parallel names a host without the number before it.
    busy = tuple({host for host, _ in ends(folder)})
    for host in hosts:
        if not host.endswith(busy):
            say(f"{host} has done nothing")
    return first


def end(main, usage, counts):
    """Runs a command of this folder, which takes so many words, in a folder that is removed behind it, and ends with its status."""
    words = sys.argv[1:]
    if words in (["-h"], ["--help"]):
        print(usage, end="")
        sys.exit(0)
    if len(words) not in counts:
        print(usage, end="", file=sys.stderr)
        sys.exit(2)
    for number in (signal.SIGINT, signal.SIGTERM, signal.SIGHUP):
        signal.signal(number, lambda number, _: sys.exit(128 + number))
    with tempfile.TemporaryDirectory(prefix="atomfs-many-") as folder:
        sys.exit(main(words, pathlib.Path(folder)))
