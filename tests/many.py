"""The commands of examples/many/: on the cores of this machine, and by ssh on hosts that are servers of this machine, they write what the program writes on
one; with a piece that is killed half-way, and with a host that is lost in the middle and one that does not answer.

An ssh server has a key, a configuration and a home of its own in a temporary folder, and ends with the tests. Other programs stand in for the real one where
it is to die, to wait, to have no memory, or to answer what it is proved not to.
"""
import functools
import os
import pathlib
import re
import shlex
import shutil
import signal
import socket
import subprocess
import sys
import tempfile
import time
import typing
import unittest

import harness
import unproved
from documents import EXAMPLES, constants, spans, table
from harness import ROOT, Case, Outcome
from packages import wanted

MANY = ROOT / "examples" / "many"
SCRIPT = ROOT / "examples" / "one_name.script"
LIMITS = constants("fs_sched/src/seeding.rt")
GREATEST = LIMITS["SEED_LIMIT"]
# Its second run, the first behind that one which tells whether the script can be read, ends half-way, once.
KILLED = """\
#!/bin/sh
if ! mkdir {folder}/first 2> {folder}/told && mkdir {folder}/second 2> {folder}/told; then
    {program} "$@" | head -c 20
    kill -9 $$
fi
exec {program} "$@"
"""
# On the host of this port it kills the server and its sessions, and so what it runs in.
LOST = """\
#!/bin/sh
case "$SSH_CONNECTION" in
*" {port}")
    touch {folder}/lost
    kill -9 {server} $(pgrep -P {server})
    sleep 5 ;;
*) exec {program} "$@" ;;
esac
"""
# Seed 3 ends so: with a verdict that is not lawful, and without memory.
FAULT = """\
#!/bin/sh
for seed in $(seq $3 $(($3 + $5 - 1))); do
    if [ $seed = 3 ]; then echo "seed 3 fault 1 WrongReply"; status=1; else echo "seed $seed lawful"; fi
done
exit $status
"""
FULL = """\
#!/bin/sh
if [ $3 = 3 ]; then echo "atomfs: out of memory" >&2; exit 4; fi
echo "seed $3 lawful"
"""
# All but seed 1 takes long.
SLOW = """\
#!/bin/sh
if [ $3 != 1 ]; then sleep 20; fi
echo "seed $3 lawful"
"""
HEADER = "atomfs-journal 1"
HISTORIES = {
    "first": (HEADER, "begin 1 0 mkdir /a", "return 1 ok"),
    "a name of words": (HEADER, "begin 1 0 mkdir /a", "begin 2 1 stat /a", "return 2 stat dir 1"),
    "twice": (HEADER, "begin 1 0 mkdir /a", "begin 1 1 mkdir /b"),
    "commit": (HEADER, "begin 1 0 mkdir /a", "commit 1"),
    "last": (HEADER,),
}
ANSWERS = {
    "first": "lawful",
    "a name of words": "none 3 2",
    "twice": "fault 2 BeginTwice",
    "commit": "line 3: BadLine",
    "last": "lawful",
}
SERVER = """\
ListenAddress 127.0.0.1
Port {port}
HostKey {keys}/host
AuthorizedKeysFile {keys}/user.pub
PidFile none
StrictModes no
UsePAM no
PasswordAuthentication no
KbdInteractiveAuthentication no
PermitRootLogin yes
ForceCommand cd {home} && exec sh -c "$SSH_ORIGINAL_COMMAND"
"""
CLIENT = """\
Host one
    Port {one}
Host two
    Port {two}
Host silent
    Port {silent}
Host *
    HostName 127.0.0.1
    IdentityFile {keys}/user
    IdentitiesOnly yes
    StrictHostKeyChecking no
    UserKnownHostsFile /dev/null
    LogLevel ERROR
    BatchMode yes
    ControlMaster auto
    ControlPath {keys}/%n
    ControlPersist 1
"""


def written(path: pathlib.Path, text: str) -> pathlib.Path:
    """A program of a text."""
    path.write_text(text)
    path.chmod(0o755)
    return path


def free_port() -> int:
    with socket.socket() as one:
        one.bind(("127.0.0.1", 0))
        port: int = one.getsockname()[1]
        return port


class Many(Case):
    """A test with the program, proved or not, at a path, in a folder of its own."""

    folder: pathlib.Path
    environment: dict[str, str]
    program: str | pathlib.Path

    @classmethod
    def setUpClass(cls) -> None:
        if not harness.compares:
            raise unittest.SkipTest("nothing is asked of the program before there are answers")
        wanted("parallel")
        if (
            b"GNU"
            not in subprocess.run(("parallel", "--version"), capture_output=True, timeout=harness.MOST_SECONDS).stdout
        ):
            raise unittest.SkipTest("the parallel of the path is not GNU parallel")
        cls.folder = pathlib.Path(cls.enterClassContext(tempfile.TemporaryDirectory(prefix="atomfs-")))
        cls.environment = {name: value for name, value in os.environ.items() if not name.startswith("PARALLEL")} | {
            "HOME": str(cls.folder)
        }
        if harness.answer is harness.spawned:
            cls.program = os.path.abspath(harness.program())
        else:
            cls.program = written(
                cls.folder / "atomfs", f'#!/bin/sh\nexec {shlex.join(unproved.started("atomfs"))} "$@"\n'
            )

    def came(
        self, command: str, *words: str | pathlib.Path, program: str | pathlib.Path | None = None, **more: str
    ) -> Outcome:
        """The outcome of a command of examples/many/."""
        environment = self.environment | {"ATOMFS": str(program or self.program)} | more
        done = subprocess.run(
            (sys.executable, MANY / command, *words),
            cwd=self.folder,
            env=environment,
            capture_output=True,
            timeout=harness.MOST_SECONDS,
        )
        return Outcome(done.returncode, done.stdout, done.stderr)

    def one(self, first: int, last: int, program: str | pathlib.Path | None = None) -> Outcome:
        """The outcome of one run of the program over all seeds."""
        words = (program or self.program, "seeds", "--seed", str(first), "--runs", str(last - first + 1))
        done = subprocess.run(words, input=SCRIPT.read_bytes(), capture_output=True, timeout=harness.MOST_SECONDS)
        return Outcome(done.returncode, done.stdout, done.stderr)

    def as_one(self, first: int, last: int, program: str | pathlib.Path | None = None) -> None:
        self.same(
            f"{first} to {last}",
            self.came("seeds", SCRIPT, str(first), str(last), program=program),
            self.one(first, last),
        )


class Seeds(Many):
    """`seeds` on the cores of this machine."""

    def test_as_one(self) -> None:
        self.each((("cut", 1, 35), ("one seed", 7, 7), ("the greatest", GREATEST - 2, GREATEST)), self.as_one)

    def test_killed(self) -> None:
        """A piece that is killed half-way is done again."""
        self.as_one(1, 4, written(self.folder / "killed", KILLED.format(folder=self.folder, program=self.program)))
        self.same("whether one was killed", (self.folder / "second").exists(), True)

    def test_fault(self) -> None:
        """A verdict that is not lawful, which the proof excludes, is an answer, and its status that of the whole."""
        program = written(self.folder / "fault", FAULT)
        came = self.came("seeds", SCRIPT, "1", "4", program=program)
        self.same("1 to 4", came, self.one(1, 4, program))
        self.same("its status", came.status, 1)

    def test_memory(self) -> None:
        """Where there is no memory for a piece, those before it are written, and the status is 4."""
        status, output, message = self.came("seeds", SCRIPT, "1", "4", program=written(self.folder / "full", FULL))
        self.same("1 to 4", (status, output), (4, b"seed 1 lawful\nseed 2 lawful\n"))
        self.same(
            "what is told",
            (message.count(b"atomfs: out of memory\n"), message.splitlines()[-1]),
            (1, b"examples/many/seeds: seed 3 and what follows is not done: no host did it"),
        )

    def test_limits(self) -> None:
        """The numbers of the program that `seeds` has."""
        (shown,) = re.findall(r"^SEED_LIMIT, RUN_LIMIT = (\S+), (\S+)$", (MANY / "seeds").read_text(), re.M)
        self.same("its limits", [int(number) for number in shown], [LIMITS["SEED_LIMIT"], LIMITS["RUN_LIMIT"]])

    def test_script_from_a_pipe(self) -> None:
        """It is read once, and its bytes are those that are run, whatever becomes of the file meanwhile."""
        came = subprocess.run(
            ("bash", "-c", f"{MANY}/seeds <(cat {SCRIPT}) 1 4"),
            env=self.environment | {"ATOMFS": str(self.program)},
            capture_output=True,
        )
        self.same("a script from a pipe", Outcome(came.returncode, came.stdout, came.stderr), self.one(1, 4))

    def test_stopped(self) -> None:
        """A signal ends it soon, and leaves no file."""
        left = self.folder / "temporary"
        left.mkdir()
        environment = self.environment | {"ATOMFS": str(written(self.folder / "slow", SLOW)), "TMPDIR": str(left)}
        with subprocess.Popen((MANY / "seeds", SCRIPT, "1", "4"), env=environment, stdout=subprocess.PIPE) as process:
            assert process.stdout
            self.same("the first line", process.stdout.readline(), b"seed 1 lawful\n")
            # A job that parallel is about to start when the signal comes would go on to its own end.
            time.sleep(0.5)
            process.terminate()
            self.same(
                "the rest, and the status",
                (process.stdout.read(), process.wait(harness.MOST_SECONDS)),
                (b"", 128 + signal.SIGTERM),
            )
        self.same("what is left", list(left.iterdir()), [])

    def test_output_that_is_full(self) -> None:
        with open("/dev/full", "wb") as full:
            done = subprocess.run(
                (MANY / "seeds", SCRIPT, "1", "2"),
                env=self.environment | {"ATOMFS": str(self.program)},
                stdout=full,
                stderr=subprocess.PIPE,
            )
        self.same("/dev/full", (done.returncode, done.stderr), (5, b"examples/many/seeds: write failed\n"))

    def test_refused(self) -> None:
        (self.folder / "nothing").mkdir()
        (self.folder / "wrong").write_text("atomfs 1\nmkdir /a\n")
        written(self.folder / "mute", "mute")
        told = functools.partial("examples/many/seeds: {}".format)
        self.each(
            (
                ("no words", (), {}, 2, "usage: examples/many/seeds [HOSTS] SCRIPT FROM TO"),
                ("no seed", (SCRIPT, "1", "x"), {}, 2, told(f"x is no seed: 0 to {GREATEST}")),
                (
                    "too great",
                    (SCRIPT, "1", str(GREATEST + 1)),
                    {},
                    2,
                    told(f"{GREATEST + 1} is no seed: 0 to {GREATEST}"),
                ),
                ("to below from", (SCRIPT, "5", "4"), {}, 2, told("4 is less than 5")),
                ("no script", ("none", "1", "2"), {}, 2, told("cannot read none: No such file or directory")),
                ("no host", (",", SCRIPT, "1", "2"), {}, 2, told(", names no host")),
                ("a fault of the script", ("wrong", "1", "100"), {}, 3, "atomfs: line 2: BadLine"),
                (
                    "no parallel",
                    (SCRIPT, "1", "2"),
                    {"PATH": f"{self.folder}/nothing"},
                    2,
                    told("GNU parallel is not on the path: apt-get install parallel"),
                ),
                (
                    "no program that runs",
                    (SCRIPT, "1", "2"),
                    {"ATOMFS": str(self.folder / "mute")},
                    2,
                    told(f"cannot run {self.folder}/mute: Exec format error"),
                ),
                (
                    "no program",
                    (SCRIPT, "1", "2"),
                    {"ATOMFS": "/none"},
                    2,
                    told("/none is not there, which ATOMFS names"),
                ),
            ),
            self.refused,
        )

    def refused(self, words: typing.Sequence[str | pathlib.Path], more: typing.Any, status: int, message: str) -> None:
        came = self.came("seeds", *words, **more)
        self.same(words, (came.status, came.output, came.message.decode().splitlines()[0]), (status, b"", message))
        self.same("how often it is told", came.message.decode().count(message), 1)

    def test_help(self) -> None:
        for command in ("seeds", "outcomes", "histories"):
            came = self.came(command, "--help")
            self.same(
                f"{command} --help",
                (came.status, came.output.split(b" [HOSTS] SCRIPT")[0].split(b" HOSTS")[0], came.message),
                (0, f"usage: examples/many/{command}".encode(), b""),
            )

    def test_page(self) -> None:
        """The command that examples/README.md shows."""
        ((command, prints),) = (
            (spans(runs)[0], prints)
            for file, _, runs, prints in table(EXAMPLES, "File", "Shows", "Run", "Prints")
            if file == "`many/`"
        )
        done = subprocess.run(
            ("bash", "-c", command),
            cwd=ROOT,
            env=self.environment | {"ATOMFS": str(self.program)},
            capture_output=True,
            text=True,
            timeout=harness.MOST_SECONDS,
        )
        self.same(command, (done.returncode, done.stdout.splitlines()[0], done.stderr), (0, spans(prints)[0], ""))


class Histories(Many):
    """`histories` answers what `linearize` answers of each, in their order, with the status of the first that is not lawful."""

    @classmethod
    def setUpClass(cls) -> None:
        super().setUpClass()
        for name, lines in HISTORIES.items():
            (cls.folder / name).write_text("".join(f"{line}\n" for line in lines))

    def answered(self, names: typing.Sequence[str], status: int) -> None:
        lines = "".join(f"{name}: {ANSWERS[name]}\n" for name in names).encode()
        self.same(names, self.came("histories", ":", *names), Outcome(status, lines))

    def test_answers(self) -> None:
        self.each(
            (("all", list(HISTORIES), 1), ("commit", ["commit", "first"], 3), ("lawful", ["last", "first"], 0)),
            self.answered,
        )

    def test_in_pieces(self) -> None:
        """More than there are pieces."""
        self.answered([name for _ in range(7) for name in HISTORIES], 1)

    def test_refused(self) -> None:
        came = self.came("histories", ":", "first", "none")
        self.same(
            "a file that is not there",
            came,
            Outcome(2, b"", b"examples/many/histories: cannot read none: No such file or directory\n"),
        )


class Outcomes(Many):
    """`outcomes` on the cores of this machine."""

    def counted(self, first: int, last: int, program: str | pathlib.Path | None = None) -> None:
        """It writes what one run of the program over all seeds writes."""
        words = (self.program, "outcomes", "--seed", str(first), "--runs", str(last - first + 1))
        done = subprocess.run(words, input=SCRIPT.read_bytes(), capture_output=True, timeout=harness.MOST_SECONDS)
        came = self.came("outcomes", SCRIPT, str(first), str(last), program=program)
        self.same(f"{first} to {last}", came, harness.without_seen(Outcome(done.returncode, done.stdout, done.stderr)))

    def test_as_one(self) -> None:
        self.each((("cut", 1, 70), ("one seed", 7, 7), ("the greatest", GREATEST - 2, GREATEST)), self.counted)

    def test_killed(self) -> None:
        """A piece that is killed half-way is done again, and counts once."""
        self.counted(1, 4, written(self.folder / "killed", KILLED.format(folder=self.folder, program=self.program)))
        self.same("whether one was killed", (self.folder / "second").exists(), True)

    def test_refused(self) -> None:
        (self.folder / "wrong").write_text("atomfs 1\nmkdir /a\n")
        came = self.came("outcomes", "wrong", "1", "100")
        wanted = Outcome(3, b"", b"atomfs: line 2: BadLine\n")
        self.same("a fault of the script", came, harness.with_line(wanted, b"atomfs 1\nmkdir /a\n"))

    def test_limits(self) -> None:
        """The numbers of the program that `outcomes` has."""
        (shown,) = re.findall(r"^SEED_LIMIT, RUN_LIMIT = (\S+), (\S+)$", (MANY / "outcomes").read_text(), re.M)
        self.same(
            "its limits",
            [int(number) for number in shown],
            [GREATEST, constants("fs_sched_outcomes/src/running.rt")["OUTCOME_LIMIT"]],
        )


class OnHosts(Many):
    """By ssh, on two servers of this machine and on a port that nobody listens to."""

    ports: dict[str, int]
    servers: dict[str, subprocess.Popen[bytes]]

    @classmethod
    def setUpClass(cls) -> None:
        super().setUpClass()
        wanted("rsync", "ssh", "sshd")
        cls.ports = {name: free_port() for name in ("one", "two", "silent")}
        for name in ("host", "user"):
            subprocess.run(("ssh-keygen", "-q", "-t", "ed25519", "-N", "", "-f", cls.folder / name), check=True)
        (cls.folder / "client").write_text(CLIENT.format(keys=cls.folder, **cls.ports))
        cls.environment["PARALLEL_SSH"] = f"ssh -F {cls.folder}/client"
        cls.servers = {name: cls.served(name) for name in ("one", "two")}

    @classmethod
    def served(cls, name: str) -> subprocess.Popen[bytes]:
        """A server of its own, once it answers."""
        home, config = cls.folder / f"home_{name}", cls.folder / f"server_{name}"
        home.mkdir()
        config.write_text(SERVER.format(port=cls.ports[name], keys=cls.folder, home=home))
        # Where a server of root changes to while nobody has logged in. The package leaves it to what starts its own.
        empty = pathlib.Path("/run/sshd")
        if os.geteuid() == 0 and not empty.exists():
            empty.mkdir(mode=0o755)
            cls.addClassCleanup(empty.rmdir)
        log = cls.enterClassContext(open(cls.folder / f"log_{name}", "wb"))
        server = subprocess.Popen(
            (shutil.which("sshd") or "/usr/sbin/sshd", "-D", "-e", "-f", config), stdin=subprocess.DEVNULL, stderr=log
        )
        cls.addClassCleanup(server.wait)
        cls.addClassCleanup(server.terminate)
        for _ in range(50):
            if (
                subprocess.run(
                    ("ssh", "-F", cls.folder / "client", name, "true"), stdin=subprocess.DEVNULL, capture_output=True
                ).returncode
                == 0
            ):
                return server
            time.sleep(0.1)
        raise unittest.SkipTest(f"no ssh server can be had: {(cls.folder / f'log_{name}').read_text()[-500:]}")

    def left(self) -> list[str]:
        return [str(path) for path in self.folder.glob("home_one/**/*") if path.is_file()]

    def test_lost(self) -> None:
        """A host is lost in the middle, and another one does not answer; nothing is left on the host that did all."""
        (self.folder / "hosts").write_text("# Three hosts.\n1/silent\n1/two\n1/one\n")
        program = written(
            self.folder / "losing",
            LOST.format(
                folder=self.folder, program=self.program, port=self.ports["two"], server=self.servers["two"].pid
            ),
        )
        came = self.came("seeds", "hosts", SCRIPT, "1", "3", program=program)
        told = "".join(f"examples/many/seeds: {name} has done nothing\n" for name in ("1/silent", "1/two")).encode()
        self.same("1 to 3", came, self.one(1, 3)._replace(message=told))
        self.same(
            "whether a host was lost, and the server's end",
            ((self.folder / "lost").exists(), self.servers["two"].wait()),
            (True, -9),
        )
        self.same("what is left on the other", self.left(), [])

    def test_histories(self) -> None:
        """Some on a host, and some on this machine."""
        for name in ("first", "commit"):
            (self.folder / name).write_text("".join(f"{line}\n" for line in HISTORIES[name]))
        came = self.came("histories", "1/one,1/:", "first", "commit")
        self.same("two histories", came, Outcome(3, b"first: lawful\ncommit: line 3: BadLine\n"))
        self.same("what is left on the host", self.left(), [])

    def test_nobody(self) -> None:
        came = self.came("seeds", "1/silent", SCRIPT, "1", "3")
        self.same(
            "1 to 3",
            (came.status, came.output, came.message.splitlines()[-1]),
            (5, b"", b"examples/many/seeds: seed 1 and what follows is not done: no host did it"),
        )


if __name__ == "__main__":
    unittest.main()
