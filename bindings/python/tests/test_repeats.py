"""A seed is one run: the same trace and the same replies, byte for byte, in each process, under load, by any hash seed."""
import os
import subprocess
import sys
import tempfile
import unittest

# Functions that use all that a run holds fixed. What each run was is printed whole.
PROGRAM = """
import logging, os, pathlib, queue, random, shutil, tempfile, threading, time
import atomfs

AT = "/sandbox"
made = {}

def before():
    os.makedirs(f"{AT}/in/deep")
    for name in ("b", "a", "c"):
        pathlib.Path(AT, "in", name).write_text(name)
    made.update(lock=threading.Lock(), queue=queue.Queue(), event=threading.Event())

def first():
    with tempfile.NamedTemporaryFile(dir=AT, delete=False) as file:
        file.write(b"%d" % random.randrange(10**9))
    time.sleep(random.random())
    try:
        with made["lock"]:
            shutil.copytree(f"{AT}/in", f"{AT}/out", copy_function=shutil.copyfile)
    finally:
        made["queue"].put(os.path.basename(file.name))
        made["event"].set()
    return file.name, time.time(), os.stat(AT)

def second():
    descriptor = os.open(f"{AT}/log", os.O_CREAT | os.O_WRONLY | os.O_APPEND)
    found = [descriptor]
    for place, folders, files in os.walk(AT):
        found.append((place, folders, files))
        os.write(descriptor, f"{time.monotonic_ns()} {place}".encode())
    with made["lock"]:
        os.rename(f"{AT}/in", f"{AT}/moved")
    os.close(descriptor)
    return found, random.sample(range(100), 5), tempfile.mkdtemp(dir=AT)

def third():
    made["event"].wait()
    log = logging.getLogger("run")
    handler = logging.FileHandler(f"{AT}/third.log")
    log.addHandler(handler)
    log.warning("it is %s", made["queue"].get())
    log.removeHandler(handler)
    handler.close()
    return sorted(os.scandir(AT), key=lambda entry: entry.name), os.listdir(AT), threading.current_thread().name

def add(tree):
    number = int(tree.read("/n"))
    tree.write("/n", 0, b"%d" % (number + 1))

def zero(tree):
    tree.write_text("/n", "0")

def fails(tree, replies):
    print(tree.journal(), tree.tree(), repr(replies))
    assert False

def shows(tree, replies):
    print(tree.journal(), tree.tree(), repr(replies))

logging.lastResort = None
atomfs.explore({"first": first, "second": second, "third": third}, shows, runs=12, before=before, patch=AT)
atomfs.explore({"a": add, "b": add}, shows, runs=30, before=zero)
for threads, named in (({"first": first, "second": second, "third": third}, dict(before=before, patch=AT)), ({"a": add, "b": add}, dict(before=zero))):
    for seed in (1, 2):
        try:
            atomfs.explore(threads, lambda tree, replies: isinstance(replies["b"], str) if "b" in replies else len(tree) < 3, 1, seed, **named)
        except atomfs.ScheduleError as error:
            print(error, error.trace, error.schedule, error.trials, repr(error.replies))
            print(error.replay())
print(atomfs.outcomes({"a": add, "b": add}, lambda tree, replies: tree.read("/n"), 60, before=zero))
"""


class Repeats(unittest.TestCase):
    def test_same_everywhere(self) -> None:
        with tempfile.TemporaryDirectory() as folder:
            path = os.path.join(folder, "program.py")
            with open(path, "w") as file:
                file.write(PROGRAM)
            told = [
                self.told(path, "0", load=False),
                self.told(path, "1", load=True),
                self.told(path, "12345", load=True),
            ]
        self.assertGreater(len(told[0]), 50_000)
        for other in told[1:]:
            self.assertEqual(told[0].splitlines(), other.splitlines())
            self.assertEqual(told[0], other)

    def told(self, path: str, hash_seed: str, load: bool) -> str:
        """What the program tells, while others keep the processors busy or not."""
        busy = [
            subprocess.Popen([sys.executable, "-c", "while True: pass"])
            for _ in range((os.cpu_count() or 1) if load else 0)
        ]
        try:
            ran = subprocess.run(
                [sys.executable, path], capture_output=True, text=True, env={**os.environ, "PYTHONHASHSEED": hash_seed}
            )
        finally:
            for one in busy:
                one.kill()
                one.wait()
        self.assertEqual((ran.returncode, ran.stderr), (0, ""))
        return ran.stdout


if __name__ == "__main__":
    unittest.main()
