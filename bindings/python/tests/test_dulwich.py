"""Git in a tree, by a library that knows nothing of it: dulwich makes, commits, clones, packs and pushes, and git itself takes what comes out."""
# dulwich has few types.
# mypy: disable-error-code="no-untyped-call"
import io
import os
import shutil
import subprocess
import tempfile
import unittest
from typing import Tuple

import atomfs
from test_patch import AT, OfPatch, written

try:
    from dulwich import porcelain  # type: ignore[import]
    from dulwich.repo import Repo  # type: ignore[import]
except ImportError:  # Debian's python3-dulwich
    porcelain = None  # type: ignore[assignment]

COMMITS = 12
WHO = b"A <a@example.org>"


def work(at: str) -> Tuple[object, ...]:
    """A repository with branches of files, its clone, what was pushed back, and the head of each."""
    repository = porcelain.init(f"{at}/one")
    for number in range(COMMITS):
        folder = f"{at}/one/d{number % 3}"
        os.makedirs(folder, exist_ok=True)
        written(f"{folder}/f{number}", f"text {number}\n" * number)
        written(f"{at}/one/log", f"{number}\n")
        porcelain.add(repository, [f"{folder}/f{number}", f"{at}/one/log"])
        when = {"commit_timestamp": 10**9 + number, "author_timestamp": 10**9 + number}
        zones = {"commit_timezone": 0, "author_timezone": 0}
        repository.do_commit(f"commit {number}".encode(), WHO, WHO, **when, **zones)
    repository.object_store.pack_loose_objects()
    bare = porcelain.init(f"{at}/bare", bare=True)
    porcelain.push(repository, f"{at}/bare", "master", errstream=io.BytesIO(), outstream=io.BytesIO())
    with porcelain.clone(f"{at}/bare", f"{at}/two", errstream=io.BytesIO()) as clone:
        written(f"{at}/two/new", "new")
        porcelain.add(clone, [f"{at}/two/new"])
        clone.do_commit(b"last", WHO, WHO, commit_timestamp=2 * 10**9, author_timestamp=2 * 10**9, **zones)
        porcelain.push(clone, f"{at}/bare", "master", errstream=io.BytesIO(), outstream=io.BytesIO())
        status = porcelain.status(clone)
        found = repository.head(), clone.head(), bare.refs[b"refs/heads/master"], status.unstaged, status.untracked
    repository.close()
    bare.close()
    return found


@unittest.skipIf(porcelain is None, "dulwich is not there: apt-get install python3-dulwich")
class Dulwich(OfPatch):
    def test_work(self) -> None:
        with tempfile.TemporaryDirectory() as at:
            wanted = work(at)
        with atomfs.patch(self.tree, at=AT):
            found = work(AT)
            with Repo(f"{AT}/two") as again:
                self.assertEqual(again.head(), found[1])
        self.assertEqual(found, wanted)
        if not shutil.which("git"):
            self.skipTest("git is not there: apt-get install git")
        with tempfile.TemporaryDirectory() as at:
            self.tree.to_directory(f"{at}/out")
            for name, head in (("one", found[0]), ("two", found[1]), ("bare", found[2])):
                words = ["git", "-c", "safe.directory=*", "-C", f"{at}/out/{name}"]
                checked = subprocess.run([*words, "fsck", "--strict", "--full"], capture_output=True, text=True)
                self.assertEqual((checked.returncode, checked.stderr), (0, ""))
                told = subprocess.run([*words, "rev-parse", "master"], capture_output=True, check=True)
                self.assertEqual(told.stdout.strip(), head)


if __name__ == "__main__":
    unittest.main()
