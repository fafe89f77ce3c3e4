"""What the tests of the tools share: a tool is called, and what it says is compared; and a copy of the checkout with an rt of its own, from which
a test can take away what it likes."""

import os
import shutil
import subprocess
import tempfile
import unittest
from pathlib import Path

TOOLS = Path(__file__).resolve().parent
NOBODY = 65534


def call(tool, *arguments, **options):
    """A call of a tool: its exit status, and what it prints on both streams."""
    done = subprocess.run([tool, *arguments], capture_output=True, check=False, **options)
    return done.returncode, done.stdout, done.stderr.decode()


class ToolTest(unittest.TestCase):
    def told(self, answer, status, says, out=b""):
        """One line on standard error that says this, and the status; on standard output what is given."""
        found, printed, err = answer
        self.assertEqual((found, printed), (status, out), err)
        self.assertEqual(len(err.splitlines()), 1, err)
        self.assertIn(says, err)


class CopyTest(ToolTest):
    """Each test has a folder with `checkout`, a copy of these files of the checkout, and `bin`, which comes first on the PATH."""

    FILES, BUILT = (), "crates"  # the files, and the folder that what is built goes to

    def setUp(self):
        folder = tempfile.TemporaryDirectory()
        self.addCleanup(folder.cleanup)
        self.root = Path(folder.name)
        self.root.chmod(0o755)
        self.checkout = self.root / "checkout"
        (self.checkout / self.BUILT).mkdir(parents=True)
        for name in self.FILES:
            (self.checkout / name).parent.mkdir(parents=True, exist_ok=True)
            shutil.copy(TOOLS.parent / name, self.checkout / name)

    def script(self, path, body):
        path.parent.mkdir(parents=True, exist_ok=True)
        path.write_text(f"#!/bin/sh\n{body}\n", encoding="utf-8")
        path.chmod(0o755)

    def rt(self, body):
        self.script(self.root / "bin" / "rt", body)

    def call(self, tool, *arguments, path=None, **options):
        path = path or f"{self.root / 'bin'}:{os.environ['PATH']}"
        return call(self.checkout / tool, *arguments, env={**os.environ, "PATH": path}, **options)

    def only(self, *tools):
        """A PATH with these tools and no others."""
        folder = self.root / "only"
        folder.mkdir()
        for tool in tools:
            (folder / tool).symlink_to(shutil.which(tool))
        return str(folder)

    def unwritable(self, *tools):
        """Makes the copy one that may not be written. Options for a call as a user for whom that holds and who can run these tools."""
        (self.checkout / self.BUILT).chmod(0o555)
        if os.geteuid() != 0:
            return {}
        options = {"preexec_fn": lambda: os.setuid(NOBODY)}
        try:
            for tool in tools:
                subprocess.run([tool, "--version"], check=True, capture_output=True, **options)
        except (OSError, subprocess.SubprocessError) as error:
            self.skipTest(f"root cannot call as nobody here: {error}")
        return options
