#!/usr/bin/env python3
"""Tests of tools/install: a program is built against what it installs, by pkg-config where it is there, also after the folder was moved; and what
is said where it cannot install.

They want the library built (`tools/library`). It is installed from a copy of the checkout with an rt of its own, which has that
library, so that a test can take away what it likes."""

import os
import re
import shutil
import subprocess
import unittest

from tool_tests import TOOLS, CopyTest

LIBRARY = TOOLS.parent / "crates" / "vessel_ring" / "out" / "libvessel_ring.a"
INSTALLED = ["include/vessel_ring.h", "lib/libvessel_ring.a", "lib/pkgconfig/vessel_ring.pc"]
PROGRAM = """\
#include <stdio.h>
#include <vessel_ring.h>

int main(void)
{
    struct vessel_ring ring = vessel_ring_fresh();
    printf("%u %u %d.%d\\n", vessel_ring_add_node(&ring, 65), vessel_ring_add_node(&ring, 64), VESSEL_MAJOR, VESSEL_MINOR);
    return 0;
}
"""


class Install(CopyTest):
    FILES, BUILT = ("tools/install", "tools/library", "tools/common.sh", "include/vessel_ring.h"), "crates/vessel_ring"

    def setUp(self):
        super().setUp()
        self.prefix, self.header = self.root / "a prefix", self.checkout / "include" / "vessel_ring.h"
        self.rt(f"mkdir -p out && cp '{LIBRARY}' out/")

    def install(self, prefix=None, **options):
        return self.call("tools/install", prefix or self.prefix, **options)

    def files(self):
        return sorted(str(path.relative_to(self.prefix)) for path in self.prefix.rglob("*") if path.is_file())

    def flags(self, prefix):
        """What a compiler is told, and the version."""
        if not shutil.which("pkg-config"):
            return [f"-I{prefix}/include", f"-L{prefix}/lib", "-lvessel_ring"], version_in(self.header.read_text())
        environment = {**os.environ, "PKG_CONFIG_PATH": str(prefix / "lib" / "pkgconfig")}

        def ask(*what):
            return subprocess.run(["pkg-config", *what, "vessel_ring"], env=environment, check=True, capture_output=True,
                                  encoding="utf-8").stdout
        return [re.sub(r"\\(.)", r"\1", flag) for flag in re.findall(r"(?:\\.|\S)+", ask("--cflags", "--libs"))], ask("--modversion").strip()

    def test_a_program_is_built_against_it(self):
        version = version_in(self.header.read_text())
        self.assertEqual(self.install(), (0, f"vessel_ring {version} is in {self.prefix}\n".encode(), ""))
        self.assertEqual(self.files(), INSTALLED)
        moved = self.root / "moved"
        self.prefix.rename(moved)
        flags, told = self.flags(moved)
        self.assertEqual(told, version)
        source, program = self.root / "program.c", self.root / "program"
        source.write_text(PROGRAM, encoding="ascii")
        subprocess.run(["gcc", "-std=c11", "-Wall", "-Werror", source, *flags, "-o", program], check=True)
        out = subprocess.run([program], check=True, capture_output=True, encoding="ascii").stdout
        self.assertEqual(out, f"3 0 {version}\n")

    def test_again_and_into_a_folder_by_its_short_name(self):
        for _ in range(2):
            self.assertEqual(self.install("a prefix", cwd=self.root)[0], 0)
        self.assertEqual(self.files(), INSTALLED)

    def test_no_version(self):
        text = self.header.read_text(encoding="utf-8")
        self.header.write_text(re.sub(r"#define VESSEL_MINOR .*\n", "", text), encoding="utf-8")
        self.told(self.install(), 1, "does not say its version, VESSEL_VERSION")
        self.assertFalse(self.prefix.exists())

    def test_prefix_that_is_a_file(self):
        self.prefix.write_text("kept")
        self.told(self.install(), 1, "is no folder")
        self.assertEqual(self.prefix.read_text(), "kept")

    def test_prefix_that_cannot_be_written(self):
        (self.prefix / "lib").mkdir(parents=True)
        (self.prefix / "include").write_text("a file")
        self.told(self.install(), 1, "the folders lib and include cannot be made there")
        shutil.rmtree(self.prefix)
        (self.prefix / "lib" / "libvessel_ring.a").mkdir(parents=True)
        (self.prefix / "lib" / "libvessel_ring.a" / "libvessel_ring.a").mkdir()
        self.told(self.install(), 1, "lib/libvessel_ring.a: cannot be written")

    def test_no_toolchain(self):
        path = self.only("bash", "env", "dirname", "realpath", "sed")
        self.told(self.install(path=path), 1, "rt is not on the PATH")

    def test_library_that_is_not_built(self):
        self.rt("echo no proof; exit 1")
        status, out, err = self.install()
        self.assertEqual((status, out), (1, b""))
        self.assertEqual(err, "no proof\ntools/library: the library was not built\ntools/install: the library was not built\n")

    def test_checkout_that_may_not_be_written(self):
        options = self.unwritable("bash")
        self.told(self.install(**options), 1, "crates/vessel_ring: may not be written")


def version_in(header):
    """The version as the compiler sees it."""
    macros = subprocess.run(["gcc", "-E", "-dM", "-x", "c", "-"], input=header, check=True, capture_output=True, encoding="utf-8").stdout
    numbers = dict(re.findall(r"#define VESSEL_(MAJOR|MINOR) (\d+)", macros))
    return f"{numbers['MAJOR']}.{numbers['MINOR']}"


if __name__ == "__main__":
    unittest.main()
