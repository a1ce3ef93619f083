#!/usr/bin/env python3
"""Tries the archive and the Debian package where there is no kit: in a fresh Debian 12 that has its base packages alone.

    tests/installed.py DIST [--root FOLDER] [--without-tools]

DIST is what tools/dist.py made. It is made again, and must be the same bytes; its sums are compared, and lintian may say of
the package only what is explained here. Then, of the archive and of the package: it is unpacked, the programs check a table
and do the first listing of README.md, a recording is killed and listed, and once it is taken off, no file is left. The
package is put over an older one too. Last the tools' packages are installed, and `flight` makes a table and a picture.

It takes root, debootstrap, lintian, man, and a way to Debian's packages. --root names a fresh Debian that is there already,
which is copied; --without-tools leaves out the tools' packages, which are the longest wait.
"""

import argparse
import json
import os
import pathlib
import re
import shutil
import subprocess
import sys
import tempfile
import time
from collections.abc import Callable, Iterator
from dataclasses import dataclass

sys.dont_write_bytecode = True

from inputs import TOP

NEEDS = ("debootstrap", "chroot", "dpkg-deb", "lintian", "man", "sha256sum")
MIRROR = os.environ.get("MIRROR", "http://deb.debian.org/debian")
HOME = "/tmp/walk"  # in the root: the examples, and what is made of them
# What lintian says of the package, and why that stays.
EXPLAINED = {
    "malformed-contact": "where reports go isn't said yet",
    "no-changelog": "CHANGELOG.md is there; Debian's form of it needs an address",
    "unstripped-binary-or-object": "the programs are the bytes that the gate tested",
    "copyright-without-copyright-notice": "the licence isn't said yet",
}
# What dpkg and apt write of their own, whichever package comes and goes.
OF_DPKG = re.compile(r"/var/(lib/dpkg/(status|status-old|available|diversions|lock|lock-frontend|triggers)|log|cache/apt)\b")


@dataclass(frozen=True)
class Root:
    """A fresh Debian, and where in it the programs are."""

    folder: pathlib.Path
    path: str = "/usr/bin"

    def run(self, script: str) -> subprocess.CompletedProcess[str]:
        """Runs a script by its shell, in the folder of the examples where it is there."""
        path = f"{self.path}:/usr/sbin:/usr/bin:/sbin:/bin"
        words = ["chroot", str(self.folder), "/bin/bash", "-c", f"cd {HOME} 2>/dev/null; {script}"]
        where = {"PATH": path, "LC_ALL": "C", "HOME": "/root", "DEBIAN_FRONTEND": "noninteractive", "MPLCONFIGDIR": "/tmp/mpl"}
        return subprocess.run(words, env=where, capture_output=True, text=True, check=False, timeout=1200)

    def does(self, script: str) -> str:
        """What it prints. One that fails ends the test."""
        ran = self.run(script)
        if ran.returncode:
            raise Wrong(f"{script.splitlines()[-1]} ended with {ran.returncode}: {ran.stdout}{ran.stderr}")
        return ran.stdout

    def files(self) -> set[str]:
        """All paths, but for what is made anew by the system or by dpkg."""
        found = self.does("find / -xdev -not -path '/proc/*' -not -path '/sys/*' -not -path '/tmp/*'").splitlines()
        return {path for path in found if not OF_DPKG.match(path)}


class Wrong(Exception):
    """What isn't as it should be."""


def expect(what: str, is_so: bool, seen: object = "") -> None:
    if not is_so:
        raise Wrong(f"{what}: {seen}")


def same_again(dist: pathlib.Path, made: dict[str, str]) -> str:
    """Made again from the commit, the files are the same; their sums are those of SHA256SUMS."""
    summed = subprocess.run(["sha256sum", "--check", "--strict", "SHA256SUMS"], cwd=dist, capture_output=True, text=True, check=False)
    expect("sums", summed.returncode == 0, summed.stdout + summed.stderr)
    here = subprocess.run(["git", "rev-parse", "HEAD"], cwd=TOP, capture_output=True, text=True, check=True).stdout.strip()
    expect(f"{dist} is of another commit than {here}", made["commit"] == here, made["commit"])
    with tempfile.TemporaryDirectory() as again:
        subprocess.run([TOP / "tools" / "dist.py", "--to", again], stdout=subprocess.DEVNULL, check=True)
        sums = pathlib.Path(again, "SHA256SUMS").read_text()
    expect("made again it differs", sums == (dist / "SHA256SUMS").read_text(), sums)
    return f"{len(sums.splitlines())} files, made twice, are the same bytes"


def linted(package: pathlib.Path) -> str:
    """What lintian says is explained, and nothing is explained that it doesn't say."""
    words = ["lintian", "--allow-root", "--no-cfg", str(package)]
    ran = subprocess.run(words, capture_output=True, text=True, check=False)
    tags = re.findall(r"^[EW]: fdr: ([\w-]+)", ran.stdout, re.M)
    expect("lintian", set(tags) == set(EXPLAINED) and len(ran.stdout.splitlines()) == len(tags), ran.stdout + ran.stderr)
    return f"lintian: {len(tags)} tags, each explained"


def fresh(room: pathlib.Path, given: pathlib.Path | None) -> pathlib.Path:
    """A Debian 12 of the base packages, in the room."""
    folder = room / "root"
    if given:
        subprocess.run(["cp", "-a", str(given), str(folder)], check=True)
    else:
        words = ["debootstrap", "--variant=minbase", "bookworm", str(folder), MIRROR]
        subprocess.run(words, stdout=subprocess.DEVNULL, check=True)
    return folder


def first_listing() -> Iterator[tuple[str, str]]:
    """The commands of README.md's first block, each with what it prints."""
    block = re.search(r"```\n(\$ .*?)```", (TOP / "README.md").read_text(), re.S)
    if not block:
        raise Wrong("README.md shows no listing")
    for part in block.group(1).split("$ ")[1:]:
        command, _, printed = part.partition("\n")
        yield command, printed


def make_trace() -> str:
    """The commands of the walk that make trace.bin."""
    lines = [line for line in (TOP / "examples" / "README.md").read_text().splitlines() if line.endswith("> trace.bin")]
    return "\n".join(lines)


def walked(root: Root, pages: str) -> str:
    """The first ten minutes: a table, bits, the first listing of README.md, and a recording that is killed."""
    root.does(f"rm -rf {HOME}; cp -r {pages}/examples {HOME}; cd {HOME}; rm recorded.img; {make_trace()}")
    said = root.does("fdr check t1.csv")
    expect("fdr check", said == "frame,64,1,16\nparam,ALT,16,even\n", said)
    said = root.does("fdr stream t1.csv < trace.bin > stream.bin; fdr listbits t1.csv < stream.bin")
    expect("fdr listbits", said == "row,0,1,10,ALT,5\nrow,1,1,10,ALT,7\n", said)
    listing = list(first_listing())
    expect("commands of the first listing", len(listing) == 4, listing)
    for command, printed in listing:
        said = root.does(command)
        expect(command, said == printed, said)
    said = root.run("fdr").stderr + root.run("fdrpair").stderr
    expect("what the programs say without words", said == "fdr: usage\nfdrpair: usage\n", said)
    return f"the first ten minutes, the first listing, {killed(root)}"


def killed(root: Root) -> str:
    """A recording of one frame is killed while it waits for more of its trace: what it acknowledged is listed."""
    root.does("fdr format t1.csv killed.img --slots 16 --payload 64")
    home = root.folder / HOME.lstrip("/")
    told = home / "told"
    words = ["chroot", str(root.folder), f"{root.path}/fdr", "record", f"{HOME}/t1.csv", f"{HOME}/killed.img"]
    # The last record is held back, so that the recording waits. chroot becomes the program, so it is the one that is killed.
    with open(told, "wb") as errors, subprocess.Popen(words, stdin=subprocess.PIPE, stderr=errors) as began:
        assert began.stdin
        try:
            began.stdin.write((home / "trace.bin").read_bytes()[:32])
            began.stdin.flush()
            until = time.monotonic() + 30
            while "ack 6\n" not in told.read_text():
                expect("the recording acknowledges 6 blocks in half a minute", time.monotonic() < until, told.read_text())
                time.sleep(0.05)
        finally:
            began.kill()
    expect("how the recording ended", began.returncode == -9, began.returncode)
    said = root.does("fdr list t1.csv killed.img")
    expect("the list of a killed recording", said == "session,1,0\nrow,0,1,10,ALT,5\n", said)
    return "a recording that was killed"


def manual(pages: pathlib.Path) -> None:
    """Each man page is there, and man sets it without a warning."""
    for name in ("fdr", "fdrpair", "flight"):
        page = [one for one in pages.iterdir() if one.name in (f"{name}.1", f"{name}.1.gz")]
        expect(f"the man page of {name}", len(page) == 1)
        said = subprocess.run(["man", "--warnings", "-l", str(page[0])], capture_output=True, text=True, check=False, env={"PATH": os.environ["PATH"], "LC_ALL": "C.UTF-8"})
        expect(f"man {name}", said.returncode == 0 and not said.stderr and f"{name.upper()}(1)" in said.stdout, said.stderr)


def of_archive(room: pathlib.Path, root: pathlib.Path, archive: pathlib.Path) -> str:
    """The archive is unpacked in /srv, used there, and its folder is removed."""
    bare = Root(root)
    shutil.copy(archive, root / "tmp")
    before = bare.files()
    name = archive.name.removesuffix(".tar.gz")
    bare.does(f"tar -xzf /tmp/{archive.name} -C /srv")
    there = Root(root, f"/srv/{name}/bin")
    came = walked(there, f"/srv/{name}/share/doc/fdr")
    manual(root / "srv" / name / "share" / "man" / "man1")
    bare.does(f"rm -r /srv/{name}")
    expect("left of the archive", bare.files() == before, bare.files() ^ before)
    return f"archive: {came}; nothing left"


def older(package: pathlib.Path, room: pathlib.Path) -> pathlib.Path:
    """The package as of an older version, with a file that it no longer has."""
    folder, made = room / "older", room / "older.deb"
    subprocess.run(["dpkg-deb", "-R", str(package), str(folder)], check=True)
    control = folder / "DEBIAN" / "control"
    control.write_text(re.sub(r"^Version: .*$", "Version: 0.0.1", control.read_text(), flags=re.M))
    (folder / "usr" / "lib" / "fdr" / "flight_recorder" / "gone.py").write_text("")
    subprocess.run(["dpkg-deb", "--root-owner-group", "--build", str(folder), str(made)], stdout=subprocess.DEVNULL, check=True)
    return made


def of_package(room: pathlib.Path, root: pathlib.Path, package: pathlib.Path) -> str:
    """The package is installed over an older one, used, and taken off."""
    there = Root(root)
    shutil.copy(package, root / "tmp" / "fdr.deb")
    shutil.copy(older(package, room), root / "tmp" / "older.deb")
    before = there.files()
    there.does("dpkg -i /tmp/older.deb")
    there.does("dpkg -i /tmp/fdr.deb")
    expect("a file of the older version", not (root / "usr/lib/fdr/flight_recorder/gone.py").exists())
    said = there.does("dpkg-query -W -f '${Version}' fdr; dpkg --verify fdr")
    expect("the version", said == package.name.split("_")[1], said)
    came = walked(there, "/usr/share/doc/fdr")
    manual(root / "usr" / "share" / "man" / "man1")
    there.does("dpkg --purge fdr")
    expect("left of the package", there.files() == before, there.files() ^ before)
    return f"package, over an older one: {came}; nothing left"


def of_tools(room: pathlib.Path, root: pathlib.Path, package: pathlib.Path) -> str:
    """With the recommended packages, the tools make a table and a picture of a listing, and leave nothing of their own."""
    there = Root(root)
    recommended = subprocess.run(["dpkg-deb", "-f", str(package), "Recommends"], capture_output=True, text=True, check=True).stdout
    names = re.sub(r"\(.*?\)", "", recommended).replace(",", " ").split()
    planned = there.does("apt-get -qq update && apt-get -s install /tmp/fdr.deb")
    lacking = [name for name in [*names, "fdr"] if f"Inst {name} " not in planned]
    expect("apt would leave out", not lacking, lacking)
    there.does(f"apt-get -qq install -y --no-install-recommends {' '.join(names)}")
    before = there.files()
    there.does("apt-get -qq install -y --no-install-recommends /tmp/fdr.deb")
    there.does("fdr listbits t1.csv < stream.bin > listing.txt && flight plot --table t1.csv listing.txt -o picture.png")
    picture = (root / HOME.lstrip("/") / "picture.png").read_bytes()
    expect("the picture", picture.startswith(b"\x89PNG\r\n\x1a\n") and len(picture) > 1000, len(picture))
    said = there.does("flight table --table t1.csv listing.txt").splitlines()
    values = [line.split(",")[said[0].split(",").index("value")] for line in said[1:]]
    expect("the table", [float(value) for value in values] == [5, 7], said)
    there.does("apt-get -qq purge -y fdr")
    expect("left of the tools", there.files() == before, there.files() ^ before)
    return "tools: a table and a picture; nothing left"


def main() -> int:
    words = argparse.ArgumentParser(description=(__doc__ or "").splitlines()[0])
    words.add_argument("dist", type=pathlib.Path)
    words.add_argument("--root", type=pathlib.Path, help="a fresh Debian 12, which is copied")
    words.add_argument("--without-tools", action="store_true", help="without the packages that the tools take")
    given = words.parse_args()
    lacking = [one for one in NEEDS if not shutil.which(one)] + ([] if os.geteuid() == 0 else ["root"])
    if lacking:
        sys.exit(f"dist-test: not run: it needs {', '.join(lacking)}")
    dist = given.dist.resolve()
    made = json.loads((dist / "PROVENANCE.json").read_text())
    archive, package = dist / f"fdr-{made['version']}-x86_64-linux.tar.gz", dist / f"fdr_{made['version']}_amd64.deb"
    try:
        print("ok", same_again(dist, made), flush=True)
        print("ok", linted(package), flush=True)
        with tempfile.TemporaryDirectory() as name:
            room = pathlib.Path(name)
            root = fresh(room, given.root)
            parts: list[tuple[Callable[[pathlib.Path, pathlib.Path, pathlib.Path], str], pathlib.Path]]
            parts = [(of_archive, archive), (of_package, package)]
            if not given.without_tools:
                parts.append((of_tools, package))
            for part, file in parts:
                print("ok", part(room, root, file), flush=True)
    except Wrong as wrong:
        print(f"dist-test: {wrong}")
        return 1
    print("dist-test: passed" + (", without the tools" if given.without_tools else ""))
    return 0


if __name__ == "__main__":
    sys.exit(main())
