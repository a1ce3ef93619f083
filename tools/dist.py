#!/usr/bin/env python3
"""Makes an archive and a Debian package of the built programs, the tools, the man pages and the pages, for machines without
the kit.

    tools/dist.py [--programs bin] [--to dist]

It makes fdr-VERSION-x86_64-linux.tar.gz, fdr_VERSION_amd64.deb, PROVENANCE.json and SHA256SUMS. All but the programs is that
of the last commit, so the tree may have no changes that aren't committed; the times in the files are the commit's. Made
again from one commit and the same programs, with the same kit on the path and the same out/gate.txt, they are the same
bytes. PROVENANCE.json says what they were made from: the commit, the kit that `rt version` names, the last line of the gate
where out/gate.txt begins with this commit, what the programs need, and their sums.

The programs go in as the gate left them, with their symbols. It takes git, make, tar, gzip, objdump and dpkg-deb.
"""

import argparse
import datetime
import gzip
import hashlib
import json
import os
import pathlib
import re
import shutil
import subprocess
import sys
import tempfile
from collections.abc import Iterator
from dataclasses import asdict, dataclass

sys.dont_write_bytecode = True

TOP = pathlib.Path(__file__).resolve().parent.parent
PROGRAMS = ("fdr", "fdrpair")
GATE = TOP / "out" / "gate.txt"
FOR_TESTS = {"python3-pytest", "mypy", "chromium"}  # of the packages that CONTRIBUTING.md names
NEEDS = ("git", "make", "tar", "gzip", "objdump", "dpkg-deb")
# Instructions by which a processor is of level 2 or 3. `tzcnt` isn't among them: the compilers write it for any processor,
# and an older one does the same where the operand isn't 0.
LEVEL_2 = re.compile(
    r"popcnt|crc32|cmpxchg16b|[ls]ahf|lddqu|mov(d|sh|sl)dup|fisttp|(addsub|h(add|sub))p[sd]|p(abs|sign)[bwd]|ph(add|sub)\w+"
    r"|pshufb|palignr|pmulhrsw|pmaddubsw|p(ins|ext)r[bdq]|(insert|extract)ps|ptest|p(min|max)(sb|sd|uw|ud)|pmov[sz]x\w+"
    r"|pblend\w+|blend\w+|pmul(ld|dq)|pcmp(eq|gt)q|pcmp[ei]str[im]|packusdw|round[sp][sd]|dpp[sd]|mpsadbw|phminposuw"
)
LEVEL_3 = re.compile(r"v\w+|andn|bextr|bls(i|msk|r)|bzhi|mulx|pdep|pext|rorx|s(ar|hl|hr)x|lzcnt|movbe|x(get|save)\w*")


@dataclass(frozen=True)
class Needs:
    """What the programs need of a machine: the C library's version, and the level of the x86-64 processor."""

    libc: str
    processor: str


@dataclass(frozen=True)
class Provenance:
    """What the files were made from."""

    name: str
    version: str
    commit: str
    time: str
    kit: str | None
    gate: str | None
    needs: Needs
    programs: dict[str, str]


@dataclass(frozen=True)
class Source:
    """A commit: its number, its time in seconds since 1970, and its version."""

    commit: str
    seconds: int
    version: str

    def environment(self) -> dict[str, str]:
        """That of the programs that make the files: one time, one thread, one language."""
        return {**os.environ, "SOURCE_DATE_EPOCH": str(self.seconds), "DPKG_DEB_THREADS_MAX": "1", "LC_ALL": "C", "TZ": "UTC"}


def said(*words: str) -> str:
    """What a command says. One that fails says why, and ends this one."""
    ran = subprocess.run(words, cwd=TOP, stdout=subprocess.PIPE, text=True, check=False)
    if ran.returncode:
        sys.exit(f"dist: {' '.join(words)} ended with {ran.returncode}")
    text: str = ran.stdout
    return text.strip()


def source() -> Source:
    """The last commit, where nothing that git has differs from it."""
    if changed := said("git", "status", "--porcelain", "--untracked-files=no"):
        sys.exit(f"dist: not committed: {changed.split()[-1]}")
    commit, seconds = said("git", "log", "-1", "--format=%H %ct").split()
    return Source(commit, int(seconds), (TOP / "VERSION").read_text().strip())


def digest(path: pathlib.Path) -> str:
    return hashlib.sha256(path.read_bytes()).hexdigest()


def libc_of(program: pathlib.Path) -> str:
    """The newest version of the C library that a symbol of the program names."""
    versions: list[str] = re.findall(r"\bGLIBC_([\d.]+)", said("objdump", "-T", str(program)))
    if not versions:
        sys.exit(f"dist: {program} names no version of the C library")
    return max(versions, key=in_order)


def in_order(version: str) -> list[int]:
    return [int(part) for part in version.split(".")]


def level_of(program: pathlib.Path) -> int:
    """The level of the x86-64 processors that have all instructions of the program, run or not."""
    code = said("objdump", "-d", "--no-show-raw-insn", str(program))
    names = set(re.findall(r"^ *[0-9a-f]+:\t(?:(?:rep\w*|lock|cs|data16|notrack|bnd) )*(\w+)", code, re.M))
    if len(names) < 20:
        sys.exit(f"dist: {program}: objdump shows no code")
    return max(3 if LEVEL_3.fullmatch(name) else 2 if LEVEL_2.fullmatch(name) else 1 for name in names)


def needs(folder: pathlib.Path) -> Needs:
    """What both programs need."""
    level = max(level_of(folder / name) for name in PROGRAMS)
    if level > 2:
        sys.exit("dist: the programs have instructions that processors of level 2 lack")
    libc = max((libc_of(folder / name) for name in PROGRAMS), key=in_order)
    return Needs(libc, "x86-64" if level == 1 else f"x86-64-v{level}")


def gate_of(commit: str) -> str | None:
    """The last line of the gate on this commit, where it was kept."""
    lines = GATE.read_text(errors="replace").split("\n") if GATE.is_file() else []
    kept = [line for line in lines if line.strip()]
    return kept[-1] if len(kept) > 1 and kept[0] == commit else None


def provenance(of: Source, folder: pathlib.Path) -> Provenance:
    """What the files are made from."""
    time = datetime.datetime.fromtimestamp(of.seconds, datetime.timezone.utc).isoformat()
    kit = said("rt", "version") if shutil.which("rt") else None
    sums = {name: digest(folder / name) for name in PROGRAMS}
    return Provenance("fdr", of.version, of.commit, time, kit, gate_of(of.commit), needs(folder), sums)


def packages() -> list[str]:
    """Debian's packages that the tools take."""
    named = re.search(r"^apt-get install --no-install-recommends (.*)$", (TOP / "CONTRIBUTING.md").read_text(), re.M)
    names = named.group(1).split() if named else []
    if not FOR_TESTS < set(names):
        sys.exit("dist: CONTRIBUTING.md doesn't name the packages of the tools and of their tests")
    return ["python3 (>= 3.11)", *(name for name in names if name not in FOR_TESTS)]


def stage(of: Source, programs: pathlib.Path, to: pathlib.Path, prefix: str) -> None:
    """Installs what the commit has, and the programs, below a folder."""
    with tempfile.TemporaryDirectory() as room:
        archive = pathlib.Path(room, "commit.tar")
        tree = pathlib.Path(room, "tree")
        tree.mkdir()
        said("git", "archive", "-o", str(archive), of.commit)
        said("tar", "-xf", str(archive), "-C", str(tree))
        (tree / "bin").mkdir()
        for name in PROGRAMS:
            shutil.copy(programs / name, tree / "bin" / name)
        said("make", "-s", "-C", str(tree), "stage", f"DESTDIR={to}", f"PREFIX={prefix}")


def settle(folder: pathlib.Path, seconds: int) -> None:
    """Gives all below a folder the time of the commit, and modes that don't depend on who makes them."""
    for path in [*folder.rglob("*"), folder]:
        if not path.is_symlink():
            path.chmod(0o755 if path.is_dir() or path.stat().st_mode & 0o100 else 0o644)
        os.utime(path, (seconds, seconds), follow_symlinks=False)


def squeeze(path: pathlib.Path) -> None:
    """Packs a file by gzip, without a name and a time."""
    path.with_name(path.name + ".gz").write_bytes(gzip.compress(path.read_bytes(), 9, mtime=0))
    path.unlink()


def make_archive(of: Source, programs: pathlib.Path, made: str, to: pathlib.Path) -> pathlib.Path:
    """The archive: a folder that is used where it is unpacked, or copied over /usr/local."""
    path = to / f"fdr-{of.version}-x86_64-linux.tar.gz"
    with tempfile.TemporaryDirectory() as room:
        folder = pathlib.Path(room, path.name.removesuffix(".tar.gz"))
        stage(of, programs, folder, "")
        (folder / "share" / "doc" / "fdr" / "PROVENANCE.json").write_text(made)
        settle(folder, of.seconds)
        tar = pathlib.Path(room, "fdr.tar")
        how = ("--format=gnu", "--sort=name", "--owner=root:0", "--group=root:0", f"--mtime=@{of.seconds}")
        said("tar", *how, "-cf", str(tar), "-C", room, folder.name)
        said("gzip", "-9n", str(tar))
        shutil.move(f"{tar}.gz", path)
    return path


def control(version: str, libc: str, size: int) -> Iterator[str]:
    """What Debian's programs read of the package, line by line."""
    yield "Package: fdr"
    yield f"Version: {version}"
    yield "Architecture: amd64"
    yield "Maintainer: Yullwari maintainers"
    yield f"Installed-Size: {size}"
    yield f"Depends: libc6 (>= {libc})"
    yield f"Recommends: {', '.join(packages())}"
    yield "Section: science"
    yield "Priority: optional"
    yield "Description: flight data recorder and readout of ARINC 717 frames"
    yield " fdr records ARINC 429 bus words as ARINC 717 frames in an image that a cut of"
    yield " the power leaves readable, and lists the values and the gaps of such"
    yield " recordings, whole or damaged. fdrpair records on two disks. What they do is"
    yield " stated and proved. flight, which isn't proved, makes traces of captures, bits"
    yield " of foreign dumps, and tables, pictures and pages of listings; it takes the"
    yield " recommended packages."


def copyright_said(version: str) -> str:
    """What stands for the licence while there is none."""
    return f"fdr {version}, by the Yullwari maintainers.\n\nThe owner hasn't said yet under which licence it may be used and handed on.\n"


def make_package(of: Source, programs: pathlib.Path, made: str, libc: str, to: pathlib.Path) -> pathlib.Path:
    """The Debian package."""
    path = to / f"fdr_{of.version}_amd64.deb"
    with tempfile.TemporaryDirectory() as room:
        folder = pathlib.Path(room, "fdr")
        stage(of, programs, folder, "/usr")
        pages = folder / "usr" / "share" / "doc" / "fdr"
        (pages / "PROVENANCE.json").write_text(made)
        (pages / "copyright").write_text(copyright_said(of.version))
        for page in (folder / "usr" / "share" / "man" / "man1").iterdir():
            squeeze(page)
        files = sorted(one for one in folder.rglob("*") if one.is_file() and not one.is_symlink())
        # As Debian counts: each file by whole KiB, and one for each folder and link.
        others = sum(1 for one in folder.rglob("*") if one.is_dir() or one.is_symlink())
        size = sum(-(-one.stat().st_size // 1024) for one in files) + others
        sums = [f"{hashlib.md5(one.read_bytes()).hexdigest()}  {one.relative_to(folder)}\n" for one in files]
        (folder / "DEBIAN").mkdir()
        (folder / "DEBIAN" / "control").write_text("".join(line + "\n" for line in control(of.version, libc, size)))
        (folder / "DEBIAN" / "md5sums").write_text("".join(sums))
        settle(folder, of.seconds)
        words = ("dpkg-deb", "--root-owner-group", "-Zxz", "--build", str(folder), str(path))
        subprocess.run(words, check=True, env=of.environment(), stdout=subprocess.DEVNULL)
    return path


def main() -> int:
    words = argparse.ArgumentParser(description=(__doc__ or "").splitlines()[0])
    words.add_argument("--programs", type=pathlib.Path, default=TOP / "bin", help="the folder with fdr and fdrpair")
    words.add_argument("--to", type=pathlib.Path, default=TOP / "dist", help="the folder that the files are put in")
    given = words.parse_args()
    lacking = [one for one in NEEDS if not shutil.which(one)]
    lacking += [str(given.programs / name) for name in PROGRAMS if not (given.programs / name).is_file()]
    if lacking:
        sys.exit(f"dist: not there: {', '.join(lacking)}")
    programs, to = given.programs.resolve(), given.to.resolve()
    to.mkdir(parents=True, exist_ok=True)
    of = source()
    from_what = provenance(of, programs)
    made = json.dumps(asdict(from_what), indent=2) + "\n"
    said_of = to / "PROVENANCE.json"
    said_of.write_text(made)
    paths = [make_archive(of, programs, made, to), make_package(of, programs, made, from_what.needs.libc, to), said_of]
    sums = "".join(f"{digest(path)}  {path.name}\n" for path in paths)
    (to / "SHA256SUMS").write_text(sums)
    print(sums, end="")
    if from_what.gate is None:
        print("note: out/gate.txt has no gate of this commit; docs/RELEASING.md says how it is kept")
    return 0


if __name__ == "__main__":
    sys.exit(main())
