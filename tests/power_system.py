"""What tests/power.py asks of the system: the disks of power_disk.c, loop devices, file systems, mounts."""

import contextlib
import ctypes
import dataclasses
import errno
import fcntl
import os
import pathlib
import shutil
import subprocess
import tempfile
import time
from collections.abc import Iterator
from typing import Any

from inputs import TOP
from places import Mismatch

LOOP_SET_FD, LOOP_CLR_FD, LOOP_SET_BLOCK_SIZE, LOOP_CTL_GET_FREE, BLKFLSBUF = 0x4C00, 0x4C01, 0x4C09, 0x4C82, 0x1261
MS_RDONLY, MS_NOATIME, MNT_DETACH = 1, 1024, 2
MEBI = 1 << 20
SOURCE = TOP / "tests" / "power_disk.c"
LIBC = ctypes.CDLL(None, use_errno=True)
FAST = pathlib.Path("/dev/shm")


@dataclasses.dataclass(frozen=True)
class Setup:
    """A file system as it is made and mounted: on disks of so many bytes, cut at sectors of so many. After a cut it is mounted
    for reading alone, where it can put itself in order so, which ext4 can't with fast_commit. Where it can't be mounted, or
    always, a program puts it in order first, as a start of the system does: ext4 has a copy of its superblock for it, which
    takes a second group of blocks. It breaks what is asked of a file system, or
    doesn't, or does so seldom."""

    name: str
    kind: str
    make: tuple[str, ...]
    options: str = ""
    size: int = 160 * MEBI
    block: int = 512
    sector: int = 512
    repair: tuple[str, ...] = ()
    always: bool = False
    flags: int = MS_RDONLY
    small: bool = False
    breaks: bool | None = False


PLAIN = ("mkfs.ext4", "-q", "-F", "-b", "4096")
EXT4 = (*PLAIN, "-J", "size=4")
FAST_COMMIT = (*PLAIN, "-J", "size=8", "-O", "fast_commit")
NO_JOURNAL = (*PLAIN, "-O", "^has_journal")
XFS = ("mkfs.xfs", "-q", "-f")
BTRFS = ("mkfs.btrfs", "-q", "-f")
E2FSCK, SUPER_RECOVER = ("e2fsck", "-fy"), ("btrfs", "rescue", "super-recover", "-y")


def ext4(name: str, options: str = "", make: tuple[str, ...] = EXT4, **more: Any) -> Setup:
    return Setup(f"ext4, {name}" if name else "ext4", "ext4", make, options, repair=E2FSCK, **more)


def btrfs(name: str, options: str = "") -> Setup:
    return Setup(f"btrfs, {name}" if name else "btrfs", "btrfs", BTRFS, options, 128 * MEBI, repair=SUPER_RECOVER)


SETUPS = [
    ext4(""),
    ext4("data=journal", "data=journal"),
    ext4("data=writeback", "data=writeback"),
    ext4("fast_commit, sectors of 4,096", make=FAST_COMMIT, flags=0, block=4096, sector=4096),
    ext4("blocks of 1 KiB", make=("mkfs.ext4", "-q", "-F", "-b", "1024"), size=32 * MEBI),
    ext4("sectors of 4,096", block=4096, sector=4096),
    Setup("xfs", "xfs", XFS, size=300 * MEBI),
    btrfs(""),
    btrfs("nodatacow", "nodatacow"),
    btrfs("compress-force=zstd", "compress-force=zstd"),
    ext4("fast_commit", make=FAST_COMMIT, flags=0, breaks=None),
    ext4("journal_async_commit", "data=writeback,journal_async_commit", breaks=None),
    ext4("inline_data", make=(*EXT4, "-I", "1024", "-O", "inline_data"), small=True, breaks=True),
    ext4("no journal", make=NO_JOURNAL, breaks=True),
    ext4("no journal, e2fsck at each start", make=NO_JOURNAL, breaks=None, always=True),
]


def lacks() -> list[str]:
    """What isn't there of what all of it needs."""
    found = []
    if os.geteuid() != 0:
        found.append("root")
    if not pathlib.Path("/dev/fuse").exists():
        found.append("/dev/fuse")
    if not pathlib.Path("/dev/loop-control").exists():
        found.append("loop devices")
    if not shutil.which("cc"):
        found.append("a C compiler")
    if not shutil.which("fusermount3"):
        found.append("fusermount3 (fuse3)")
    if subprocess.run(["pkg-config", "--exists", "fuse3"], check=False).returncode != 0 if shutil.which("pkg-config") else True:
        found.append("libfuse3 for cc (libfuse3-dev, pkg-config)")
    return found


def lacks_for(setup: Setup) -> list[str]:
    """What isn't there for a set-up."""
    found = [] if shutil.which(setup.make[0]) else [setup.make[0]]
    kinds = [line.split()[-1] for line in pathlib.Path("/proc/filesystems").read_text().splitlines()]
    return found + ([] if setup.kind in kinds else [f"{setup.kind} in the kernel"])


def built(folder: pathlib.Path) -> pathlib.Path:
    """The program of power_disk.c."""
    program = folder / "power_disk"
    flags = subprocess.run(["pkg-config", "--cflags", "--libs", "fuse3"], capture_output=True, text=True, check=True).stdout.split()
    subprocess.run(["cc", "-O2", "-Wall", "-Wextra", "-o", program, SOURCE, *flags], check=True)
    return program


# --- mounts and loop devices


def mount(source: str, target: pathlib.Path, kind: str, flags: int, options: str) -> int:
    """The error number of a mount, or 0."""
    text = options.encode() or None
    ended = LIBC.mount(source.encode(), str(target).encode(), kind.encode(), ctypes.c_ulong(flags), text)
    return ctypes.get_errno() if ended else 0


def unmount(target: pathlib.Path, flags: int = 0) -> None:
    """Takes a mount away, once nobody uses it any more."""
    for _ in range(200):
        if LIBC.umount2(str(target).encode(), flags) == 0:
            return
        if ctypes.get_errno() == errno.EINVAL:
            return
        time.sleep(0.02)
    LIBC.umount2(str(target).encode(), MNT_DETACH)


class Loop:
    """A loop device on a file."""

    def __init__(self, file: pathlib.Path, block: int) -> None:
        for _ in range(100):
            with open("/dev/loop-control", "rb") as control:
                number = fcntl.ioctl(control, LOOP_CTL_GET_FREE)
            self.path = f"/dev/loop{number}"
            self.device = os.open(self.path, os.O_RDWR)
            backing = os.open(file, os.O_RDWR)
            try:
                fcntl.ioctl(self.device, LOOP_SET_FD, backing)
                break
            except OSError:  # another took it
                os.close(self.device)
            finally:
                os.close(backing)
        else:
            raise Mismatch("there is no free loop device")
        if block != 512:
            fcntl.ioctl(self.device, LOOP_SET_BLOCK_SIZE, block)
        os.close(self.device)

    def forget(self) -> None:
        """Has the system let go of what it holds of the device."""
        device = os.open(self.path, os.O_RDWR)
        fcntl.ioctl(device, BLKFLSBUF, 0)
        os.close(device)

    def close(self) -> None:
        for _ in range(100):
            try:
                device = os.open(self.path, os.O_RDWR)
                fcntl.ioctl(device, LOOP_CLR_FD)
                os.close(device)
                return
            except OSError:
                time.sleep(0.02)


# --- disks with a log, and file systems on them


class Disks:
    """Disks of power_disk.c, each with a file system of a set-up on it, mounted."""

    def __init__(self, setup: Setup, log: pathlib.Path, count: int) -> None:
        self.setup, self.log, self.count = setup, log, count
        self.room = pathlib.Path(tempfile.mkdtemp(prefix="fdr_power_"))
        self.served = self.room / "served"
        self.places = [self.room / f"fs{number}" for number in range(count)]
        for folder in [self.served, *self.places]:
            folder.mkdir()
        self.loops: list[Loop] = []
        self.serving = subprocess.Popen([built(self.room), self.served, log, str(setup.size), str(count)])
        for _ in range(200):
            if (self.served / "control").exists():
                break
            time.sleep(0.02)
        else:
            raise Mismatch("power_disk serves no disks")
        for number in range(count):
            loop = Loop(self.served / f"disk{number}", setup.block)
            self.loops.append(loop)
            subprocess.run([*setup.make, loop.path], check=True, stdout=subprocess.DEVNULL)
        self.mount_all()

    def mount_all(self) -> None:
        for number in range(self.count):
            self.mount(number)

    def mount(self, number: int) -> None:
        error = mount(self.loops[number].path, self.places[number], self.setup.kind, MS_NOATIME, self.setup.options)
        if error:
            raise Mismatch(f"{self.setup.name} can't be mounted: {os.strerror(error)}")

    def mount_anew(self, number: int) -> None:
        """Takes the file system of a disk away, and mounts it again: what the system held of it is gone."""
        unmount(self.places[number])
        self.loops[number].forget()
        self.mount(number)

    def control(self, line: str) -> None:
        with open(self.served / "control", "wb", buffering=0) as file:
            file.write(line.encode())

    def mend(self, number: int) -> None:
        """Has a disk work again as a disk should."""
        for line in ("wake {}", "fail {} write 0 0 0 0 0", "fail {} flush 0 0 0 0 0", "slow {} 0", "pace {} 0"):
            self.control(line.format(number))

    def close(self) -> None:
        for number in range(self.count):
            with contextlib.suppress(OSError):
                self.mend(number)
        for place in self.places:
            unmount(place)
        for loop in self.loops:
            loop.close()
        unmount(self.served)
        try:
            self.serving.wait(10)
        except subprocess.TimeoutExpired:
            self.serving.kill()
            self.serving.wait()
        shutil.rmtree(self.room, ignore_errors=True)


@contextlib.contextmanager
def disks_of(setup: Setup, log: pathlib.Path, count: int) -> Iterator[Disks]:
    """Disks that are taken away in the end."""
    disks = Disks(setup, log, count)
    try:
        yield disks
    finally:
        disks.close()


Held = dict[str, bytes | str | None]  # what each file holds, why it can't be read, or that it isn't there


class After:
    """A loop device on the file of a disk that a cut left, on which the system puts its file system in order."""

    def __init__(self, setup: Setup, file: pathlib.Path) -> None:
        self.setup = setup
        self.place = pathlib.Path(tempfile.mkdtemp(prefix="fdr_power_after_"))
        self.loop = Loop(file, setup.block)
        self.repairs = 0

    def put_in_order(self) -> None:
        """What a start of a system does where a file system can't be mounted as it is, or isn't made for that."""
        self.repairs += 1
        subprocess.run([*self.setup.repair, self.loop.path], stdout=subprocess.DEVNULL, stderr=subprocess.DEVNULL, check=False)
        self.loop.forget()

    def mount(self) -> int:
        """The error number of the mount, or 0."""
        self.loop.forget()
        flags = self.setup.flags | MS_NOATIME
        if self.setup.always:
            self.put_in_order()
        error = mount(self.loop.path, self.place, self.setup.kind, flags, self.setup.options)
        if error and self.setup.repair and not self.setup.always:
            self.put_in_order()
            error = mount(self.loop.path, self.place, self.setup.kind, flags, self.setup.options)
        return error

    def files(self, names: list[str]) -> tuple[int, Held]:
        """The error of the mount or 0, and what the files of these names hold."""
        if error := self.mount():
            return error, {}
        held: Held = {}
        try:
            for name in names:
                try:
                    held[name] = (self.place / name).read_bytes()
                except FileNotFoundError:
                    held[name] = None
                except OSError as fault:
                    held[name] = f"it can't be read: {fault.strerror}"
        finally:
            unmount(self.place)
        return 0, held

    def close(self) -> None:
        unmount(self.place)
        self.loop.close()
        self.place.rmdir()
