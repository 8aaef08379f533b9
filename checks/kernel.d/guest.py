"""The guest of `checks/kernel`: the archive that its kernel starts from, and a run of QEMU over it."""

import base64
import fnmatch
import glob
import gzip
import io
import lzma
import os
import platform
import re
import shutil
import subprocess
import tarfile

HERE = os.path.dirname(os.path.abspath(__file__))
QEMU = "qemu-system-x86_64"
MEMORY = "512"
# how a module may be compressed
READERS = {".ko": open, ".ko.gz": gzip.open, ".ko.xz": lzma.open}


def found_kernel():
    """The paths of a kernel and of the folder with its modules, or None."""
    if os.environ.get("KERNEL"):
        return os.environ["KERNEL"], os.environ.get("KERNEL_MODULES", "")
    kernels = sorted(glob.glob("/boot/vmlinuz-*"), key=os.path.getmtime)
    pairs = [(it, f"/lib/modules/{os.path.basename(it).removeprefix('vmlinuz-')}") for it in kernels]
    return next((pair for pair in reversed(pairs) if os.path.isdir(pair[1])), None)


def lacking():
    """Why there can be no guest, or nothing."""
    if platform.machine() != "x86_64":
        return "the guest is one of x86_64"
    for program in (QEMU, "busybox", "ip", "tc", "bridge", "ldd"):
        if not shutil.which(program):
            return f"there is no {program}"
    kernel = found_kernel()
    if kernel is None:
        return "there is no kernel in /boot with its modules, and KERNEL names none"
    image, modules = kernel
    if not os.access(image, os.R_OK):
        return f"the kernel {image} can't be read"
    return "" if os.path.isdir(modules) else "KERNEL_MODULES names no folder"


class Archive:
    """An archive in the form `newc` of cpio, which a kernel unpacks."""

    def __init__(self):
        self.bytes, self.count, self.names = io.BytesIO(), 0, set()

    def add(self, name, mode, content=b""):
        """Adds a file or a folder, and the folders that it stands in."""
        name = name.strip("/")
        if name in self.names:
            return
        if os.path.dirname(name):
            self.add(os.path.dirname(name), 0o040755)
        self.names.add(name)
        self.put(name, mode, content)

    def put(self, name, mode, content):
        self.count += 1
        fields = [self.count, mode, 0, 0, 1, 0, len(content), 0, 0, 0, 0, len(name) + 1, 0]
        self.bytes.write(b"070701" + b"".join(b"%08x" % it for it in fields) + name.encode() + b"\0")
        self.align()
        self.bytes.write(content)
        self.align()

    def align(self):
        self.bytes.write(bytes(-self.bytes.tell() % 4))

    def add_file(self, name, path, mode=0o100755):
        with open(path, "rb") as file:
            self.add(name, mode, file.read())

    def add_program(self, path, name=None):
        """A program, with the shared libraries that it is linked with."""
        self.add_file(name or f"bin/{os.path.basename(path)}", path)
        linked = subprocess.run(["ldd", path], capture_output=True, text=True, check=False).stdout
        for library in re.findall(r"(/\S+) \(0x", linked):
            self.add_file(library, library)

    def whole(self):
        self.put("TRAILER!!!", 0, b"")
        return self.bytes.getvalue()


def read_module(path):
    """The bytes of a module; nothing of one that can't be unpacked here."""
    if path.endswith(".zst") and shutil.which("zstd"):
        return subprocess.run(["zstd", "-dcq", path], capture_output=True, check=True).stdout
    reader = next((READERS[end] for end in READERS if path.endswith(end)), None)
    if reader is None:
        print(f"left out, for it can't be unpacked: {os.path.basename(path)}")
        return b""
    with reader(path, "rb") as file:
        return file.read()


def add_modules(archive, folder):
    """Adds the modules that `modules` names, and those that they need, in an order in which they can be loaded."""
    paths = {}
    for path in glob.glob(f"{folder}/**/*.ko*", recursive=True):
        paths[os.path.basename(path).partition(".")[0].replace("-", "_")] = path
    with open(f"{HERE}/modules", encoding="utf-8") as file:
        forms = [it.replace("-", "_") for it in file.read().split()]
    order = []

    def load(name):
        if name in order or name not in paths:
            return
        content = read_module(paths[name])
        needed = re.search(rb"\0depends=([^\0]*)\0", b"\0" + content)
        for other in needed[1].decode().split(",") if needed else ():
            load(other.replace("-", "_"))
        if content:
            order.append(name)
            archive.add(f"modules/{name}.ko", 0o100644, content)

    for form in forms:
        for name in fnmatch.filter(sorted(paths), form):
            load(name)
    archive.add("modules/order", 0o100644, "".join(f"{it}\n" for it in order).encode())


def write_archive(path, programs, modules):
    """Writes what the guest starts from: busybox, `ip`, `tc`, `bridge`, our programs by their names, the modules and the scene."""
    archive = Archive()
    archive.add_file("init", f"{HERE}/init")
    archive.add_file("scene", f"{HERE}/scene", 0o100644)
    for name, program in programs.items():
        if program:
            archive.add_program(program, f"bin/{name}")
    archive.add_program(shutil.which("busybox"), "bin/busybox")
    for name in ("ip", "tc", "bridge"):
        archive.add_program(shutil.which(name), f"sbin/{name}")
    # the names by which `tc` takes extended matches
    for names in glob.glob("/etc/iproute2/ematch_map"):
        archive.add_file(names, names, 0o100644)
    add_modules(archive, modules)
    with open(path, "wb") as file:
        file.write(archive.whole())


def unpack(sent, folder):
    """Writes the files of an archive of `tar` into a folder."""
    os.mkdir(folder)
    with tarfile.open(fileobj=io.BytesIO(sent)) as tar:
        for it in filter(tarfile.TarInfo.isfile, tar):
            with open(f"{folder}/{os.path.basename(it.name)}", "wb") as file:
                file.write(tar.extractfile(it).read())


def run(work, kernel, seconds):
    """Runs the guest, and answers the lines that it told; and unpacks what it sent into `work`/told. It has no network card."""
    words = [QEMU, "-nodefaults", "-no-user-config", "-no-reboot", "-display", "none", "-nic", "none", "-accel", "tcg", "-m", MEMORY,
             "-serial", f"file:{work}/console", "-serial", f"file:{work}/sent", "-kernel", kernel, "-initrd", f"{work}/archive",
             "-append", "console=ttyS0 panic=-1 loglevel=1"]
    try:
        subprocess.run(words, stdin=subprocess.DEVNULL, timeout=seconds, check=False)
    except subprocess.TimeoutExpired:
        print(f"the guest was stopped after {seconds} seconds")
    with open(f"{work}/console", encoding="utf-8", errors="replace") as file:
        console = file.read()
    told = re.findall(r"^guest: (.*?)\r*$", console, re.MULTILINE)
    if "sent" not in told:
        print("\n".join(console.splitlines()[-20:]))
        return told, False
    try:
        with open(f"{work}/sent", "rb") as file:
            unpack(base64.b64decode(file.read()), f"{work}/told")
    except (ValueError, EOFError, OSError, tarfile.TarError) as fault:
        print(f"what was sent can't be unpacked: {fault}")
        return told, False
    return told, True
