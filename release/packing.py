"""Archives whose bytes come from their files alone: names in order, one time, one owner."""
import base64
import csv
import gzip
import hashlib
import io
import os
import pathlib
import stat
import subprocess
import tarfile
import tempfile
import time
import zipfile


def digest(data):
    return hashlib.sha256(data).hexdigest()


class Tree:
    """Files and links by their names; of each file its bytes, and whether it is a program."""

    def __init__(self):
        self.files, self.links = {}, {}

    def add(self, name, data, is_program=False):
        assert name not in self.files, name
        self.files[name] = (data.encode() if isinstance(data, str) else data, is_program)
        return self

    def link(self, name, to):
        self.links[name] = to
        return self

    def below(self, folder):
        """The same in a folder."""
        to = Tree()
        to.files = {f"{folder}/{name}": it for name, it in self.files.items()}
        to.links = {f"{folder}/{name}": it for name, it in self.links.items()}
        return to

    def folders(self):
        names = [*self.files, *self.links]
        found = {str(it) for name in names for it in pathlib.PurePath(name).parents}
        return sorted(found - {"."})


def tar_gz(tree, epoch, with_folders=True):
    """A tar of the format ustar, compressed; its bytes also come from this Python's zlib."""
    raw = io.BytesIO()
    folders = tree.folders() if with_folders else []
    with tarfile.open(fileobj=raw, mode="w", format=tarfile.USTAR_FORMAT) as tar:
        for name in sorted({*tree.files, *tree.links, *folders}):
            entry = tarfile.TarInfo(name)
            entry.mtime, entry.uname, entry.gname = epoch, "root", "root"
            if name in tree.files:
                data, is_program = tree.files[name]
                entry.size, entry.mode = len(data), 0o755 if is_program else 0o644
                tar.addfile(entry, io.BytesIO(data))
            elif name in tree.links:
                entry.type, entry.linkname, entry.mode = tarfile.SYMTYPE, tree.links[name], 0o777
                tar.addfile(entry)
            else:
                entry.type, entry.mode = tarfile.DIRTYPE, 0o755
                tar.addfile(entry)
    return gzipped(raw.getvalue(), epoch)


def gzipped(data, epoch=0):
    data = data.encode() if isinstance(data, str) else data
    out = io.BytesIO()
    with gzip.GzipFile(filename="", mode="wb", fileobj=out, compresslevel=9, mtime=epoch) as it:
        it.write(data)
    return out.getvalue()


def zipped(tree, epoch):
    """A zip, of Python's wheels and Go's modules; it has no links."""
    assert not tree.links
    out = io.BytesIO()
    moment = max(time.gmtime(epoch)[:6], (1980, 1, 1, 0, 0, 0))
    with zipfile.ZipFile(out, "w", zipfile.ZIP_DEFLATED, compresslevel=9) as it:
        for name in sorted(tree.files):
            data, is_program = tree.files[name]
            info = zipfile.ZipInfo(name, moment)
            info.create_system, info.compress_type = 3, zipfile.ZIP_DEFLATED
            info.external_attr = (stat.S_IFREG | (0o755 if is_program else 0o644)) << 16
            it.writestr(info, data)
    return out.getvalue()


def record(tree, name):
    """The RECORD of a wheel: each file's digest and length, its own left out."""
    out = io.StringIO()
    lines = csv.writer(out, lineterminator="\n")
    for file in sorted(tree.files):
        data = tree.files[file][0]
        told = base64.urlsafe_b64encode(hashlib.sha256(data).digest()).rstrip(b"=").decode()
        lines.writerow([file, f"sha256={told}", len(data)])
    lines.writerow([name, "", ""])
    return out.getvalue()


def lay(tree, top):
    """Writes a tree into a folder, with the modes that it has in a package."""
    for name in ["", *tree.folders()]:
        (top / name).mkdir()
        os.chmod(top / name, 0o755)
    for name, (data, is_program) in tree.files.items():
        (top / name).write_bytes(data)
        os.chmod(top / name, 0o755 if is_program else 0o644)
    for name, to in tree.links.items():
        (top / name).symlink_to(to)


def deb(tree, control, epoch):
    """A package of Debian, by dpkg-deb: a tree of its files, and its control file."""
    size = sum(-(-len(data) // 1024) for data, _ in tree.files.values()) + len(tree.folders())
    sums = [f"{hashlib.md5(tree.files[it][0]).hexdigest()}  {it}\n" for it in sorted(tree.files)]
    about = Tree().add("control", control.replace("@SIZE@", str(size)))
    about.add("md5sums", "".join(sums))
    with tempfile.TemporaryDirectory() as place:
        top, out = pathlib.Path(place, "deb"), pathlib.Path(place, "out.deb")
        lay(tree, top)
        lay(about, top / "DEBIAN")
        words = ["dpkg-deb", "--root-owner-group", "--threads-max=1", "-Zxz", "-z6", "--build"]
        flags = {"PATH": os.environ["PATH"], "SOURCE_DATE_EPOCH": str(epoch), "LC_ALL": "C"}
        quiet = {"check": True, "stdout": subprocess.DEVNULL}
        subprocess.run([*words, top, out], env=flags, **quiet)
        return out.read_bytes()
