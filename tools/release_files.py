"""The files of an archive, whose octets depend on nothing but theirs."""
import dataclasses
import gzip
import hashlib
import io
import re
import tarfile

PLAIN, PROGRAM = 0o644, 0o755


@dataclasses.dataclass
class File:
    octets: bytes = b""
    mode: int = PLAIN
    # The path that a link has
    target: str = ""


def tar_gz(folder, files, seconds):
    """A tar of these files in a folder, compressed: sorted by their paths, of nobody, all of one time."""
    made = io.BytesIO()
    with tarfile.open(fileobj=made, mode="w", format=tarfile.USTAR_FORMAT) as tar:
        for path, file in sorted(files.items()):
            info = tarfile.TarInfo(f"{folder}/{path}")
            info.mtime, info.mode = seconds, file.mode
            if file.target:
                info.type, info.linkname = tarfile.SYMTYPE, file.target
            info.size = len(file.octets)
            tar.addfile(info, io.BytesIO(file.octets))
    return gzip.compress(made.getvalue(), 9, mtime=0)


def write_files(folder, files):
    """Writes the files to an empty folder. For a link it has a copy: `rt ci` takes no links in the repository."""
    for path, file in sorted(files.items()):
        at = folder / path
        while file.target:
            file = files[f"{path.rpartition('/')[0]}/{file.target}"]
        at.parent.mkdir(parents=True, exist_ok=True)
        at.write_bytes(file.octets)
        at.chmod(file.mode)


def sum_line(path, octets):
    """The sum of a file, as sha256sum prints it."""
    return f"{hashlib.sha256(octets).hexdigest()}  {path}"


def sums_of(files):
    """A line for each file that is no link."""
    return "\n".join(sum_line(path, it.octets) for path, it in sorted(files.items()) if not it.target)


AR_MAGIC = b"!<arch>\n"
AR_HEADER = 60


def plain_ar(octets):
    """An archive of ar without the times, owners and modes of its members."""
    if not octets.startswith(AR_MAGIC):
        raise ValueError("no archive of ar")
    parts, at = [AR_MAGIC], len(AR_MAGIC)
    while at < len(octets):
        name, size, end = octets[at:at + 16], octets[at + 48:at + 58], octets[at + 58:at + AR_HEADER]
        content = at + AR_HEADER
        after = content + int(size) + int(size) % 2
        # The time, the owner, the group and the mode
        parts += [name, b"%-12d%-6d%-6d%-8o" % (0, 0, 0, 0o100644), size, end, octets[content:after]]
        at = after
    return b"".join(parts)


def glibc_of(octets):
    """Which C library a program or a shared library needs: the newest version of its symbols."""
    found = {tuple(map(int, it.split(b"."))) for it in re.findall(rb"\0GLIBC_(\d+\.\d+)(?=[.\0])", octets)}
    return f"glibc {'.'.join(map(str, max(found)))} or later" if found else "no C library"
