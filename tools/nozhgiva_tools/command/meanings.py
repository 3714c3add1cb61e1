"""What an exit code of the program means here, in one sentence, by what the system says. docs/NODE.md has the whole table."""

import errno
import itertools
import os
import resource
import signal
import socket
import stat
from typing import Callable, Dict, List, NamedTuple, Optional, Tuple

from nozhgiva_tools.told.ends import Code

from . import schedule

FILE_BYTES = 2039808
# What a member over TCP opens: standard streams, its file and what its streams and their spare ones want in a group of six, and what it listens at.
DESCRIPTORS = 80
FLAGS = ("--fresh", "--careful", "--v2")
# Where a command has its data file, and where its addresses begin.
FILE_AT = {"node": 2, "migrate": 3}
ADDRESSES_AT = {"node": 4, "client": 3, "trial": 3}
KINDS = ((stat.S_ISDIR, "a folder"), (stat.S_ISBLK, "a block device"), (stat.S_ISCHR, "a device"), (stat.S_ISFIFO, "a pipe"), (stat.S_ISSOCK, "a socket"))


class Seen(NamedTuple):
    """What was seen before the program ran."""

    file_was_there: bool
    input_at: int


def file_of(name: str, words: List[str]) -> Optional[str]:
    at = FILE_AT.get(name, len(words))
    return words[at] if at < len(words) else None


def addresses_of(name: str, words: List[str]) -> List[str]:
    return [word for word in words[ADDRESSES_AT.get(name, len(words)):] if word not in FLAGS]


def look(name: str, words: List[str]) -> Seen:
    file = file_of(name, words)
    try:
        at = os.lseek(0, 0, os.SEEK_CUR)
    except OSError:
        at = 0
    return Seen(file is not None and os.path.lexists(file), at)


def of(name: str, words: List[str], status: int, kind: str, seen: Seen) -> Optional[str]:
    """The sentence for a status; None where it needs none, or nothing is known."""
    if status < 0:
        return of_signal(-status, kind)
    if status == Code.USAGE:
        return f"the words are none of its forms: nozhgiva {name} --help"
    file = file_of(name, words)
    if file is not None and status in OF_FILES:
        return OF_FILES[status](file, seen)
    if status == Code.LINK_FAULT:
        return why_no_link(name, addresses_of(name, words))
    if status == Code.REFUSED:
        return why_refused(name, seen.input_at)
    if status in (Code.READ_FAULT, Code.WRITE_FAULT):
        return why_no_stream(status == Code.WRITE_FAULT)
    return PLAIN.get(status)


PLAIN: Dict[int, str] = {
    Code.SESSION_LOST: "the session is over: ask with another number, and look by a get whether a put is there",
    Code.OTHER_MEMBER: "the words say another group, number or size than the file: `found` is the file's, `asked` is the words'",
    Code.NO_MEMORY: "no memory was left: see `free`, and `ulimit -v`; a member takes some 3 MB",
    Code.NO_ANSWER: "fewer members than are needed answered in the turns of one line, or they are of the other version (--v2); whether it was executed isn't known",
    Code.SPAWN_FAULT: "a member couldn't be started or ended: is the program still where it was, and are there processes and memory left (`ulimit -u`)?",
}


def of_signal(number: int, kind: str) -> Optional[str]:
    if number == signal.SIGILL and kind == "compiled":
        return "a check failed that only the program compiled without proofs has"
    if number == signal.SIGXFSZ:
        return f"files may not be as long as a member's, {FILE_BYTES} bytes (`ulimit -f`)"
    return None


def why_no_file(file: str, _: Seen) -> str:
    """Why the data file can't be had, in the order of docs/NODE.md."""
    folder = os.path.dirname(os.path.abspath(file))
    return holder(file) or why_no_path(file, folder) or why_too_long(file) or why_no_room(file, folder) or (
        f"a call on {file} failed, and nothing else is seen: look at the disk (docs/NODE.md, After a disk fault)")


def holder(file: str) -> Optional[str]:
    """That another process has a lock on the file, by the system's table of locks."""
    try:
        found = os.stat(file)
        with open("/proc/locks", encoding="ascii") as locks:
            rows = [line.split() for line in locks]
    except OSError:
        return None
    for row in rows:
        place = next((word.split(":") for word in row if word.count(":") == 2), None)
        if place is None or int(place[2]) != found.st_ino:
            continue
        device = os.makedev(int(place[0], 16), int(place[1], 16))
        if device == found.st_dev or os.major(found.st_dev) == 0:
            number = row[row.index(":".join(place)) - 1]
            return f"another process has this file{'' if int(number) <= 0 else f' (process {number})'}; nothing is wrong with the disk"
    return None


def why_no_path(file: str, folder: str) -> Optional[str]:
    try:
        mode = os.stat(file).st_mode
    except FileNotFoundError:
        return why_no_folder(file, folder)
    except OSError as error:
        return f"{file}: {error.strerror}"
    for is_kind, kind in KINDS:
        if is_kind(mode):
            return f"{file} is {kind}, not a plain file"
    if os.statvfs(file).f_flag & os.ST_RDONLY:
        return f"the file system of {file} is mounted to be read only"
    return None if os.access(file, os.R_OK | os.W_OK) else f"{file} may not be read and written by this user"


def why_no_folder(file: str, folder: str) -> Optional[str]:
    if os.path.islink(file):
        return f"{file} is a link to {os.readlink(file)}, which isn't there"
    try:
        flags = os.statvfs(folder).f_flag
    except OSError as error:
        return f"no such folder: {folder}" if error.errno == errno.ENOENT else f"{folder}: {error.strerror}"
    if flags & os.ST_RDONLY:
        return f"the file system of {folder} is mounted to be read only"
    return None if os.access(folder, os.W_OK | os.X_OK) else f"the folder {folder} may not be written by this user"


def why_too_long(file: str) -> Optional[str]:
    try:
        length = os.stat(file).st_size
    except OSError:
        return None
    return f"{file} has {length} bytes, and a member's file no more than {FILE_BYTES}: is the path right?" if length > FILE_BYTES else None


def why_no_room(file: str, folder: str) -> Optional[str]:
    try:
        room = os.statvfs(folder)
        has = os.stat(file).st_blocks * 512 if os.path.exists(file) else 0
    except OSError:
        return None
    free = room.f_bavail * room.f_frsize
    return f"no room: {folder} has {free} bytes free, and {file} needs {FILE_BYTES - has} more" if free < FILE_BYTES - has else None


def why_lost(file: str, seen: Seen) -> str:
    if not seen.file_was_there:
        return f"there was no file {file}: is the path right? A member is made once, with --fresh"
    try:
        with open(file, "rb") as data:
            if not any(data.read(40960)):
                return f"{file} begins with zeros alone: no member was made in it; is the path right?"
    except OSError as error:
        return f"{file} can't be read: {error.strerror}; look at the disk before anything else"
    return f"no two good copies of its superblock agree: `nozhgiva inspect {file}` tells what is left; never make it anew where the disk can't be read"


def why_occupied(file: str, _: Seen) -> str:
    return f"{file} holds a member already: leave --fresh out"


OF_FILES: Dict[int, Callable[[str, Seen], str]] = {Code.DISK_FAULT: why_no_file, Code.SUPER_LOST: why_lost, Code.OCCUPIED: why_occupied}


def split_address(address: str) -> Tuple[str, Optional[int]]:
    host, _, port = address.rpartition(":")
    return host.strip("[]"), int(port) if port.isdigit() and int(port) < 65536 else None


def split_word(word: str) -> List[str]:
    """The addresses in a word: a member's own, and the one for clients, if there is one."""
    return word[4 if word.startswith("tcp:") else 0:].split("/", 1)


def why_no_link(name: str, addresses: List[str]) -> str:
    streams = sum(one.startswith("tcp:") for one in addresses)
    if 0 < streams < len(addresses):
        return "some of the addresses begin with tcp: and some don't"
    for one in addresses:
        for host, port in map(split_address, split_word(one)):
            if not host or port is None:
                return f"{one} is no address: HOST:PORT, or tcp:HOST:PORT; or with one for clients HOST:PORT/HOST:PORT"
    return why_no_descriptors(name, streams) or why_not_bound(addresses, streams > 0) or (
        "an address isn't one of this machine, is in use, or is of another kind than the others; or receiving failed")


def why_no_descriptors(name: str, streams: int) -> Optional[str]:
    allowed, _ = resource.getrlimit(resource.RLIMIT_NOFILE)
    if name == "node" and streams and allowed != resource.RLIM_INFINITY and allowed < DESCRIPTORS:
        return f"a member over TCP opens up to {DESCRIPTORS} descriptors, and may have {allowed} here: see `ulimit -n`"
    return None


def why_not_bound(addresses: List[str], is_stream: bool) -> Optional[str]:
    """What the system says of each address that is this machine's to take; those of other machines are left out."""
    kind = socket.SOCK_STREAM if is_stream else socket.SOCK_DGRAM
    for one in itertools.chain.from_iterable(map(split_word, addresses)):
        host, port = split_address(one)
        try:
            family, _, _, _, place = socket.getaddrinfo(host, port, type=kind)[0]
            with socket.socket(family, kind) as held:
                held.bind(place)
        except socket.gaierror:
            return f"{one}: no such host is known"
        except OSError as error:
            if error.errno in (errno.EADDRINUSE, errno.EACCES):
                return f"{one}: {os.strerror(error.errno)}"
    return None


def why_refused(name: str, at: int) -> str:
    if name == "client":
        return "that line is none of put KEY VALUE, get KEY, del KEY; those before it were asked"
    lines = given_lines(at)
    found = schedule.first_refused(lines) if lines is not None else None
    if found:
        return f"line {found[0]}: {found[1]}"
    return "that line isn't in the language of docs/SCHEDULE.md, which has no comments: `nozhgiva run FILE` takes a file with comments"


def given_lines(at: int) -> Optional[List[bytes]]:
    """The lines of standard input, where it is a file and can be read once more."""
    try:
        if not stat.S_ISREG(os.fstat(0).st_mode):
            return None
        with open("/dev/fd/0", "rb") as given:
            given.seek(at)
            return given.read(1 << 24).split(b"\n")
    except OSError:
        return None


def why_no_stream(is_output: bool) -> Optional[str]:
    what, number = ("standard output", 1) if is_output else ("standard input", 0)
    try:
        mode = os.fstat(number).st_mode
    except OSError:
        return f"{what} is closed"
    if stat.S_ISDIR(mode):
        return f"{what} is a folder"
    if not is_output:
        return None
    if stat.S_ISFIFO(mode) or stat.S_ISSOCK(mode):
        return "nobody reads standard output any more"
    room = os.fstatvfs(number)
    if stat.S_ISREG(mode) and room.f_bavail == 0:
        return "no room for standard output"
    most = resource.getrlimit(resource.RLIMIT_FSIZE)[0]
    return "standard output may not grow any more (`ulimit -f`)" if most != resource.RLIM_INFINITY else "what is behind standard output takes no more"
