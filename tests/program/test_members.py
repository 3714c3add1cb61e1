"""Members of a group of three that are killed in the midst of writes, and members whose files are moved to version 2 one by one.

  ./nozhgiva test crash                    killed, over UDP
  SCHEME=tcp: ./nozhgiva test crash        over TCP
  V2=1 ./nozhgiva test crash               on files of version 2
  ./nozhgiva test migrate                  moved, over UDP
  SCHEME=tcp: ./nozhgiva test migrate      over TCP"""

import os
import random
import shutil
import subprocess
import time
from pathlib import Path
from typing import Dict, Iterator, List, Set

import pytest

from nozhgiva_tools.run.group import Group, migrate_words, SIZE

PUTS, KILLS = 30, 9  # puts around each kill, and kills
TRIES = 200  # moves that are killed at most until one is hit in its midst
LONG = "v" * 3000


@pytest.fixture
def members(program: str) -> Iterator[Group]:
    """A group that is made anew: none of its members is killed before it is made, since a file that was made in part holds no member."""
    with Group(version=2 if os.environ.get("V2") else 1, program=program) as group:
        group.start_all()
        yield group


def oks(answers: List[str]) -> int:
    return answers.count("ok")


def end_all(group: Group) -> None:
    """Ends all members, which have to have said nothing on standard error, and to have applied the same operation under each number."""
    told: Dict[str, Set[str]] = {}
    for member in range(SIZE):
        group.stop(member)
        assert group.errors(member) == [], f"member {member} said something"
        for line in group.told(member):
            if line.startswith("commit "):
                op = line.split(" ")[3]
                told.setdefault(op, set()).add(line.split(" ", 2)[2])
    assert told and {op: lines for op, lines in told.items() if len(lines) > 1} == {}, "two members applied different operations with one number"


def await_answers(path: Path, count: int) -> None:
    """Waits up to a minute until the client has so many answers."""
    until = time.monotonic() + 60
    while (found := oks(path.read_text(encoding="ascii").splitlines())) < count:
        assert time.monotonic() < until, f"only {found} puts are answered"
        time.sleep(0.05)


def test_members_killed_in_the_midst_of_writes(members: Group, tmp_path: Path) -> None:
    """Kills members one after the other and without a word (kill -9), nine times in all, and starts each again: it has to come back from its file, and to repair
    what it missed. Meanwhile a client puts 300 keys' values, 30 of them around each kill, and at the end another reads all of the 100 keys."""
    answers, errors = tmp_path / "answers", tmp_path / "errors"
    with open(answers, "wb") as out, open(errors, "wb") as err:
        client = subprocess.Popen(members.asking(7), stdin=subprocess.PIPE, stdout=out, stderr=err)
    assert client.stdin is not None
    try:
        for member in range(SIZE):
            members.await_line(member, f"commit {member} op 1 ", 10.0)
        for kill in range(1, KILLS + 2):
            lines = "".join(f"put key{i % 100} value{i}\n" for i in range(PUTS * (kill - 1) + 1, PUTS * kill + 1))
            client.stdin.write(lines.encode())
            client.stdin.flush()
            if kill <= KILLS:
                time.sleep(random.randrange(10) / 1000)
                members.kill(kill % SIZE)
                members.start(kill % SIZE)
            await_answers(answers, PUTS * kill)
        client.stdin.close()
        assert client.wait(120) == 0, errors.read_text(encoding="utf-8")
    finally:
        client.kill()
        client.wait()
    assert oks(answers.read_text(encoding="ascii").splitlines()) == PUTS * (KILLS + 1)
    last = range(201, 301)
    assert members.ask(8, [f"get key{i % 100}" for i in last])[1:] == [f"value value{i}" for i in last]
    for member in range(SIZE):
        members.await_line(member, f"commit {member} op 402 ", 10.0)
    end_all(members)


def version_of(group: Group, member: int) -> int:
    """The version that a file's first copy of the superblock says (docs/FORMATS.md)."""
    return Path(group.file(member)).read_bytes()[92]


def kill_a_move(group: Group, member: int, words: List[str], before: Path) -> None:
    """Kills moves after a random time, each on the file as it was, until one is hit once it has written something."""
    file = Path(group.file(member))
    shutil.copyfile(file, before)
    for _ in range(TRIES):
        child = subprocess.Popen(words)
        time.sleep(random.randrange(10) / 1000)
        child.kill()
        if child.wait() == 0:
            shutil.copyfile(before, file)
        elif file.read_bytes() != before.read_bytes():
            print(f"member {member}: a move was killed in its midst, at version {version_of(group, member)}")
            return


def move(group: Group, member: int, before: Path) -> None:
    """Ends a member, moves its file, killed in its midst at first, and starts it again with the words that it had. A second move changes nothing."""
    group.stop(member)
    words = migrate_words(group.program, group.number, member, SIZE, group.file(member))
    kill_a_move(group, member, words, before)
    for time_ in ("first", "second"):
        assert subprocess.run(words, check=False).returncode == 0, f"the {time_} move of member {member}"
        assert version_of(group, member) == 2


def test_members_moved_to_version_2(members: Group, tmp_path: Path) -> None:
    """Moves a group from files of version 1 to files of version 2, member by member, as docs/NODE.md says. While the first member is away the two others go on
    answering a client; the second one's move hands the group over, and from then on a client of version 2 is answered, which reads all that was put before, and
    puts a value of 3,000 bytes."""
    before = tmp_path / "before"
    assert oks(members.ask(7, [f"put key{i} value{i}" for i in range(1, 101)])) == 100
    for member in range(SIZE):
        members.await_line(member, f"commit {member} op 101 ", 10.0)
    move(members, 2, before)
    assert oks(members.ask(8, [f"put key{i - 100} value{i}" for i in range(101, 151)])) == 50, "while member 2 is moved"
    members.start(2)
    move(members, 1, before)
    members.start(1)
    members.version = 2
    wanted = [*range(101, 151), *range(51, 101)]
    assert members.ask(9, [f"get key{i}" for i in range(1, 101)])[1:] == [f"value value{i}" for i in wanted]
    move(members, 0, before)
    members.start(0)
    assert members.ask(10, [f"put long {LONG}", "get long"])[-1] == f"value {LONG}"
    for member in range(SIZE):
        members.await_line(member, f"commit {member} op 256 ", 10.0)
    end_all(members)
