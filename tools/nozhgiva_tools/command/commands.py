"""The subcommands of `nozhgiva`: what each does, an example, its exit codes, and what is called for it. The module `tree` has their words."""

import os
from typing import List, NamedTuple, Optional, Tuple

from nozhgiva_tools.told.ends import Code, TEXTS

Codes = Tuple[Tuple[str, str], ...]

BUILDING, PLAYING, RUNNING, OPERATING = "Build and test (in a clone)", "Play a schedule", "Run and ask a group", "Look after a group"
KEEPING = "Keep the repository in order (in a clone)"
GROUPS = (BUILDING, PLAYING, RUNNING, OPERATING, KEEPING)
OF_CLONES = (BUILDING, KEEPING)


def ends(code: Code, text: str = "") -> Tuple[str, str]:
    """An exit code of the program, with what it means, or with its own text."""
    return str(int(code)), text or TEXTS[code]


WORDS = ("2", "the words are wrong, or what it needs is missing")
CHECKED: Codes = (("0", "all is as it should be"), ("1", "it isn't"), WORDS)
USAGE = ends(Code.USAGE, "the words are none of its forms")
DONE = ends(Code.DONE, "done: the turns are over, or all lines are answered")
OUTPUT = ends(Code.WRITE_FAULT, "standard output can't be written")
MEMORY = ends(Code.NO_MEMORY)
INPUT = ends(Code.READ_FAULT, "standard input can't be read")
OVER = ends(Code.SESSION_LOST, "the session is over")
LINK = ends(Code.LINK_FAULT, "an address can't be used")
OCCUPIED = ends(Code.OCCUPIED, "the file holds a member already")
NO_ANSWER = ends(Code.NO_ANSWER, "no answer came in the turns of one line; whether it was executed isn't known")
COST: Codes = (("0", "told"), ("2", "the words are wrong"), ("others", "those of COMMAND"))
FILE_CODES: Codes = (
    ends(Code.DISK_FAULT, "the data file: another process has it, or a call on it failed"),
    ends(Code.SUPER_LOST, "the file is no member's, or more of its superblock is damaged than may be"),
    ends(Code.OTHER_MEMBER, "the file is that of another member"),
)


class Command(NamedTuple):
    """One subcommand. `calls` is a module, whose function make_parser has its words; where that is empty the word is the program's own.
    Where there is no such function `usage` and `words` say the same: each word that may follow, with what it is."""

    name: str
    group: str
    what: str
    example: str
    codes: Codes
    calls: str = ""
    usage: str = ""
    words: Codes = ()
    needs_program: bool = False  # whether the module is to be told which program there is
    tells_program: bool = False  # whether it matters so much which one that is that it is said
    is_word: bool = False  # whether the module is given the subcommand's name too, before the words


CLUSTER = ("CLUSTER", "the number of the group, below 2^64")
ADDRESSES = ("ADDR..", "the addresses of all members, in their order; over TCP each begins with tcp:; OWN/CLIENTS is one with another for clients")
TURNS = ("TURNS", "how often it receives before it ends, with up to ten milliseconds each")
VERSION_2 = ("--v2", "the group's files are of version 2")
KEY = ("KEY", "the key, 1 to 64 visible letters of ASCII")
OF_GROUP: Codes = (("CLUSTER", "the number of the group; without it the group is the one of NOZHGIVA_GROUP and NOZHGIVA_ADDRS, or of /etc/nozhgiva/group"), ADDRESSES)
ASKED: Codes = (("1", "the key isn't there, or there is no room for it"), WORDS, ("3", "a line is refused"), OUTPUT, NO_ANSWER)

COMMANDS: Tuple[Command, ...] = (
    Command("build", BUILDING, "compiles the program without proving anything, in some two minutes of a processor, as out/vr_app", "nozhgiva build",
            (("0", "it is built"), ("1", "the sources are refused"), WORDS), "nozhgiva_tools.command.build"),
    Command("test", BUILDING, "proves and tests everything (rt ci), then runs the checks outside the proofs; the last line counts both", "nozhgiva test --quick",
            (("0", "all passed"), ("1", "something failed, or nothing was tried"), WORDS), "nozhgiva_tools.command.test"),
    Command("program", BUILDING, "prints the path of the program that is run, and says which one it is", "nozhgiva program --kind", (("0", "printed"), ("2", "there is none, or the words are wrong")),
            "nozhgiva_tools.run.program"),
    Command("map", KEEPING, "prints the crates row by row, each with its lines and a sentence; with words only those that have them", "nozhgiva map checkpoint",
            (("0", "printed, or nothing to mend"), ("1", "no crate has the words, or --check finds something"), WORDS), "nozhgiva_tools.house.map"),
    Command("run", PLAYING, "prints each line of a schedule with what it gives, indented under it; where a line is refused it says why", "nozhgiva run examples/put-get.txt",
            (("0", "each line was taken"), ("1", "it can't be built"), WORDS, ("3", "a line is refused: it says why")), "nozhgiva_tools.command.run", "[--whole] [EXAMPLE]",
            (("--whole", "print comments and empty lines too, where they stand"), ("EXAMPLE", "a file, or the name of one in examples/; without it the lines come from standard input"))),
    Command("replay", PLAYING, "plays a schedule without comments from standard input, and writes what the replicas put out", "printf 'cluster 2\\ntick 0\\n' | nozhgiva replay",
            (("0", "each line was taken"), USAGE, ends(Code.REFUSED, "a line is refused"), INPUT, OUTPUT, MEMORY), usage="< SCHEDULE"),
    Command("soak", PLAYING, "makes a schedule from a number, plays it, and writes a summary", "nozhgiva soak 7 2000", (("0", "done"), USAGE, OUTPUT, MEMORY), usage="SEED COUNT",
            words=(("SEED", "the number"), ("COUNT", "how many events"))),
    Command("explore", PLAYING, "makes a page of a run, one file that any browser shows, on standard output", "nozhgiva explore examples/damaged-copy.txt > run.html",
            (("0", "the page is written"), WORDS, ("3", "FILE can't be shown")), "nozhgiva_tools.pages.explore"),
    Command("draw", PLAYING, "draws a run as one picture, SVG, on standard output", "nozhgiva draw examples/damaged-copy.txt > run.svg",
            (("0", "the picture is written"), WORDS, ("3", "FILE can't be drawn")), "nozhgiva_tools.pages.draw"),
    Command("play", PLAYING, "makes a page in which a browser runs the program itself, on standard output", "nozhgiva play > play.html",
            (("0", "the page is written"), USAGE, ("3", "something is missing, older than the sources, or fails")), "nozhgiva_tools.pages.play"),
    Command("cluster", RUNNING, "runs three members on this machine until Ctrl-C, or while a command runs, and prints a line to ask them", "nozhgiva cluster",
            (("0", "ended by Ctrl-C, or shown"), ("1", "a member doesn't start, or something isn't as it should be"), WORDS, ("others", "those of COMMAND")), "nozhgiva_tools.run.cluster",
            needs_program=True),
    Command("node", RUNNING, "runs one member of a group on a data file",
            "nozhgiva node 5 0 /var/lib/nozhgiva/0 18446744073709551615 10.0.0.1:4000 10.0.0.2:4000 10.0.0.3:4000 > /dev/null",
            (DONE, USAGE, OUTPUT, *FILE_CODES[:1], ends(Code.LINK_FAULT, "an address can't be used, or receiving failed"), *FILE_CODES[1:], MEMORY, OCCUPIED),
            usage="CLUSTER REPLICA FILE TURNS ADDR.. [--fresh [--careful] [--v2]]",
            words=(CLUSTER, ("REPLICA", "the member's number in it, from 0"), ("FILE", "the member's data file"), TURNS, ADDRESSES, ("--fresh", "make the file, once; it holds a new member then"),
                   ("--careful", "a careful file (docs/NODE.md says which to choose)"), ("--v2", "a file of version 2, as all of its group have to be")), tells_program=True),
    Command("client", RUNNING, "asks a group the lines of standard input: put KEY VALUE, get KEY, del KEY",
            "printf 'put a 1\\nget a\\n' | nozhgiva client 5 1 100000 127.0.0.1:4000 127.0.0.1:4001 127.0.0.1:4002",
            (DONE, USAGE, ends(Code.REFUSED, "a line is none of the three forms"), OVER, INPUT, OUTPUT, LINK, MEMORY,
             NO_ANSWER),
            usage="CLUSTER ID TURNS ADDR.. [--v2]", words=(CLUSTER, ("ID", "the client's number, which no other client ever has"), TURNS, ADDRESSES, VERSION_2)),
    Command("trial", RUNNING, "starts a group on this machine, stops its primary, asks, and ends it",
            "nozhgiva trial 5 10000 /tmp/trial. 127.0.0.1:4000 127.0.0.1:4001 127.0.0.1:4002",
            (DONE, USAGE, OVER, OUTPUT, LINK, MEMORY, NO_ANSWER, ends(Code.SPAWN_FAULT, "a member couldn't be started or ended")),
            usage="CLUSTER TURNS FILES ADDR..", words=(CLUSTER, TURNS, ("FILES", "what the members' files begin with; a member's number follows"), ADDRESSES)),
    Command("migrate", RUNNING, "makes a member's data file one of version 2; there is no way back", "nozhgiva migrate 5 0 3 /var/lib/nozhgiva/0",
            (("0", "the file is of version 2"), USAGE, *FILE_CODES, MEMORY), usage="CLUSTER REPLICA N FILE",
            words=(CLUSTER, ("REPLICA", "the member's number in it, from 0"), ("N", "how many members the group has"), ("FILE", "the member's data file"))),
    Command("ask", RUNNING, "asks a group to put, get or delete keys, by its words or line by line, in one session",
            "printf 'get a\\n' | nozhgiva ask 5 127.0.0.1:4000 127.0.0.1:4001 127.0.0.1:4002",
            (("0", "all lines are answered"), *ASKED), "nozhgiva_tools.operate.ask"),
    Command("get", RUNNING, "writes the value of a key, as `ask` with these words", "nozhgiva get color 5 127.0.0.1:4000 127.0.0.1:4001 127.0.0.1:4002", (("0", "it is written"), *ASKED),
            "nozhgiva_tools.operate.ask",
            "KEY [CLUSTER ADDR..]", (KEY, *OF_GROUP), is_word=True),
    Command("put", RUNNING, "gives a key a value, as `ask` with these words", "nozhgiva put color green 5 127.0.0.1:4000 127.0.0.1:4001 127.0.0.1:4002", (("0", "it is put"), *ASKED),
            "nozhgiva_tools.operate.ask",
            "KEY VALUE [CLUSTER ADDR..]", (KEY, ("VALUE", "1 to 1,024 letters of the same kind, in a group of version 2 to 3,000"), *OF_GROUP), is_word=True),
    Command("del", RUNNING, "takes a key out, as `ask` with these words", "nozhgiva del color 5 127.0.0.1:4000 127.0.0.1:4001 127.0.0.1:4002", (("0", "it was there, and isn't any more"),
                                                                                                                                                *ASKED), "nozhgiva_tools.operate.ask",
            "KEY [CLUSTER ADDR..]", (KEY, *OF_GROUP), is_word=True),
    Command("keep", OPERATING, "runs a member, writes its lines with times, and starts it again when it ended",
            "nozhgiva keep --log /var/log/nozhgiva/0.log 5 0 /var/lib/nozhgiva/0 10.0.0.1:4000 10.0.0.2:4000 10.0.0.3:4000",
            (("0", "it was told to end"), USAGE, ("6 to 12", "the member's code, where somebody has to look first"), ("20", "another keeper has the file")), "nozhgiva_tools.operate.keep",
            needs_program=True, tells_program=True),
    Command("health", OPERATING, "asks the keeper of a member for its health, one line", "nozhgiva health /var/lib/nozhgiva/0.socket",
            (("0", "the member is well"), ("1", "it isn't"), WORDS, ("3", "no keeper answers")), "nozhgiva_tools.operate.health"),
    Command("status", OPERATING, "tells how a whole group is, from one place", "nozhgiva status 5 10.0.0.1:4000 10.0.0.2:4000 10.0.0.3:4000",
            (("0", "all is well"), ("1", "the group answers, and a member ails"), USAGE, ("3", "too little is known to tell"), ("4", "the group doesn't answer")), "nozhgiva_tools.operate.status"),
    Command("inspect", OPERATING, "tells what a member's data file holds, and what of it is damaged; changes nothing", "nozhgiva inspect /var/lib/nozhgiva/0",
            (("0", "a member's file was read"), ("1", "it wasn't, or it is damaged"), USAGE), "nozhgiva_tools.operate.inspect"),
    Command("roll", OPERATING, "restarts the members of a group one after the other", "nozhgiva roll 3 --sockets /var/lib/nozhgiva/{}.socket",
            (("0", "all were restarted"), ("1", "it stopped, and says why"), WORDS), "nozhgiva_tools.operate.roll"),
    Command("watch", OPERATING, "reads a member's lines and writes them with times, without what repeats", "nozhgiva node .. | nozhgiva watch --log /var/log/nozhgiva/0.log",
            (("0", "the lines ended"), WORDS), "nozhgiva_tools.operate.watch"),
    Command("make-member", OPERATING, "makes the file of a member, once", "nozhgiva make-member 5 0 /var/lib/nozhgiva/0 10.0.0.1:4000 10.0.0.2:4000 10.0.0.3:4000",
            (("0", "the file is made"), ("1", "refused: something is there, the folder isn't, or its group answers"), WORDS, ("6 to 12", "the program's code")),
            "nozhgiva_tools.operate.make_member", needs_program=True),
    Command("backup", OPERATING, "writes the keys of a group, out of the data file of one member", "nozhgiva backup /var/lib/nozhgiva/0 --to group-5",
            (("0", "written"), ("1", "the file can't be read, or not wholly; nothing is written then"), USAGE, ("6", "there is no room")), "nozhgiva_tools.operate.backup"),
    Command("restore", OPERATING, "puts the keys of a backup into a new group, and reads them back", "nozhgiva restore group-5 6 10.0.0.1:4000 10.0.0.2:4000 10.0.0.3:4000",
            (("0", "all keys were put and read back"), ("1", "it is refused, or a key isn't there afterwards"), WORDS, NO_ANSWER), "nozhgiva_tools.operate.restore", needs_program=True),
    Command("migrate-group", OPERATING, "moves a whole group to version 2, member by member; there is no way back",
            "nozhgiva migrate-group 5 3 --files '/var/lib/nozhgiva/{}' --sockets '/var/lib/nozhgiva/{}.socket' --stop 'systemctl stop nozhgiva@{}' --start 'systemctl start nozhgiva@{}'",
            (("0", "done, or told what would be done"), ("1", "it stopped, and says why"), USAGE), "nozhgiva_tools.operate.migrate_group", needs_program=True),
    Command("pages", KEEPING, "looks whether the pages are of this repository, and tells each place where one isn't", "nozhgiva pages --write", CHECKED, "nozhgiva_tools.house.pages"),
    Command("check-commands", KEEPING, "runs the commands of the pages as they stand there", "nozhgiva check-commands docs/NODE.md", CHECKED, "nozhgiva_tools.house.page_commands"),
    Command("addresses", KEEPING, "tells citations that don't name the crate where a definition stands, and idle entries of crates.txt", "nozhgiva addresses --above", CHECKED,
            "nozhgiva_tools.house.addresses"),
    Command("believed", KEEPING, "finds the definitions on which the clauses of `run` rest, and compares docs/BELIEVED.md with them", "nozhgiva believed --list", CHECKED,
            "nozhgiva_tools.house.believed"),
    Command("clauses", KEEPING, "compares the contracts with those of a commit: what means something else, by all that it cites", "nozhgiva clauses main",
            (("0", "no contract of before means something else"), ("1", "one does, or is gone"), WORDS), "nozhgiva_tools.house.clauses"),
    Command("gate-cost", KEEPING, "runs the gate, and tells what each crate costs", "nozhgiva gate-cost --save /tmp/cost rt ci --anew", COST,
            "nozhgiva_tools.house.gate_cost"),
    Command("mutations", KEEPING, "tries the mutation tests that the gate leaves out: the prover must refuse each", "nozhgiva mutations vr_super",
            (("0", "all are refused"), ("1", "one isn't, or couldn't be tried"), WORDS, ("3", "there was no time for some")), "nozhgiva_tools.house.mutations"),
    Command("slips", KEEPING, "makes slips in copies of vr_rules, and tells the lemmas that refuse each", "nozhgiva slips", CHECKED, "nozhgiva_tools.house.slips"),
    Command("message-rows", KEEPING, "makes the rows of messages and states, apart from the program", "nozhgiva message-rows --check", CHECKED, "nozhgiva_tools.house.message_rows"),
    Command("command-rows", KEEPING, "makes the rows of command lines, apart from the program", "nozhgiva command-rows --check", CHECKED, "nozhgiva_tools.house.command_rows"),
)


def file_of(command: Command) -> str:
    """The file of its module, from the top of the clone or of the installation."""
    return f"tools/{command.calls.replace('.', '/')}.py"


def is_there(home: str, command: Command) -> bool:
    return not command.calls or os.path.exists(os.path.join(home, file_of(command)))


def all_there(home: str) -> List[Command]:
    return [one for one in COMMANDS if is_there(home, one)]


def find(name: str) -> Optional[Command]:
    return next((one for one in COMMANDS if one.name == name), None)
