"""Refuses memory to the built program at each of its requests in turn.
  ./nozhgiva test no-memory
Each such run ends with status 11 and `no memory` (nothing is said where the text itself finds no memory), and what it wrote is a front of
what it writes with memory; or it goes as if nothing had been refused (requests of the C library that it can do without). The runs: a plain path, a view change and a block repair through
`replay`, and a new member that serves two
turns. Needs cc, for a library of a few lines that counts requests and refuses one (LD_PRELOAD)."""

from concurrent.futures import ThreadPoolExecutor
import os
import subprocess
import sys
import tempfile
from typing import List, Sequence, Tuple

from nozhgiva_tools.run.built import or_end as program
from nozhgiva_tools.run.scripts import no_words
from nozhgiva_tools.told.ends import Code, TEXTS

REFUSE = r"""
#define _GNU_SOURCE
#include <dlfcn.h>
#include <errno.h>
#include <stddef.h>
#include <stdio.h>
#include <stdlib.h>
static long asked, refuse = -1;
static int refused(void) {
    if (refuse < 0) { char *n = getenv("REFUSE"); refuse = n ? atol(n) : 0; }
    if (++asked == refuse) { errno = ENOMEM; return 1; }
    return 0;
}
__attribute__((destructor)) static void tell(void) {
    char *name = getenv("COUNT");
    FILE *file = name ? fopen(name, "w") : NULL;
    if (file) { fprintf(file, "%ld", asked); fclose(file); }
}
void *malloc(size_t size) {
    static void *(*real)(size_t);
    if (!real) real = dlsym(RTLD_NEXT, "malloc");
    return refused() ? NULL : real(size);
}
void *realloc(void *old, size_t size) {
    static void *(*real)(void *, size_t);
    if (!real) real = dlsym(RTLD_NEXT, "realloc");
    return refused() ? NULL : real(old, size);
}
"""


def said(code: Code) -> Tuple[int, bytes]:
    """How a run ends with this code, and what it says then."""
    return int(code), f"{TEXTS[code]}\n".encode()


def puts(count: int) -> List[str]:
    lines = ["cluster 2"]
    for op in range(count + 1):
        lines += [f"request 0 7 {op} {'put a b' if op else 'register'}", f"deliver {2 * op}", f"deliver {2 * op + 1}"]
    return lines


PLAIN = ["cluster 3", "request 0 7 0 register", "deliver 0", "deliver 2", "request 0 7 1 put a b", "deliver 3", "deliver 5"]
VIEWS = (PLAIN[:3] + ["deliver 1", "deliver 2", "request 0 7 1 put a b", "stop 0"] + 5 * ["tick 1"]
         + ["deliver 7", "deliver 10", "deliver 12", "deliver 15", "request 1 8 0 register", "deliver 17", "deliver 18"])
BLOCKS = puts(32) + ["damage 1 912", "stop 1", "start 1", "tick 1", "deliver 66", "deliver 67"]


class Runs:
    def __init__(self, program: str, folder: str) -> None:
        self.program, self.folder = program, folder
        self.library = f"{folder}/refuse.so"
        with open(f"{folder}/refuse.c", "w") as file:
            file.write(REFUSE)
        subprocess.run(["cc", "-shared", "-fPIC", "-O1", "-o", self.library, f"{folder}/refuse.c", "-ldl"], check=True)

    def run(self, words: List[str], text: str, at: int) -> Tuple[int, bytes, bytes]:
        words = [word.replace("FILE", f"{self.folder}/member-{at}") for word in words]
        env = dict(os.environ, LD_PRELOAD=self.library, REFUSE=str(at))
        if not at:
            env["COUNT"] = f"{self.folder}/count"
        ran = subprocess.run([self.program] + words, input=text.encode(), capture_output=True, env=env)
        for word in words:
            if word.startswith(self.folder) and os.path.exists(word):
                os.remove(word)
        return ran.returncode, ran.stdout, ran.stderr

    def refuse_each(self, name: str, words: List[str], lines: List[str], others: Sequence[Tuple[int, bytes]] = ()) -> int:
        text = "".join(line + "\n" for line in lines)
        whole = self.run(words, text, 0)
        with open(f"{self.folder}/count") as file:
            count = int(file.read())
        failed = passed = 0
        with ThreadPoolExecutor(os.cpu_count()) as pool:
            for number, ran in enumerate(pool.map(lambda n: self.run(words, text, n), range(1, count + 1)), 1):
                if ran == whole:
                    passed += 1
                elif not whole[1].startswith(ran[1]) or (ran[0], ran[2]) not in (said(Code.NO_MEMORY), (Code.NO_MEMORY, b""), *others):
                    failed += 1
                    print(f"{name}: request {number}: status {ran[0]}, {ran[2]!r}, {ran[1][-60:]!r}")
        print(f"{name}: {count} requests refused in turn, {passed} of them without effect; the whole run ends with {whole[0]}")
        return failed


def main() -> None:
    no_words()
    with tempfile.TemporaryDirectory() as folder:
        runs = Runs(program(), folder)
        failed = runs.refuse_each("a plain path", ["replay"], PLAIN)
        failed += runs.refuse_each("a view change", ["replay"], VIEWS)
        failed += runs.refuse_each("a block repair", ["replay"], BLOCKS)
        member = ["node", "5", "0", "FILE", "2", "127.0.0.1:0", "127.0.0.1:1", "--fresh"]
        # Where the C library finds no memory to look an address up, the link fails.
        failed += runs.refuse_each("a new member", member, [], [said(Code.LINK_FAULT)])
    sys.exit(1 if failed else 0)


if __name__ == "__main__":
    main()
