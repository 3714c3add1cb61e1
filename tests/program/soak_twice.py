"""Runs `soak` of the seeds 1 to 20 at 20,000 lines twice each: both runs write the same bytes.

  ./nozhgiva test soak-twice -- [COUNT]"""

import argparse
import subprocess

from nozhgiva_tools.operate import standard
from nozhgiva_tools.run import program

SEEDS = range(1, 21)


def parse_words() -> argparse.Namespace:
    parser = argparse.ArgumentParser(prog="soak-twice", description=__doc__, formatter_class=argparse.RawDescriptionHelpFormatter)
    parser.add_argument("count", nargs="?", type=standard.counted, default=20000, metavar="COUNT", help="how many lines (default: %(default)s)")
    return parser.parse_args()


def main() -> int:
    words, path, failed = parse_words(), program.or_end(), 0
    for seed in SEEDS:
        ran = [subprocess.run([path, "soak", str(seed), str(words.count)], stdout=subprocess.PIPE, text=True, check=False) for _ in range(2)]
        if any(one.returncode for one in ran) or ran[0].stdout != ran[1].stdout:
            failed = 1
            print(f"seed {seed} differs or failed")
        print(seed, *ran[0].stdout.split())
    return failed


if __name__ == "__main__":
    standard.end(main)
