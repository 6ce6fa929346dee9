#!/usr/bin/python3
"""What a question costs beside a plain run: how_cost.py KCONF FLAT CONFIG [COUNT] [SEED] [kconf options]

Counts the instructions of kconf --how with valgrind for COUNT questions of how.py (40), and divides them by those of a run that writes the .config
from the same files. Prints the factor of each question, with how it ended, and the median, 90 % and the most. JOBS runs are counted at once (2).
"""

import concurrent.futures
import os
import pathlib
import random
import re
import subprocess
import sys

from how import Facts, part, questions


def instructions(words):
    """How many instructions a run takes, and its status."""
    command = ["valgrind", "--tool=cachegrind", "--cache-sim=no", "--cachegrind-out-file=/dev/null", *words]
    ran = subprocess.run(command, stdin=subprocess.DEVNULL, capture_output=True, text=True, errors="replace", check=False)
    return int(re.search(r"I +refs: +([\d,]+)", ran.stderr)[1].replace(",", "")), ran.returncode, ran.stdout, ran.stderr


def ending(status, text, told):
    """How a question ended."""
    if status:
        return next(line for line in told.splitlines() if line.startswith("error ")).split(":")[0].removeprefix("error ")
    return f"{sum(not line.startswith('# ') or line.endswith(' is not set') for line in text.splitlines())} lines"


def main():
    kconf, flat, config = os.path.abspath(sys.argv[1]), pathlib.Path(sys.argv[2]).absolute(), pathlib.Path(sys.argv[3]).absolute()
    count, seed = (int(word) for word in (sys.argv[4:6] + ["40", "1"][len(sys.argv[4:6]) :]))
    words = [kconf, *sys.argv[6:], "--quiet-tree", "--config", str(config)]
    asked = questions(Facts(flat, config), random.Random(seed), 10 * count)[:count]
    plain = instructions([*words, "--out", "/dev/null", str(flat)])[0]
    print(f"{flat.stem} {config.name}: a plain run takes {plain / 1e6:.1f} million instructions", flush=True)
    factors = []
    with concurrent.futures.ThreadPoolExecutor(int(os.environ.get("JOBS", "2"))) as pool:
        runs = pool.map(lambda pair: instructions([*words, "--how", "=".join(pair), str(flat)]), asked)
        for (name, value), (number, *ended) in zip(asked, runs):
            factors.append(number / plain)
            print(f"  {factors[-1]:7.1f} {name}={value}: {ending(*ended)}", flush=True)
    median, most = part(factors, 0.5), part(factors, 0.9)
    print(f"{flat.stem} {config.name}: {len(factors)} questions: median {median:.1f}, 90 % {most:.1f}, most {max(factors):.1f} plain runs")


if __name__ == "__main__":
    main()
