#!/usr/bin/env python3
"""random_runs.py [COUNT]: plays cases by chance over the proved hop and the plain one, 60 unless told otherwise, and
compares all octets that they send and hand up, by their sums."""
import random, re, sys
sys.dont_write_bytecode = True
from compare import OURS, REFERENCE, build, line_of

def case(dice):
    bits, size, grant, lost = dice.choice([12, 18]), dice.randint(1, 1_400), dice.randint(7, 9_100), dice.randint(0, 400)
    outstanding, turn = dice.choice([1, 2, 30, 500, 2_048, 5_000]), dice.choice([1, 7, 64, 4_096])
    sdus = max(20, min(5_000, 40_000 // (1 + size // (grant - 5))))
    return bits, sdus, size, grant, lost, outstanding, turn

def main():
    count = int(sys.argv[1]) if len(sys.argv) > 1 else 60
    dice = random.Random(38_322)
    build()
    pdus = differences = 0
    for _ in range(count):
        words = case(dice)
        plain, proved = (line_of(program, (*words, "sum")) for program in (REFERENCE, OURS))
        pdus += sum(map(int, re.findall(r"(\d+) (?:data|STATUS) PDUs", plain)))
        if plain != proved:
            differences += 1
            print("%s\n  plain  %s  proved %s" % (" ".join(map(str, words)), plain, proved), end="")
    print("%d cases, %d PDUs, %d differences" % (count, pdus, differences))
    sys.exit(differences > 0)

if __name__ == "__main__":
    main()
