#!/usr/bin/env python3
"""failed_allocations.py [FIRST [LAST [TEST]]]: runs the tests of crates/hop_tests, or those whose name has TEST, with their
Nth allocation failing, for N from FIRST up to LAST. It reports each test that ends otherwise than well, or by a clean want
of memory for its own text: where an entity is refused memory the test checks that nothing changed, calls it again, and
goes on. It stops where no allocation of the last 100 ended a test."""
import os, re, subprocess, sys

FOLDER = os.path.join(os.path.dirname(os.path.dirname(os.path.abspath(__file__))), "crates", "hop_tests")
WANT_OF_MEMORY = {"error: AllocError", "error: OutOfMemory", "error: Memory", "no memory"}

# Each row of a table allocates for its text, so that fewer than these stand between two that end a test.
MOST_IN_A_ROW = 100

def failures(number, names):
    """The tests that failed with that allocation, each with what it said."""
    call = ["rt", "try", "--test", "--fail-alloc", str(number), *names]
    run = subprocess.run(call, cwd=FOLDER, capture_output=True, text=True)
    tests = re.split(r"^test (?=\S+ \.\.\. )", run.stdout + run.stderr, flags=re.M)[1:]
    if not tests:
        sys.exit(run.stdout + run.stderr)
    return [(test.split()[0], test) for test in tests if " ... FAILED" in test.splitlines()[0]]

def is_clean(said):
    lines = {line.strip() for line in said.splitlines()}
    return bool(lines & WANT_OF_MEMORY) and "the test failed: its result gives status 1" in lines

def main():
    words = sys.argv[1:]
    first, last = (int(word) for word in words[:2] + ["1", "1000000"][len(words):])
    names = ["--", *words[2:]] if words[2:] else []
    unclean, last_ended = 0, first
    for number in range(first, last + 1):
        failed = failures(number, names)
        for name, said in failed:
            if not is_clean(said):
                unclean += 1
                print("allocation %d: %s" % (number, said), flush=True)
        print("allocation %d: %d tests ended by it" % (number, len(failed)), flush=True)
        if failed:
            last_ended = number
        elif number - last_ended > MOST_IN_A_ROW:
            break
    print("%d ended otherwise than by a clean want of memory" % unclean)
    sys.exit(unclean > 0)

if __name__ == "__main__":
    main()
