#!/usr/bin/env python3
"""Builds the proved hop and the plain one, plays the same cases over both, and prints what they cost (README.md)."""
import os, re, subprocess, sys, tempfile

HERE = os.path.dirname(os.path.abspath(__file__))
TOP = os.path.dirname(HERE)
REFERENCE = HERE + "/out/reference"
OURS = TOP + "/crates/hop_bench/out/hop_bench"

# What is played: bits, SDUs, bytes, grant, lost of 1,000, outstanding, turn. N is the number of SDUs.
CASES = [
    ("12 bits, 40 B", (12, 20_000, 40, 9_100, 0, 2_048, 64)),
    ("12 bits, 40 B, 5% lost", (12, 20_000, 40, 9_100, 50, 2_048, 64)),
    ("12 bits, 1,400 B", (12, 4_000, 1_400, 9_100, 0, 2_048, 64)),
    ("12 bits, 1,400 B, 5% lost", (12, 4_000, 1_400, 9_100, 50, 2_048, 64)),
    ("12 bits, 1,400 B in PDUs of 200, 5% lost", (12, 2_000, 1_400, 200, 50, 2_048, 64)),
    ("18 bits, 65,536 outstanding, 40 B, 5% lost", (18, 65_536, 40, 9_100, 50, 65_536, 65_536)),
    ("12 bits, 9,000 B in PDUs of one byte", (12, 2, 9_000, 5, 0, 2_048, 64)),
]
WINDOW = (18, 65_536, 1_400, 9_100, 0, 65_536, 65_536)

def build():
    os.makedirs(HERE + "/out", exist_ok=True)
    subprocess.run(["rustc", "-O", "--edition", "2024", "-o", REFERENCE, HERE + "/reference.rs"], check=True)
    folder = TOP + "/crates/hop_bench"
    words = open(folder + "/args").read().split()
    subprocess.run(["rt", "run", "--", *words], cwd=folder, check=True, stdout=subprocess.DEVNULL, stderr=subprocess.DEVNULL)

def line_of(program, words):
    """What a program writes of a case."""
    return subprocess.run([program, *map(str, words)], check=True, capture_output=True, text=True).stdout

def instructions(program, words):
    call = ["valgrind", "--tool=callgrind", "--callgrind-out-file=/dev/null", program, *map(str, words)]
    return int(re.search(r"Collected : (\d+)", subprocess.run(call, check=True, capture_output=True, text=True).stderr)[1])

def instructions_per_sdu(program, words):
    bits, sdus, *rest = words
    return (instructions(program, (bits, 2 * sdus, *rest)) - instructions(program, words)) / sdus

def usage(call, stdin=subprocess.DEVNULL):
    """Processor seconds and peak memory in MB of a call."""
    with subprocess.Popen(call, stdin=stdin, stdout=subprocess.DEVNULL) as process:
        _, status, used = os.wait4(process.pid, 0)
        process.returncode = os.waitstatus_to_exitcode(status)
    if process.returncode:
        sys.exit("%s: status %d" % (call, process.returncode))
    return used.ru_utime + used.ru_stime, used.ru_maxrss / 1024

def dear_script(size):
    """A script of `size` bytes: half of it SDUs of 9,000 bytes, half `repeat` of the STATUS that names all but the last."""
    submit = "submit 1 1 ul " + "61" * 9_000 + "\n"
    sdus = size // 2 // len(submit)
    lines = ["relayscript 1\nremote 1\nbearer 1 1 12 12\ngo\n", submit * sdus, "grant d1.1 ul 65535\n" * sdus]
    lines += ["deliver %d\n" % sdus, "expire d1.1 high reasm\n" * 2, "grant d1.1 dl 65535\n"]
    again = "repeat %d\n" % (sdus + 1)
    return "".join(lines) + again * ((size - len("".join(lines))) // len(again))

def main():
    build()
    print("| Case | Plain, instr/SDU | Proved, instr/SDU | Ratio | Sums |\n|---|---|---|---|---|", flush=True)
    for name, words in CASES:
        plain, proved = (instructions_per_sdu(program, words) for program in (REFERENCE, OURS))
        same = line_of(REFERENCE, (*words, "sum")) == line_of(OURS, (*words, "sum"))
        print("| %s | %s | %s | %.2f | %s |" % (name, format(round(plain), ","), format(round(proved), ","), proved / plain, "equal" if same else "DIFFER"), flush=True)
    plain, proved = (usage([program, *map(str, WINDOW)]) for program in (REFERENCE, OURS))
    print("\n65,536 SDUs of 1,400 B outstanding, 18 bits: peak %.0f MB plain, %.0f MB proved" % (plain[1], proved[1]), flush=True)
    subprocess.run([TOP + "/relayplay", "play"], stdin=subprocess.DEVNULL, stdout=subprocess.DEVNULL)
    with tempfile.TemporaryFile() as script:
        script.write(dear_script(1_000_000).encode())
        script.seek(0)
        print("A script of 1 MB that repeats one STATUS over SDUs of 9,000 B: %.2f processor seconds" % usage([TOP + "/crates/relayplay/out/relayplay", "play"], script)[0])

if __name__ == "__main__":
    main()
