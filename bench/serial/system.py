"""Writes N by N scripts with their files, with lines that end in CR LF: a.txt and c.txt of N by N words, and b.txt of four right sides.

`system.py N` writes s.txt, which factors A, solves for the four right sides and prints all; `system.py N commands` writes a script that only
reads A and a matrix C of as many rows and columns (read.txt), and one for each command that is counted, which goes on from there.

The words are those of a linear congruential generator that starts at 18, without its first three draws: A first, row by row."""
import sys

n = int(sys.argv[1])
state = 18


def draw():
    global state
    state = (state * 6364136223846793005 + 1442695040888963407) % 2**64
    return state // 2**32


def write(name, rows, columns):
    with open(name, "w", newline="") as file:
        for _ in range(rows):
            file.write(" ".join(str(draw() % 65537) for _ in range(columns)) + "\r\n")


def write_script(name, lines):
    with open(name, "w") as file:
        file.write("\n".join(lines) + "\n")


def write_system():
    write("b.txt", n, 4)
    write_script("s.txt", [
        "grid g 2 3 0",
        f"matrix A g {n} {n} 16 16 0 1 a.txt",
        f"matrix B g {n} 4 16 16 0 0 b.txt",
        f"pgetrf {n} {n} A 1 1 V",
        f"pgetrs N {n} 4 A 1 1 V B 1 1",
        "pivots V",
        "print A",
        "print B",
    ])


def write_commands():
    write("c.txt", n, n)
    read = ["grid g 1 1 0", f"matrix A g {n} {n} 16 16 0 0 a.txt", f"matrix C g {n} {n} 16 16 0 0 c.txt"]
    factor = read + [f"pgetrf {n} {n} A 1 1 V"]
    write_script("read.txt", read)
    write_script("pgetrf.txt", factor)
    write_script("pgetri.txt", factor + [f"pgetri {n} A 1 1 V C 1 1"])
    for trans in "NT":
        write_script(f"pgetrs_{trans}.txt", factor + [f"pgetrs {trans} {n} {n} A 1 1 V C 1 1"])
    for side in "LR":
        for trans in "NT":
            write_script(f"ptrsm_{side}_{trans}.txt", read + [f"ptrsm {side} L {trans} U {n} {n} 1 A 1 1 C 1 1"])


for _ in range(3):
    draw()
write("a.txt", n, n)
if len(sys.argv) > 2:
    write_commands()
else:
    write_system()
