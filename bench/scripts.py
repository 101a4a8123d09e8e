#!/usr/bin/env python3
"""Times the built program on large scripts, each beside other programs on the same bytes in the same run.

The scripts are the same in every run:

    comments   64 files of 1 MiB, each one comment: what it costs to read heads and bodies
    text       one file of 1 MiB of ordinary declarations, without a check: its tokens and its tree
    names      a million functions of a million names in 50 files, then a check
    edits      2,000 files of 20 functions and a check, and then 200 times one file written anew and a check

    bench/scripts.py [RUNS]          times each program RUNS times (10 if left out) and prints the best of each
    bench/scripts.py --print NAME    writes a script to standard output
"""
import os
import subprocess
import sys
import tempfile
import time

TOP = os.path.dirname(os.path.dirname(os.path.realpath(__file__)))
MIB = 1 << 20
CHECK = b"check\n"


def put(name, text):
    """The command that puts a file."""
    return b"file %s %d\n%s\n" % (name.encode(), len(text), text)


def comments():
    text = b"/*" + (b" a line of a comment, of forty-two bytes: ok\n" * (MIB // 44))[: MIB - 4] + b"*/"
    return b"".join(put(f"c{number}.hack", text) for number in range(64))


def declarations(number):
    """Some declarations of several sorts."""
    return (
        f"interface Shape{number} {{ public function area(int $scale): float; }}\n"
        f"final class Circle{number} extends Base<string, vec<int>> implements Shape{number} {{\n"
        f"  const float PI = 3.14159;\n"
        f"  public function __construct(private float $radius, ?string $name = null) {{}}\n"
        f"  public function area(int $scale): float {{\n"
        f"    // a circle's area, scaled\n"
        f"    $result = self::PI * $this->radius ** 2 * $scale;\n"
        f"    foreach ($this->marks as $key => $mark) {{\n"
        f"      if ($mark > 10 && $key !== 'none') {{ $result += $mark; }} else {{ continue; }}\n"
        f"    }}\n"
        f"    return $result;\n"
        f"  }}\n"
        f"}}\n"
        f"function total{number}(vec<Shape{number}> $shapes, dict<string, int> $scales): float {{\n"
        f"  $sum = 0.0;\n"
        f"  while ($sum < 1000) {{ $sum = $sum + $shapes[0]->area($scales['all'] ?? 1); }}\n"
        f"  return $sum;\n"
        f"}}\n"
    ).encode()


def text():
    pieces, size, number = [], 0, 0
    while True:
        piece = declarations(number)
        if size + len(piece) > MIB:
            return put("text.hack", b"".join(pieces))
        pieces.append(piece)
        size += len(piece)
        number += 1


def function(index, count, turn=0):
    """A function that calls another; one in a hundred returns a literal of the wrong type."""
    value = b"'x'" if (index + turn) % 100 == 0 else b"f%d()" % ((index * 7 + turn) % count)
    return b"function f%d(): int { return %s; }\n" % (index, value)


def functions(file, each, count, turn=0):
    """A file of `each` functions out of `count`."""
    first = file * each
    body = b"".join(function(index, count, turn) for index in range(first, first + each))
    return put(f"d{file}.hack", body)


def names():
    return b"".join(functions(file, 20_000, 1_000_000) for file in range(50)) + CHECK


def whole():
    return b"".join(functions(file, 20, 40_000) for file in range(2_000)) + CHECK


def edits():
    return whole() + b"".join(functions(turn * 7 % 2_000, 20, 40_000, turn) + CHECK for turn in range(1, 201))


SCRIPTS = {"comments": comments, "text": text, "names": names, "whole": whole, "edits": edits}
BESIDE = (["cat"], ["wc", "-c"], ["wc", "-w"])


def seconds(command, path):
    """How long one run takes, from its start to its end, with the script as its input."""
    with open(path, "rb") as script, open(os.devnull, "wb") as nowhere:
        begin = time.perf_counter()
        status = subprocess.run(command, stdin=script, stdout=nowhere, check=False).returncode
        end = time.perf_counter()
    if status != 0:
        sys.exit(f"{command[0]} failed with {status}")
    return end - begin


def best_times(commands, path, runs):
    best = [float("inf")] * len(commands)
    for _ in range(runs):
        for at, command in enumerate(commands):
            best[at] = min(best[at], seconds(command, path))
    return best


def main():
    words = sys.argv[1:]
    if words[:1] == ["--print"] and len(words) == 2 and words[1] in SCRIPTS:
        sys.stdout.buffer.write(SCRIPTS[words[1]]())
        return
    runs = int(words[0]) if words else 10

    # The wrapper builds the program where that is needed.
    subprocess.run([f"{TOP}/bin/hack_server"], stdin=subprocess.DEVNULL, check=True)
    program = f"{TOP}/crates/hack_server/out/hack_server"
    print(f"best of {runs} runs, from start to end, in ms; behind each other program how many times as long the server takes")
    print(f"{'script':<10} {'MiB':>7} {'server':>9} " + " ".join(f"{' '.join(command):>8} {'':>6}" for command in BESIDE))
    times = {}
    with tempfile.TemporaryDirectory() as folder:
        for name, make in SCRIPTS.items():
            path = os.path.join(folder, name)
            with open(path, "wb") as out:
                out.write(make())
            best = best_times([[program], *BESIDE], path, runs)
            times[name] = best[0]
            others = " ".join(f"{other * 1e3:>8.1f} {best[0] / other:>6.1f}" for other in best[1:])
            print(f"{name:<10} {os.path.getsize(path) / MIB:>7.2f} {best[0] * 1e3:>9.1f} {others}")
    one = (times["edits"] - times["whole"]) / 200
    print(f"one file written anew and a check, after {times['whole'] * 1e3:.1f} ms for the whole: {one * 1e3:.2f} ms, {times['whole'] / one:.1f} times less")


if __name__ == "__main__":
    main()
