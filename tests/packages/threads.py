"""Has eight threads check the files under one filter, which is closed while they do: threads.py FILTER FILE..

Prints the answers of the first one, with the classes that were refused; says where another one's differ, and how many were told
that the filter is closed. Then whether short checks go on while a long one runs.
"""
import sys
import threading
import time
from concurrent.futures import ThreadPoolExecutor
from pathlib import Path

import serialcheck

THREADS, ROUNDS = 8, 10
# A long stream: so many nulls.
NULLS = 30_000_000


def told(answer):
    """An answer, with the class that was refused."""
    return f'{answer} "{answer.class_name}"' if answer.class_name is not None else str(answer)


def answers(check, files):
    """The answers to all files, which are the same in each round."""
    rounds = [[told(check.check(data)) for data in files] for _ in range(ROUNDS)]
    return rounds[0] if all(it == rounds[0] for it in rounds) else ["other answers in another round"]


def in_pieces(check, data):
    """The answer to the bytes as two pieces."""
    with check.stream() as stream:
        for piece in (data[: len(data) // 2], data[len(data) // 2 :]):
            stream.feed(piece)
        return str(stream.end())


def is_told_of_the_end(check, files, begun):
    """Checks until the filter is closed."""
    begun.wait()
    try:
        while True:
            for data in files:
                if str(check.check(data)) != in_pieces(check, data):
                    return False
    except ValueError as closed:
        return str(closed) == "serialcheck: closed"


def checks_beside_a_long_one():
    """How many short checks end while a long one under the same filter is in its first half."""
    check, short = serialcheck.Filter(), bytes.fromhex("aced0005")
    whole = short + b"\x70" * NULLS
    began = time.monotonic()
    check.check(whole)
    half = (time.monotonic() - began) / 2
    long = threading.Thread(target=check.check, args=(whole,))
    long.start()
    count, end = 0, time.monotonic() + half
    while time.monotonic() < end:
        check.check(short)
        count += 1
    long.join()
    return count


def main():
    text, *names = sys.argv[1:]
    files = [Path(it).read_bytes() for it in names]
    check, begun = serialcheck.Filter(text, anywhere=True), threading.Barrier(THREADS + 1)
    with ThreadPoolExecutor(THREADS) as pool:
        first, *others = pool.map(lambda _: answers(check, files), range(THREADS))
        print(*first, sep="\n")
        if any(it != first for it in others):
            print("another thread has other answers")
        ends = [pool.submit(is_told_of_the_end, check, files, begun) for _ in range(THREADS)]
        begun.wait()
        time.sleep(0.05)
        check.close()
        print(f"closed: {sum(it.result() for it in ends)}")
    print("short checks go on" if checks_beside_a_long_one() > 100 else "short checks wait")


if __name__ == "__main__":
    main()
