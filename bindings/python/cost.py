"""What a call costs through the package, in µs: `python3 bindings/python/cost.py`. Rows of docs/BENCH.md.

The least of some 200 runs of a millisecond; `bindings/rust/examples/cost.rs` has the C calls beside it.
"""
import os
import resource
import sys
import time

sys.path.insert(0, os.path.dirname(os.path.abspath(__file__)))
import turning  # noqa: E402


def least(call, budget=1e-3, runs=200):
    start = time.perf_counter()
    for _ in range(20):
        call()
    calls = max(3, int(budget / max((time.perf_counter() - start) / 20, 1e-7)))
    best = float("inf")
    for _ in range(runs):
        start = time.perf_counter()
        for _ in range(calls):
            call()
        best = min(best, (time.perf_counter() - start) / calls)
    return 1e6 * best


def main():
    print("| call | µs |\n|---|---|")
    print(f"| root | {least(lambda: turning.root(2.0)):.2f} |")
    for n in (12, 512, 4096):
        stock = turning.Stock(turning.Spec(0, n, 30, 0, 1))
        own = stock.copy()

        def both():
            own.commit(own.thread_cut(z0=-2.0, z1=-1.0, radius=20.0))

        print(f"| envelope_at, {n} bins | {least(lambda: stock.envelope_at(3.5)):.2f} |")
        print(f"| range, {n} bins | {least(lambda: stock.range(3.5, 9.5)):.2f} |")
        print(f"| thread_cut over 6 of {n} bins | {least(lambda: stock.thread_cut(z0=3.0, z1=9.0, radius=20.0)):.2f} |")
        print(f"| preview and commit with no change, {n} bins | {least(both):.2f} |")

    lines = [b"bar\t0\t512000\t30000\t0\t1000\n"]
    for k in range(99_999):
        lines.append(b"thread_cut\t%d\t%d\t%d\n" % (k % 500_000, k % 500_000 + 9000, 29_000 - k % 20_000))
    text = b"".join(lines)
    before = resource.getrusage(resource.RUSAGE_SELF).ru_maxrss
    for name, part in (("in one part", len(text)), ("in parts of 64 KiB", 1 << 16), ("line by line", None)):
        start = time.perf_counter()
        job = turning.Job()
        if part is None:
            for line in lines:
                job.write(line)
        else:
            for k in range(0, len(text), part):
                job.write(text[k : k + part])
        stock = job.finish()
        assert stock.generation == 99_999
        print(f"| a job of 100,000 lines, {name} | {1e6 * (time.perf_counter() - start):.0f} |")
    after = resource.getrusage(resource.RUSAGE_SELF).ru_maxrss
    print(f"| memory that the three jobs took more, KiB | {after - before} |")
    print(f"| memory of the process at most, KiB | {after} |")


if __name__ == "__main__":
    main()
