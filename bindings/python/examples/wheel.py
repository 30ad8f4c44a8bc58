"""The wheel of examples/wheel.job: drilled, turned, bored, stepped; kept in a stock file, read back, and asked.

`python3 wheel.py FILE` writes the file of examples/wheel.stock, byte for byte, and prints what examples/wheel.out has. The same
program stands in C (examples/wheel.c) and in Rust (bindings/rust/examples/wheel.rs).
"""
import os
import sys

sys.path.insert(0, os.path.join(os.path.dirname(os.path.abspath(__file__)), ".."))
import turning  # noqa: E402


def main(path):
    wheel = turning.Stock(turning.Spec(z_min=0, z_max=12, outer=30, bore=0, cell=1))
    wheel.commit(wheel.drill(tip_z=-5, radius=5, cone=3))
    for side, rn, radius, start in [
        ("outer", 0.8, 28.8, -1),  # turn to 28
        ("inner", 0.4, 7.6, -1),  # bore to 8
        ("outer", 0.8, 15.8, 8.8),  # a step to 15 at the end
    ]:
        wheel.commit(wheel.line(a=(radius, start), b=(radius, 13), rn=rn, side=side))

    # Keep it, and go on with what was kept.
    wheel.write(path)
    with turning.open_stock(path, max_cells=512) as wheel:
        for b in wheel:
            ol, ou, il, iu = b.cell
            print(f"bin {b.index} from {b.z0:g} to {b.z1:g}: outer {ol:g} to {ou:g}, inner {il:g} to {iu:g}")
        most = wheel.range(7.5, 8.5)
        if most:
            print(f"from z 7.5 to 8.5 there may be metal from radius {most.bore_lower:g} to {most.outer_upper:g}")

        # A list is of the stock that it was taken of: the stock has gone on since.
        changes = wheel.thread_cut(z0=9, z1=12, radius=14)
        wheel.commit(changes)
        try:
            wheel.commit(changes)
            print("the same list again: made")
        except turning.Refused as refused:
            print(f"the same list again: {refused.number}")


if __name__ == "__main__":
    if len(sys.argv) != 2:
        sys.exit("usage: wheel.py FILE, the stock file to write")
    main(sys.argv[1])
