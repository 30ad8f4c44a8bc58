"""python -m turning job FILE, show FILE, compare FIRST SECOND: what `./run-job`, `./show-job` and `./compare-stocks` print."""
import argparse
import sys
from typing import BinaryIO, List, Optional

from . import Job, Refused, Stock
from ._page import compared, page

_PART = 1 << 16


def _run(name: str, job: Job) -> None:
    def feed(file: BinaryIO) -> None:
        while True:
            part = file.read(_PART)
            if not part:
                break
            job.write(part)

    if name == "-":
        feed(sys.stdin.buffer)
    else:
        with open(name, "rb") as file:
            feed(file)


def _say(text: bytes) -> None:
    sys.stdout.buffer.write(text)
    sys.stdout.buffer.flush()


def _edition(text: str) -> int:
    if len(text) != 8 or any(digit not in "0123456789ABCDEF" for digit in text):
        raise ValueError
    return int(text, 16)


def _job(options: argparse.Namespace) -> int:
    edition = None
    if options.edition is not None:
        try:
            edition = _edition(options.edition)
        except ValueError:
            _say(b"refused\tedition\n")
            return 1
    on: Optional[Stock] = None
    kept: Optional[Refused] = None
    if options.start not in (None, "-"):
        try:
            on = Stock.read(options.start, max_cells=512)
            job = Job(on=on)
        except OSError as error:
            print(error, file=sys.stderr)
            kept = Refused(16, 1)
        except Refused as refused:
            kept = refused
    if kept is not None:
        said = f"refused\tstock\t{kept.place}\t16\n" if kept.number == 16 else f"refused\tstock\t{kept.number}\n"
        print(kept, file=sys.stderr)
        _say(said.encode())
        return 1
    if on is None:
        job = Job(edition=edition or 0)
    _run(options.file, job)
    try:
        stock = job.finish()
    except Refused as refused:
        print(refused, file=sys.stderr)
        _say(job.output())
        return 1
    if options.to not in (None, "-"):
        if edition is not None:
            stock.edition = edition
        try:
            stock.write(options.to)
        except OSError as error:
            print(error, file=sys.stderr)
            _say(b"unwritten\n")
            return 1
    _say(job.output())
    return 0


def _show(options: argparse.Namespace) -> int:
    job = Job()
    _run(options.file, job)
    try:
        text = page(job.finish())
    except Refused as refused:
        text = f"{refused}\n"
    _say(text.encode())
    return 0


def _compare(options: argparse.Namespace) -> int:
    stocks = []
    for k, name in enumerate((options.first, options.second), 1):
        try:
            stocks.append(Stock.read(name))
        except OSError as error:
            print(error, file=sys.stderr)
            _say(f"refused\t{k}\t1\t16\n".encode())
            return 1
        except Refused as refused:
            place = f"{refused.place}\t" if refused.number == 16 else ""
            _say(f"refused\t{k}\t{place}{refused.number}\n".encode())
            return 1
    try:
        _say(compared(*stocks))
    except Refused as refused:
        _say(f"refused\t{refused.number}\n".encode())
        return 1
    return 0


def main(arguments: Optional[List[str]] = None) -> int:
    parser = argparse.ArgumentParser(prog="python -m turning", description=__doc__)
    parts = parser.add_subparsers(dest="call", required=True)
    job = parts.add_parser("job", help="run a job and print what it leaves")
    job.add_argument("--from", dest="start", metavar="FROM", help="go on with the stock of this file")
    job.add_argument("--to", metavar="TO", help="keep the stock in this file")
    job.add_argument("--edition", help="under this edition, 8 digits in capitals")
    job.add_argument("file", nargs="?", default="-")
    job.set_defaults(run=_job)
    show = parts.add_parser("show", help="run a job and print what it leaves, for a person")
    show.add_argument("file", nargs="?", default="-")
    show.set_defaults(run=_show)
    both = parts.add_parser("compare", help="print what differs between two stock files")
    both.add_argument("first")
    both.add_argument("second")
    both.set_defaults(run=_compare)
    options = parser.parse_args(arguments)
    try:
        return options.run(options)
    except BrokenPipeError:
        return 1
    except OSError as error:
        print(f"{parser.prog}: {error}", file=sys.stderr)
        return 2


if __name__ == "__main__":
    sys.exit(main())
