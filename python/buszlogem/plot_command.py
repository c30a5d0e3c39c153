"""`python3 -m buszlogem plot`: the picture of a run."""

from __future__ import annotations

import argparse

from .command_words import add_kernel, add_options, add_strict, kernel_of, options_of, status_of_run
from .errors import OptionError
from .report import channel_number
from .run import prepare

ENDINGS = (".png", ".svg", ".pdf")


def add_command(commands: argparse._SubParsersAction[argparse.ArgumentParser]) -> None:
    """Adds the command to those of argparse."""
    parser = commands.add_parser(
        "plot",
        help="draws a run",
        description="Runs a kernel and draws what came out: a row for each channel over the time in us. Needs matplotlib.",
    )
    add_kernel(parser)
    add_picture(parser, required=True)
    parser.add_argument("--channels", metavar="NAME,..", help="the channels, from the top row down, as ttl0,in0")
    parser.add_argument("--window", metavar="US:US", help="the first and the last time, in us, as 120:345.5")
    add_strict(parser)
    add_options(parser)
    parser.set_defaults(do=_do)


def _do(parsed: argparse.Namespace) -> int:
    path = picture_of(parsed)
    channels, window = _channels(parsed.channels), read_window(parsed.window)
    job = prepare(kernel_of(parsed), **options_of(parsed))
    report = job.run()
    report.plot(channels=channels, window=window).figure.savefig(path)
    return status_of_run(job, report, parsed.strict)


def add_picture(parser: argparse.ArgumentParser, required: bool = False) -> None:
    """Adds the option that names the picture's file."""
    parser.add_argument(
        "-o", "--out", metavar="PICTURE", required=required, help="the file to write: its ending is .png, .svg or .pdf"
    )


def picture_of(parsed: argparse.Namespace) -> str:
    """The picture's file, where its ending is one that is known."""
    path: str = parsed.out
    if not path.endswith(ENDINGS):
        raise OptionError("out", path, f"a file that ends in {', '.join(ENDINGS)}")
    return path


def _channels(word: str | None) -> list[int] | None:
    if word is None:
        return None
    try:
        return [channel_number(int(name) if name.isdecimal() else name) for name in word.split(",")]
    except KeyError as error:
        raise OptionError("channels", word, f"names of channels with commas between them: {error.args[0]}") from error


def read_window(word: str | None) -> tuple[float, float] | None:
    """A window as the option writes it: two times in us with a colon between."""
    if word is None:
        return None
    try:
        first, last = map(float, word.split(":"))
    except ValueError:
        first = last = 0.0
    if not first < last:
        raise OptionError("window", word, "two times in us, the earlier one first, as 120:345.5")
    return first, last
