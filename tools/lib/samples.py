"""Samples of traces, for the scripts of tools/: what is said of one, and which trace one can be a sample of."""
import argparse
import re
from collections import namedtuple

from .options import as_called, whole_number

# What is known of a sample: the N of its rate 1/N, how many accesses the whole trace has, and how many it has itself.
Sample = namedtuple("Sample", "inverse accesses kept", defaults=(None, None))
SAID = re.compile(r"([0-9]+) of ([1-9][0-9]*) accesses, [0-9]+ blocks: --sampled (1/[0-9]+) --accesses \2")


def inverse_of_rate(text):
    """The N of a rate 1/N of a sample, where N is a power of two: such a rate alone leaves a capacity and its part of
    it in the same place between two powers of two."""
    upper, _, lower = text.partition("/")
    number = int(lower) if upper == "1" and lower.isascii() and lower.isdigit() else 0
    if number < 2 or number & number - 1 or number > 1 << 20:
        raise argparse.ArgumentTypeError(f"{text} is no rate 1/2, 1/4, 1/8 and so on")
    return number


def named(text):
    """The sample that --sampled names: by its rate, or by a file with what was said."""
    try:
        with open(text, encoding="utf-8", errors="replace") as file:
            said = SAID.findall(file.read())
    except OSError:
        said = []
    try:
        if not said:
            return Sample(inverse_of_rate(text))
        kept, accesses, rate = said[-1]
        return Sample(inverse_of_rate(rate), int(accesses), int(kept))
    except argparse.ArgumentTypeError as fault:
        raise argparse.ArgumentTypeError(as_called(f"{fault}, nor a file with what tools/sample said")) from None


def add_options(parser, what):
    """The options of a script that takes a sample, or what was made of one."""
    parser.add_argument("--sampled", type=named, metavar="1/N",
                        help=as_called(f"{what} from a sample by tools/sample, of this rate: estimate the whole trace. "
                                       "In place of 1/N and --accesses also a file with what tools/sample said of it, "
                                       "which has to fit exactly"))
    parser.add_argument("--accesses", type=whole_number(1 << 60), metavar="N",
                        help="with --sampled 1/N: the accesses of the whole trace. Refused where those of the sample "
                             "times N are over twice as many or under half, or where it has no fewer")


def settle(parser, args):
    """Puts the N of the rate in the place of what --sampled named, and the accesses of the whole trace beside it."""
    args.sample, args.usage_error = args.sampled, parser.error
    if args.sample and args.sample.accesses and args.accesses:
        parser.error("--accesses is said by the file of --sampled")
    args.sampled = args.sample and args.sample.inverse
    args.accesses = args.sample and args.sample.accesses or args.accesses
    if bool(args.sampled) != bool(args.accesses):
        parser.error("--sampled 1/N and --accesses go together")


def check_accesses(args, where, accesses):
    """Ends a script whose sample has so many accesses, where it cannot be the one that the arguments name.

    A sample at 1/N has about one access in N of the whole trace; how far it is off depends on the most used blocks.
    Where one has a tenth of the accesses, the sample is named by what tools/sample said, which is compared exactly.
    """
    if not args.sampled:
        return
    kept, whole, stands_for = args.sample.kept, args.accesses, accesses * args.sampled
    if kept is not None and accesses != kept:
        args.usage_error(f"{where}it has {accesses} accesses, and the sample that --sampled names has {kept}")
    if kept is None and not (whole <= 2 * stands_for and stands_for <= 2 * whole and accesses < whole):
        args.usage_error(as_called(
            f"{where}its {accesses} accesses at 1/{args.sampled} stand for {stands_for}, far from --accesses {whole}: "
            "is it that sample? Where a few blocks have most accesses, name the file with what tools/sample said"))
