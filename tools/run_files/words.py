"""The words of a command line, and what the tools that read the files of a run have in common at their start and end."""
import argparse
import importlib
import sys

from run_files.records import FileFault

WRONG = 2  # the status where the words or a file are wrong, or a package is not there


class Once(argparse.Action):
    """An option that is given at most once."""

    def __call__(self, parser, words, value, option=None):
        if getattr(words, self.dest) is not None:
            parser.error(f"{option} is given twice")
        setattr(words, self.dest, value)


def whole_number(text):
    """The value of 1 to 20 decimal digits."""
    if not (text.isdigit() and text.isascii() and len(text) <= 20):
        raise argparse.ArgumentTypeError(f"{text!r} is no whole number")
    return int(text)


def parser_of(tool, text):
    """A parser of a tool's words; its help is the tool's own text."""
    return argparse.ArgumentParser(prog=tool, description=text, allow_abbrev=False,
                                   formatter_class=argparse.RawDescriptionHelpFormatter)


def needed(tool, name, package):
    """The module of this name; where its Debian package is not there, the tool says so and ends."""
    try:
        return importlib.import_module(name)
    except ImportError as error:
        sys.exit(said(tool, f"it needs Debian's package {package}, which {sys.executable} does not find ({error}): "
                            f"tools/setup installs it, or, as root, apt-get install {package}"))


def said(tool, text):
    """Says on standard error what is wrong, and gives the status for it."""
    print(f"{tool}: {text}", file=sys.stderr)
    return WRONG


def end(tool, main):
    """Ends the process with what a tool's main gives, and with WRONG where a file is not what it should be."""
    sys.stdout.reconfigure(errors="backslashreplace")
    sys.stderr.reconfigure(errors="backslashreplace")
    try:
        status = main()
        sys.stdout.flush()
    except FileFault as fault:
        status = said(tool, fault)
    except BrokenPipeError:
        sys.stdout = None
        status = WRONG
    except KeyboardInterrupt:
        status = 130
    sys.exit(status)
