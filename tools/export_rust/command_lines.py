"""Command lines of `kbsim`, made from a number: the same number gives the same words on every machine."""

import random

COMMANDS = ["run", "run", "run", "parse", "describe", "help"]

# Words, right ones and wrong ones: names, options with and without values, flags in bundles, what no option is.
WORDS = ["run", "describe", "parse", "help", "ru", "descrip", "pars", "hepl", "play", "a", "3", "9", "x", "", "-", "--", "---", "=",
         "--pages", "--pages=3", "--pages=9", "--pages=", "--pages=x", "--pages=-1", "--image", "--image=a", "--image=", "--save",
         "--save=b", "--save=--pages", "--from", "--from=c", "--from=bytes", "--from=", "--from=byte", "--from=x", "--form", "c", "hex", "--items", "--items=x", "--items=", "--explain", "--explain=x", "-1", "-h", "--help", "--help=x", "-V", "--version", "-hV",
         "-hx", "-xh", "-x", "-p", "-=", "--=", "--imag", "--pagse", "--pagse=3", "--item", "--itmes=4", "--page", "--zzz", "--hlp",
         "--ver", "--versio=3", "\u00e4", "--\u00e4"]


def command_line(number):
    """The words of this number, without the program's name."""
    made = random.Random(number)
    words = [made.choice(WORDS) for _ in range(made.randrange(6))]
    return [made.choice(COMMANDS), *words] if made.random() < 0.7 else words
