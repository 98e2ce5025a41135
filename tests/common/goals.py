"""What a script prints beside its figures: how far it is, the lines of a table, and its goals."""

import sys


def tell(line):
    """Tells how far the run is."""
    print(line, file=sys.stderr, flush=True)


def line_of(cells):
    return "".join(f"{cell:>11}" for cell in cells)


def spread(ratios):
    """The least and the greatest of some rounds, and how many there are; nothing of one round."""
    return f" ({min(ratios):.3f}-{max(ratios):.3f} of {len(ratios)})" if len(ratios) > 1 else ""


def goal(name, ratio, least=None, most=None, of=()):
    """Prints a goal, and whether it is met, or a ratio that has none; behind it the spread of those that it is of."""
    limit = "" if least is None and most is None else f", at least {least}" if most is None else f", at most {most}"
    if ratio is None:
        print(f"{name}{limit}: not measured")
        return
    is_met = ratio >= (least or 0) if most is None else ratio <= most
    print(f"{name}{limit}: {ratio:.3f}{spread(of)}, {'no goal' if not limit else 'met' if is_met else 'missed'}")
