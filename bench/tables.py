"""The figures as tables in Markdown."""

from typing import NamedTuple

NONE = "–"
NOT_SERVED = "not served"


class Figure(NamedTuple):
    """What a side took, and what is wrong with it: where anything is, the numbers say nothing."""

    seconds: float
    elapsed: float
    peak: float
    fault: str


def cells(*texts):
    return "| " + " | ".join(texts) + " |"


def head(*names):
    return [cells(*names), "|" + "---|" * len(names)]


def one_line(text):
    """A text as it can stand in a cell."""
    return " ".join(text.split()).replace("|", "\\|")


def aim_told(aim, ratio):
    """An aim, and whether it is met."""
    if aim is None:
        return ""
    told = f"at most {aim:.2f}"
    if ratio is None:
        return told
    return told + (": met" if ratio <= aim else ": missed")


def ratios(side, figures):
    """The seconds and the peak as parts of those that the side is held against, or nothing."""
    figure, other = figures[side.name], figures.get(side.against)
    if figure.fault or other is None or other.fault:
        return None, None
    return figure.seconds / other.seconds, figure.peak / other.peak


def ratio_told(ratio):
    return NONE if ratio is None else f"{ratio:.2f}"


def numbers_told(figure):
    """The cells of the numbers."""
    if figure.fault:
        return one_line(figure.fault), NONE, NONE
    return f"{figure.seconds:.3f}", f"{figure.elapsed:.3f}", f"{figure.peak:.1f}"


def side_row(name, side, figures):
    """The row of a side on an input of this name."""
    seconds, peak = ratios(side, figures)
    told = ratio_told(seconds), ratio_told(peak)
    return cells(name, side.name, *numbers_told(figures[side.name]), side.against or NONE, *told, aim_told(side.aim, seconds))


def figure_table(measured):
    """A row for each input and side."""
    lines = head("Input", "Side", "Seconds", "Elapsed", "Peak, MB", "Held against", "Seconds, ratio", "Peak, ratio", "Aim")
    for given, figures in measured:
        lines += [side_row(given.name, side, figures) for side in given.sides]
    return lines


def of_request(given, figure):
    """The microseconds that a request takes, or nothing."""
    return None if figure.fault else figure.seconds / given.requests * 1e6


def growth_row(name, banks):
    """What a request takes in each input, and how often what it takes in the first it takes in the last."""
    each = [of_request(given, figures[name]) for given, figures in banks]
    growth = None if None in (each[0], each[-1]) else each[-1] / each[0]
    return cells(name, *(NONE if one is None else f"{one:.2f}" for one in each), ratio_told(growth))


def growth_table(measured):
    """A row for each side of the bank: microseconds a request. Nothing where there is one bank alone."""
    banks = [(given, figures) for given, figures in measured if given.requests]
    if len(banks) < 2:
        return []
    lines = head("Microseconds a request", *(given.name for given, _ in banks), "Last to first")
    return lines + [growth_row(side.name, banks) for side in banks[0][0].sides]


def faults(measured):
    """What is wrong, a line each. What the program doesn't serve yet is no fault."""
    told = ((given.name, name, figure.fault) for given, figures in measured for name, figure in figures.items())
    return [f"{given}, {side}: {fault}" for given, side, fault in told if fault not in ("", NOT_SERVED)]
