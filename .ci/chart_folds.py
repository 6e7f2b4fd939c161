"""Rows of a sequence chart that are shown as fewer: cycles of cyclic data and of ticks, which are
folded into their first standing, and the ticks of all modules, which stand in one row."""

from dataclasses import dataclass

# the most rows of a cycle that is folded, and how often it stands there at least
LONGEST_CYCLE, FEWEST_REPEATS = 48, 3


@dataclass(frozen=True)
class Fold:
    """A cycle of so many rows that stands there so many times more than it is shown."""

    rows: int
    times: int
    has_ticks: bool


@dataclass(frozen=True)
class Round:
    """The ticks of the modules from the first on, as far as they came one behind the other and by
    the same milliseconds, and how many of their rows are shown."""

    milliseconds: int = 0
    modules: int = 0
    rows: int = 0

    def ticked(self, place, milliseconds, is_shown):
        """The round when the module at a place ticks, in a row that is shown or in none."""
        goes_on = place == self.modules and milliseconds == self.milliseconds
        if place and not goes_on:
            return Round()
        return Round(milliseconds, place + 1, (self.rows if place else 0) + is_shown)


def cycle_at(looks, start):
    """The length of the shortest cycle from a place on that stands there often enough to be folded,
    and how often it does; None where there is none."""
    for length in range(1, LONGEST_CYCLE + 1):
        cycle, repeats = looks[start : start + length], 1
        if None in cycle:
            return None
        while looks[start + repeats * length : start + (repeats + 1) * length] == cycle:
            repeats += 1
        if FEWEST_REPEATS <= repeats:
            return length, repeats
    return None


def fold(rows):
    """Folds each cycle of cyclic data and of ticks into its first standing."""
    looks, start = [row.look for row in rows], 0
    while start < len(rows):
        found = cycle_at(looks, start)
        if not found:
            start += 1
            continue
        length, repeats = found
        has_ticks = any(look.cause == "tick" for look in looks[start : start + length])
        rows[start + length - 1].fold = Fold(length, repeats - 1, has_ticks)
        for row in rows[start + length : start + repeats * length]:
            row.is_folded = True
        start += repeats * length


def can_join(rows):
    """Whether rows of ticks can stand at one height: all of them are shown, and no cycle ends with
    them that is folded and shorter than they are."""
    end = rows[-1].fold
    return not any(row.is_folded for row in rows) and (not end or len(rows) <= end.rows)


def join(rows, together):
    """The rows of ticks of all modules stand at the height of the first, where they can."""
    for first, count in together:
        group = rows[first : first + count]
        if can_join(group):
            group[0].joined = count - 1
            for row in group[1:]:
                row.is_joined = True
