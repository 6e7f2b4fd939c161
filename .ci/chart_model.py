"""What `cipview chart` shows, worked out from docs/VIEWS.md and never from the program's chart.

It is worked out of the topology, of the JSON of the same transcript as .ci/json_view.py has it, and
of what `cipview text` shows, from which come the sentences of messages. What a chart has is in
chart_rows.py and chart_folds.py, where it stands in chart_layout.py, and how it is drawn in
chart_drawing.py and chart_style.py.
"""

import os

from chart_drawing import page, svg
from chart_layout import Layout
from chart_rows import chart_of

# how much is shown before and behind the first byte that differs
BEFORE, BEHIND = 60, 90


def difference(now, wanted):
    """Where two texts begin to differ; nothing where they are the same."""
    if now == wanted:
        return ""
    place = len(os.path.commonprefix([now, wanted]))
    begin, end = max(place - BEFORE, 0), place + BEHIND
    return f"at byte {place:,}: {now[begin:end]!r} and not {wanted[begin:end]!r}"


def chart_bytes(shown_json, shown_text, topology, cut, is_page):
    """The chart of a transcript as SVG, or on a page."""
    chart = chart_of(shown_json.decode(), shown_text.decode(), topology, cut)
    layout = Layout(chart)
    return "".join((page if is_page else svg)(chart, layout)).encode()


def chart_differs(shown, shown_json, shown_text, topology, cut, is_page):
    """What differs in a chart that was shown of a transcript over a topology, cut so, as SVG or on
    a page; nothing where it is as it is worked out of the JSON and the text of the transcript."""
    try:
        wanted = chart_bytes(shown_json, shown_text, topology, cut, is_page)
    except (KeyError, StopIteration, TypeError, ValueError) as fault:
        return f"no chart of this JSON and this text: {fault!r}"
    return difference(shown, wanted)
