"""The picture of the profiles, docs/profiles.svg: each is a ring around the profile before it."""

from __future__ import annotations

from types import SimpleNamespace
from typing import List
from xml.sax.saxutils import escape

# What each profile looks at, besides what the rings inside of it look at.
LOOKS = {
    "layout": "the header, the load commands, and where segments, sections, tables and symbols lie",
    "strict": "every byte: it belongs to one part of the file, or is zero or padding of code",
    "linked": "what a loader follows: fixups, exports, initializers, threads, symbols, relocations",
    "unambiguous": "what readers choose: slices, pages, names, addresses, load commands and the entry point",
    "sealed": "the code signature: the hash of every page, and the bytes between its blobs and after it",
}
WIDTH, EDGE = 840, 8
# How far a ring is inside the ring around it: at the top, where its text is, at the sides and at the bottom.
TOP, SIDE, BOTTOM = 58, 22, 14


def rings(profiles: List[SimpleNamespace], rules: List[SimpleNamespace]) -> List[str]:
    """The rings, the outermost first."""
    height = 2 * EDGE + len(profiles) * (TOP + BOTTOM) - BOTTOM
    lines = []
    for depth, profile in enumerate(reversed(profiles)):
        x, y = EDGE + depth * SIDE, EDGE + depth * TOP
        before = profiles[len(profiles) - depth - 2].name if depth < len(profiles) - 1 else ""
        count = sum(rule.profile == profile.name for rule in rules)
        what = f"{before} and {count} more rules" if before else f"{count} rules"
        lines += [
            f'<rect class="ring ring{len(profiles) - depth}" x="{x}" y="{y}" width="{WIDTH - 2 * x}" '
            f'height="{height - y - EDGE - depth * BOTTOM}" rx="10"/>',
            f'<text class="text" x="{x + 16}" y="{y + 25}"><tspan class="title">{profile.name}</tspan>: {what}</text>',
            f'<text class="faint" x="{x + 16}" y="{y + 45}">{escape(LOOKS[profile.name])}</text>']
    return lines
