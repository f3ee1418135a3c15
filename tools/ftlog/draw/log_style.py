"""The stylesheet of a picture: its shapes, and its colours on a light and on a dark page."""

SHAPES = """
    text { font: 11px ui-monospace, SFMono-Regular, Menlo, Consolas, "DejaVu Sans Mono", monospace }
    .words { font: 11px system-ui, -apple-system, "Segoe UI", Arial, "DejaVu Sans", sans-serif }
    .title { font: 600 15px system-ui, -apple-system, "Segoe UI", Arial, "DejaVu Sans", sans-serif }
    .name { font-weight: 700 }
    .place { font-size: 9px; text-anchor: middle }
    .answer { text-anchor: end }
    .columns, .returns, .line { fill: none }
    .columns { stroke-width: .7 }
    .returns { stroke-dasharray: 1 3 }
    .line { stroke-width: 1.2 }
    .icon { stroke-width: 1.3; stroke-linejoin: round }
    .refusal path.icon, .miss path.icon { fill: none }
    .refused rect { stroke-dasharray: 5 3 }
    .refusal rect { stroke-dasharray: 4 2 }
    .miss rect { stroke-dasharray: 1 2 }
    .row .tag, .row .page { stroke: none }
    .in-window rect, .held rect { stroke-width: 2.5 }
    .changing rect:first-child { fill: url(#hatch) }
    .window rect { fill-opacity: .13; stroke-width: 1.2; stroke-dasharray: 6 3; pointer-events: none }
"""
# What is said of shapes that few pictures have, by their class.
MORE = {
    "ghost": """
    g.ghost rect { fill: none; stroke-dasharray: 3 3 }
    g.ghost path.icon { fill: none }
""",
    "again": """
    .again text { font-size: 9px }
""",
}
COLOURS = """
    text, .fetch { fill: %(ink)s }
    .muted { fill: %(muted)s }
    .page { fill: %(page)s }
    .panel { fill: %(panel)s }
    .columns { stroke: %(line)s }
    .returns, .line, .hatch, .row rect { stroke: %(edge)s }
    .command rect, .list rect, .normal rect { fill: %(normal)s }
    .softirq rect { fill: %(softirq)s }
    .irq rect { fill: %(irq)s }
    .nmi rect { fill: %(nmi)s }
    .body rect, .command.refused rect { fill: %(page)s }
    .row .tag { fill: %(ink)s }
    .tagged { fill: %(page)s }
    .window rect { fill: %(window)s; stroke: %(window)s }
"""
HUE = """
    .u%(number)s rect { fill: %(fill)s; stroke: %(stroke)s }
    .u%(number)s .icon { fill: %(stroke)s; stroke: %(stroke)s }
"""
LIGHT = {"ink": "#1f2328", "muted": "#59636e", "page": "#ffffff", "panel": "#f6f8fa", "line": "#e1e6eb", "edge": "#6e7781",
         "normal": "#e9edf1", "softirq": "#dee4ea", "irq": "#d2dae2", "nmi": "#c5cfd9", "window": "#bf8700"}
DARK = {"ink": "#e6edf3", "muted": "#9198a1", "page": "#0d1117", "panel": "#151b23", "line": "#262d36", "edge": "#7d8590",
        "normal": "#222831", "softirq": "#2a323b", "irq": "#333c46", "nmi": "#3e4853", "window": "#d29922"}
# A fill and a stroke for each user on a light page, and on a dark one. A ninth user has those of the first: a box has its user's name, too.
HUES = [("#cfe5f7", "#0060a8", "#0f3556", "#5ab0f2"), ("#ffe3bd", "#a85b00", "#4a2d05", "#f0a13a"), ("#c9ecdf", "#00694c", "#0a3b2e", "#3fc79b"),
        ("#f1d9ea", "#93326f", "#46203a", "#e08cc0"), ("#fbd7c7", "#b03a00", "#4d1e0a", "#ff8a57"), ("#cdeff2", "#00707c", "#083b41", "#45c6d3"),
        ("#efe9b5", "#6b6100", "#3b3608", "#d0c13f"), ("#dcdaf5", "#4a41a8", "#29254f", "#a29bf5")]


def colours(palette, users, fill):
    """The rules of a palette, and of the users; their fills and strokes are from this place of a hue on."""
    hues = [HUE % {"number": number, "fill": hue[fill], "stroke": hue[fill + 1]} for number, hue in enumerate(HUES[:users])]
    return "".join([COLOURS % palette, *hues]).replace("\n\n", "\n")


def style(users, uses=()):
    """The stylesheet of a picture with this many users, which has shapes of these classes."""
    dark = colours(DARK, users, 2).replace("\n    ", "\n      ")
    more = "".join(rules for kind, rules in MORE.items() if kind in uses)
    text = f"<style>{SHAPES}{colours(LIGHT, users, 0)}{more}    @media (prefers-color-scheme: dark) {{{dark}    }}\n  </style>"
    return text.replace("\n\n", "\n")
