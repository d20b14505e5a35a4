#!/usr/bin/env python3
"""Draws docs/profiles.svg, the picture of the profiles: `docs/profiles.py >docs/profiles.svg`.

Each profile is a room within the next wider one. At each border stands a text that the wider one takes, and the
narrower one within it doesn't.
"""

# From the outermost room to the innermost: what it is, a text that the next room within doesn't have, and its colour on a
# light page and on a dark one.
ROOMS = (
    ("all texts", "http://[", "#f3f4f6", "#1f2430"),
    ("repaired, as browsers do", "http:\\\\example.com\\a b", "#fde8d7", "#4a3423"),
    ("parser's profile (--profile parser)", "file://h/C:/x", "#fff6cc", "#45401f"),
    ("wide profile (--wide)", "http://a_b//x", "#ddf0e3", "#234032"),
    ("standard profile (the default)", "https://example.com/a%20b", "#bfe3cb", "#2b5a43"),
)
# Of the texts and of the borders, on a light page and on a dark one.
INK, EDGE = ("#111827", "#e5e7eb"), ("#4b5563", "#9ca3af")
WIDTH, STEP, SIDE, INNERMOST = 440, 62, 14, 64
FONT = "font-family=\"DejaVu Sans, Verdana, sans-serif\""
MONO = "font-family=\"DejaVu Sans Mono, Menlo, monospace\""


def escaped(text):
    return text.replace("&", "&amp;").replace("<", "&lt;")


def style(page):
    """The rules of a style for a page: 0 for a light one, 1 for a dark one."""
    rooms = "".join(".room{} {{ fill: {} }} ".format(depth, colours[page]) for depth, (_, _, *colours) in enumerate(ROOMS))
    return "text {{ fill: {} }} rect {{ stroke: {} }} {}".format(INK[page], EDGE[page], rooms)


def room(depth, name, example):
    """A room with its name at the top, and the text on its lower border."""
    inner = len(ROOMS) - 1 - depth
    left, top = SIDE * depth + 1, 34 * depth + 1
    width, height = WIDTH - 2 * SIDE * depth - 2, INNERMOST + STEP * inner - 2
    return """
  <rect x="{left}" y="{top}" width="{width}" height="{height}" rx="10" class="room{depth}"/>
  <text x="{name_x}" y="{name_y}" {font} font-size="14">{name}</text>
  <text x="{text_x}" y="{text_y}" {mono} font-size="13" text-anchor="end">{example}</text>""".format(
        left=left, top=top, width=width, height=height, depth=depth, name_x=left + 14, name_y=top + 22, font=FONT,
        mono=MONO, name=escaped(name), example=escaped(example),
        text_x=left + width - 14, text_y=top + height - 9 if depth < len(ROOMS) - 1 else top + 46)


def main():
    height = INNERMOST + STEP * (len(ROOMS) - 1)
    print('<svg xmlns="http://www.w3.org/2000/svg" viewBox="0 0 {0} {1}" width="{0}" height="{1}" role="img">'.format(
        WIDTH, height), end="")
    print("\n  <title>Each profile within the next wider one, with a text that only the wider one takes</title>")
    print("  <style>{}@media (prefers-color-scheme: dark) {{ {}}}</style>".format(style(0), style(1)), end="")
    for depth, (name, example, *_) in enumerate(ROOMS):
        print(room(depth, name, example), end="")
    print("\n</svg>")


if __name__ == "__main__":
    main()
