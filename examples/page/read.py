#!/usr/bin/env python3
"""Reads a page of page.py from standard input, and prints the statuses that it shows: a line for each pipeline and each job.

It ends with 1, and says why on standard error, where the page isn't whole or could fetch or run anything: an element that isn't closed,
one that a page has no use for, an attribute with a place outside of it, a link that leads nowhere.
"""
import html.parser
import re
import sys

ELEMENTS = set("html head meta title style body svg defs marker path circle rect text a h1 h3 p small b bdi span details summary pre article div".split())
ATTRIBUTES = set("lang charset http-equiv content name class id href open width height viewbox role aria-label aria-hidden x y rx r cx cy d".split())
ATTRIBUTES |= {"refx", "refy", "markerwidth", "markerheight", "orient", "marker-end"}


class Page(html.parser.HTMLParser):
    def __init__(self):
        super().__init__()
        self.open, self.ids, self.links, self.faults, self.shown = [], [], [], [], []
        self.of = self.chip = None
        self.boxes = {}

    def handle_starttag(self, tag, attributes):
        named = dict(attributes)
        self.faults += [f"element {tag}"] if tag not in ELEMENTS else []
        self.faults += [f"attribute {it}" for it in named if it not in ATTRIBUTES]
        self.faults += [f"place {it}" for it in named.values() if it and ("url(" in it and it != "url(#tip)" or "//" in it)]
        if tag == "meta":
            return
        self.open.append(tag)
        self.ids += [named["id"]] if "id" in named else []
        self.links += [named["href"]] if "href" in named else []
        if tag in ("article", "details") and "id" in named:
            self.of = named["id"].replace("-", " ")
        if tag == "rect":
            self.boxes[self.links[-1][1:].replace("-", " ")] = named["class"]
        if tag == "span" and named.get("class", "").startswith("chip ") and self.of:
            self.shown.append(f"{self.of} {named['class'][5:]}")
            self.of = None

    def handle_startendtag(self, tag, attributes):
        self.handle_starttag(tag, attributes)
        self.open.pop()

    def handle_endtag(self, tag):
        if not self.open or self.open.pop() != tag:
            self.faults.append(f"{tag} is closed where it isn't open")

    def handle_decl(self, decl):
        self.faults += [] if decl == "DOCTYPE html" else [f"declaration {decl}"]


text = sys.stdin.buffer.read().decode()
page = Page()
page.feed(text)
page.close()
page.faults += [f"{it} isn't closed" for it in page.open]
page.faults += [f"{it} stands twice" for it in set(page.ids) if page.ids.count(it) > 1]
page.faults += [f"{it} leads nowhere" for it in page.links if it[1:] not in page.ids or it[0] != "#"]
page.faults += ["no policy"] if "default-src 'none'; style-src 'unsafe-inline'" not in text else []
page.faults += [f"control U+{ord(it):04X}" for it in set(re.findall(r"[\x00-\x08\x0b-\x1f\x7f\u202e]", text))]
page.faults += [f"box of {it} is {status}" for it, status in page.boxes.items() if f"{it} {status}" not in page.shown]
print("\n".join(page.shown))
for fault in page.faults:
    print(fault, file=sys.stderr)
sys.exit(1 if page.faults else 0)
