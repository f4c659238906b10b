"""What a page to print is made of: elements of HTML, arrows between three parties, tables of bits. No script, nothing outside."""
import re
from xml.etree.ElementTree import Element, SubElement, tostring

CARD, TERMINAL, ISSUER = "card", "terminal", "issuer"
# Where the parties' lines stand from left to right, and where an arrow stands from above.
AT = {CARD: 24, TERMINAL: 226, ISSUER: 336}
HIGH = 22
# Characters of a label that fit between two parties.
FITS = {(CARD, TERMINAL): 34, (TERMINAL, ISSUER): 18}
NOT_IN_XML = re.compile("[^\t\n\r -\uD7FF\uE000-\uFFFD\U00010000-\U0010FFFF]")
STYLE = """
@page { size: A4; margin: 12mm }
html { -webkit-print-color-adjust: exact; print-color-adjust: exact }
body { font: 13px/1.4 "DejaVu Sans", "Helvetica Neue", Arial, sans-serif; color: #1b1b1b }
body { max-width: 1020px; margin: 16px auto; padding: 0 12px }
h1 { font-size: 20px; margin: 0 0 4px } h2 { font-size: 15px; margin: 22px 0 6px; break-after: avoid }
@media print { body { zoom: .74; max-width: none; margin: 0; padding: 0 } }
p { margin: 2px 0; overflow-wrap: anywhere } a { color: inherit }
code { font: 11px/1.35 "DejaVu Sans Mono", Menlo, Consolas, monospace; word-break: break-all }
table { border-collapse: collapse } td, th { text-align: left; vertical-align: top; padding: 2px 8px 2px 0; font-weight: normal }
table.talk { width: 100% } table.talk thead { display: table-header-group }
table.talk tr { break-inside: avoid } table.talk td { border-top: 1px solid #ececec }
td.strip, th.strip { position: relative; width: 360px; min-width: 360px; height: 36px; padding: 0 }
td.strip svg, th.strip svg { position: absolute; left: 0; top: 0; width: 360px; height: 100% }
td.said { padding: 3px 0 4px 10px } .said p { color: #444; font-size: 12px }
.number { color: #999; font-size: 10px; padding-right: 6px }
svg text { font-size: 10.5px; font-family: inherit } .party { font-weight: bold }
.life { stroke: #c4c4c4 } .command { stroke: #173f75; fill: #173f75 } .answer { stroke: #5a5a5a; fill: #5a5a5a }
.message { stroke: #1d6b39; fill: #1d6b39 } .lost { stroke: #c00d0d; fill: #c00d0d } .wanted { stroke: #a45a00; fill: #a45a00 }
.lost line, .wanted line { stroke-dasharray: 5 3 } .cross { stroke-width: 2 } svg text { stroke: none }
.head td, .head th { border-bottom: 1px solid #ddd; padding: 3px 14px 3px 0 } .head th { border-color: #999 }
.bits { display: inline-block; margin: 4px 18px 4px 0; vertical-align: top; break-inside: avoid }
.bits td, .bits th { border: 1px solid #ccc; width: 17px; text-align: center; padding: 1px 2px; font-size: 11px; color: #999 }
.bits th { border: none; color: #333 } .bits td.set { background: #ffb347; color: #000; font-weight: bold }
.bits caption { text-align: left; font-size: 12px }
.mark { padding: 1px 7px; border-radius: 8px; font-size: 12px; white-space: nowrap; background: #e4e4e4 }
.good { background: #cfeccf } .bad { background: #f6c4c4 } .open { background: #fbe6b8 }
.finding { border-left: 4px solid #c00d0d; padding-left: 8px; margin: 3px 0 } .finding.note { border-color: #d8a72a }
"""


def clean(text):
    """A text without the characters that no page may have."""
    return NOT_IN_XML.sub("\N{REPLACEMENT CHARACTER}", str(text))


def add(parent, tag, text=None, **attributes):
    """Puts an element at the end of another one, with this text; a last underscore of a name is left out. Gives it."""
    element = SubElement(parent, tag, {name.rstrip("_").replace("_", "-"): clean(value) for name, value in attributes.items()})
    element.text = None if text is None else clean(text)
    return element


def sheet(title):
    """A page with this title: the whole document, and its body to be filled."""
    page = Element("html", {"xmlns": "http://www.w3.org/1999/xhtml", "lang": "en"})
    head = add(page, "head")
    add(head, "meta", charset="utf-8")
    add(head, "meta", name="viewport", content="width=device-width, initial-scale=1")
    add(head, "title", title)
    add(head, "style", STYLE)
    body = add(page, "body")
    add(body, "h1", title)
    return page, body


def printed(page):
    """The page as text."""
    return "<!DOCTYPE html>\n" + tostring(page, "unicode", short_empty_elements=False) + "\n"


def table(parent, names, class_="head"):
    """A table with these names above its columns; gives its body."""
    whole = add(parent, "table", class_=class_)
    row = add(add(whole, "thead"), "tr")
    for name in names:
        add(row, "th", name)
    return add(whole, "tbody")


def talk(parent):
    """A table for exchanges, with the parties' names above, on each sheet of paper; gives its body."""
    whole = add(parent, "table", class_="talk")
    row = add(add(whole, "thead"), "tr")
    drawing = add(add(row, "th", class_="strip"), "svg", xmlns="http://www.w3.org/2000/svg")
    for party, x in AT.items():
        add(drawing, "text", party, x=x, y=18, text_anchor="middle", class_="party")
        add(drawing, "line", x1=x, x2=x, y1=24, y2="100%", class_="life")
    add(row, "th")
    return add(whole, "tbody")


def strip(row):
    """The cell of a row in which arrows stand, with the three parties' lines; gives its drawing."""
    drawing = add(add(row, "td", class_="strip"), "svg", xmlns="http://www.w3.org/2000/svg")
    for x in AT.values():
        add(drawing, "line", x1=x, x2=x, y1=0, y2="100%", class_="life")
    return drawing


def shortened(text, room):
    """A text of at most so many characters."""
    return text if len(text) <= room else text[: room - 1].rstrip() + "\N{HORIZONTAL ELLIPSIS}"


def arrow(drawing, begin, end, label, kind, is_lost=False):
    """An arrow from one party to another with its label; one that is lost ends half-way, with a cross."""
    part = add(drawing, "g", class_="lost" if is_lost else kind)
    start, stop = AT[begin], AT[end]
    left, right = sorted((begin, end), key=AT.get)
    tip = (start + stop) // 2 if is_lost else stop
    add(part, "line", x1=start, x2=tip, y1=HIGH, y2=HIGH)
    if is_lost:
        add(part, "path", d=f"M{tip - 5},{HIGH - 5} l10,10 m0,-10 l-10,10", class_="cross")
    else:
        back = 7 if stop < start else -7
        add(part, "path", d=f"M{tip},{HIGH} l{back},-4 l0,8 z")
    text = shortened(label, FITS.get((left, right), 34))
    add(part, "text", text, x=(start + stop) // 2, y=HIGH - 8, text_anchor="middle")


def dot(drawing, party, label, kind):
    """A mark on a party's line, with a label beside it."""
    part = add(drawing, "g", class_=kind)
    add(part, "circle", cx=AT[party], cy=HIGH - 4, r=4)
    side = (AT[party] + 9, "start") if party == CARD else (AT[party] - 9, "end")
    add(part, "text", label, x=side[0], y=HIGH, text_anchor=side[1])


def bits(parent, caption, value, names):
    """A table of bytes and bits, the set ones marked; `names` has each bit's name by ten times its byte plus its number."""
    whole = add(parent, "table", class_="bits")
    add(whole, "caption", f"{caption} {value.hex().upper()}")
    for number, byte in enumerate(value, 1):
        row = add(whole, "tr")
        add(row, "th", number)
        for bit in range(8, 0, -1):
            is_set = byte >> bit - 1 & 1
            title = f"{number}.{bit} {names.get(10 * number + bit, 'reserved')}"
            add(row, "td", bit, title=title, class_="set" if is_set else "clear")
