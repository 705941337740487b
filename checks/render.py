#!/usr/bin/env python3
"""Has chromium render pages of `draw`, and looks whether each row of their pictures is drawn and no text stands outside
its picture or over another; and whether a picture of waves with a skew has the colours of the ground, of lines and of
shades on a light and on a dark screen. Usage: render.py CHROMIUM FOLDER PICTURE PAGE .., with a folder for what it
makes. It prints what is wrong, and ends with 0 if nothing is."""
import html
import json
import pathlib
import re
import struct
import subprocess
import sys
import zlib

# The colours of the ground, of a line and of a shade.
SCREENS = {"light": ("ffffff", "111111", "cfdcf3"), "dark": ("15171a", "eeeeee", "2c3f66")}
DARK = "--blink-settings=preferredColorScheme=0"

# For each picture: how many rows are drawn, and the texts that leave it or meet another one of their row.
SCRIPT = """
const found = [...document.querySelectorAll("svg")].map((svg) => {
  const bounds = svg.getBoundingClientRect();
  const texts = [...svg.querySelectorAll("text")].map((text) => [text.textContent, text.getBoundingClientRect()]);
  const outside = texts.filter(([, r]) =>
    r.left < bounds.left || r.right > bounds.right || r.top < bounds.top || r.bottom > bounds.bottom);
  const meeting = texts.filter(([, r], i) => texts.some(([, q], j) =>
    j < i && r.left < q.right && q.left < r.right && r.top < q.bottom && q.top < r.bottom));
  const rows = [...svg.querySelectorAll("g > g")].filter((row) => row.getBoundingClientRect().width > 0);
  return [rows.length, outside.map(([text]) => text), meeting.map(([text]) => text)];
});
document.body.textContent = "FOUND " + JSON.stringify(found) + " END";
"""


def run_browser(browser, *words):
    """What chromium writes."""
    always = ["--headless", "--no-sandbox", "--disable-gpu", "--hide-scrollbars"]
    return subprocess.run([browser, *always, *words], capture_output=True, timeout=300, check=True).stdout.decode()


def colours_of(png):
    """The colours of a picture of 8 bits a channel, as a set of hexadecimal texts."""
    place, data, head = 8, b"", None
    while place < len(png):
        length, kind = struct.unpack(">I4s", png[place : place + 8])
        body = png[place + 8 : place + 8 + length]
        head = struct.unpack(">IIBB", body[:10]) if kind == b"IHDR" else head
        data += body if kind == b"IDAT" else b""
        place += 12 + length
    width, height, _, kind = head
    size = {2: 3, 6: 4}[kind]
    raw, line, colours = zlib.decompress(data), bytearray(width * size), set()
    for row in range(height):
        start = row * (width * size + 1)
        filtered, above, line = raw[start], line, bytearray(raw[start + 1 : start + 1 + width * size])
        for i in range(len(line)):
            left = line[i - size] if i >= size else 0
            corner = above[i - size] if i >= size else 0
            guess = left + above[i] - corner
            nearest = min((left, above[i], corner), key=lambda byte: abs(guess - byte))
            line[i] = (line[i] + (0, left, above[i], (left + above[i]) // 2, nearest)[filtered]) % 256
        colours.update(bytes(line[i : i + 3]).hex() for i in range(0, len(line), size))
    return colours


def row_faults(browser, folder, path):
    """What is wrong with the rows and the texts of the pictures of a page."""
    text = path.read_text()
    page = folder / "page.xhtml"
    page.write_text(text.replace("</body>", "<script><![CDATA[%s]]></script></body>" % SCRIPT))
    shown = html.unescape(run_browser(browser, "--window-size=1600,1200", "--dump-dom", page.as_uri()))
    found = re.search(r"FOUND (\[.*\]) END", shown, re.DOTALL)
    if not found:
        yield f"{path.name}: chromium shows nothing"
        return
    pictures = json.loads(found[1])
    rows = sum(rows for rows, _, _ in pictures)
    wanted = text.count('<g transform="translate(0 ')
    if rows != wanted:
        yield f"{path.name}: {rows} rows are drawn, and there are {wanted}"
    for _, outside, meeting in pictures:
        for where, words in (("outside", outside), ("over another text", meeting)):
            if words:
                yield f"{path.name}: {words[0]} stands {where}"


def colour_faults(browser, folder, picture):
    """Which colours are lacking in a picture that has a skew."""
    width, height = re.search(r'<svg [^>]*width="(\d+)" height="(\d+)"', picture.read_text()).groups()
    for screen, colours in SCREENS.items():
        shot = folder / "shot.png"
        words = [f"--window-size={width},{height}", f"--screenshot={shot}", *([DARK] if screen == "dark" else [])]
        run_browser(browser, *words, picture.as_uri())
        shown = colours_of(shot.read_bytes())
        for colour in colours:
            if colour not in shown:
                yield f"{picture.name}: no colour #{colour} on a {screen} screen"


def main():
    browser, *names = sys.argv[1:]
    folder, picture, *pages = (pathlib.Path(name).resolve() for name in names)
    wrong = [fault for page in pages for fault in row_faults(browser, folder, page)]
    wrong += colour_faults(browser, folder, picture)
    print("\n".join(wrong))
    sys.exit(1 if wrong else 0)


if __name__ == "__main__":
    main()
