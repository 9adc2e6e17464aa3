#!/usr/bin/env python3
"""Serves a page on this machine that shows the drawing of a member, and takes typed lines: python3 examples/embed/page.py [PORT]"""

import sys
from html import escape
from http.server import BaseHTTPRequestHandler, ThreadingHTTPServer
from pathlib import Path

sys.path.insert(0, str(Path(__file__).resolve().parents[2] / "embed/out/python"))

from groupdesign import Connector, Drawing, Fault, Member, Shape

PAGE = """<!doctype html><meta charset="utf-8"><title>A member's drawing</title>
<style>body { font: 16px sans-serif; margin: 2em } svg { border: 1px solid #ccc; width: 100%; height: 70vh } input { width: 40em }</style>
<div id="drawing"></div>
<form><label>Line <input name="line" autofocus placeholder="create ellipse 0 0 80 40 Hello"></label> <output></output></form>
<script>
const show = async () => { drawing.innerHTML = await (await fetch("drawing.svg")).text(); };
document.forms[0].onsubmit = async (event) => {
    event.preventDefault();
    const typed = event.target.line;
    event.target.querySelector("output").value = await (await fetch("line", { method: "POST", body: typed.value })).text();
    typed.value = "";
    show();
};
show();
setInterval(show, 1000);
</script>"""

member = Member(1, 1, session=7)


def middle(drawing: Drawing, id: str) -> tuple[int, int]:
    """The middle of a shape, or the place of another object."""
    item = drawing[id]
    if isinstance(item, Shape):
        return item.at[0] + item.size[0] // 2, item.at[1] + item.size[1] // 2
    return getattr(item, "at", (0, 0))


def shape_svg(shape: Shape) -> str:
    """A shape, with its label in its middle."""
    (x, y), (w, h) = shape.at, shape.size
    left, top, wide, high = min(x, x + w), min(y, y + h), abs(w), abs(h)
    paint = f'stroke="#{shape.looks.stroke}" stroke-width="{shape.looks.width}" fill="{fill_of(shape)}"'
    forms = {
        "rect": f'<rect x="{left}" y="{top}" width="{wide}" height="{high}" {paint}/>',
        "ellipse": f'<ellipse cx="{x + w / 2}" cy="{y + h / 2}" rx="{wide / 2}" ry="{high / 2}" {paint}/>',
        "line": f'<line x1="{x}" y1="{y}" x2="{x + w}" y2="{y + h}" {paint}/>',
    }
    label = f'<text x="{x + w / 2}" y="{y + h / 2}" text-anchor="middle" dominant-baseline="middle">{escape(shape.label)}</text>'
    return forms.get(shape.kind, "") + label


def fill_of(shape: Shape) -> str:
    return f"#{shape.looks.fill}" if shape.looks.fill else "none"


def connector_svg(drawing: Drawing, connector: Connector) -> str:
    """A line between the middles of what a connector connects."""
    (x, y), (to_x, to_y) = middle(drawing, connector.start), middle(drawing, connector.end)
    looks = connector.looks
    return f'<line x1="{x}" y1="{y}" x2="{to_x}" y2="{to_y}" stroke="#{looks.stroke}" stroke-width="{looks.width}"/>'


def svg_of(drawing: Drawing) -> str:
    """The drawing as a picture."""
    parts = []
    for item in drawing:
        if isinstance(item, Shape):
            parts.append(shape_svg(item))
        elif isinstance(item, Connector) and item.start in drawing and item.end in drawing:
            parts.append(connector_svg(drawing, item))
    return f'<svg viewBox="-20 -20 640 400" xmlns="http://www.w3.org/2000/svg">{"".join(parts)}</svg>'


class Answering(BaseHTTPRequestHandler):
    """The page, the picture, and a typed line."""

    def do_GET(self) -> None:
        if self.path == "/drawing.svg":
            self.answer("image/svg+xml", svg_of(member.drawing()))
        else:
            self.answer("text/html; charset=utf-8", PAGE)

    def do_POST(self) -> None:
        typed = self.rfile.read(min(int(self.headers.get("Content-Length", 0)), 1024)).decode(errors="replace")
        try:
            said = " ".join(member.line(typed))
        except Fault as fault:
            said = str(fault)
        self.answer("text/plain; charset=utf-8", said)

    def answer(self, kind: str, text: str) -> None:
        body = text.encode()
        self.send_response(200)
        self.send_header("Content-Type", kind)
        self.send_header("Content-Length", str(len(body)))
        self.end_headers()
        self.wfile.write(body)

    def log_message(self, format: str, *given: object) -> None:
        """Nothing is logged."""


def main() -> None:
    member.gesture(["create rect 20 20 160 80 House", "create ellipse 320 60 160 100 Tree", "connect 1.1 2.1", "fill 2.1 AADD88"])
    server = ThreadingHTTPServer(("127.0.0.1", int(sys.argv[1]) if len(sys.argv) > 1 else 8010), Answering)
    print(f"http://127.0.0.1:{server.server_port}/", flush=True)
    server.serve_forever()


if __name__ == "__main__":
    main()
