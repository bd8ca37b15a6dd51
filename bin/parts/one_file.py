"""The page as one file: template, style and script of bin/parts/page, with the data of a log in it, and a policy that lets a browser fetch nothing."""
import base64
import hashlib
import json
import re
from html import escape
from pathlib import Path

FOLDER = Path(__file__).resolve().parent / "page"


def named(text):
    """How the policy names an inline script or style: by its hash."""
    return "'sha256-" + base64.b64encode(hashlib.sha256(text.encode()).digest()).decode() + "'"


def held(data):
    """The data as JSON that can stand in a page, whatever octets the log has: ASCII, and no < that could end the element."""
    return json.dumps(data, separators=(",", ":")).replace("<", "\\u003c")


def page(data):
    """The octets of the page; no script and no style runs in it but these two."""
    template, style, script = ((FOLDER / name).read_text("utf-8") for name in ("page.html", "page.css", "page.js"))
    policy = f"default-src 'none'; script-src {named(script)}; style-src {named(style)}; base-uri 'none'; form-action 'none'"
    parts = {"title": escape(data["title"]), "policy": policy, "style": style, "script": script, "data": held(data)}
    return re.sub(r"\{\{(\w+)\}\}", lambda name: parts[name[1]], template).encode()
