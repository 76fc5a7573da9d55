"""The page that has the library inside: one file, of its parts in bindings/js/page and of the module."""

import base64
import gzip
import re

from native import TOP, version
from wasm import JS

PARTS = JS / "page"
PAGE = TOP / "docs/play/index.html"
NOTE = "What each call answers is proved; the compiler, this page and the browser are trusted. Version {version}."


def page(module):
    """The page with the bytes of a module."""
    text = (PARTS / "page.html").read_text()
    library = re.sub(r"^export ", "", (JS / "tinyjson.js").read_text(), flags=re.M)
    parts = {
        "STYLE": (PARTS / "page.css").read_text().strip(),
        "LIBRARY": library.strip(),
        "WORKER": (PARTS / "worker.js").read_text().strip(),
        "PAGE": (PARTS / "page.js").read_text().strip(),
        "NOTE": NOTE.format(version=version()),
        "MODULE": base64.b64encode(gzip.compress(module, 9, mtime=0)).decode(),
    }
    return re.sub(r"/\*([A-Z]+)\*/", lambda part: parts[part[1]], text)


def inside(text):
    """The bytes of the module in a page."""
    packed = re.search(r'<script type="text/plain" id="module">([^<]*)</script>', text)[1]
    return gzip.decompress(base64.b64decode(packed))
