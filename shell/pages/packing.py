"""A page as one file: its template with the style, the modules and the data in it."""
from __future__ import annotations

import base64
import hashlib
import json
import pkgutil
import re
from html import escape
from typing import Dict, Mapping, Tuple

from ..console.endings import NotDone

TEMPLATE, STYLE, FIRST = "page.html", "page.css", "main.js"
IMPORT = re.compile(r'^import \{ [^}]+ \} from "\./([\w-]+\.js)";\n', re.M)
EXPORT = re.compile(r"^export (?=(?:async )?function |class |const )", re.M)
NAMED = re.compile(r"^(?:async )?(?:function|class|const|let) ([A-Za-z_$][\w$]*)", re.M)
# What could end the element that holds the data.
MARKUP = "<>&"


class NotPacked(NotDone):
    """The page's own files do not fit together."""


def page(data: Mapping[str, object], served: bool = False) -> str:
    """The page that shows this data. A served page may ask its server; no page may ask any other."""
    style, script, title = read(STYLE), packed(), escape(str(data["title"]), False)
    allowed = policy(style, script, served)
    parts = {
        "<title></title>": f"<title>{title}</title>",
        "<!-- style -->": f'<meta http-equiv="Content-Security-Policy" content="{allowed}">\n<style>{style}</style>',
        "<!-- data -->": f'<script type="application/json" id="run">{written(data)}</script>',
        "<!-- script -->": f'<script type="module">{script}</script>',
    }
    # (in one pass, so that nothing within a part is taken for another part)
    return re.sub("|".join(parts), lambda it: parts[it[0]], read(TEMPLATE))


def written(data: Mapping[str, object]) -> str:
    """Data as JSON that is safe in a page."""
    text = json.dumps(data, separators=(",", ":"))
    for it in MARKUP:
        text = text.replace(it, f"\\u{ord(it):04x}")
    return text


def policy(style: str, script: str, served: bool) -> str:
    """What the page may do: run this script and use this style, and nothing else."""
    allowed = f"default-src 'none'; script-src {_digest(script)}; style-src {_digest(style)}; base-uri 'none'; form-action 'none'"
    return allowed + ("; connect-src 'self'" if served else "")


def _digest(text: str) -> str:
    return f"'sha256-{base64.b64encode(hashlib.sha256(text.encode()).digest()).decode()}'"


def read(name: str) -> str:
    """One of the page's files."""
    content = pkgutil.get_data("page", name)
    assert content is not None
    return content.decode()


def packed() -> str:
    """All modules as one, each after those that it imports."""
    texts: Dict[str, str] = {}
    _collect(FIRST, texts, ())
    names: Dict[str, str] = {}
    for module, text in texts.items():
        for name in NAMED.findall(text):
            if name in names:
                raise NotPacked(f"{name} is in {names[name]} and in {module}")
            names[name] = module
    return "\n".join(texts.values())


def _collect(module: str, texts: Dict[str, str], above: Tuple[str, ...]) -> None:
    """Adds a module after those that it imports."""
    if module in above:
        raise NotPacked(f"{module} imports itself by {' and '.join(above)}")
    if module in texts:
        return
    text = read(module)
    for needed in IMPORT.findall(text):
        _collect(needed, texts, (*above, module))
    texts[module] = EXPORT.sub("", IMPORT.sub("", text))
