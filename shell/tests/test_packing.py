"""A page as one file: its modules in one, its data, and what it may do."""
from __future__ import annotations

import base64
import hashlib
import json
import re
import unittest
from typing import Dict
from unittest import mock

from ..pages import packing
from ..pages.packing import NotPacked, packed, page, written

HOSTILE = '</script><!--<script>\u2028"&\'<img src=x onerror=alert(1)>'


class Modules(unittest.TestCase):
    def packed(self, **modules: str) -> str:
        texts: Dict[str, str] = {f"{name}.js": text for name, text in modules.items()}
        with mock.patch.object(packing, "read", texts.__getitem__):
            return packed()

    def test_each_comes_once_after_those_that_it_imports(self) -> None:
        script = self.packed(
            main='import { b } from "./b.js";\nimport { a } from "./a.js";\nb(a);\n',
            b='import { a } from "./a.js";\nexport function b() {\n  return a;\n}\n',
            a="export const a = 1;\n",
        )
        self.assertEqual(script, "const a = 1;\n\nfunction b() {\n  return a;\n}\n\nb(a);\n")

    def test_a_name_of_two_modules_is_refused(self) -> None:
        with self.assertRaisesRegex(NotPacked, "^a is in b.js and in main.js$"):
            self.packed(main='import { b } from "./b.js";\nconst a = 1;\n', b="const a = 2;\nexport const b = 3;\n")

    def test_a_circle_is_refused(self) -> None:
        with self.assertRaisesRegex(NotPacked, "main.js imports itself by main.js and b.js"):
            self.packed(main='import { b } from "./b.js";\n', b='import { a } from "./main.js";\n')

    def test_no_line_of_the_page_imports_or_exports(self) -> None:
        self.assertNotRegex(packed(), r"(?m)^\s*(import|export)\b")


class Pages(unittest.TestCase):
    def parts(self, served: bool = False) -> Dict[str, str]:
        """The page's own parts by their names."""
        html = page({"title": HOSTILE, "branches": [HOSTILE]}, served)
        found = {"policy": re.findall(r'Content-Security-Policy" content="([^"]*)"', html)}
        found["style"] = re.findall(r"<style>(.*?)</style>", html, re.S)
        found["script"] = re.findall(r'<script type="module">(.*?)</script>', html, re.S)
        found["data"] = re.findall(r'<script type="application/json" id="run">(.*?)</script>', html, re.S)
        found["title"] = re.findall(r"<title>(.*?)</title>", html, re.S)
        self.assertEqual({len(it) for it in found.values()}, {1})
        return {name: those[0] for name, those in found.items()}

    def test_data_comes_back_as_it_was(self) -> None:
        self.assertEqual(json.loads(self.parts()["data"]), {"title": HOSTILE, "branches": [HOSTILE]})
        self.assertNotRegex(written({"it": HOSTILE}), "[<>&\u2028]")

    def test_the_title_is_text(self) -> None:
        self.assertIn("&lt;/script&gt;&lt;!--", self.parts()["title"])

    def test_this_script_and_this_style_alone_are_allowed(self) -> None:
        parts = self.parts()
        for name in ("script", "style"):
            digest = base64.b64encode(hashlib.sha256(parts[name].encode()).digest()).decode()
            self.assertIn(f"{name}-src 'sha256-{digest}'", parts["policy"])
        self.assertIn("default-src 'none'", parts["policy"])
        self.assertNotIn("connect-src", parts["policy"])
        self.assertIn("connect-src 'self'", self.parts(served=True)["policy"])

    def test_nothing_is_made_markup(self) -> None:
        self.assertNotRegex(packed(), r"innerHTML|outerHTML|insertAdjacentHTML|document\.write|DOMParser|createContextualFragment|\beval\b")


if __name__ == "__main__":
    unittest.main()
