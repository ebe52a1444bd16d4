"""Text that would be markup or a program, in every place of a page where text of a script stands: it is shown, and does nothing."""
from __future__ import annotations

import unittest

from . import page_cases
from .browsers import FLAT
from .page_cases import QUERY, RULES, PageCase, made, setUpModule

__all__ = ["setUpModule"]

# Each sets window.hit where it runs. None has a full stop followed by a space, at which a title would end.
HOSTILE = (
    '<img src=x onerror="window.hit=1">',
    "</script><script>window.hit=1</script>",
    "</title></style><svg/onload=window.hit=1>",
    "--><script>window.hit=1</script><!--",
    "\"'><iframe srcdoc='<script>parent.hit=1</script>'></iframe>",
    "javascript:window.hit=1//",
    "${window.hit=1} {{window.hit=1}} \\u003cimg src=x onerror=window.hit=1\\u003e",
    "&lt;img src=x onerror=window.hit=1&gt; <!-- data --> <!-- script -->",
    "\u2028window.hit=1\u2029 ]]> <![CDATA[",
)
NOTHING_RAN = "window.hit === undefined && !document.querySelector('img, iframe, a[href^=javascript], svg[onload]')"
SHOWN = f"{FLAT}(document.body.innerText)"
ORDINARY = "An ordinary first sentence."


def flat(text: str) -> str:
    """A text as one line of a page shows it."""
    return " ".join(text.split())


class Hostile(PageCase):
    def nothing_ran(self) -> None:
        self.browser.evaluate("new Promise(done => setTimeout(done, 50))")
        self.assertTrue(self.browser.evaluate(NOTHING_RAN))
        self.assertEqual(self.browser.evaluate("document.scripts.length"), 2)
        self.assertEqual(self.browser.errors(), [])

    def test_in_the_title(self) -> None:
        for text in HOSTILE:
            with self.subTest(text):
                self.open(f"# {text}\n{RULES}step main {QUERY}\n", "#main/1")
                self.assertIn(flat(text), flat(self.browser.title))
                self.assertIn(flat(text), flat(self.browser.text("#title")))
                self.nothing_ran()

    def test_what_would_come_in_all_the_same_is_forbidden(self) -> None:
        self.open()
        for name, text in (("script", "window.hit=1"), ("style", "body { --hit: 1 }")):
            added = "(it => { it.textContent = arguments[1]; document.body.append(it); })(document.createElement(arguments[0]))"
            self.browser.evaluate(added, name, text)
        title = "document.querySelector('#title')"
        self.browser.evaluate("document.body.append(Object.assign(document.createElement('img'), {src: 'x.png'}))")
        self.browser.evaluate(f"{title}.setAttribute('onclick', 'window.hit=1') || {title}.click()")
        self.browser.evaluate("fetch('http://127.0.0.1:1/').catch(() => null)")
        self.assertTrue(self.browser.evaluate("window.hit === undefined && !getComputedStyle(document.body).getPropertyValue('--hit')"))
        found = self.browser.errors()
        self.assertEqual([it for it in found if "Content Security Policy" not in it and "violates" not in it], [])
        self.assertGreaterEqual(len(found), 5)

    def test_in_the_paragraphs_and_notes(self) -> None:
        above = "".join(f"#\n# {it}\n" for it in HOSTILE)
        notes = "".join(f"# {it}\nstep main tick a 1\n" for it in HOSTILE)
        of_branch = "".join(f"# {it}\n" for it in HOSTILE)
        self.open(f"# {ORDINARY}\n{above}{RULES}{notes}fork main 0 other\n{of_branch}step other tick b 1\n", "#main/0")
        shown = self.browser.evaluate(SHOWN)
        for at, text in enumerate(HOSTILE, 1):
            self.assertIn(flat(text), shown)
            self.go("main", at)
            self.assertIn(flat(text), self.browser.evaluate(SHOWN))
        self.go("other", 1)
        shown = self.browser.evaluate(SHOWN)
        for it in HOSTILE:
            self.assertIn(flat(it), shown)
        self.nothing_ran()

    def test_in_the_name_of_the_file(self) -> None:
        path = f"{page_cases.desk_folder()}/<img src=x onerror=window.hit=1>.pfl"
        with open(path, "w", encoding="utf-8") as it:
            it.write(f"{RULES}step main {QUERY}\n")
        self.open_file(made(path, f"{page_cases.desk_folder()}/named.html"), "#main/1")
        self.assertIn("<img src=x onerror=window.hit=1>", self.browser.title)
        self.nothing_ran()

    def test_in_the_address(self) -> None:
        for place in ("#<img src=x onerror=window.hit=1>/1", "#main/<img src=x onerror=window.hit=1>", "#javascript:window.hit=1"):
            self.open(page_cases.RUN, place)
            self.nothing_ran()

    def test_bytes_that_are_no_text(self) -> None:
        script = b"# A byte \xff that is no UTF-8, and \xed\xa0\x80 that is half of one\n#\n# Next \xc3 to it\n" + RULES.encode()
        self.open_file(page_cases.desk.page(script + b"# Before \xfe after\nstep main tick a 1\n"), "#main/1")
        self.assertEqual(self.browser.evaluate("document.characterSet"), "UTF-8")
        self.assertRegex(self.browser.text("#title"), "^A byte .* that is no UTF-8, and .* that is half of one$")
        self.assertRegex(self.browser.evaluate(SHOWN), "Before .{1,6} after")

    def test_a_script_with_a_faulty_setup_makes_no_page(self) -> None:
        with self.assertRaisesRegex(AssertionError, "2"):
            page_cases.desk.page(b"# A title\nrule a pass out <img src=x onerror=window.hit=1>\nopen\n")


if __name__ == "__main__":
    unittest.main()
