"""Rules for pages that everybody can use, written by hand in the manner of axe's: each looks at the page that a browser shows, as its
accessibility tree or as it is laid out, and returns what is wrong. In brackets is the criterion of WCAG 2.2 that a rule is about."""
from __future__ import annotations

from typing import Any, Callable, Dict, Iterator, List, NamedTuple, Optional, Sequence

from .browsers import Browser
from .page_probes import COLOURS, FAINT_TEXTS, VISIBLE

FIELDS = {"slider", "textbox", "searchbox", "checkbox", "switch", "combobox", "spinbutton", "radio"}
CONTROLS = {"button", "link", "tab", "DisclosureTriangle", *FIELDS}
PICTURES = {"image", "img", "graphics-document", "graphics-symbol", "figure"}
LANDMARKS = {"banner", "navigation", "main", "complementary", "contentinfo", "form", "region", "search"}
# What a page is divided into: two buttons in one of these have different names.
GROUPS = {"toolbar", "group", "list", "table", "dialog", "form", "RootWebArea", *LANDMARKS}
TARGET = 24


class Part(NamedTuple):
    """A node of the accessibility tree that is not passed over."""

    role: str
    name: str
    properties: Dict[str, Any]
    parents: Sequence["Part"]

    def within(self, roles: Sequence[str]) -> Optional["Part"]:
        """The nearest node around it with one of some roles."""
        return next((parent for parent in reversed(self.parents) if parent.role in roles), None)


def tree(browser: Browser) -> List[Part]:
    """The page as a screen reader has it, in its order."""
    nodes = {it["nodeId"]: it for it in browser.cdp("Accessibility.getFullAXTree")["nodes"]}

    def parts(node: Dict[str, Any], parents: Sequence[Part]) -> Iterator[Part]:
        inner = parents
        if not node["ignored"]:
            properties = {it["name"]: it["value"].get("value") for it in node.get("properties", [])}
            its = Part(node["role"]["value"], node.get("name", {}).get("value", ""), properties, parents)
            inner = [*parents, its]
            yield its
        for child in node.get("childIds", []):
            if child in nodes:
                yield from parts(nodes[child], inner)

    return list(parts(next(it for it in nodes.values() if "parentId" not in it), []))


def controls_have_names(browser: Browser) -> List[str]:
    """[4.1.2, 1.1.1] Each control and each picture has a name."""
    return [it.role for it in tree(browser) if it.role in CONTROLS | PICTURES and not it.name.strip()]


def names_differ(browser: Browser) -> List[str]:
    """[2.4.6, 4.1.2] No two buttons or links in one group have the same name, nor have two buttons anywhere on the page."""
    found: List[str] = []
    for kinds, groups in ((("button",), ("RootWebArea",)), (("button", "link"), tuple(GROUPS))):
        names: Dict[int, List[str]] = {}
        for it in (it for it in tree(browser) if it.role in kinds):
            names.setdefault(id(it.within(groups)), []).append(it.name)
        found += [name for those in names.values() for name in sorted({*those}) if those.count(name) > 1]
    return found


def words_are_in_names(browser: Browser) -> List[str]:
    """[2.5.3] What is written on a button is in its name."""
    return list(browser.evaluate(f"""(() => {{
      {VISIBLE}
      const flat = text => text.replace(/\\s+/g, " ").trim().toLowerCase();
      const named = Array.from(document.querySelectorAll("button[aria-label]")).filter(it => visible(it) && flat(it.innerText).length > 1);
      return named.filter(it => !flat(it.getAttribute("aria-label")).includes(flat(it.innerText))).map(it => it.innerText);
    }})()"""))


def headings_are_in_order(browser: Browser) -> List[str]:
    """[1.3.1, 2.4.6] There is one first heading, and it comes first; each has words, and none skips a level on the way down."""
    headings = [it for it in tree(browser) if it.role == "heading"]
    levels = [int(heading.properties["level"]) for heading in headings]
    wrong = [f"{it.name} has level {below}" for it, above, below in zip(headings, [0, *levels], levels) if below > above + 1]
    empty = ["a heading without words" for heading in headings if not heading.name.strip()]
    return wrong + empty + ["not one first heading"] * (levels.count(1) != 1)


def landmarks_are_few(browser: Browser) -> List[str]:
    """[1.3.1, 2.4.1] The page is a banner with the branches, and a main part. There are no others to go through, and nothing is outside of
    them."""
    parts = tree(browser)
    found = [part.role for part in parts if part.role in LANDMARKS and not part.within(["dialog"])]
    outside = [part for part in parts if part.role in CONTROLS | {"StaticText"} and not part.within([*LANDMARKS, "dialog"])]
    wanted = ["banner", "navigation", "main"]
    return ([] if found == wanted else [" ".join(found)]) + [f"{it.name} is in none" for it in outside]


def one_region_is_live(browser: Browser) -> List[str]:
    """[4.1.3] There is one live region, and it is polite, so that each event is announced once."""
    live = [it.properties["live"] for it in tree(browser) if it.properties.get("live", "off") != "off"]
    written = browser.evaluate("""Array.from(document.querySelectorAll(
      "[aria-live]:not([aria-live=off]), [role=status], [role=alert], [role=log], [role=timer], [role=marquee], output"), it => it.id)""")
    return [] if live == ["polite"] and len(written) == 1 else [f"{live} {written}"]


def a_group_is_one_stop(browser: Browser) -> List[str]:
    """[2.1.1, 2.4.3] The key Tab stops once at the buttons of a toolbar, and no element has an order of its own."""
    return list(browser.evaluate(f"""(() => {{
      {VISIBLE}
      const stops = bar => Array.from(bar.querySelectorAll("button")).filter(it => visible(it) && it.tabIndex >= 0).length;
      const bars = Array.from(document.querySelectorAll("[role=toolbar]")).filter(it => visible(it) && it.querySelector("button"));
      const wrong = bars.filter(it => stops(it) !== 1).map(it => `${{it.getAttribute("aria-label")}}: ${{stops(it)}}`);
      const first = Array.from(document.querySelectorAll("[tabindex]")).filter(it => it.tabIndex > 0);
      return wrong.concat(first.map(it => it.outerHTML.slice(0, 60)));
    }})()"""))


def what_scrolls_can_be_reached(browser: Browser) -> List[str]:
    """[2.1.1] What scrolls has the focus itself, or something within it has; and nothing that is passed over can have it."""
    return list(browser.evaluate(f"""(() => {{
      {VISIBLE}
      const able = "a[href], button, input, select, summary, [tabindex]";
      const reached = it => Array.from(it.querySelectorAll(able)).some(one => one.tabIndex >= 0);
      const scrolls = it => /auto|scroll/.test(getComputedStyle(it).overflowY) && it.scrollHeight > it.clientHeight + 1;
      const boxes = Array.from(document.querySelectorAll("body *")).filter(it => visible(it) && scrolls(it));
      const hidden = Array.from(document.querySelectorAll("[aria-hidden=true]")).filter(it => it.tabIndex >= 0 || reached(it));
      return boxes.filter(it => it.tabIndex < 0 && !reached(it)).concat(hidden).map(it => it.outerHTML.slice(0, 60));
    }})()"""))


def texts_can_be_read(browser: Browser) -> List[str]:
    """[1.4.3] Each text has a contrast of 4.5:1 to what is under it, or 3:1 if it is large."""
    return [" ".join(map(str, it)) for it in browser.evaluate(FAINT_TEXTS)]


def edges_can_be_seen(browser: Browser) -> List[str]:
    """[1.4.11] The edge or the ground of a field, and of a button that has one, has a contrast of 3:1 to what is around it; so has the
    mark of the current row of the chart, and that of the current event in the list."""
    return list(browser.evaluate(f"""(() => {{
      {VISIBLE} {COLOURS}
      const fields = "input:not([type=range], [type=checkbox]), select, button:not(.quiet, [aria-disabled=true])";
      const seen = it => {{
        const style = getComputedStyle(it), around = ground(it.parentElement);
        const edge = parseFloat(style.borderTopWidth) ? over(parts(style.borderTopColor), around) : around;
        return Math.max(contrast(edge, around), contrast(ground(it), around));
      }};
      const faint = Array.from(document.querySelectorAll(fields)).filter(it => visible(it) && seen(it) < 3);
      const wrong = faint.map(it => `${{it.id || it.innerText || it.name}} ${{seen(it).toFixed(2)}}`);
      for (const row of document.querySelectorAll(".row.now")) {{
        const its = contrast(parts(getComputedStyle(row).stroke), ground(document.querySelector("#chart")));
        if (its < 3) {{ wrong.push(`the current row ${{its.toFixed(2)}}`); }}
      }}
      for (const link of document.querySelectorAll("#events [aria-current]")) {{
        const its = contrast(parts(getComputedStyle(link).borderLeftColor), ground(document.querySelector("#events")));
        if (its < 3) {{ wrong.push(`the current event ${{its.toFixed(2)}}`); }}
      }}
      return wrong;
    }})()"""))


def the_focus_can_be_seen(browser: Browser) -> List[str]:
    """[2.4.7, 2.4.11, 1.4.11] What has the focus by a key has an outline of two pixels and more with a contrast of 3:1 to what is around,
    and lies under nothing else."""
    found: List[str] = []
    browser.evaluate("document.activeElement.blur()")
    for _ in range(len(stops(browser))):
        browser.keys("Tab")
        fault = browser.evaluate(f"""(() => {{
          {COLOURS}
          const it = document.activeElement, style = getComputedStyle(it), around = ground(it.parentElement || it);
          if (it === document.body) {{ return ""; }}
          const its = contrast(over(parts(style.outlineColor), around), around), box = it.getBoundingClientRect();
          const drawn = style.outlineStyle === "none" ? 0 : style.outlineStyle === "auto" ? 2 : parseFloat(style.outlineWidth);
          const middle = (Math.max(0, box.top) + Math.min(innerHeight, box.bottom)) / 2;
          const top = document.elementFromPoint((box.left + box.right) / 2, middle);
          const isFree = top && (it.contains(top) || top.contains(it));
          const which = it.id || it.outerHTML.slice(0, 60);
          return drawn >= 2 && its >= 3 && isFree ? "" : `${{which}} ${{drawn}} ${{its.toFixed(2)}} ${{isFree}}`;
        }})()""")
        found += [fault] * bool(fault)
    return found


def targets_are_large(browser: Browser) -> List[str]:
    """[2.5.8] What can be clicked is 24 pixels wide and high, but for links within a text; the rows of the chart and their marks have the
    links of the list beside them, which do the same."""
    return list(browser.evaluate(f"""(() => {{
      {VISIBLE}
      const all = Array.from(document.querySelectorAll("button, input, select, summary, a[href], [role=button]")).filter(visible);
      const free = all.filter(it => !(it.matches("a") && it.closest("p, #why li")) && !it.closest("svg"));
      const size = it => (it.closest("label.switch") || it).getBoundingClientRect();
      const small = free.filter(it => size(it).width < {TARGET} || size(it).height < {TARGET});
      const which = it => it.id || it.outerHTML.slice(0, 60);
      return small.map(it => `${{which(it)}} ${{Math.round(size(it).width)}} x ${{Math.round(size(it).height)}}`);
    }})()"""))


def lists_and_ids_are_whole(browser: Browser) -> List[str]:
    """[1.3.1, 4.1.2] Lists have items alone, an id is there once, and what refers to one refers to one that is there."""
    return list(browser.evaluate("""(() => {
      const wrong = Array.from(document.querySelectorAll("ul > :not(li), ol > :not(li)"), it => it.outerHTML.slice(0, 60));
      const ids = Array.from(document.querySelectorAll("[id]"), it => it.id);
      wrong.push(...ids.filter((it, at) => ids.indexOf(it) !== at));
      for (const name of ["aria-labelledby", "aria-describedby", "aria-controls", "for"]) {
        for (const it of document.querySelectorAll(`[${name}]`)) {
          wrong.push(...it.getAttribute(name).split(" ").filter(id => !document.getElementById(id)).map(id => `${name} ${id}`));
        }
      }
      return wrong;
    })()"""))


def the_page_says_what_it_is(browser: Browser) -> List[str]:
    """[2.4.2, 3.1.1, 1.4.4] It has a title and a language, and can be made larger."""
    content = str(browser.evaluate("document.querySelector('meta[name=viewport]')?.content ?? ''"))
    lacks = ["no title"] * (not browser.title.strip()) + ["no language"] * (not browser.attribute("html", "lang"))
    return lacks + [content] * ("user-scalable" in content or "maximum-scale" in content)


def nothing_is_wider_than_the_window(browser: Browser) -> List[str]:
    """[1.4.10] The page does not scroll sideways."""
    wider = browser.evaluate("document.documentElement.scrollWidth - document.documentElement.clientWidth")
    return [f"{wider} pixels"] * (wider > 0)


def stops(browser: Browser) -> List[str]:
    """Where the key Tab stops, in order, until it comes to the first one again."""
    found: List[str] = []
    browser.evaluate("document.activeElement.blur() || getSelection().collapse(document.body, 0)")
    while len(found) < 1000:
        browser.keys("Tab")
        focused = browser.evaluate("(it => it === document.body ? '' : it.id || it.outerHTML.slice(0, 100))(document.activeElement)")
        if not focused or focused in found:
            return found
        found.append(focused)
    return found


Rule = Callable[[Browser], List[str]]
RULES: Sequence[Rule] = (
    controls_have_names,
    names_differ,
    words_are_in_names,
    headings_are_in_order,
    landmarks_are_few,
    one_region_is_live,
    a_group_is_one_stop,
    what_scrolls_can_be_reached,
    texts_can_be_read,
    edges_can_be_seen,
    the_focus_can_be_seen,
    targets_are_large,
    lists_and_ids_are_whole,
    the_page_says_what_it_is,
    nothing_is_wider_than_the_window,
)
