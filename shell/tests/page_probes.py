"""What tests measure inside a page: each an expression of JavaScript."""
from __future__ import annotations

# Rectangles with the texts of all pieces of text of the chart's drawing.
CHART_TEXTS = """Array.from(document.querySelectorAll("#chart svg text"), it => {
  const box = it.getBoundingClientRect();
  return {left: box.left, top: box.top, right: box.right, bottom: box.bottom, text: it.textContent};
}).filter(it => it.text.trim() && it.right > it.left)"""

# Whether a person can see an element at all.
VISIBLE = """const visible = it => {
  for (let one = it; one instanceof Element; one = one.parentElement) {
    const style = getComputedStyle(one);
    if (style.display === "none" || style.visibility !== "visible" || Number(style.opacity) === 0) { return false; }
    if (one.tagName === "DETAILS" && !one.open && one !== it && !it.closest("summary")) { return false; }
  }
  const box = it.getBoundingClientRect();
  return box.width > 1 && box.height > 1;
};"""

# Rectangles of everything outside the chart that holds text of its own or can be worked with, but for what stands in one another. A text
# that goes over several lines has a rectangle for each; what a box that scrolls does not show of it does not count.
PIECES = f"""(() => {{
  {VISIBLE}
  const worked = "button, input, select, textarea, summary, a[href]";
  const words = it => Array.from(it.childNodes).filter(one => one.nodeType === 3 && one.data.trim());
  const passed = "svg, #chart, script, style, datalist, option";
  const is = it => !it.closest(passed) && (it.matches(worked) || words(it).length) && visible(it);
  const pieces = Array.from(document.querySelectorAll("body *")).filter(is);
  const whole = pieces.filter(it => !pieces.some(one => one !== it && one.contains(it)));
  const shown = (it, {{left, top, right, bottom}}) => {{
    for (let one = it.parentElement; one && one !== document.body; one = one.parentElement) {{
      const its = one.getBoundingClientRect();
      if (getComputedStyle(one).overflow === "visible") {{ continue; }}
      [left, right] = [Math.max(left, its.left), Math.min(right, its.right)];
      [top, bottom] = [Math.max(top, its.top), Math.min(bottom, its.bottom)];
    }}
    return {{left, top, right, bottom}};
  }};
  return whole.flatMap((it, at) => {{
    const range = document.createRange();
    const linesOf = one => {{ range.selectNode(one); return Array.from(range.getClientRects()); }};
    const lines = it.matches(worked) ? [it.getBoundingClientRect()] : words(it).flatMap(linesOf);
    const text = (it.id ? "#" + it.id + " " : "") + it.tagName + " " + it.textContent.trim().slice(0, 40);
    const seen = lines.map(box => shown(it, box)).filter(box => box.right > box.left && box.bottom > box.top);
    return seen.map(box => ({{left: box.left, top: box.top + scrollY, right: box.right, bottom: box.bottom + scrollY, of: at, text}}));
  }});
}})()"""

# Colours as they are shown: `parts` of one, one `over` another, the `ground` under an element, and the `contrast` of two.
COLOURS = """
  const canvas = document.createElement("canvas"); canvas.width = canvas.height = 1;
  const pen = canvas.getContext("2d", {willReadFrequently: true});
  const known = new Map(), isDark = matchMedia("(prefers-color-scheme: dark)").matches && !matchMedia("print").matches;
  const parts = colour => {
    if (!known.has(colour)) {
      pen.clearRect(0, 0, 1, 1); pen.fillStyle = colour; pen.fillRect(0, 0, 1, 1);
      known.set(colour, Array.from(pen.getImageData(0, 0, 1, 1).data));
    }
    return known.get(colour);
  };
  const over = (top, below) => [0, 1, 2].map(at => top[at] * top[3] / 255 + below[at] * (1 - top[3] / 255)).concat(255);
  const ground = it => {
    const layers = [];
    for (let one = it; one; one = one.parentElement) { layers.unshift(parts(getComputedStyle(one).backgroundColor)); }
    return layers.reduce((below, top) => over(top, below), isDark ? [0, 0, 0, 255] : [255, 255, 255, 255]);
  };
  const light = colour => {
    const [r, g, b] = colour.slice(0, 3).map(it => it / 255).map(it => it <= 0.03928 ? it / 12.92 : ((it + 0.055) / 1.055) ** 2.4);
    return 0.2126 * r + 0.7152 * g + 0.0722 * b;
  };
  const contrast = (one, two) => {
    const [dark, bright] = [light(one), light(two)].sort((a, b) => a - b);
    return (bright + 0.05) / (dark + 0.05);
  };
"""

# The least contrast of each piece of text in sight, where it is less than it has to be: [text, contrast, colour, background].
FAINT_TEXTS = f"""(() => {{
  {VISIBLE} {COLOURS}
  const under = text => {{
    const box = text.getBoundingClientRect(), x = (box.left + box.right) / 2, y = (box.top + box.bottom) / 2;
    const shapes = Array.from(text.ownerSVGElement.querySelectorAll("rect, circle, path, polygon"));
    const below = shapes.filter(it => it.compareDocumentPosition(text) & 4 && getComputedStyle(it).fill !== "none").filter(it => {{
      const its = it.getBoundingClientRect();
      return its.left <= x && x <= its.right && its.top <= y && y <= its.bottom && its.width > 3 && its.height > 3;
    }});
    return below.reduce((so, it) => {{
      const fill = parts(getComputedStyle(it).fill), by = Number(getComputedStyle(it).fillOpacity) * Number(getComputedStyle(it).opacity);
      return over([...fill.slice(0, 3), fill[3] * by], so);
    }}, ground(text.ownerSVGElement));
  }};
  const faint = new Map();
  const walker = document.createTreeWalker(document.body, NodeFilter.SHOW_TEXT);
  for (let node = walker.nextNode(); node; node = walker.nextNode()) {{
    const it = node.parentElement;
    if (!node.data.trim() || it.closest("script, style, option, title, desc, [disabled]") || !visible(it)) {{ continue; }}
    const style = getComputedStyle(it), svg = it.closest("text");
    let opacity = 1;
    for (let one = it; one; one = one.parentElement) {{ opacity *= Number(getComputedStyle(one).opacity); }}
    const colour = parts(svg ? style.fill : style.color), below = svg ? under(svg) : ground(it);
    const shown = over([...colour.slice(0, 3), colour[3] * opacity], below);
    const its = contrast(shown, below), size = parseFloat(style.fontSize);
    const enough = size >= 24 || size >= 18.66 && Number(style.fontWeight) >= 700 ? 3 : 4.5;
    const colours = [shown, below].map(it => it.map(Math.round).join());
    if (its < enough) {{ faint.set(node.data.trim().slice(0, 50), [its.toFixed(2), ...colours]); }}
  }}
  return Array.from(faint, ([text, rest]) => [text, ...rest]);
}})()"""

# What can be reached by the key Tab, each by its id or its words: of a group that is one stop, the element that is it.
REACHABLE = f"""(() => {{
  {VISIBLE}
  const fields = "input:not([disabled]), select:not([disabled]), textarea";
  const able = `button:not([disabled]), ${{fields}}, summary, a[href], [tabindex]:not([tabindex='-1'])`;
  const found = Array.from(document.querySelectorAll(able)).filter(it => visible(it) && it.tabIndex >= 0);
  return found.map(it => it.id || it.outerHTML.slice(0, 80));
}})()"""
# Keeps what is said aloud from now on, each announcement once.
LISTEN = """(() => {
  window.said = [];
  const regions = document.querySelectorAll("[aria-live]:not([aria-live=off]), [role=status], [role=alert], output");
  const hear = new MutationObserver(changes => { window.said.push(...new Set(changes.map(it => it.target.textContent))); });
  for (const it of regions) { hear.observe(it, {childList: true, characterData: true, subtree: true}); }
})()"""
FOCUSED = "(it => it === document.body ? '' : it.id || it.outerHTML.slice(0, 80))(document.activeElement)"
# Whether one sees where the focus is.
SEES_FOCUS = """(it => {
  const style = getComputedStyle(it);
  return style.outlineStyle !== "none" && parseFloat(style.outlineWidth) > 0 || style.boxShadow !== "none";
})(document.activeElement)"""
