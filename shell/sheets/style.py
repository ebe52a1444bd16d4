"""How a sheet looks: black on white, on a screen and on paper of any size."""
from __future__ import annotations

STYLE = """
@page { margin: 16mm; @bottom-center { content: counter(page) " / " counter(pages); font: 8pt sans-serif; } }
* { box-sizing: border-box; }
html { background: #fff; color: #000; font: 10.5pt/1.45 "Noto Sans", "DejaVu Sans", Arial, sans-serif; }
body { max-width: 48rem; margin: 0 auto; padding: 1rem; overflow-wrap: anywhere; orphans: 3; widows: 3; }
h1 { font-size: 1.5rem; line-height: 1.25; margin: 0 0 .5rem; text-wrap: balance; }
h2 { font-size: 1.2rem; margin: 1.5rem 0 .5rem; border-bottom: 1px solid #000; }
h3 { font-size: 1rem; margin: .75rem 0 .25rem; }
h1, h2, h3, .said, caption { break-after: avoid; }
p { margin: .4rem 0; }
code, pre { font-family: "Noto Sans Mono", "DejaVu Sans Mono", Consolas, monospace; font-size: .85em; }
pre { margin: .25rem 0; white-space: pre-wrap; }
pre.line { border-left: 3px solid #000; padding: .15rem .6rem; font-size: .9em; font-weight: bold; }
pre.tables { font-size: 8pt; line-height: 1.35; }
table { border-collapse: collapse; width: 100%; margin: .5rem 0; }
caption { text-align: left; padding-bottom: .25rem; }
th, td { border: 1px solid #000; padding: .2rem .5rem; text-align: left; vertical-align: top; }
thead { display: table-header-group; }
tr, .step, figure, .tables { break-inside: avoid; }
th[scope="row"] { width: 4rem; }
.form { display: flex; gap: 1.5rem; }
.form span { flex: 2; border-bottom: 1px solid #000; padding-top: 1rem; }
.form span + span { flex: 1; }
.step { margin: 0 0 1rem; }
dl { margin: .25rem 0; display: grid; grid-template-columns: 6rem 1fr; gap: .15rem .5rem; }
dt { font-weight: bold; }
dd { margin: 0; }
dd p { margin: 0 0 .1rem; padding-left: 1rem; text-indent: -1rem; }
dd pre { margin: 0; }
.room { border-bottom: 1px solid #555; height: 2.1rem; }
.room:first-of-type { height: 1.4rem; }
figure { margin: .5rem 0 1rem; }
figure svg { display: block; width: 100%; height: auto; }
@media print { body { max-width: none; padding: 0; } .branch { break-before: page; } }
"""
