"""How the page looks, and the few lines by which it finds entries."""

STYLE = """
:root { --paper: #f4f6f9; --card: #fff; --ink: #1b2432; --soft: #66718a; --line: #e2e7ef; --live: #33415c; --alarm: #cf2b3f; --good: #0f9d6a;
  --mark: #fff3c4; --shade: 0 1px 2px #1b243214, 0 8px 24px #1b243210; }
@media (prefers-color-scheme: dark) { :root { --paper: #12161f; --card: #1b212d; --ink: #e8ecf4; --soft: #97a3ba; --line: #2b3445;
  --live: #9fb0d0; --alarm: #ff6b7d; --good: #3ccf98; --mark: #4a4020; --shade: none; } }
* { box-sizing: border-box; }
body { margin: 0; background: var(--paper); color: var(--ink); font: 15px/1.5 system-ui, "Segoe UI", "DejaVu Sans", sans-serif; }
main { max-width: 1140px; margin: 0 auto; padding: 32px 20px 64px; }
h1 { font-size: 28px; margin: 0; letter-spacing: -.01em; }
h2 { font-size: 19px; margin: 40px 0 12px; }
h3 { font-size: 15px; margin: 0 0 4px; }
p { margin: 0 0 12px; color: var(--soft); max-width: 76ch; }
code, .code { font-family: ui-monospace, "DejaVu Sans Mono", monospace; font-size: .9em; }
nav { display: flex; gap: 18px; flex-wrap: wrap; margin-top: 10px; }
nav a { color: var(--soft); text-decoration: none; border-bottom: 1px solid var(--line); }
nav a:hover { color: var(--ink); border-color: var(--ink); }
.facts { display: grid; grid-template-columns: repeat(auto-fit, minmax(190px, 1fr)); gap: 14px; margin-top: 22px; }
.card { background: var(--card); border-radius: 14px; box-shadow: var(--shade); padding: 16px 18px; margin-bottom: 14px; overflow-x: auto; }
.fact { margin: 0; }
.fact b { display: block; font-size: 26px; line-height: 1.25; font-weight: 650; }
.fact span { color: var(--soft); font-size: 13px; }
.meter { height: 6px; border-radius: 3px; background: var(--line); margin-top: 10px; overflow: hidden; }
.meter i { display: block; height: 100%; background: var(--live); border-radius: 3px; min-width: 3px; }
.alarm { color: var(--alarm); fill: var(--alarm); }
.good { color: var(--good); }
table { border-collapse: collapse; width: 100%; font-size: 14px; }
th { text-align: left; font-weight: 600; color: var(--soft); font-size: 12.5px; padding: 4px 14px 6px 0; white-space: nowrap; }
td { padding: 6px 14px 6px 0; border-top: 1px solid var(--line); vertical-align: top; }
td.number, th.number { text-align: right; font-variant-numeric: tabular-nums; white-space: nowrap; }
.older { opacity: .55; }
td.changed, .changed { background: var(--mark); box-shadow: inset 0 0 0 1px #e9c94680; border-radius: 6px; padding-left: 8px; padding-right: 8px; }
.null { color: var(--soft); font-style: italic; }
.columns span { display: inline-block; margin: 2px 6px 2px 0; padding: 1px 8px; border-radius: 8px; background: var(--paper); font-size: 13px; }
.columns b { font-weight: 600; } .columns i { font-style: normal; color: var(--soft); }
.key { margin-top: 14px; }
.space { display: inline-block; padding: 1px 9px; border-radius: 10px; color: #fff; font-size: 12.5px; white-space: nowrap; }
.who { display: inline-block; padding: 1px 9px; border-radius: 10px; border: 1px solid var(--line); font-size: 12.5px; white-space: nowrap; }
.inserted, .updated, .deleted { white-space: nowrap; }
.inserted::before { content: "+ "; color: var(--good); font-weight: 700; } .updated::before { content: "~ "; color: #d9720b; font-weight: 700; }
.deleted::before { content: "\2212  "; color: var(--alarm); font-weight: 700; }
.sides { display: grid; grid-template-columns: repeat(3, minmax(200px, 1fr)); gap: 12px; margin-top: 10px; }
.side { border: 1px solid var(--line); border-radius: 10px; padding: 10px 12px; }
.side dl { display: grid; grid-template-columns: auto 1fr; gap: 3px 12px; margin: 8px 0 0; font-size: 14px; }
.side dt { color: var(--soft); } .side dd { margin: 0; }
.listed { margin: 0; padding: 0; list-style: none; display: grid; gap: 4px; font-size: 14px; }
.when { color: var(--soft); white-space: nowrap; font-variant-numeric: tabular-nums; }
input { font: inherit; padding: 7px 12px; border: 1px solid var(--line); border-radius: 10px; background: var(--card); color: var(--ink);
  width: 100%; max-width: 360px; margin-bottom: 12px; }
svg { display: block; height: auto; }
svg text { font: 13px system-ui, "Segoe UI", "DejaVu Sans", sans-serif; fill: var(--ink); }
svg .name { font-weight: 600; font-size: 13px; } svg .small { font-size: 11.5px; fill: var(--soft); }
svg .small.alarm { fill: var(--alarm); font-weight: 600; } svg .small.frozen { fill: #0b93ad; font-weight: 600; }
svg .day { font-size: 11.5px; fill: var(--soft); } svg .grid { stroke: var(--line); stroke-dasharray: 3 4; }
svg .lane { stroke-width: 3; } svg .birth { fill: none; stroke-width: 3; } svg .halo { fill: none; stroke: var(--card); stroke-width: 9; }
svg .implicit { fill: var(--card); stroke-width: 2.5; } svg .savepoint, svg .newest { stroke: var(--card); stroke-width: 2; }
svg .pill { fill: var(--card); stroke-width: 1.5; } svg .count { font-size: 12px; font-weight: 600; }
svg .bar { stroke: #1b243233; } svg .value { font-size: 12px; fill: #1b2432; }
svg .hatched { fill: url(#hatch); stroke: var(--alarm); stroke-width: 1.5; pointer-events: all; }
@media print { body { background: #fff; } .card { box-shadow: none; border: 1px solid #ddd; break-inside: avoid; } input, nav { display: none; } }
"""

HATCH = """<svg width="0" height="0" style="position:absolute" aria-hidden="true"><defs><pattern id="hatch" width="7" height="7"
 patternTransform="rotate(45)" patternUnits="userSpaceOnUse"><rect width="2" height="7" fill="#cf2b3f" opacity=".55"/></pattern></defs></svg>"""

# Without scripts the box is not there, and every entry is.
SCRIPT = """
for (const box of document.querySelectorAll("input[data-finds]")) {
  box.hidden = false;
  box.addEventListener("input", () => {
    const words = box.value.toLowerCase().split(/\\s+/);
    for (const row of document.querySelectorAll(box.dataset.finds))
      row.hidden = !words.every(word => row.textContent.toLowerCase().includes(word));
  });
}
"""


def shell(name, inside):
    """A whole page. All that it needs is in it."""
    head = ('<meta charset="utf-8">\n<meta name="viewport" content="width=device-width, initial-scale=1">\n'
            f"<title>{name}</title>\n<style>{STYLE}</style>\n")
    body = f"{HATCH}\n<main>\n{inside}\n</main>\n<script>{SCRIPT}</script>\n"
    return f'<!doctype html>\n<html lang="en">\n<head>\n{head}</head>\n<body>\n{body}</body>\n</html>\n'
