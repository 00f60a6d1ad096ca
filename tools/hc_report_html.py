"""Entries as one page of HTML: no script and nothing from elsewhere, and everything is escaped."""

from html import escape

from hc_report_parts import Quote, ScriptLine, Sentence, Shell, Steps
from hc_report_texts import Code, counted, printed
from hc_report_words import EDITS, GRADE_NAMES, IN_ORDER, KINDS

MANY_LINKS = 20

# Kinds that the summary names also where there are none.
ALWAYS = ("proved", "refuted", "undecided", "refused")

STYLE = """\
:root {
  color-scheme: light dark;
  --paper: #ffffff; --ink: #20242b; --soft: #5d6673; --line: #dde1e6; --code: #f4f5f7;
  --grave: #a3262b; --broken: #a3262b; --open: #8a5800; --unknown: #5b4b8a; --good: #2c6b43; --link: #1d4f7c;
}
@media (prefers-color-scheme: dark) {
  :root {
    --paper: #15181d; --ink: #e2e5ea; --soft: #9ba4b1; --line: #323842; --code: #1f242b;
    --grave: #f08f8f; --broken: #f08f8f; --open: #deb361; --unknown: #b9abe6; --good: #86c79b; --link: #98c3ec;
  }
}
* { box-sizing: border-box; }
html { -webkit-text-size-adjust: 100%; }
body {
  margin: 0; background: var(--paper); color: var(--ink);
  font: 1rem/1.55 system-ui, -apple-system, "Segoe UI", Roboto, "Helvetica Neue", "Liberation Sans", Arial, sans-serif;
}
main { max-width: 54rem; margin: 0 auto; padding: 3rem 1.5rem 4rem; }
h1 { margin: 0; font-size: 1.75rem; font-weight: 650; line-height: 1.2; letter-spacing: -0.01em; }
h2 { margin: 3rem 0 1rem; padding-bottom: .35rem; border-bottom: 1px solid var(--line); font-size: 1.2rem;
  font-weight: 650; }
h3 { margin: .1rem 0 .5rem; font-size: 1rem; font-weight: 600; line-height: 1.45; }
h3 code { font-weight: inherit; }
p { margin: .35rem 0; }
.soft, .date, footer { color: var(--soft); }
.date { margin: .4rem 0 0; }
.lead { margin-top: 1rem; }
a { color: var(--link); text-decoration: none; }
a:hover { text-decoration: underline; }
code, pre { font: .875em/1.5 ui-monospace, "SF Mono", "DejaVu Sans Mono", "Liberation Mono", Menlo, Consolas, monospace;
  unicode-bidi: isolate; }
code { overflow-wrap: anywhere; }
pre { margin: .5rem 0; padding: .55rem .8rem; background: var(--code); border-radius: 4px; white-space: pre-wrap;
  overflow-wrap: anywhere; }
pre .place { color: var(--soft); }
table { border-collapse: collapse; width: 100%; font-size: .94rem; }
th, td { padding: .35rem 1rem .35rem 0; border-bottom: 1px solid var(--line); text-align: left; vertical-align: top; }
th { color: var(--soft); font-weight: 500; white-space: nowrap; }
th.count, td.count { width: 6rem; padding-right: 0; text-align: right; font-variant-numeric: tabular-nums; }
td:first-child { white-space: nowrap; }
tr.none td { color: var(--soft); }
article { margin: 0 0 1.75rem; padding-left: 1rem; border-left: 3px solid var(--line); }
article:target { border-left-color: var(--link); }
.of-grave, .of-broken { border-left-color: var(--grave); }
.of-open { border-left-color: var(--open); }
.of-unknown { border-left-color: var(--unknown); }
.at { margin: 0; font-size: .875rem; font-variant-numeric: tabular-nums; }
.at b { margin-right: .5rem; font-weight: 650; }
.at a { color: var(--soft); }
.grave { color: var(--grave); } .broken { color: var(--broken); } .open { color: var(--open); }
.unknown { color: var(--unknown); } .note { color: var(--link); } .good { color: var(--good); }
ol { margin: .35rem 0 .6rem; padding-left: 2rem; }
ol li { padding-left: .2rem; margin: .15rem 0; }
ol li::marker { color: var(--soft); font-variant-numeric: tabular-nums; }
li .place { color: var(--soft); margin-right: .35rem; }
li .source { background: var(--code); padding: .05rem .3rem; border-radius: 3px; margin-right: .2rem; }
.title { margin: .7rem 0 .2rem; font-weight: 600; font-size: .94rem; }
.do b { font-weight: 600; }
.calm article { margin-bottom: 1.25rem; }
.calm h3 { font-weight: 500; }
footer { margin-top: 3.5rem; padding-top: .8rem; border-top: 1px solid var(--line); font-size: .875rem; }
@page { margin: 18mm 16mm; }
@media print {
  :root { --paper: #fff; --ink: #000; --soft: #444; --line: #bbb; --code: #f3f3f3; --link: #000; --grave: #8b1a1a;
    --broken: #8b1a1a; --open: #6b4400; --unknown: #43366e; --good: #1f5232; }
  html { font-size: 10.5pt; }
  main { max-width: none; padding: 0; }
  h2, h3, .at, .title { break-after: avoid; }
  pre, li, tr, p { break-inside: avoid; }
  pre { border: 1px solid var(--line); }
}
"""

FOOT = (
    "Each answer speaks of the files as they were handed in, by the rules of hc. Where a running httpd decides"
    " otherwise stands in docs/DIFFERENCES.md."
)


# ---- parts


def _words(sentence):
    return "".join(f"<code>{escape(span)}</code>" if isinstance(span, Code) else escape(span) for span in sentence)


def _sentence(part):
    if part.role == "do":
        return f'<p class="do"><b>To do:</b> {_words(part.words)}</p>'
    return f'<p class="soft">{_words(part.words)}</p>' if part.role == "means" else f"<p>{_words(part.words)}</p>"


def _quote(part):
    place = f'<span class="place">{escape(part.place)}</span>\n' if part.place else ""
    caret = "\n" + " " * part.caret + '<b class="grave">^</b>' if part.caret is not None else ""
    return f"<pre>{place}{escape(part.source)}{caret}</pre>"


def _step(step):
    quoted = ""
    if step.quote:
        quoted = f'<code class="place">{escape(step.quote.place)}</code> '
        quoted += f'<code class="source">{escape(step.quote.source)}</code> ' if step.quote.source else ""
    return f"<li>{quoted}{_words(step.words)}</li>"


def _steps(part):
    items = "\n".join(_step(step) for step in part.steps)
    more = f'\n<p class="soft">{part.more:,} more steps aren\'t told.</p>' if part.more else ""
    return f'<p class="title">{_words(part.title)}</p>\n<ol>\n{items}\n</ol>{more}'


def _to_copy(part):
    return f'<p class="title">{_words(part.title)}</p>\n<pre>{escape(part.line)}</pre>'


PARTS = {Sentence: _sentence, Quote: _quote, Steps: _steps, Shell: _to_copy, ScriptLine: _to_copy}


# ---- entries


def _anchor(entry):
    is_of_line = entry.number and entry.kind not in ("mismatch", "unanswered")
    return f"line-{entry.number}" if is_of_line else f"{entry.kind}-{entry.number}"


def _entry(entry):
    grade = GRADE_NAMES[entry.grade]
    label = f'<b class="{grade}">{escape(entry.label)}</b> ' if entry.label else ""
    line = f'<a href="#{_anchor(entry)}">line {entry.number}</a>' if entry.number else ""
    at = f'<p class="at">{label}{line}</p>'
    parts = "".join("\n" + PARTS[type(part)](part) for part in entry.parts)
    title = f"<h3>{_words(entry.title)}</h3>"
    return f'<article id="{_anchor(entry)}" class="of-{grade}">\n{at}\n{title}{parts}\n</article>'


def _list(entries, none):
    return "\n".join(map(_entry, entries)) if entries else f'<p class="soft">{escape(none)}</p>'


# ---- the summary


def _links(entries):
    links = [f'<a href="#{_anchor(entry)}">{entry.number or "below"}</a>' for entry in entries[:MANY_LINKS]]
    more = len(entries) - MANY_LINKS
    return ", ".join(links) + (f" and {more:,} more" if more > 0 else "")


def _row(entries, kind, count):
    grade, label, _, says = KINDS[kind]
    color = f' class="{GRADE_NAMES[grade]}"' if count and label else ""
    links = _links([entry for entry in entries if entry.kind == kind])
    cells = f"<td{color}>{escape(label or kind.capitalize())}</td><td>{escape(says)}</td><td>{links}</td>"
    return f'<tr{"" if count else " class=none"}>{cells}<td class="count">{count:,}</td></tr>'


def _summary(entries, tally):
    head = '<tr><th>Answer</th><th>What it says</th><th>Lines</th><th class="count">How many</th></tr>'
    total = f'<tr><th>Questions</th><th></th><th></th><th class="count">{tally.questions:,}</th></tr>'
    rows = [
        _row(entries, kind, count)
        for kind, count in tally.kinds.items()
        if kind not in EDITS and (count or kind in ALWAYS)
    ]
    body = "\n".join(rows)
    return f"<table>\n<thead>{head}</thead>\n<tbody>\n{body}\n</tbody>\n<tfoot>{total}</tfoot>\n</table>"


# ---- the page

PAGE = """\
<!doctype html>
<html lang="en">
<head>
<meta charset="utf-8">
<meta http-equiv="Content-Security-Policy" content="default-src 'none'; style-src 'unsafe-inline'">
<meta name="viewport" content="width=device-width, initial-scale=1">
<title>{title}</title>
<style>
{style}</style>
</head>
<body>
<main>
<header>
<h1>{title}</h1>{date}
<p class="lead">{lead}.</p>
</header>
<section>
<h2>Summary</h2>
{summary}
</section>
<section>
<h2>Findings</h2>
{findings}
</section>
<section class="calm">
<h2>In order</h2>
{calm}
</section>
<footer>{foot}</footer>
</main>
</body>
</html>
"""


def _lead(findings, tally):
    many = counted(len(findings), "finding") if findings else "No finding"
    edits = f", behind {counted(tally.edits, 'edit')} of the files" if tally.edits else ""
    return f"{many} in {counted(tally.questions, 'question')}{edits}"


def html_page(entries, tally, title, date, everything):
    """The page of entries and their tally."""
    findings = sorted((entry for entry in entries if entry.grade != IN_ORDER), key=lambda entry: entry.grade)
    calm = [entry for entry in entries if entry.grade == IN_ORDER and (everything or entry.kind not in EDITS)]
    return PAGE.format(
        title=escape(printed(title)),
        style=STYLE,
        date=f'\n<p class="date">{escape(printed(date))}</p>' if date else "",
        lead=escape(_lead(findings, tally)),
        summary=_summary(entries, tally),
        findings=_list(findings, "There is none."),
        calm=_list(calm, "There is nothing else."),
        foot=escape(FOOT),
    )
