"""The survey of a trace as one file of HTML, which shows its tables and pictures anywhere, and fetches nothing."""
import hashlib
import json
import math
import re
import shlex
from html import escape
from pathlib import Path

from .measures import above, below, capacities_in
from .options import as_called
from .own import in_legend, is_own
from .pictures import ends_around, marks_of
from .policies import styled
from .reports import INTERVALS
from .tables import FOLDED, LEFT, NOTES, NOTES_OF_SAMPLE, TABLES, TITLES, also_measured, rate_of, shown_rate
from .views import every_of

# The room of a picture, and of what stands around its curves: left, top, right, below.
WIDTH, HEIGHT, AROUND = 1080, 430, (58, 12, 30, 44)
# So many marks at most has a curve.
MARKS = 12
# A first choice that costs so many percent more misses at a neighbouring capacity is doubtful.
DOUBTFUL = 5
# The marks of gnuplot's numbers from 1 on, around 0; the first three have no inside, and of the others some are filled.
RING, SQUARE, UP = "M-4 0a4 4 0 1 0 8 0a4 4 0 1 0-8 0Z", "M-4-4H4V4H-4Z", "M0-5L5 4H-5Z"
DOWN, DIAMOND, PENTAGON = "M0 5L5-4H-5Z", "M0-5.5L5.5 0L0 5.5L-5.5 0Z", "M0-5L5-1.2L3 4.5H-3L-5-1.2Z"
PLUS, CROSS = "M-5 0H5M0-5V5", "M-4-4L4 4M4-4L-4 4"
SHAPES = dict(enumerate([PLUS, CROSS, PLUS + CROSS, SQUARE, SQUARE, RING, RING, UP, UP, DOWN, DOWN, DIAMOND, DIAMOND,
                         PENTAGON, PENTAGON], 1))
FILLED = {5, 7, 9, 11, 13, 15}


def page_of(args, survey, drawn, version):
    """The page: the facts, the curves, hits over time, the tables, what is not sure, and what looks further."""
    curves = chart_of_curves(survey, drawn)
    times = None if args.sampled else chart_over_time(survey, args)
    parts = [facts(args, survey, version), *legend_of(survey.policies)]
    parts += section("Hit ratio over capacity",
                     "By steps: between two capacities a curve stays at the ratio of the smaller one.", curves)
    if times:
        parts += section(f"Hit ratio over time, at {times['capacity']} entries",
                         f"Of intervals of {times['every']:,} accesses; in one interval clairvoyant is no upper bound."
                         + " Policies of one's own are left out." * any(map(is_own, survey.policies)), times)
    parts += doubts(survey)
    also = also_measured([survey]).get(survey.trace.name, "")
    parts += [table(name, survey, args, also) for name in args.table]
    parts += further(survey)
    data = [{it: chart[it] for it in ("id", "places", "labels", "values")} for chart in (curves, times) if chart]
    filled = {"title": escape(f"Survey of {Path(survey.trace.name).name}"), "body": "\n".join(parts),
              "data": json.dumps(data, separators=(",", ":")).replace("<", "\\u003c")}
    text = (Path(__file__).resolve().parent / "report.html").read_text(encoding="utf-8")
    return re.sub(r"@(title|body|data)@", lambda it: filled[it[1]], text).encode(errors="replace")


def facts(args, survey, version):
    trace = survey.trace
    digest, size = hashlib.sha256(), 0
    for piece in iter(lambda text=trace.file.lines(): text.read(1 << 20), b""):
        digest.update(piece)
        size += len(piece)
    told = {"Trace": trace.name, "Its text": f"{size:,} bytes, format {args.format}",
            "SHA-256 of it": digest.hexdigest(), "Accesses": f"{survey.accesses:,}",
            "Footprint": f"{trace.shown(survey.footprint):,} blocks",
            "Highest hit ratio possible": f"{survey.highest} %",
            "Sample": args.sampled and f"one block in {args.sampled}: all numbers are estimates of the whole trace",
            "Left out": args.after and f"the first {args.after:,} accesses",
            "Options": f"--main {args.main or 99} --spread {args.spread}",
            "Program": version}
    return "<dl>" + "".join(f"<dt>{name}</dt><dd>{escape(str(value))}</dd>" for name, value in told.items()
                            if value) + "</dl>"


# Pictures.

def stroke(style):
    dash = "" if style.dash == "1" else f' stroke-dasharray="{style.dash.strip("()")}"'
    return f'stroke="{style.colour}" fill="none"{dash}'


def mark(style, x, y):
    inside = style.colour if style.marker in FILLED else "#fff" if style.marker > 3 else "none"
    return (f'<path d="{SHAPES[style.marker]}" transform="translate({x} {y})" stroke="{style.colour}" '
            f'stroke-width="1.4" fill="{inside}"/>')


def text_at(x, y, anchor, text):
    return f'<text x="{x}" y="{y}" text-anchor="{anchor}">{text}</text>'


def legend_of(policies):
    yield "<h2>Policies</h2><ul class=\"legend\">"
    for it in policies:
        style = styled(policies)[it]
        line = f'<path d="M0 7H52" stroke-width="2" {stroke(style)}/>{mark(style, 26, 7)}'
        yield (f'<li data-policy="{escape(it)}"><svg width="52" height="14" aria-hidden="true">{line}</svg> '
               f"{escape(in_legend(it, it))}</li>")
    yield "</ul>"


def section(title, note, chart):
    return [f"<h2>{escape(title)}</h2>", f'<p class="quiet">{escape(note)}</p>',
            f'<div class="scroll">{chart["picture"]}</div>',
            f'<p class="value scripted" id="{chart["id"]}-value"></p>']


def chart_of_curves(survey, drawn):
    rows = {(it.policy, it.capacity): it for it in drawn}
    places = capacities_in(rows)
    values = {policy: [100 * rows[policy, it].hits / rows[policy, it].accesses for it in places]
              for policy in survey.policies}
    shown = [survey.trace.shown(it) for it in places]
    return chart("capacity", shown, [(it, it) for it in shown], values, "capacity in entries",
                 [f"{it:,} entries" for it in shown], len(shown) > 2)


def chart_over_time(survey, args):
    """The picture of `intervals` at the middle one of the capacities, or None of a trace without any."""
    trace, capacities = survey.trace, capacities_in(survey.rows)
    policies = [it for it in survey.policies if not is_own(it)]
    if not capacities or not policies:
        return None
    capacity, every = capacities[(len(capacities) - 1) // 2], every_of(survey.accesses)
    words = [*trace.words("intervals"), "--capacity", capacity, "--every", every, *policies]
    values, spans = {}, []
    for policy, _, first, last, hits, misses, *_ in trace.report(words, INTERVALS):
        if int(first) > args.after:
            values.setdefault(policy, []).append(100 * int(hits) / (int(hits) + int(misses)))
            spans.append((int(first) - 1, int(last)))
    spans = sorted(set(spans))
    labels = [f"accesses {first + 1:,} to {last:,}" for first, last in spans]
    return {**chart("time", [last for _, last in spans], spans, values, "accesses", labels, False),
            "capacity": capacity, "every": every}


def chart(name, ends, spans, values, axis, labels, is_log):
    """A picture of curves by steps, and what a script needs to say its values."""
    left, top, right, under = AROUND
    low, high = min(it for it, _ in spans), max(ends)
    is_log = is_log and low > 0 and high >= 10 * low
    heights = [it for list_of in values.values() for it in list_of]
    bottom, above_all = ends_around(min(heights), max(max(heights), min(heights) + 1))

    def across(it):
        share = math.log(it / low) / math.log(high / low) if is_log else (it - low) / max(1, high - low)
        return round(left + share * (WIDTH - left - right), 1)

    def up(it):
        return round(top + (above_all - it) / (above_all - bottom) * (HEIGHT - top - under), 1)

    parts = [f'<svg class="picture" id="{name}" viewBox="0 0 {WIDTH} {HEIGHT}" role="img" aria-label="Hit ratio in '
             f'percent over {axis}, a curve for each policy; the tables have the values">']
    for it in marks_of(bottom, above_all, 0.07):
        parts += [f'<path d="M{left} {up(it)}H{WIDTH - right}" stroke="#ddd"/>',
                  text_at(left - 8, up(it) + 4, "end", f"{it:g}")]
    for it in marks_of(low, high, 0.02 + 0.011 * len(f"{high:,}"), is_log):
        parts += [f'<path d="M{across(it)} {top}V{HEIGHT - under}" stroke="#eee"/>',
                  text_at(across(it), HEIGHT - under + 18, "middle", f"{it:,.10g}")]
    parts.append(text_at((left + WIDTH - right) / 2, HEIGHT - 4, "middle",
                         f"{axis}{', logarithmic' * is_log}; hit ratio in percent"))
    every = max(1, math.ceil(len(ends) / MARKS))
    for number, (policy, list_of) in enumerate(values.items()):
        style, first = styled(values)[policy], number * every // len(values)
        if spans[0][0] == spans[0][1]:
            steps = f"M{across(ends[0])} {up(list_of[0])}" + "".join(f"H{across(end)}V{up(it)}"
                                                                     for end, it in zip(ends[1:], list_of[1:]))
        else:
            steps = "M" + "L".join(f"{across(begin)} {up(it)}H{across(end)}" for (begin, end), it in zip(spans,
                                                                                                         list_of))
        marks = "".join(mark(style, across(end), up(it)) for end, it in [*zip(ends, list_of)][first::every])
        line = f'<path d="{steps}" stroke-width="2" {stroke(style)}/>'
        parts.append(f'<g data-policy="{escape(policy)}">{line}{marks}</g>')
    parts.append(f'<line class="pointer" y1="{top}" y2="{HEIGHT - under}" stroke="#555" style="display:none"/></svg>')
    return {"id": name, "picture": "".join(parts), "places": [*map(across, ends)], "labels": labels,
            "values": {policy: [round(it, 4) for it in list_of] for policy, list_of in values.items()}}


# Tables, and what follows from them.

def table(name, survey, args, also):
    head, *rows = list(TABLES[name]([survey]))
    own = {} if name == "traces" else {"trace"}
    kept = [at for at, it in enumerate(head) if it not in own]
    title = TITLES.get(name, "the trace")
    title = title[0].upper() + title[1:]
    notes = {**NOTES, **(NOTES_OF_SAMPLE if args.sampled else {})}.get(name, "")
    notes += f"\n({also})" if also and "best" in head else ""

    def cell(kind, at, value):
        text = " or ".join(value) or "-" if isinstance(value, tuple) else str(value)
        names = " ".join(it for it in ("name" * (head[at] in LEFT), "best" * (head[at] in FOLDED)) if it)
        return f'<{kind} class="{names}">{escape(text)}</{kind}>' if names else f"<{kind}>{escape(text)}</{kind}>"

    def line(kind, row):
        return "<tr>" + "".join(cell(kind, at, row[at]) for at in kept) + "</tr>"

    body = (f"<table><thead>{line('th', head)}</thead><tbody>" + "".join(line("td", row) for row in rows)
            + "</tbody></table>") if rows else "<p>None.</p>"
    return (f'<h2>{escape(title)}</h2><div class="scroll" tabindex="0" role="region" aria-label="{escape(title)}">'
            f'{body}</div><p class="note">{escape(notes)}</p>')


def reasons(survey, capacity, choices):
    """Why the first name of `best` at a capacity is not sure."""
    if len(choices) > 1:
        yield f"{len(choices)} are as good there: " + ", ".join(it.name for it in choices)
    if choices and choices[0].worst > DOUBTFUL:
        yield (f"{choices[0].name} has up to {choices[0].worst:.1f} percent more misses than the best policy at a "
               "capacity beside it")
    for policy, place in survey.spans:
        if place == capacity:
            yield f"{policy} changes within a percent of it: {rate_of(survey, policy, place)}"
    first, _, more = survey.halves.get(capacity, ([], [], {}))
    if first and more[first[0].key] > DOUBTFUL:
        yield (f"{first[0].name}, the choice by the first half of the trace, has {more[first[0].key]:.1f} percent more "
               "misses in the second half than the best policy there")
    for low, high in survey.jumps:
        if below(low.capacity) <= capacity <= above(high.capacity):
            yield (f"{low.policy} jumps from {shown_rate(low)} at {survey.trace.shown(low.capacity)} entries to "
                   f"{shown_rate(high)} at {survey.trace.shown(high.capacity)}")


def doubts(survey):
    found = [(it, [*reasons(survey, it, choices)]) for it, choices in sorted(survey.choices.items())]
    yield "<h2>Where the best policy is not sure</h2>"
    if not any(texts for _, texts in found):
        yield "<p>At none of the capacities.</p>"
        return
    yield '<div class="scroll"><table><thead><tr><th>capacity</th><th class="name">why</th></tr></thead><tbody>'
    for capacity, texts in found:
        if texts:
            why = "<br>".join(map(escape, texts))
            yield f'<tr><td>{survey.trace.shown(capacity)}</td><td class="name why">{why}</td></tr>'
    yield "</tbody></table></div>"


def further(survey):
    """Commands that look further, as they are typed."""
    trace, options = survey.trace, survey.trace.options
    sampled = f" --sampled 1/{trace.inverse} --accesses {trace.whole}" if trace.whole else ""
    name = shlex.quote(trace.name) if trace.name != "-" else "TRACE"
    told = {f" --format {options.format}": options.format != "lirs", f" --main {options.main}": options.main != "99",
            f" --spread {options.spread}": options.spread != "mixed"}
    how = "".join(text for text, is_told in told.items() if is_told)
    long = " --long" * options.is_long

    def called(command, words):
        packer = trace.file.packed_by
        call = f"./cachesim {command}{how}{long} {words}"
        return f"{packer} -dc {name} | {call}" if packer else f"{call} < {name}"

    chosen = {it: [choice.key.replace(" --main ", ":main=") for choice in choices if not is_own(choice.key)]
              for it, choices in sorted(survey.choices.items())}
    chosen = {it: words for it, words in chosen.items() if words}
    lines = []
    if chosen:
        capacity = [*chosen][(len(chosen) - 1) // 2]
        best = chosen[capacity][0]
        other = next((it for it in ("lru", *chosen[capacity]) if it != best), "fifo")
        lines += [("What each of two policies holds, access by access, in the browser",
                   f"tools/watch {name}{how} --capacity {capacity} --first {best} --second {other}"),
                  ("Which accesses each of both hits alone, over time",
                   called("compare", f"--capacity {capacity} --first {best} --second {other} --every "
                          f"{every_of(survey.accesses)}") + " | tools/plot > alone.svg")]
    lines.append(("Whether the choice by the first half of the trace would have held in the second",
                  f"tools/survey{how}{long}{sampled} --halves {name}"))
    for policy, capacity in [*dict.fromkeys(it for it in survey.spans if not is_own(it[0]))][:3]:
        low, high, by = capacity * 9 // 10, capacity * 11 // 10, max(1, capacity // 50)
        lines.append((f"How {policy} changes around {capacity} entries",
                      called("sweep", f"--policy {policy} $(seq {max(1, low)} {by} {high})")))
    lines.append(("The smallest capacity of each policy with a hit ratio",
                  f"tools/survey{how}{long}{sampled} --reach {max(1, math.floor(float(survey.highest) * 0.9))} {name}"))
    yield "<h2>To look further</h2>"
    for about, line in lines:
        yield f"<p>{escape(about)}:</p><pre>{escape(as_called(line))}</pre>"
