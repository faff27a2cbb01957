#!/usr/bin/env python3
"""Writes what pages say of the reports in results/: the tables of docs/PERFORMANCE.md, and README's sentence and the
words for its chart, which gnuplot draws.

    bench/report.py [--check | --plot]    --check writes nothing, and fails where a page says something else"""

import json
import re
import statistics
import subprocess
import sys
from pathlib import Path

BENCH = Path(__file__).resolve().parent
README, PAGE = BENCH.parent / "README.md", BENCH.parent / "docs/PERFORMANCE.md"
MARK = "<!-- bench/report.py writes this table -->\n"
HEADS = ["Report", "What", "Ratio", "Cases", "Least", "Median", "Most", "Commit"]
CHART = 'alt="{} patterns: from {:.2g} to {:.2g}"'
SENTENCE = """From Rust, parsing takes {:.2g} to {:.2g} times the [instructions](docs/PERFORMANCE.md#measured) of the
crate 0.3.4, copying a pattern {:.2g} to {:.2g} times, and a walk {:.2g} to {:.2g} times as long. From Rattle, the
measured sets take at most {:.2g} of `globset`'s time.
"""
PLOT = """
set terminal svg size 720,{height} font "sans-serif,13"
set output "{output}"
set datafile separator "\\t"
set border 0 linecolor rgb "{text}"
set tics nomirror scale 0 textcolor rgb "{text}"
set xlabel "instructions, where the crate takes 1" textcolor rgb "{text}"
set xrange [0:*]
set arrow from 1, graph 0 to 1, graph 1 nohead dashtype 2 linecolor rgb "{text}"
set style fill solid noborder
set termoption noenhanced
$rows << EOD
{rows}
EOD
plot $rows using 1:0:(0):1:($0-0.35):($0+0.35):ytic(2) with boxxyerror linecolor rgb "{bar}" notitle, \\
    "" using 1:0:(sprintf(" %.2f", $1)) with labels left textcolor rgb "{text}" notitle
"""


def reports():
    """The reports by name."""
    return {path.stem: json.loads(path.read_text(encoding="utf-8")) for path in sorted(BENCH.glob("results/*.json"))}


def ratios(table):
    """The ratios of each column of ratios, by its head. A `-` means that there is none."""
    heads = {at: head for at, head in enumerate(table["heads"]) if head.startswith("to ")}
    cells = {head: [row[at] for row in table["rows"] if row[at] != "-"] for at, head in heads.items()}
    return {head: [float(cell.replace(",", "")) for cell in found] for head, found in cells.items()}


def rows():
    """A row of the page's table for each column with ratios."""
    for report in reports().values():
        for table in report["tables"]:
            for head, found in ratios(table).items():
                some = [f"{it:.2g}" for it in (min(found), statistics.median(found), max(found))]
                title = table["title"].split(":")[0]
                yield [f"`{report['name']}`", title, head, str(len(found)), *some, f"`{report['commit']}`"]


def spread_rows():
    """The heads and the rows of the page's table of random cases, with quantiles of their ratios. Without such a report
    there are no heads."""
    found = [(report, table) for report in reports().values() for table in report["tables"] if "median" in table["heads"]]
    heads = [["Report", "What", *map(str.capitalize, table["heads"]), "Commit"] for _, table in found[:1]]
    return heads + [[f"`{report['name']}`", table["title"], *row, f"`{report['commit']}`"]
        for report, table in found for row in table["rows"]]


def written(heads, *rows):
    """A table whose first three columns and last column are text."""
    marks = ["---"] * 3 + ["--:"] * (len(heads) - 4) + ["---"]
    return "".join(f"| {' | '.join(row)} |\n" for row in (heads, marks, *rows))


def with_tables(page):
    tables = [[HEADS, *rows()], spread_rows()]
    before, _, after = page.partition(MARK)
    after = re.sub(r"\A(\|.*\n|\n(?=\|))*", "", after)
    return before + MARK + "\n".join(written(*table) for table in tables if table) + after


def found_in(name, title, head):
    """The ratios of a column in the table whose title begins with `title`."""
    [table] = [it for it in reports()[name]["tables"] if it["title"].startswith(title)]
    return ratios(table)[head]


def with_sentence(page):
    chart = found_in("instructions", "Matching", "to the crate")
    parsing, copies = (found_in("process-instructions", it, "to the crate") for it in ("Parsing", "Copies"))
    walks = found_in("process-walks", "Walks", "to the crate")
    sets = [it for title in ("Sets,", "Kinds of sets from Rattle") for it in found_in("sets", title, "to globset")]
    ends = (end(found) for found in (parsing, copies, walks) for end in (min, max))
    sentence = SENTENCE.format(*ends, max(sets))
    page = re.sub(r'alt="\d+ patterns: [^"]*"', CHART.format(len(chart), min(chart), max(chart)), page)
    return re.sub(r"^From Rust, parsing takes (.+\n)+", lambda _: sentence, page, flags=re.M)


def plot():
    """Draws a bar for each pattern, the last one first, since gnuplot counts upwards."""
    rows_of = reversed(reports()["instructions"]["tables"][0]["rows"])
    found = [f"{row[-1]}\t{row[0].removeprefix('match ').replace('`', '')}" for row in rows_of]
    for shade, text, bar in (("light", "#24292f", "#0969da"), ("dark", "#e6edf3", "#58a6ff")):
        output = BENCH / f"results/instructions-{shade}.svg"
        script = PLOT.format(height=60 + 24 * len(found), output=output, text=text, bar=bar, rows="\n".join(found))
        subprocess.run(["gnuplot"], input=script, text=True, check=True)


def main():
    for file, changed in ((PAGE, with_tables), (README, with_sentence)):
        page = file.read_text(encoding="utf-8")
        if "--check" not in sys.argv:
            file.write_text(changed(page), encoding="utf-8")
        elif changed(page) != page:
            sys.exit(f"{file.name} does not say what the reports say. Run bench/report.py.")
    if "--plot" in sys.argv:
        plot()


main()
