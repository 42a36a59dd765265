"""The page of `farm bench --report`: rows, searches side by side, a performance profile, and pictures. Nothing in it is from elsewhere."""
import html
import re

from bench_rows import COLUMNS, NONE, percent, shown

PAGE = """\
<!DOCTYPE html>
<html lang="en"><head><meta charset="utf-8"><title>farm bench</title>
<style>
body {{ font: 15px/1.4 sans-serif; color: #222; max-width: 70em; margin: 2em auto; padding: 0 1em; }}
h1 {{ font-size: 1.4em; }} h2 {{ font-size: 1.1em; margin-top: 2em; }}
div {{ overflow-x: auto; }} table {{ border-collapse: collapse; font-variant-numeric: tabular-nums; }}
th, td {{ padding: .2em .7em; text-align: right; border-bottom: 1px solid #ddd; }}
th:first-child, td:first-child {{ text-align: left; }}
tr:target {{ background: #fec; }} code {{ background: #f3f3f3; padding: .1em .3em; }}
figure {{ margin: 1.5em 0; overflow-x: auto; }} figcaption {{ font-weight: bold; }}
</style></head><body>
<h1>{heading}</h1>
{about}
{sides}<div><table>
<tr>{columns}</tr>
{rows}
</table></div>
<h2>Performance profile</h2>
<p>The share of the projects whose makespan is at most so many percent above the optimum; above the greatest bound of any row of that project if no
optimum is given, or above its best makespan here if there is neither.</p>
<div>{profile}</div>
<h2>Schedules</h2>
{pictures}
</body></html>
"""
COLOURS = ["#1b6ca8", "#c8553d", "#3a7d44", "#8e5aa8", "#b8860b", "#444"]


def known(value):
    return value not in (None, "", NONE)


def measures_of(rows):
    """For each project what its makespans are compared with, of whatever search: its optimum, or else its greatest bound, or else its best makespan."""
    optima, bounds, best = {}, {}, {}
    for row in rows:
        name = row["name"]
        if known(row.get("optimum")):
            optima[name] = int(row["optimum"])
        if known(row.get("bound")):
            bounds[name] = max(bounds.get(name, 0), int(row["bound"]))
        if known(row["makespan"]):
            best[name] = min(best.get(name, 10**9), int(row["makespan"]))
    return {name: optima.get(name, bounds.get(name, best.get(name, NONE))) for name in {row["name"] for row in rows}}


def searches_of(rows):
    return list(dict.fromkeys(row["search"] for row in rows))


def side_by_side(rows):
    """Returns a table, as lists of words, with a line for each project and the makespan, gap and verdict of each search."""
    measures, searches, found = measures_of(rows), searches_of(rows), {}
    for row in rows:
        found.setdefault(row["name"], {})[row["search"]] = row
    table = [["name", "measure", *(f"{search} {what}" for search in searches for what in ("makespan", "gap", "verdict"))]]
    for name, own in found.items():
        line = [name, str(measures[name])]
        for search in searches:
            row = own.get(search)
            gap = percent(row["makespan"], measures[name]) if row else None
            line += [str(row["makespan"]) if row else NONE, NONE if gap is None else f"{gap:.2f}", row["verdict"] if row else NONE]
        table.append(line)
    return table


def plural(count, word):
    return f"{count} {word}" if count == 1 else f"{count} {word[:-1]}ies" if word.endswith("y") else f"{count} {word}{'es' if word.endswith('ch') else 's'}"


def table_of(lines, kind="td"):
    return "\n".join("<tr>" + "".join(f"<{kind}>{html.escape(shown(it))}</{kind}>" for it in line) + "</tr>" for line in lines)


class Report:
    """A page of rows, each with its heading: under which words it was found."""

    def __init__(self):
        self.rows, self.pictures = [], []

    def take(self, row, picture):
        self.rows.append(row)
        if picture:
            self.pictures.append((row, picture))

    def gaps(self):
        """For each search the percentages of its rows, and None for those without a schedule."""
        measures, gaps = measures_of(self.rows), {}
        for row in self.rows:
            if row["verdict"] != "infeasible":
                gaps.setdefault(row["search"], []).append(percent(row["makespan"], measures[row["name"]]))
        return gaps

    def profile(self):
        """The profile as an SVG picture, a curve of steps for each search."""
        gaps = self.gaps()
        widest = max([1.0, *(gap for own in gaps.values() for gap in own if gap is not None)])
        x, y = (lambda gap: 60 + 620 * gap / widest), (lambda share: 270 - 240 * share)
        lines = ['<svg xmlns="http://www.w3.org/2000/svg" role="img" width="100%" style="max-width:720px;min-width:560px" viewBox="0 0 720 330" font-family="sans-serif" font-size="12">',
                 "<title>Performance profile</title>"]
        for step in range(5):
            lines.append(f'<path d="M60 {y(step / 4):.0f}H680" stroke="#ddd"/><text x="52" y="{y(step / 4) + 4:.0f}" text-anchor="end">{25 * step} %</text>')
            lines.append(f'<text x="{x(widest * step / 4):.0f}" y="290" text-anchor="middle">{widest * step / 4:.1f} %</text>')
        for at, (search, own) in enumerate(gaps.items()):
            found, colour = sorted(gap for gap in own if gap is not None), COLOURS[at % len(COLOURS)]
            path, share = f"M{x(0):.1f} {y(0):.1f}", 0.0
            for count, gap in enumerate(found, 1):
                share = count / len(own)
                path += f"H{x(gap):.1f}V{y(share):.1f}"
            lines.append(f'<path d="{path}H{x(widest):.1f}" fill="none" stroke="{colour}" stroke-width="2"/>')
            lines.append(f'<text x="70" y="{310 + 15 * at}" fill="{colour}">{html.escape(search)}: {len(found)} of {len(own)} with a schedule</text>')
        height = 320 + 15 * len(gaps)
        lines[0] = lines[0].replace('viewBox="0 0 720 330"', f'viewBox="0 0 720 {height}"')
        return "\n".join([*lines, "</svg>"])

    def caption(self, row):
        """What the row says of a picture's schedule. The picture itself has no bound."""
        if row["verdict"] == "optimal":
            return f"{row['makespan']} periods, optimal"
        bound = f", at least {row['bound']}" if known(row.get("bound")) else ""
        return f"{row['makespan']} periods{bound}"

    def text(self):
        headings = list(dict.fromkeys(row["heading"] for row in self.rows))
        projects, searches = len({row["name"] for row in self.rows}), searches_of(self.rows)
        sides = side_by_side(self.rows) if len(searches) > 1 else None
        drawn = [f"<figure><figcaption>{html.escape(shown(row['name']))} by {html.escape(row['search'])}: {self.caption(row)}</figcaption>{own_names(at, picture)}</figure>"
                 for at, (row, picture) in enumerate(self.pictures)]
        return PAGE.format(heading=f"{plural(projects, 'project')}, {plural(len(searches), 'search')}",
                           about="\n".join(f"<p>{html.escape(it.removeprefix('# '))}</p>" for it in headings),
                           sides=f"<div><table>\n{table_of(sides[:1], 'th')}\n{table_of(sides[1:])}\n</table></div>\n<h2>Rows</h2>\n" if sides else "",
                           columns="".join(f"<th>{it}</th>" for it in COLUMNS),
                           rows=table_of([[NONE if row.get(it) in (None, "") else str(row[it]) for it in COLUMNS] for row in self.rows]),
                           profile=self.profile(), pictures="\n".join(drawn))


def own_names(at, picture):
    """A picture whose names are no other picture's on the page."""
    return re.sub(r'(id|aria-labelledby)="([^"]+)"', lambda it: f'{it[1]}="{it[2]}-{at}"', picture)
