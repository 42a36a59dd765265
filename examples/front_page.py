"""The page of `examples/front`, `GET /`: what it saw of its service's tenants and jobs. It renews itself, has no script, and takes nothing from elsewhere."""
import html
import re

# The most jobs on the page; /jobs has all.
MOST_JOBS = 200
# How many seconds pass until the page renews itself.
RENEWED = 5
HEADERS = {"Content-Security-Policy": "default-src 'none'; style-src 'unsafe-inline'", "X-Content-Type-Options": "nosniff", "Cache-Control": "no-store"}
PAGE = """\
<!DOCTYPE html>
<html lang="en"><head><meta charset="utf-8"><meta http-equiv="refresh" content="{renewed}">
<meta name="viewport" content="width=device-width"><title>tepchoum: {word}</title>
<style>
body {{ font: 15px/1.4 sans-serif; color: #222; max-width: 72em; margin: 2em auto; padding: 0 1em; }}
h1 {{ font-size: 1.4em; }} h2 {{ font-size: 1.1em; margin-top: 2em; }}
div {{ overflow-x: auto; }} table {{ border-collapse: collapse; font-variant-numeric: tabular-nums; }}
th, td {{ padding: .2em .7em; text-align: right; border-bottom: 1px solid #ddd; white-space: nowrap; }}
th {{ background: #f3f3f3; }} th:first-child, td:first-child {{ text-align: left; }}
.ok {{ color: #3a7d44; }} .bad {{ color: #c8553d; font-weight: bold; }}
</style></head><body>
<h1>Tepchoum: <span class="{look}">{word}</span></h1>
<p>{about}</p>
<p>Ledgers and lines are the last that a client was answered.</p>
<h2>Tenants</h2>
{tenants}
<h2>Jobs</h2>
{jobs}
</body></html>
"""
TENANTS = ["tenant", "jobs kept", "granted", "free", "held", "spent", "requests", "refusals"]
JOBS = ["tenant", "job", "phase", "nodes", "left", "best", "verdict"]


def table(columns, rows):
    cells = lambda kind, row: "".join(f"<{kind}>{html.escape('none' if it is None else str(it))}</{kind}>" for it in row)
    lines = [f"<tr>{cells('th', columns)}</tr>", *(f"<tr>{cells('td', row)}</tr>" for row in rows)]
    return "<div><table>\n" + "\n".join(lines) + "\n</table></div>"


def lasting(seconds):
    """A time in the two largest units that it has."""
    seconds = int(seconds)
    units = [(seconds // 86_400, "d"), (seconds // 3_600 % 24, "h"), (seconds // 60 % 60, "min"), (seconds % 60, "s")]
    first = next((at for at, (count, _) in enumerate(units) if count), 3)
    return " ".join(f"{count} {unit}" for count, unit in units[first : first + 2])


def counted(counts, name):
    """Of a counter by tenant and another label: for each tenant its pairs of that label and a count."""
    found = {}
    for key, value in counts.items():
        told = re.fullmatch(name + r'\{tenant="([^"]*)",\w+="([^"]*)"\}', key)
        if told and told[1]:
            found.setdefault(told[1], []).append((told[2], value))
    return found


def tenant_rows(counts, jobs, ledgers):
    asked, refused = counted(counts, "tenant_requests_total"), counted(counts, "tenant_refusals_total")
    kept = {}
    for tenant, _ in jobs:
        kept[tenant] = kept.get(tenant, 0) + 1
    for tenant in sorted({*asked, *refused, *kept, *ledgers}):
        causes = ", ".join(f"{cause} {count}" for cause, count in sorted(refused.get(tenant, [])))
        yield [tenant, kept.get(tenant, 0), *ledgers.get(tenant, ["not asked"] * 4), sum(count for _, count in asked.get(tenant, [])), causes or 0]


def page(word, is_well, facts, counts, jobs, ledgers):
    """The page: the word of health, facts about the front as pairs of a name and a value, its counters, the last line of each job, and each tenant's last ledger."""
    last = sorted(jobs.items(), key=lambda it: (it[0][0], -it[0][1]))
    rows = [[tenant, job, *(row[it] for it in JOBS[2:])] for (tenant, job), row in last[:MOST_JOBS]]
    more = f"<p>{len(last) - MOST_JOBS} more jobs are in <a href=\"/jobs\">/jobs</a>.</p>" if len(last) > MOST_JOBS else ""
    return PAGE.format(renewed=RENEWED, word=html.escape(word), look="ok" if is_well else "bad", about="; ".join(f"{html.escape(name)} {html.escape(str(value))}" for name, value in facts),
                       tenants=table(TENANTS, tenant_rows(counts, jobs, ledgers)), jobs=table(JOBS, rows) + more)
