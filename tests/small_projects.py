"""Small random projects for tests/prove: what the program proves of each, against all nodes of a plain tree search.

    small_projects.py FARM COUNT [SEED]     runs `FARM prove` on so many, and prints each line that is not true

A project has durations of 0, capacities of 0, no resources, up to 10 modes, and often no feasible schedule, by modes or by stocks. The options of a run are drawn
too: 1 to 4 workers, few and many conflicts, little and much memory.
"""
import os
import random
import re
import subprocess
import sys
import tempfile

sys.path.insert(0, os.path.dirname(os.path.realpath(__file__)))
import plain_searches

CONFLICTS, MEMORY = [1, 3, 50, 10**12], [16, 17, 64, 400]


def random_project(r):
    """1 to 6 activities; few if there are many modes, so that all schedules can be gone over."""
    many = r.random() < 0.2
    n = r.randint(1, 3 if many else 6)
    renewable, nonrenewable = r.randint(0, 2), r.randint(0, 2)
    modes, successors = [], []
    for j in range(n):
        count = r.randint(1, 10 if many else 3)
        modes.append([(r.choice([0, 1, 2, 3, 4]), [r.randint(0, 3) for _ in range(renewable)], [r.randint(0, 3) for _ in range(nonrenewable)]) for _ in range(count)])
        successors.append([s for s in range(j + 1, n) if r.random() < 0.3])
    capacities = [r.choice([0, 1, 2, 3, 4, 5]) for _ in range(renewable)]
    return plain_searches.Project(modes, successors, capacities, [r.randint(0, 2 * n) for _ in range(nonrenewable)])


def text_of(p):
    row = lambda numbers: " ".join(str(it) for it in numbers)
    lines = [f"jobs (incl. supersource/sink ): {p.n}", f"- renewable : {len(p.capacities)} R", f"- nonrenewable : {len(p.stocks)} N", "PRECEDENCE RELATIONS:", "h"]
    lines += [row([j + 1, len(p.modes[j]), len(p.successors[j]), *(s + 1 for s in p.successors[j])]) for j in range(p.n)]
    lines += ["REQUESTS/DURATIONS:", "h"]
    for j in range(p.n):
        for m, (duration, requests, consumptions) in enumerate(p.modes[j]):
            lines.append(row([*([j + 1] if m == 0 else []), m + 1, duration, *requests, *consumptions]))
    return "\n".join([*lines, "RESOURCEAVAILABILITIES:", "h", row([*p.capacities, *p.stocks]), ""])


def optimum(p):
    """The least makespan, or None."""
    best = None
    for best, _, _ in plain_searches.all_nodes(p, "tree"):
        pass
    return None if best is None else p.makespan(best)


def told_by_text(out):
    """The verdict, makespan, bound and schedule of two lines."""
    lines = out.splitlines()
    found = re.fullmatch(r"(?:optimal (\d+)|makespan (\d+) at least (\d+)|at least (\d+)|infeasible)", lines[0])
    places = [tuple(int(it) for it in word.split(":")) for word in " ".join(lines[1:]).split()]
    if len(lines) > 2 or not found:
        raise ValueError(out)
    if found[1]:
        return "optimal", int(found[1]), int(found[1]), places
    if found[2]:
        return "open", int(found[2]), int(found[3]), places
    if found[4]:
        return "open", None, int(found[4]), places
    return "infeasible", None, None, places


def untrue(p, least, status, told):
    """What is not so of what is told, or None."""
    verdict, makespan, bound, places = told
    if makespan is None:
        if places:
            return "a schedule without a makespan"
    elif [j for j, _, _ in places] != list(range(1, p.n + 1)) or plain_searches.breach(p, ([m for _, m, _ in places], [s for _, _, s in places])) != (0, makespan):
        return "the schedule"
    if status != (3 if verdict == "open" else 0):
        return "the status"
    if verdict == "infeasible":
        return None if least is None else f"infeasible, and the optimum is {least}"
    if verdict == "optimal":
        return None if makespan == bound == least else f"the optimum is {least}"
    return None if verdict == "open" and (least is None or bound <= least) else f"the optimum is {least}"


def try_one(farm, r, folder):
    """Returns whether a project was decided, whether it had to be, and what is not true."""
    p = random_project(r)
    least = optimum(p)
    jobs, conflicts, memory = r.randint(1, 4), r.choice(CONFLICTS), r.choice(MEMORY)
    file = f"{folder}/project.mm"
    with open(file, "w") as it:
        it.write(text_of(p))
    words = ["prove", file, "--quiet", "--jobs", str(jobs), "--conflicts", str(conflicts), "--memory", str(memory)]
    ran = subprocess.run([farm, *words], capture_output=True, text=True, stdin=subprocess.DEVNULL, timeout=120)
    try:
        told = told_by_text(ran.stdout)
        wrong = untrue(p, least, ran.returncode, told)
    except (ValueError, IndexError):
        told, wrong = None, "the output"
    # (a project of this size is decided within a thousand conflicts)
    must = conflicts > 1000
    if must and not wrong and told[0] == "open":
        wrong = "not decided"
    if wrong:
        wrong = f"{wrong}: {words[2:]}: status {ran.returncode}, {ran.stdout!r}, {ran.stderr!r}\n{text_of(p)}"
    return told and told[0], wrong


def main(farm, count, seed=1):
    r, seen, faults = random.Random(seed), {}, []
    with tempfile.TemporaryDirectory() as folder:
        for _ in range(count):
            verdict, wrong = try_one(farm, r, folder)
            seen[verdict] = seen.get(verdict, 0) + 1
            faults += [wrong] if wrong else []
    return seen, faults


if __name__ == "__main__":
    seen, faults = main(sys.argv[1], int(sys.argv[2]), int(sys.argv[3]) if len(sys.argv) > 3 else 1)
    print("\n".join([*faults, f"small projects: {seen}, {len(faults)} not true"]))
    sys.exit(1 if faults else 0)
