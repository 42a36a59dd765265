"""Texts, scripts and configurations for tests/fuzz: whole ones by chance, and ones that are bent. Each maker draws from
the random numbers that it is given and from nothing else."""
import json
import re
from itertools import islice

import plain_searches

NUMBERS = [0, 1, 2, 3, 4, 5, 7, 8, 9, 10, 11, 63, 64, 65, 100, 200, 202, 203, 999, 1000, 1001, 4096, 19999, 20000, 20001,
           999999, 1000000, 1000001, 10 ** 12 - 1, 10 ** 12, 10 ** 12 + 1, 2 ** 31, 2 ** 32 - 1, 2 ** 32, 2 ** 32 + 1,
           2 ** 63, 2 ** 64 - 1, 2 ** 64, 10 ** 17, 10 ** 18 - 1, 10 ** 18, 10 ** 30]
WORDS = [b"", b"-", b"*", b"--", b"*-", b":", b"-1", b"+1", b"1.0", b"1e0", b"x", b"0x1", b"1_0", b"\xb2", b"\xd9\xa1",
         b"1\x00", b"\r", b"1\r", b"\x0b", b"\x0c", b"\xa0", b"@", b"@a", b"none", b"R", b"1:"]
BYTES = b"\x00\t\n\x0b\x0c\r\x1a -*:0123456789@a\x7f\x80\xa0\xff"
TITLES = [b"PROJECT INFORMATION:", b"PRECEDENCE RELATIONS:", b"REQUESTS/DURATIONS:", b"RESOURCEAVAILABILITIES:"]
LABELS = [b"projects", b"jobs (incl. supersource/sink )", b"- renewable", b"- nonrenewable", b"- doubly constrained"]


# Texts of projects


def rows_of(r, n, resources, small):
    """The rows of both sections of a project of n jobs, whose durations and amounts are small or near their limits."""
    longest, most = (5, 4) if small else (r.choice([5, 100, 1000]), r.choice([4, 1000, 1000000]))
    first, second = [], []
    for j in range(1, n + 1):
        after = [s for s in range(j + 1, n + 1) if r.random() < min(0.4, 4 / n)]
        if r.random() < 0.2:
            r.shuffle(after)
        modes = r.choice([1, 1, 2, 3]) if small or r.random() < 0.9 else 10
        first.append([j, modes, len(after)] + after)
        for m in range(1, modes + 1):
            amounts = [r.randrange(most) for _ in range(resources)]
            second.append(([j] if m == 1 else []) + [m, r.randrange(longest)] + amounts)
    return first, second


def project_text(r, small):
    """A text that spells a project, in some layout."""
    n = r.randint(1, 7) if small else r.choice([1, 2, 5, 12, 30, 202])
    kinds = [r.randint(0, 2), r.randint(0, 2)] if small or r.random() < 0.8 else [r.randint(0, 8), r.randint(0, 8)]
    first, second = rows_of(r, n, sum(kinds), small)
    return laid_out(r, n, kinds, first, second)


def laid_out(r, n, kinds, first, second, more=0):
    """The text of these rows, with capacities that are small, or small and so much more."""
    amounts = [r.randint(2, 6) + more for _ in range(kinds[0])] + [r.randint(0, 3 * n) + more for _ in range(kinds[1])]
    gap = r.choice([b" ", b" ", b"  ", b"\t", b" \t "])
    row = lambda numbers: gap.join(str(x).encode() for x in numbers)
    head = [b"jobs (incl. supersource/sink ): %d" % n]
    for label, count in zip(LABELS[2:4], kinds):
        if count or r.random() < 0.5:
            head.append(label + b" : %d R" % count)
    if r.random() < 0.3:
        head += [b"projects : 1", b"- doubly constrained : 0", b"horizon : 7"]
        r.shuffle(head)
    rule = [r.choice([b"****", b"- -", b"----"])] if r.random() < 0.5 else []
    parts = [rule + head, [TITLES[1], b"jobnr."] + rule + list(map(row, first)),
             rule + [TITLES[2], b"h"] + rule + list(map(row, second)), [TITLES[3], b"R 1"] + rule + [row(amounts)]]
    end = b"\r\n" if r.random() < 0.2 else b"\n"
    return b"".join(line + end for part in parts for line in part)


def odd_text(r):
    """A text whose words are as many as they should be, and which mostly breaks one limit or one rule on numbers, or comes
    near to it."""
    odd = r.choice(["jobs", "modes", "kinds", "successor", "number", "capacity", "horizon", "all"])
    is_odd = lambda name: odd in (name, "all")
    n = r.choice([0, 1, 201, 202, 203] if is_odd("jobs") else [20, 21, 25, 200] if odd == "horizon" else [1, 3, 6, 20])
    kinds = [r.choice([0, 7, 8, 9] if is_odd("kinds") else [0, 1, 2]) for _ in range(2)]
    modes = [1 if odd == "horizon" else r.choice([1, 2, 3]) for _ in range(n)]
    if n and is_odd("modes"):
        modes[r.randrange(n)] = r.choice([0, 9, 10, 11])
    after = [r.sample(range(j + 1, n + 1), r.randint(0, min(3, n - j))) for j in range(1, n + 1)]
    if n and is_odd("successor"):
        j = r.randrange(n)
        after[j].append(r.choice([0, 1, j, j + 1, j + 2, n, n + 1] + after[j]))
    longest = 20000 // n if odd == "horizon" else 19000 // max(n, 20)
    mode = lambda m: [m, longest if odd == "horizon" else r.randint(0, longest)] + [r.randint(0, 4) for _ in range(sum(kinds))]
    first = [[j, modes[j - 1], len(after[j - 1])] + after[j - 1] for j in range(1, n + 1)]
    second = []
    for j in range(1, n + 1):
        rows = [mode(m) for m in range(1, modes[j - 1] + 1)] or [[]]
        second += [[j] + rows[0]] + rows[1:]
    if odd == "horizon":
        second[-1][2] += 20000 - n * longest + r.choice([-1, 0, 1])
    if second and is_odd("number"):
        row = r.choice(second)
        at = r.randrange(len(row))
        row[at] = r.choice([0, 1, 2, row[at] + 1, 1000, 1001, 999999, 1000000, 1000001, 10 ** 30])
    return laid_out(r, n, kinds, first, second, r.choice([999994, 999996, 999998]) if is_odd("capacity") else 0)


# Bent bytes


def with_number(r, data):
    """One number of the data changed."""
    found = list(re.finditer(rb"[0-9]+", data))
    if not found:
        return data
    at = r.choice(found)
    old = int(at.group()[:20])
    new = str(r.choice([old + 1, max(old - 1, 0), old * 2, r.choice(NUMBERS), r.choice(NUMBERS)])).encode()
    new = r.choice([new, new, new, new, b"0" * r.choice([1, 18, 300]) + new, b"9" * r.choice([18, 19, 25, 5000]), b"-" + new])
    return data[:at.start()] + new + data[at.end():]


def with_word(r, data):
    """One word dropped, doubled, changed, or put elsewhere."""
    found = list(re.finditer(rb"[^ \t\n]+", data))
    if not found:
        return data
    at, to = r.choice(found), r.choice(found)
    word = at.group()
    new = r.choice([b"", word + b" " + word, r.choice(WORDS), word + r.choice(WORDS), to.group(), word + b" \t" + r.choice(WORDS)])
    return data[:at.start()] + new + data[at.end():]


def with_line(r, data):
    """Lines dropped, doubled, swapped, joined, split or blank."""
    lines = data.split(b"\n")
    i, j = r.randrange(len(lines)), r.randrange(len(lines))
    kind = r.randrange(8)
    if kind == 0:
        del lines[i]
    elif kind == 1:
        lines.insert(j, lines[i])
    elif kind == 2:
        lines[i], lines[j] = lines[j], lines[i]
    elif kind == 3 and i + 1 < len(lines):
        lines[i:i + 2] = [lines[i] + r.choice([b" ", b"", b"\r"]) + lines[i + 1]]
    elif kind == 4:
        at = r.randint(0, len(lines[i]))
        lines[i:i + 1] = [lines[i][:at], lines[i][at:]]
    elif kind == 5:
        lines.insert(i, r.choice([b"", b" ", b"\t", b"\r", b"----", b"* *", b"-*", b"***x", b"\r\r"]))
    elif kind == 6:
        lines[i] = r.choice([b" ", b"\t", b""]) + lines[i] + r.choice([b" ", b"\t", b"\r", b"\r\r", b" \r", b"\r "])
    else:
        lines[i] = b" ".join(r.sample(lines[i].split(b" "), lines[i].count(b" ") + 1))
    return b"\n".join(lines)


def with_bytes(r, data):
    """A few bytes changed, put in or taken out, or the whole cut."""
    out = bytearray(data)
    kind = r.randrange(6)
    at = r.randint(0, len(out))
    if kind == 0 and at < len(out):
        out[at] ^= 1 << r.randrange(8)
    elif kind == 1:
        out[at:at] = bytes([r.choice(BYTES)]) * r.choice([1, 1, 1, 2, 5])
    elif kind == 2:
        del out[at:at + r.choice([1, 1, 1, 2, 10])]
    elif kind == 3 and at < len(out):
        out[at] = r.choice(BYTES)
    elif kind == 4:
        del out[at:]
    else:
        piece = out[at:at + r.choice([1, 10, 100])]
        to = r.randint(0, len(out))
        out[to:to] = piece
    return bytes(out)


def with_ends(r, data):
    """Line ends of another sort, all or some of them, or the last one gone."""
    kind = r.randrange(5)
    if kind == 0:
        return data.replace(b"\n", b"\r\n")
    if kind == 1:
        return b"".join(line + r.choice([b"\n", b"\r\n", b"\r\n", b"\r\r\n"]) for line in data.split(b"\n"))
    if kind == 2:
        return data.rstrip(b"\n")
    if kind == 3:
        return data.rstrip(b"\n") + b"\r"
    return data + r.choice([b"\r", b"\n", b"\x1a", b"\r\x1a", b" ", b"x", b"\n\n", b"\x00", b"\x1a\n99 99"])


def with_length(r, data, short):
    """A line of about 4,096 bytes, or about as many bytes as may be."""
    lines = data.split(b"\n")
    i = r.randrange(len(lines))
    filler = r.choice([b" ", b"*", b"\t", b"0", b"x"])
    if short or r.random() < 0.8:
        many = r.choice([4094, 4095, 4096, 4097, 4098, 9000]) - len(lines[i])
        lines[i] = r.choice([filler * many + lines[i], lines[i] + filler * many])
        return b"\n".join(lines)
    many = r.choice([1048575, 1048576, 1048577, 1048578]) - len(data)
    if r.random() < 0.1:
        return data + (b"\n" * many)
    if r.random() < 0.3:
        return data + (b"*" * many)
    return b"\n".join(lines[:i] + [b"*" * 4095] * (many // 4096) + [b"*" * (many % 4096 - 1)] + lines[i:])


def with_title(r, data):
    """A title or a label changed in its blanks or capitals, doubled, or put elsewhere."""
    if r.random() < 0.4:
        return with_label(r, data)
    what = r.choice(TITLES + LABELS)
    new = r.choice([what.lower(), what.replace(b" ", b""), b" ".join(bytes([c]) for c in what), what + b" ", what + b"x",
                    b"\t" + what, what.replace(b":", b""), what.replace(b" ", b"\xa0"), what + b":", what.title()])
    if what in LABELS and r.random() < 0.5:
        new += r.choice([b":", b": 1", b": x", b":\t2", b": 01", b": 1 2", b": -1", b" 1"])
    if r.random() < 0.5:
        return data.replace(what, new, 1)
    lines = data.split(b"\n")
    lines.insert(r.randrange(len(lines) + 1), r.choice([what, new]))
    return b"\n".join(lines)


def with_label(r, data):
    """One more line with a label in the head, or below it."""
    lines = data.split(b"\n")
    value = r.choice([b"0", b"1", b"2", b"01 R", b"x", b"", b"1R", b"1:2", b"4"])
    lines.insert(r.randrange(min(len(lines), 14)), r.choice(LABELS) + r.choice([b":", b" :", b": ", b":\t"]) + value)
    return b"\n".join(lines)


BENDS = [with_number, with_number, with_number, with_word, with_word, with_line, with_line, with_bytes, with_bytes, with_ends,
         with_title]


def bent(r, data, short=False):
    """The data bent once to a few times."""
    if r.random() < 0.05:
        data = with_length(r, data, short)
        if r.random() < 0.5:
            return data
    for _ in range(r.choice([1, 1, 1, 1, 2, 3, 6])):
        data = r.choice(BENDS)(r, data)
    return data


# Scripts


NAMES = ["a", "b", "works-2", "z_9", "x" * 32, "planning"]
UNKNOWN = ["y", "nobody", "aa", "a-", "x" * 31]
ILL = ["", "A", "9a", "_a", "-a", "x" * 33, "a.b", "\xe4", "a\x00", "a\r", "@a", "a@"]


def submit(r, name, text, quanta=None):
    """The line of a submit with its text, whose lines are mostly counted as they are."""
    kind = r.choice(["tree", "tree", "rule:lft", "rule:mts", "rule:spt", f"sample:{r.choice([0, 1, 42, 10 ** 18 - 1])}"])
    many = text.count(b"\n") + (not text.endswith(b"\n"))
    if r.random() < 0.01:
        many = r.choice([0, 1, many - 1, many + 1, 20000, 20001])
    if quanta is None:
        quanta = r.choice([1, 2, 5, 10, 50, 200, 1000, 1000] if r.random() < 0.9 else [0, 10 ** 6, 10 ** 12, 10 ** 12 + 1])
    return b"@%s submit %s %d %d\n" % (name.encode(), kind.encode(), quanta, many) + text


def request(r, name, submitted, held):
    """A line of a script that is no submit, mostly of a job that has been submitted; `held` has the turns that it may hold."""
    seq = r.randint(max(1, submitted - 2), max(1, submitted))
    if r.random() < 0.05:
        seq = r.choice([0, 1, submitted + 1, 1000, 10 ** 18 - 1])
    # What is asked of a job while its turn is out is of interest by itself.
    is_out = held and r.random() < 0.5
    if is_out:
        name, seq = r.choice(sorted(held))
    slice_ = r.choice([1, 2, 3, 5, 20, 100, 300, 1000]) if r.random() < 0.97 else r.choice([0, 1000000, 1000001])
    quanta = r.choice([1, 2, 3, 10, 100, 500]) if r.random() < 0.9 else r.choice([0, 10 ** 12, 10 ** 12 + 1, 10 ** 6])
    back = r.choice(sorted(held)) if held and r.random() < 0.9 else (name, seq)
    forms = [f"@{name} fund {seq} {quanta}", f"@{name} status {seq}", f"@{name} result {seq}", f"@{name} cancel {seq}",
             f"@{name} forget {seq}", f"@{name} ledger", f"turn {name} {seq} {slice_}", f"take {name} {seq} {slice_}",
             f"give {back[0]} {back[1]}"]
    line = r.choices(forms, [2, 2, 2, 3, 2, 2, 1, 1, 3] if is_out else [4, 4, 4, 1, 2, 2, 8, 4, 4])[0]
    if line.startswith("take"):
        held.add((name, seq))
    elif line.startswith("give"):
        held.discard(back)
    return line.encode() + b"\n"


def script_of(r, names, pieces):
    """So many requests, with each tenant's first submits among the first of them."""
    out, held, submitted = [], set(), {name: 0 for name in names}
    for _ in range(pieces):
        name = r.choice(names)
        if r.random() < 0.03:
            out.append(submit(r, name, bent(r, project_text(r, True), True)))
        elif submitted[name] == 0 or r.random() < 0.1:
            out.append(submit(r, name, project_text(r, True)))
            submitted[name] += 1
        else:
            out.append(request(r, name if r.random() < 0.97 else r.choice(UNKNOWN), submitted[name], held))
        if r.random() < 0.03:
            out.append(r.choice([b"\n", b" \n", b"\r\n", b"\t\r\n", b" " * 5000 + b"\n", b" \r\r\n"]))
    return b"".join(out)


def bent_script(r, script):
    """The script with a few of its lines bent; the lines of texts are left alone half of the time."""
    for _ in range(r.choice([1, 1, 2, 3, 5])):
        lines = script.split(b"\n")
        asks = [i for i, line in enumerate(lines) if re.match(rb"\s*(@|take|give|turn)", line)]
        if r.random() < 0.5 or not asks:
            script = bent(r, script, True)
            continue
        i = r.choice(asks)
        lines[i] = bent_request(r, lines[i])
        script = b"\n".join(lines)
    return script


def bent_request(r, line):
    words = line.split(b" ")
    kind = r.randrange(8)
    if kind == 0:
        i, j = r.randrange(len(words)), r.randrange(len(words))
        words[i], words[j] = words[j], words[i]
    elif kind == 1:
        words[r.randrange(len(words))] = str(r.choice(NUMBERS)).encode()
    elif kind == 2:
        words[0] = b"@" + r.choice(ILL + UNKNOWN + ["x" * 33]).encode("latin-1")
    elif kind == 3:
        words[min(1, len(words) - 1)] = r.choice(ILL + UNKNOWN).encode("latin-1")
    elif kind == 4:
        words.insert(r.randint(0, len(words)), r.choice(WORDS))
    elif kind == 5:
        del words[r.randrange(len(words))]
    elif kind == 6:
        words.insert(r.randint(0, len(words)), b" " * (r.choice([4095, 4096, 4097, 5000]) - len(line) - 1))
    else:
        return bent(r, line, True)
    return r.choice([b" ", b"", b"", b"\t"]) + b" ".join(words) + r.choice([b"", b"", b" ", b"\r", b"\t\r", b"\r\r"])


# Configurations


def terms(r, names):
    """The configuration of a script, as a value. In one of three some tenants share purses, which may have a tenant's name."""
    shares = r.random() < 0.35
    quanta = lambda: r.choice([0, 5, 100, 1000, 3000, 10000] + [10 ** 12] * (not shares))
    tenants = [{"name": name, "quanta": quanta(), "jobs": r.choice([1, 2, 3, 10, 1000]),
                "entries": r.choice([1, r.randint(2, 12), r.randint(2, 40), 1000, 1000, 1000000])} for name in names]
    for tenant in tenants:
        if shares and r.random() < 0.7:
            tenant["purse"] = r.choice(["p", "p", "q", r.choice(names)])
    return {"tenants": tenants, "workers": 2, "slice": 1000}


JUNK = ["null", "true", "false", '"7"', "7.0", "7e0", "7E+0", "-0", "-1", "0.5", "[]", "{}", "[7]", "1e400", "-1e400", "1e308",
        "1e-400", "0e999999999", "9" * 308, "9" * 310, "18446744073709551615", "18446744073709551616", "1000000000000",
        "1000000000001", "007", "1.", ".5", "1e", "+1", "NaN", "Infinity", "-Infinity", "0x10", "1_000", "'a'", '"a', '"\\x"',
        '"\\u00"', '"\\ud83d\\ude00"', '"\\ud83d"', '"\\ude00\\ud83d"', '["\\udfff"]', '"\\u0061"',
        '"\t"', '"\x7f"', '""', '"\u00e4"', '"A"', '"' + "a" * 32 + '"',
        '"' + "a" * 33 + '"', '"a\\u0000"', '"\\/"', "", "/**/1", "[1,]", '{"a":1,}', "tru", "nullx", "64", "65", "1000", "1001",
        "16", "17", "1000000", "1000001", "0", "\u00a01", "\x0b1", "\x0c1"]


def nested(r):
    """Objects and lists about as deep as may be, below `deep` others."""
    deep = r.choice([120, 124, 125, 126, 127, 128, 129, 500])
    opened = [r.choice(["[", '{"a":']) for _ in range(deep)]
    closed = "".join("]" if o == "[" else "}" for o in reversed(opened))
    return "".join(opened[:-1]) + ("[" if opened[-1] == "[" else "{") + closed


def written(r, value):
    """A JSON text of the value, in some layout, with a few of its values, keys and blanks changed."""
    junk = lambda: nested(r) if r.random() < 0.1 else r.choice(JUNK)
    chance = r.choice([0, 0, 0.02, 0.1])
    if r.random() < chance:
        return junk()
    blank = r.choice(["", "", " ", "\n", "\t", "\r\n  "])
    if isinstance(value, dict):
        fields = [(key_text(r, k, chance), written(r, v)) for k, v in value.items() if r.random() >= chance / 2]
        if r.random() < chance:
            key = r.choice(['"other"', '"name"', '"quanta"', '"tenants"', '"slice"', '""'])
            fields.insert(r.randint(0, len(fields)), (key, junk()))
        if r.random() < 0.2:
            r.shuffle(fields)
        return "{" + blank + ("," + blank).join(f"{k}{blank}:{blank}{v}" for k, v in fields) + blank + "}"
    if isinstance(value, list):
        return "[" + blank + ("," + blank).join(written(r, v) for v in value) + blank + "]"
    if isinstance(value, int):
        return str(value if r.random() >= chance else r.choice(NUMBERS + [-1]))
    return key_text(r, value, chance)


def key_text(r, text, chance):
    if text and r.random() < chance:
        i = r.randrange(len(text))
        return json.dumps(text[:i])[:-1] + "\\u%04x" % ord(text[i]) + json.dumps(text[i + 1:])[1:]
    return json.dumps(text)


def config_value(r):
    """Mostly whole configurations, some at the limits of their numbers."""
    names = r.sample(NAMES, r.randint(1, 4))
    if r.random() < 0.1:
        names = [f"t{i}" for i in range(r.choice([0, 63, 64, 65]))]
    value = terms(r, names)
    for t in value["tenants"]:
        for key, edge in [("quanta", 10 ** 12), ("jobs", 1000), ("entries", 1000000)]:
            if r.random() < 0.05:
                t[key] = r.choice([0, 1, edge, edge + 1])
        if r.random() < 0.05:
            t["name"] = r.choice(ILL + names + ["x" * 33])
    for key, edge in [("workers", 16), ("slice", 1000000)]:
        if r.random() < 0.3:
            value[key] = r.choice([0, 1, edge, edge + 1])
        elif r.random() < 0.3:
            del value[key]
    return value


def config_text(r):
    """The bytes of a configuration that may be bent."""
    data = written(r, config_value(r)).encode("utf-8", "surrogatepass")
    if r.random() < 0.3:
        for _ in range(r.choice([1, 1, 2, 4])):
            data = r.choice([with_bytes, with_number, with_word])(r, data)
    if r.random() < 0.03:
        data = r.choice([b"\xef\xbb\xbf" + data, data + b"\x00", data + data, b"", b" " * 1048577,
                         data + b" " * (1048576 - len(data)), data + b" " * (1048577 - len(data)),
                         data.replace(b"a", b"\xff", 1), data.replace(b"a", b"\xed\xa0\x80", 1),
                         data.replace(b"a", b"\xc0\x80", 1), data.decode("utf-8", "replace").encode("utf-16")])
    return data


# Schedules


KINDS = ["tree", "rule:lft", "rule:mts", "rule:spt", "sample:1", "sample:77"]
NO_SEARCHES = ["tre", "rule:LFT", "sample:x"]


def table_text(r, numbers):
    """A table of CSV of the places of a schedule, as spreadsheets write it."""
    columns = ["activity", "mode", "start", *r.sample(["finish", "R1", "name"], r.choice([0, 0, 1, 3]))]
    if r.random() < 0.4:
        r.shuffle(columns)
    mark = r.choice([",", ";", ";", "\t"])

    def cell(text):
        return '"' + text.replace('"', '""') + '"' if mark in text or '"' in text or r.random() < 0.2 else text

    names = {"finish": "7", "R1": "", "name": r.choice(["Dig, deep", 'a "b"', "x;y", "\u00fc"])}
    rows = [[str(dict(zip(["activity", "mode", "start"], place)).get(it, names.get(it, ""))) for it in columns] for place in numbers]
    if r.random() < 0.7:
        rows.insert(0, [r.choice([it, it.upper(), f" {it} "]) for it in columns])
    if r.random() < 0.3:
        rows.insert(r.randrange(len(rows) + 1), r.choice([["total", "", "4"], [], [""], ["", ""], ["4"], ["run 2"]]))
    lines = [mark.join(cell(it) for it in row) for row in rows]
    return (r.choice(["", "", "\ufeff"]) + r.choice(["\n", "\r\n"]).join([*lines, *r.choice([[], [""]])])).encode()


def schedule_text(r, project):
    """A schedule of a project, mostly feasible, in some form."""
    kind = r.choice(["tree", "rule:lft", "sample:3"])
    best = None
    if project:
        for best, _, _ in islice(plain_searches.search(project, kind), 60):
            pass
    places = sorted(best) if best else [(j, r.randrange(2), r.randrange(9)) for j in range(r.randrange(6))]
    numbers = [[j + 1, mode + 1, start] for j, mode, start in places]
    if numbers and r.random() < 0.3:
        r.choice(numbers)[r.randrange(3)] += r.choice([-1, 1, 1, 2**32, 1000000000])
    words = " ".join(":".join(str(n) for n in place) for place in numbers)
    form = r.randrange(9)
    if form >= 7:
        return table_text(r, numbers)
    if form == 0:
        return (words + r.choice(["", "\n"])).encode()
    if form == 1:
        line = f"makespan 3 open {words}\n"
        return (r.choice(["", "nodes 4 best 3 open\n", line]) + line).encode()
    if form == 5:
        words = "".join(":".join(str(n) for n in place) + r.choice([" ", "  ", "\n", "\t", "\r\n"]) for place in numbers)
        return (r.choice(["", "\n", "best 3\n"]) + words + r.choice(["", "\n"])).encode()
    if form == 6:
        if r.random() < 0.5:
            r.shuffle(numbers)
        rows = [r.choice([",", ",", ", ", " ,"]).join(str(n) for n in place) for place in numbers]
        return r.choice(["\n", "\r\n"]).join([*r.choice([[], ["activity,mode,start"]]), *rows, *r.choice([[], [""]])]).encode()
    array = [dict(zip(["activity", "mode", "start"], place)) for place in numbers]
    if r.random() < 0.5:
        r.shuffle(array)
    value = array if form == 2 else {"nodes": 3, "schedule": array}
    text = json.dumps(value, indent=r.choice([None, None, 1]))
    return (r.choice(["", "", "{}\n", text + "\n"]) + text + r.choice(["", "\n"])).encode()
