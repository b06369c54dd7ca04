#!/usr/bin/env python3
"""Writes the console's script of calls and the answers that it must print, from document 01 and requests a to e, g and h of document 02 alone.

  rows_script.py DIR           writes DIR/stdin and DIR/stdout
  rows_script.py DIR PROGRAM   the same, with the answers of the part `make` taken from the program, and shows which of them differ from what is written here

Lists and plans are written here, plans are made here (by counting over all sets, for lists of few depots), and each is held to the definition here before it is used; no code of the engine is called.
Cases are written once, over an edition: `Edition` has its marks and widths, and edition 2 is put to the parts of edition 1, with a choice of the cases in which a width plays no part (`some`).
The answer of a check is the row that the case is written for. It is compared with a plain reading of the table (`first_row`), and a difference stops the script.
What is converted between the editions is read here as figures and written here in the other edition (`converted`); it is held to the rows there, and to the first bytes on the way back.
The answers of the desk's calls are those of `Book`, document 01's plain book with the question of request a and the writer of request b, of either edition: whether a proposal is true is counted over all sets, and held to the rows.
Request g's roll goes along with the sites (`Sites`): a size is the crews of a set added up (`size`), and each depot is to have its crews times W.
Request h's depots, which have crews and no site, are among the listed ones (`listed`), so that the definition has them in the last group.
Request e's step turns the book of edition 1 into one of edition 2 (`Book.migrate`). Around it every question is put twice and has to get the same figures, and what is written out behind it is what `converted` makes of what was written out before.
"""
import subprocess
import sys
from fractions import Fraction


# ---- writers

def number(x, width):
    assert 0 <= x < 256 ** width, (x, width)
    return bytes((x >> (8 * i)) & 255 for i in range(width))


def group(depots, mark=b"GR"):
    return mark + number(sum(1 << d for d in depots), 8)


def own(n, w):
    return (n, n, w)


class Sites(list):
    """The sites of a list with a roll: 64 bytes, the crews of each depot. A plain list of sites has none."""

    def __init__(self, sites, roll):
        super().__init__(sites)
        self.roll = bytes(roll)


def roll_of(sites):
    return getattr(sites, "roll", None)


def with_roll(sites, roll):
    return list(sites) if roll is None else Sites(sites, roll)


def crews_roll(crews, others=0):
    """The bytes of a roll with these crews by depot, and so many at every other."""
    return bytes(crews.get(d, others) for d in range(64))


def crews(sites, d):
    """"Without a roll a listed depot has one crew.\""""
    return 1 if roll_of(sites) is None else roll_of(sites)[d]


def size(sites, chosen):
    """"The size of a set becomes its crews added up.\""""
    return sum(crews(sites, d) for d in chosen)


ROLL_MARK = bytes.fromhex("4452")


class Edition:
    """The marks of an edition's records, and the widths of its litres and shares in bytes."""

    def __init__(self, name, list_mark, site_mark, plan_mark, share_mark, litres, share, scale, has_rolls=False):
        self.has_rolls = has_rolls
        self.table, self.list_mark, self.site_mark, self.plan_mark, self.share_mark = name, list_mark, site_mark, plan_mark, share_mark
        self.litres_width, self.share_width, self.site_bytes, self.share_bytes = litres, share, 4 + litres, 2 + share
        self.most = 256 ** litres - 1
        self.scale = scale  # litres of up to 10 times this fit
        self.step = self.most // 65535  # and of up to 65,535 times this
        self.T, self.TP = self.list([(0, 1, 10)]), self.plan([{0, 1}], [10])
        self.LARGE = [own(i % 64, self.most) for i in range(512)]
        self.LARGE_PLAN = self.plan([set(range(64))], [64 * self.most] * 512)

    def list_length(self, sites):
        return 4 + self.site_bytes * sites

    def plan_length(self, groups, sites):
        return 5 + 10 * groups + self.share_bytes * sites

    def site(self, first, second, litres, mark=None):
        return (mark or self.site_mark) + number(first, 1) + number(second, 1) + number(litres, self.litres_width)

    def list(self, sites, count=None):
        roll = roll_of(sites)
        assert roll is None or self.has_rolls
        return (self.list_mark + number(len(sites) if count is None else count, 2) + b"".join(self.site(*s) for s in sites)
                + (b"" if roll is None else ROLL_MARK + roll))

    def share(self, s, mark=None):
        return (mark or self.share_mark) + number(s, self.share_width)

    def plan(self, groups, shares, group_count=None):
        return (self.plan_mark + number(len(groups) if group_count is None else group_count, 1) + number(len(shares), 2)
                + b"".join(group(g) for g in groups) + b"".join(self.share(s) for s in shares))

    def list_head(self, count):
        """The mark and two bytes, in hexadecimal."""
        return self.list_mark + bytes.fromhex(count)

    def plan_head(self, counts):
        """The mark and three bytes, in hexadecimal."""
        return self.plan_mark + bytes.fromhex(counts)


E1 = Edition("table", b"LS", b"ST", b"PL", b"SH", 2, 4, 1)
E2 = Edition("table2", b"L2", b"S2", b"P2", b"S3", 4, 8, 429496729, has_rolls=True)
assert E1.T == bytes.fromhex("4C53010053540001 0A00")
assert E1.TP == bytes.fromhex("504C010100 47520300000000000000 53480A000000")
assert E2.T == bytes.fromhex("4C32010053320001 0A000000")
assert E2.TP == bytes.fromhex("5032010100 47520300000000000000 53330A00000000000000")
assert (E1.most, E2.most) == (65535, 4294967295)
assert (E1.list_length(512), E1.plan_length(64, 512), E2.list_length(512), E2.plan_length(64, 512)) == (3076, 3717, 4100, 5765)


def scaled(figures, k):
    """Sites or shares with every figure k times as large."""
    return with_roll([(*x[:2], k * x[2]) if isinstance(x, tuple) else k * x for x in figures], roll_of(figures))


def some(e, cases):
    """All of the cases in edition 1; in edition 2 the first, every third behind it, and the last."""
    cases = list(cases)
    return cases if e is E1 else [x for i, x in enumerate(cases) if i % 3 == 0 or i == len(cases) - 1]


# ---- the definition, over every set

def named(sites):
    return {d for s in sites for d in s[:2]}


def listed(sites):
    """"A depot with crews in the roll is listed even without sites.\""""
    return sorted(named(sites) | {d for d, n in enumerate(roll_of(sites) or ()) if n})


def litres(sites, chosen, grouped):
    """The litres of a set, given the depots already grouped."""
    both = chosen | grouped
    return sum(w for a, b, w in sites if (a in chosen or b in chosen) and a in both and b in both)


def next_group(sites, left, grouped):
    best, density = None, None
    for k in range(1, 1 << len(left)):
        chosen = {d for i, d in enumerate(left) if k >> i & 1}
        x = Fraction(litres(sites, chosen, grouped), size(sites, chosen))
        if best is None or (x, len(chosen)) > (density, len(best)):
            best, density = chosen, x
    return best


def groups_of(sites):
    left, grouped, groups = listed(sites), set(), []
    assert len(left) <= 12, "count over too many sets"
    while left:
        g = next_group(sites, left, grouped)
        groups.append(g)
        grouped |= g
        left = [d for d in left if d not in g]
    return groups


def carried(sites, groups):
    """For each site the number of the group that carries it."""
    place = {d: i for i, g in enumerate(groups) for d in g}
    return [max(place[a], place[b]) for a, b, _ in sites]


def totals(sites, groups):
    by = carried(sites, groups)
    return [sum(s[2] for s, k in zip(sites, by) if k == i) for i in range(len(groups))]


def shares_of(sites, groups):
    """Whole shares that are level: begin with all of each site to its first depot that may have it, then move along paths of sites from a depot above its crews times W to one below."""
    by, weights = carried(sites, groups), totals(sites, groups)
    place = {d: i for i, g in enumerate(groups) for d in g}
    target = {d: crews(sites, d) * weights[k] for d, k in place.items()}
    shares = []
    for (a, b, w), k in zip(sites, by):
        shares.append(w * size(sites, groups[k]) if place[a] == k else 0)
    while True:
        load = {d: 0 for d in place}
        for (a, b, w), k, s in zip(sites, by, shares):
            if place[a] == k:
                load[a] += s
            if place[b] == k:
                load[b] += w * size(sites, groups[k]) - s
        high = [d for d in place if load[d] > target[d]]
        if not high:
            return shares
        start, seen, queue = high[0], {high[0]: None}, [high[0]]
        while queue:
            d = queue.pop(0)
            for i, ((a, b, w), k) in enumerate(zip(sites, by)):
                if a == b or place[a] != k or place[b] != k:
                    continue
                room = shares[i] if d == a else w * size(sites, groups[k]) - shares[i] if d == b else 0
                other = b if d == a else a
                if room > 0 and other not in seen:
                    seen[other] = (d, i, room)
                    queue.append(other)
        goal = next(d for d in seen if load[d] < target[d])
        path, d = [], goal
        while seen[d] is not None:
            path.append((seen[d][0], seen[d][1], seen[d][2]))
            d = seen[d][0]
        much = min([load[start] - target[start], target[goal] - load[goal]] + [r for _, _, r in path])
        for d, i, _ in path:
            shares[i] += -much if d == sites[i][0] else much


# ---- the rows, read plainly

def at(bs, start, width):
    return sum(b << (8 * i) for i, b in enumerate(bs[start:start + width]))


def edition_of(list_bytes):
    """Document 02, c: a list of edition 2 begins 4C 32; anything else is read as edition 1, whose row 1 refuses it."""
    return E2 if list_bytes[:2] == E2.list_mark else E1


def list_row(e, bs, places=512):
    """0 where no row applies; on load `places` are the table's."""
    if len(bs) < 4 or bs[:2] != e.list_mark:
        return 1
    n = at(bs, 2, 2)
    if n > 512 or n > places:
        return 2
    if len(bs) != e.list_length(n) and not (e.has_rolls and len(bs) == e.list_length(n) + 66):
        return 3
    records = [bs[e.list_length(i):e.list_length(i + 1)] for i in range(n)]
    rolled = bs[e.list_length(n):]
    if any(r[:2] != e.site_mark for r in records) or rolled and rolled[:2] != ROLL_MARK:
        return 4
    if any(r[2] > 63 or r[3] > 63 for r in records):
        return 5
    if any(at(r, 4, e.litres_width) == 0 for r in records):
        return 6
    if rolled and any(b > 9 for b in rolled[2:]):
        return 22
    if rolled and any(rolled[2 + d] == 0 for r in records for d in r[2:4]):
        return 23
    return 0


def sites_in(e, bs):
    """The sites of a list that no row refuses."""
    n = at(bs, 2, 2)
    starts = [e.list_length(i) for i in range(n)]
    sites = [(bs[i + 2], bs[i + 3], at(bs, i + 4, e.litres_width)) for i in starts]
    return with_roll(sites, bs[e.list_length(n) + 2:] or None)


def first_row(list_bytes, plan_bytes):
    """0 where the plan passes."""
    e = edition_of(list_bytes)
    return list_row(e, list_bytes) or plan_row(e, sites_in(e, list_bytes), plan_bytes)


def plan_in(e, plan_bytes):
    """The groups and shares of a plan that rows 7 to 11 do not refuse."""
    g, n = plan_bytes[2], at(plan_bytes, 3, 2)
    groups = [{d for d in range(64) if at(plan_bytes, 7 + 10 * i, 8) >> d & 1} for i in range(g)]
    return groups, [at(plan_bytes, e.plan_length(g, i) + 2, e.share_width) for i in range(n)]


def plan_row(e, sites, plan_bytes):
    """Rows 7 to 16; 0 where none applies."""
    if len(plan_bytes) < 5 or plan_bytes[:2] != e.plan_mark:
        return 7
    g, n = plan_bytes[2], at(plan_bytes, 3, 2)
    if g > 64:
        return 8
    if n != len(sites):
        return 9
    if len(plan_bytes) != e.plan_length(g, n):
        return 10
    group_marks = [plan_bytes[5 + 10 * i:7 + 10 * i] for i in range(g)]
    share_marks = [plan_bytes[e.plan_length(g, i):e.plan_length(g, i) + 2] for i in range(n)]
    if any(m != b"GR" for m in group_marks) or any(m != e.share_mark for m in share_marks):
        return 11
    groups, shares = plan_in(e, plan_bytes)
    seen = set()
    for x in groups:
        if not x or x & seen:
            return 12
        seen |= x
    if seen != set(listed(sites)):
        return 13
    place = {d: i for i, x in enumerate(groups) for d in x}
    by, weights = carried(sites, groups), totals(sites, groups)
    for (a, b, w), k, s in zip(sites, by, shares):
        whole = w * size(sites, groups[k])
        if s > whole or a == b and s != whole or place[a] < k and s != 0 or place[b] < k and s != whole:
            return 14
    load = {d: 0 for d in place}
    for (a, b, w), k, s in zip(sites, by, shares):
        if place[a] == k:
            load[a] += s
        if a != b and place[b] == k:
            load[b] += w * size(sites, groups[k]) - s
    if any(load[d] != crews(sites, d) * weights[place[d]] for d in place):
        return 15
    for i in range(len(groups) - 1):
        if weights[i] * size(sites, groups[i + 1]) <= weights[i + 1] * size(sites, groups[i]):
            return 16
    return 0


# ---- between the editions

WAYS = {"upgrade": (E1, E2), "downgrade": (E2, E1)}


def converted(way, list_bytes, plan_bytes=None):
    """Document 02, d: the row but for row 20, and the records with the same figures in the other edition: the list, and the plan where one is given along with it."""
    e, other = WAYS[way]
    row = list_row(e, list_bytes)
    if row:
        return row, None
    sites = sites_in(e, list_bytes)
    if way == "downgrade" and (not all(1 <= w <= 65535 for _, _, w in sites) or roll_of(sites) is not None):
        return 21, None
    if plan_bytes is None:
        return 0, [other.list(sites)]
    row = plan_row(e, sites, plan_bytes)
    return (row, None) if row else (0, [other.list(sites), other.plan(*plan_in(e, plan_bytes))])


# ---- the plain book

counted = {}


def key_of(sites):
    return tuple(sites), roll_of(sites)


def definition(sites):
    """The groups of a list, counted over all sets."""
    key = key_of(sites)
    if key not in counted:
        counted[key] = groups_of(sites)
    return counted[key]


def is_true(e, sites, plan_bytes):
    """Is the plan laid out for the list, with the groups of the definition, and do its shares keep the rules and are level?"""
    groups, shares = plan_in(e, plan_bytes) if len(plan_bytes) >= 5 else ([], [])
    if plan_bytes != e.plan(groups, shares) or len(shares) != len(sites) or groups != definition(sites):
        return False
    by, place = carried(sites, groups), {d: i for i, g in enumerate(groups) for d in g}
    have = {d: 0 for d in place}
    for (a, b, w), k, s in zip(sites, by, shares):
        whole = w * size(sites, groups[k])
        if s > whole or a == b and s != whole or place[a] < k and s > 0 or place[b] < k and s < whole:
            return False
        have[a] += s
        have[b] += whole - s
    return all(have[d] == crews(sites, d) * w for g, w in zip(groups, totals(sites, groups)) for d in g)


class Book:
    """"It has a list, at first without sites, and a plan, at first none." Its list has the roll, or the lack of one (request g). Each call answers what the console has to print."""

    def __init__(self, e, places):
        self.e, self.places, self.sites, self.plan = e, places, [], None

    def listed(self, sites):
        self.sites, self.plan = sites, None
        return "done"

    def load(self, bs):
        row = list_row(self.e, bs, self.places)
        return f"refused {row}" if row else self.listed(sites_in(self.e, bs))

    def change(self, i, w):
        if w > self.e.most:
            return "bad line"
        if w == 0:
            return "refused 6"
        if i >= len(self.sites):
            return "refused 18"
        a, b, _ = self.sites[i]
        return self.listed(with_roll(self.sites[:i] + [(a, b, w)] + self.sites[i + 1:], roll_of(self.sites)))

    def add(self, a, b, w):
        if w > self.e.most:
            return "bad line"
        if len(self.sites) >= min(512, self.places):
            return "refused 2"
        if a > 63 or b > 63:
            return "refused 5"
        if w == 0:
            return "refused 6"
        if 0 in (crews(self.sites, a), crews(self.sites, b)):
            return "refused 23"
        return self.listed(with_roll(self.sites + [(a, b, w)], roll_of(self.sites)))

    def propose(self, bs):
        row = plan_row(self.e, self.sites, bs)
        assert is_true(self.e, self.sites, bs) == (row == 0), (self.sites, bs, row)
        if row:
            return f"refused {row}"
        self.plan = bs
        return "done"

    def migrate(self, places):
        """Document 02, e: "where it succeeds, the book keeps its list and plan, now in edition 2, from there on with the new table and its places". Row 0 never applies to a book."""
        if self.e is not E1:
            return "bad line"
        if places < len(self.sites):
            return "refused 2"
        if self.plan is not None:
            self.plan = E2.plan(*plan_in(E1, self.plan))
        self.e, self.places = E2, places
        return "done"

    def figures(self, d):
        """W and q of a depot, by the definition on the list alone; None where it is not listed."""
        groups = definition(self.sites)
        return next(((w, size(self.sites, g)) for g, w in zip(groups, totals(self.sites, groups)) if d in g), None)

    def share(self, i):
        if self.plan is None:
            return "refused 17"
        if i >= len(self.sites):
            return "refused 18"
        groups = definition(self.sites)
        return f"share {plan_in(self.e, self.plan)[1][i]} {self.sites[i][2] * size(self.sites, groups[carried(self.sites, groups)[i]])}"

    def depot(self, d):
        if self.plan is None:
            return "refused 17"
        x = self.figures(d)
        return "depot %d %d" % x if x else "refused 19"

    def difference(self, a, b):
        if self.plan is None:
            return "refused 17"
        x, y = self.figures(a), self.figures(b)
        return f"difference {x[0] * y[1] - y[0] * x[1]} {x[1] * y[1]}" if x and y else "refused 19"

    def atleast(self, mark):
        """Document 02, a: the depots whose W/q is at least the mark, by the definition on the list alone; as eight bytes, bit n for depot n."""
        if self.plan is None:
            return "refused 17"
        reached = [d for d in listed(self.sites) if self.figures(d)[0] >= mark * self.figures(d)[1]]
        return "set " + text(group(reached)[2:])

    def written(self, length):
        whole = b"\xA5" * length
        if self.plan is None:
            return "refused 17 " + text(whole)
        if length < len(self.plan):
            return "refused 20 " + text(whole)
        return f"length {len(self.plan)} " + text(self.plan + whole[len(self.plan):])

    def list(self, length):
        """Document 02, b: \"the book gives row 20, or its list and the length, and stays as it is\". Row 17 never applies."""
        whole, record = b"\xA5" * length, self.e.list(self.sites)
        if length < len(record):
            return "refused 20 " + text(whole)
        return f"length {len(record)} " + text(record + whole[len(record):])


# ---- the script

lines, answers = [], []
checks = []  # what was put to `check`: words, list, plan and row


def text(bs):
    return bs.hex().upper() if bs else "-"


def spaced(bs):
    return bs.hex(" ").upper()


def say(words):
    lines.append("# " + words)


def check(words, list_bytes, plan_bytes, row):
    found = first_row(list_bytes, plan_bytes)
    assert found == row, (words, "meant", row, "read", found)
    checks.append((words, list_bytes, plan_bytes, row))
    say(words)
    lines.append(f"check {text(list_bytes)} {text(plan_bytes)}")
    answers.append(f"refused {row}" if row else "passes")


def known(e, words, sites, groups, weights, shares=None, k=1):
    """A list of document 01's table, every figure taken k times: its groups and litres are also counted over all sets. A true plan passes. The list and the plan are answered."""
    sites, weights, shares = scaled(sites, k), scaled(weights, k), None if shares is None else scaled(shares, k)
    assert [set(g) for g in groups] == groups_of(sites), words
    assert totals(sites, groups) == weights, words
    if shares is None:
        shares = shares_of(sites, groups)
    check(words if k == 1 else f"{words}, {k} times", e.list(sites), e.plan(groups, shares), 0)
    return e.list(sites), e.plan(groups, shares)


def bad(words, line):
    raw(words, line, "bad line")


def raw(words, line, answer):
    say(words)
    lines.append(line)
    answers.append(answer)


NINE = [(a, b, 1) for a in range(4) for b in range(a + 1, 4)] + [(0, 4, 1), (1, 4, 1), (4, 5, 1)]
SEVEN = [own(0, 7), (0, 1, 6)]
NINE_ONE = [(0, 1, 9), (1, 2, 1)]
FOURS = [own(0, 4), own(1, 4)]
FALLING = [own(0, 4), own(1, 3)]
TRIANGLE = [(0, 1, 1), (1, 2, 1), (0, 2, 1)]


def part_examples(e):
    T, TP = e.T, e.TP
    say("The examples of the table, rows 1 to 6: the list is refused and the plan is not read.")
    check("row 1: no bytes", b"", b"", 1)
    check(f"row 2: {spaced(e.list_mark)} 01 02", e.list_head("0102"), TP, 2)
    check("row 3: T's list less its last byte", T[:-1], TP, 3)
    check("row 4: T's list with 53 55", T.replace(e.site_mark, b"SU"), TP, 4)
    check(f"row 5: site {spaced(e.site(0, 64, 10))}", e.list([(0, 64, 10)]), TP, 5)
    check(f"row 6: site {spaced(e.site(0, 1, 0))}", e.list([(0, 1, 0)]), TP, 6)
    say("The examples of the table, rows 7 to 16.")
    check("row 7: 50 4D 01 01 00", T, bytes.fromhex("504D010100"), 7)
    check(f"row 8: {spaced(e.plan_mark)} 41 01 00", T, e.plan_head("410100"), 8)
    check(f"row 9: T, {spaced(e.plan_mark)} 01 02 00", T, e.plan_head("010200"), 9)
    check("row 10: T's plan and one byte", T, TP + b"\0", 10)
    check("row 11: T's plan with 53 47", T, TP.replace(e.share_mark, b"SG"), 11)
    check("row 12: T, groups {0}, {0,1}", T, e.plan([{0}, {0, 1}], [10]), 12)
    check("row 13: T, group {0}", T, e.plan([{0}], [10]), 13)
    check("row 14: T, s = 21", T, e.plan([{0, 1}], [21]), 14)
    check("row 15: T, s = 11", T, e.plan([{0, 1}], [11]), 15)
    check("row 16: own sites 0 and 1 of 4, groups {0}, {1}, shares 4, 4", e.list(FOURS), e.plan([{0}, {1}], [4, 4]), 16)


def part_known(e):
    say("Lists with known plans: each passes.")
    plans = [known(e, "no sites", [], [], [], [])]
    for k in sorted({1, e.scale}):
        plans.append(known(e, "T", [(0, 1, 10)], [{0, 1}], [10], [10], k))
        plans.append(known(e, "own 0 of 7", [own(0, 7)], [{0}], [7], [7], k))
        plans.append(known(e, "own 0 and own 1 of 4 each", FOURS, [{0, 1}], [8], [8, 8], k))
        plans.append(known(e, "own 0 of 4, own 1 of 3", FALLING, [{0}, {1}], [4, 3], [4, 3], k))
        plans.append(known(e, "own 0 of 7, (0,1) of 6", SEVEN, [{0}, {1}], [7, 6], [7, 0], k))
        plans.append(known(e, "own 0 of 6, (0,1) of 6", [own(0, 6), (0, 1, 6)], [{0, 1}], [12], [12, 0], k))
        plans.append(known(e, "own 0 of 5, (0,1) of 6", [own(0, 5), (0, 1, 6)], [{0, 1}], [11], [10, 1], k))
        plans.append(known(e, "(0,1) of 9, (1,2) of 1", NINE_ONE, [{0, 1}, {2}], [9, 1], [9, 0], k))
        plans.append(known(e, "(0,1), (1,2), (0,2) of 1 each", TRIANGLE, [{0, 1, 2}], [3], [3, 3, 0], k))
        plans.append(known(e, "the nine sites, shares worked out here", NINE, [{0, 1, 2, 3, 4}, {5}], [8, 1], None, k))
    assert totals(e.LARGE, [set(range(64))]) == [512 * e.most]
    check(f"512 sites, own i mod 64 of {e.most:,}: one group of 64", e.list(e.LARGE), e.LARGE_PLAN, 0)
    plans.append((e.list(e.LARGE), e.LARGE_PLAN))
    say("The same lists, each with the plan of the one before it: refused.")
    for (a, _), (_, p) in zip(plans[1:], plans[:-1]):
        row = first_row(a, p)
        assert row > 0
        check(f"the plan of the list before: row {row}", a, p, row)


def part_lists(e):
    T, TP = e.T, e.TP
    say("More lists that are refused.")
    check("row 1: three bytes", T[:3], TP, 1)
    check("row 1: the head mark of a plan", e.plan_mark + T[2:], TP, 1)
    check("row 1: the second byte of the mark", b"LT" + T[2:], TP, 1)
    check("row 2: 513 sites, all there", e.list([own(0, 1)] * 513), TP, 2)
    check("row 2: FF FF", e.list_head("FFFF"), TP, 2)
    check("row 3: one byte more", T + b"\0", TP, 3)
    check("row 3: a site more than counted", e.list([(0, 1, 10), (0, 1, 10)], count=1), TP, 3)
    check("row 3: a site fewer than counted", e.list([(0, 1, 10)], count=2), TP, 3)
    check("row 3: no sites and one byte", e.list([]) + b"S", b"", 3)
    check("row 4: the second of two marks", e.list([(0, 1, 10), (0, 1, 10, e.share_mark)]), TP, 4)
    check("row 5: the first depot 64", e.list([(64, 1, 10)]), TP, 5)
    check("row 5: depot 255", e.list([(0, 255, 10)]), TP, 5)
    check("row 6: the second of two sites", e.list([(0, 1, 10), (0, 1, 0)]), TP, 6)
    say("Pairs of rows: the earlier is answered, though the later stands first in the bytes.")
    check("rows 1 and 2", b"LL" + bytes.fromhex("FFFF"), TP, 1)
    check("rows 2 and 3", e.list([(0, 1, 10)], count=513), TP, 2)
    check("rows 3 and 4", e.list([(0, 1, 10, b"SU")]) + b"\0", TP, 3)
    check("rows 4 and 5: site 0 by row 5, site 1 by row 4", e.list([(64, 1, 10), (0, 1, 10, b"SU")]), TP, 4)
    check("rows 5 and 6: site 0 by row 6, site 1 by row 5", e.list([(0, 1, 0), (0, 64, 10)]), TP, 5)
    check("rows 4 and 6: site 0 by row 6, site 1 by row 4", e.list([(0, 1, 0), (0, 1, 10, b"SU")]), TP, 4)
    check("rows 3 and 6", e.list([(0, 1, 0)])[:-1], TP, 3)
    check("rows 6 and 7: the list before the plan", e.list([(0, 1, 0)]), b"", 6)
    check("rows 1 and 7", b"", b"XX", 1)


def part_plans(e):
    T, TP = e.T, e.TP
    say("More plans that are refused, by each row.")
    check("row 7: no bytes", T, b"", 7)
    check("row 7: four bytes", T, TP[:4], 7)
    check("row 7: the head mark of a list", T, e.list_mark + TP[2:], 7)
    check("row 8: 65 groups, all there", T, e.plan([{0}] * 65, [10]), 8)
    check("row 8: 255 groups", T, e.plan_head("FF0100") + TP[5:], 8)
    check("row 9: no sites", T, e.plan([{0, 1}], []), 9)
    check("row 9: 257 sites, the low byte right", T, e.plan_head("010101") + TP[5:], 9)
    check("row 9: the plan of no sites", T, e.plan([], []), 9)
    check("row 10: one byte less", T, TP[:-1], 10)
    check("row 10: the head alone", T, TP[:5], 10)
    check("row 10: no group counted", T, e.plan_head("000100") + TP[5:], 10)
    check("row 10: a group more counted", T, e.plan_head("020100") + TP[5:], 10)
    check("row 11: a group mark", T, TP.replace(b"GR", b"GS"), 11)
    check("row 11: the groups behind the shares", T, TP[:5] + TP[15:] + TP[5:15], 11)
    two = e.list([own(0, 4), own(1, 4)])
    check("row 11: the last of two share marks", two, e.plan([{0, 1}], [8, 8])[:-e.share_bytes] + e.share(8, b"SG"), 11)
    check("row 12: an empty group", T, e.plan([set()], [10]), 12)
    check("row 12: an empty group behind the true one", T, e.plan([{0, 1}, set()], [10]), 12)
    check("row 12: an empty group before the true one", T, e.plan([set(), {0, 1}], [10]), 12)
    check("row 12: the true group twice", T, e.plan([{0, 1}, {0, 1}], [10]), 12)
    check("row 12: groups {0,1}, {1}", T, e.plan([{0, 1}, {1}], [10]), 12)
    check("row 12: the third meets the first", e.list(TRIANGLE), e.plan([{0}, {1}, {0, 2}], [3, 3, 0]), 12)
    check("row 13: no groups", T, e.plan([], [10]), 13)
    check("row 13: group {1}", T, e.plan([{1}], [0]), 13)
    check("row 13: group {0,1,2}, 2 not listed", T, e.plan([{0, 1, 2}], [10]), 13)
    check("row 13: groups {0,1}, {63}, 63 not listed", T, e.plan([{0, 1}, {63}], [10]), 13)
    check("row 13: no sites and a group", e.list([]), e.plan([{0}], []), 13)
    check("row 14: s one above w x q", T, e.plan([{0, 1}], [21]), 14)
    for bits in range(16, 8 * e.share_width, 16):
        check(f"row 14: s right but for bit {bits}", T, e.plan([{0, 1}], [10 + (1 << bits)]), 14)
    check("row 14: the largest s", T, e.plan([{0, 1}], [256 ** e.share_width - 1]), 14)
    check("row 14: an own site not whole", e.list([own(0, 7)]), e.plan([{0}], [6]), 14)
    check("row 14: an own site at s = 0", e.list([own(0, 7)]), e.plan([{0}], [0]), 14)
    check("row 14: own sites of 4 at scale 1 in a group of 2", e.list(FOURS), e.plan([{0, 1}], [4, 4]), 14)
    check("row 14: a share to an earlier group, as first depot", e.list(SEVEN), e.plan([{0}, {1}], [7, 1]), 14)
    check("row 14: a share to an earlier group, as second depot", e.list([own(0, 7), (1, 0, 6)]), e.plan([{0}, {1}], [7, 5]), 14)
    check("row 14: all of a site to an earlier group", e.list(NINE_ONE), e.plan([{0, 1}, {2}], [9, 1]), 14)
    check("row 15: T, s = 9", T, e.plan([{0, 1}], [9]), 15)
    check("row 15: T, s = 0", T, e.plan([{0, 1}], [0]), 15)
    check("row 15: T, s = 20", T, e.plan([{0, 1}], [20]), 15)
    check("row 15: own 0 of 5, (0,1) of 6, shares 10, 0", e.list([own(0, 5), (0, 1, 6)]), e.plan([{0, 1}], [10, 0]), 15)
    check("row 15: own 0 of 7, (0,1) of 6 as one group", e.list(SEVEN), e.plan([{0, 1}], [14, 0]), 15)
    check("row 15: the triangle, one share moved", e.list(TRIANGLE), e.plan([{0, 1, 2}], [3, 3, 1]), 15)
    check("row 15: (0,1) of 9, (1,2) of 1, shares 8, 0", e.list(NINE_ONE), e.plan([{0, 1}, {2}], [8, 0]), 15)
    check("row 16: own 0 of 4, own 1 of 3, groups in the wrong order", e.list(FALLING), e.plan([{1}, {0}], [4, 3]), 16)
    check("row 16: equal litres per depot, groups {1}, {0}", e.list(FOURS), e.plan([{1}, {0}], [4, 4]), 16)
    check("row 16: own 0 of 6, (0,1) of 6, groups {0}, {1}, both 6", e.list([own(0, 6), (0, 1, 6)]), e.plan([{0}, {1}], [6, 0]), 16)
    check("row 16: own 0 of 5, (0,1) of 6, groups {0}, {1}", e.list([own(0, 5), (0, 1, 6)]), e.plan([{0}, {1}], [5, 0]), 16)
    check("row 16: the last two of three groups", e.list([own(0, 9), own(1, 2), own(2, 3)]), e.plan([{0}, {1}, {2}], [9, 2, 3]), 16)
    say("Pairs of rows: the earlier is answered.")
    check("rows 7 and 8", T, bytes.fromhex("504D410100"), 7)
    check("rows 8 and 9", T, e.plan_head("410200"), 8)
    check("rows 8 and 10", T, e.plan_head("FF0100"), 8)
    check("rows 9 and 10", T, e.plan_head("010000"), 9)
    check("rows 10 and 11", T, TP.replace(b"GR", b"GS") + b"\0", 10)
    check("rows 11 and 12: group 0 by row 12, share 0 by row 11", T, TP[:5] + group(set()) + e.share(10, b"SG"), 11)
    check("rows 12 and 13: group 0 by row 13, group 1 by row 12", T, e.plan([{0, 2}, set()], [10]), 12)
    check("rows 13 and 14", T, e.plan([{0}], [21]), 13)
    check("rows 14 and 15: site 0 by row 15, site 1 by row 14", e.list([(0, 1, 10), own(2, 1)]), e.plan([{0, 1}, {2}], [11, 0]), 14)
    check("rows 14 and 15 in one group", e.list(FOURS), e.plan([{0, 1}], [7, 8]), 14)
    check("rows 15 and 16: groups rise and a load is uneven", e.list([own(0, 1), (1, 2, 10)]), e.plan([{0}, {1, 2}], [1, 11]), 15)
    check("rows 14 and 16", e.list(FALLING), e.plan([{1}, {0}], [3, 3]), 14)
    check("rows 9 and 12", T, e.plan([{0}, {0, 1}], [10, 10]), 9)


def part_widths(e):
    say("Litres and shares that only a part of their bytes tells: each byte counts, and none beyond them.")
    for i in range(e.litres_width):
        w = 256 ** (i + 1) - 256 ** i  # FF in byte i alone
        check(f"litres {w}: T with its plan of s = {w}", e.list([(0, 1, w)]), e.plan([{0, 1}], [w]), 0)
        check("the same, s one less", e.list([(0, 1, w)]), e.plan([{0, 1}], [w - 1]), 15)
        check("the same, s above w x q by one", e.list([(0, 1, w)]), e.plan([{0, 1}], [2 * w + 1]), 14)
    pair = [(0, 1, e.most), (1, 0, e.most)]
    check("two sites of the most litres: s = w x q and 0", e.list(pair), e.plan([{0, 1}], [2 * e.most, 2 * e.most]), 0)
    check("the same, s one less", e.list(pair), e.plan([{0, 1}], [2 * e.most - 1, 2 * e.most]), 15)
    check("the same, s one more", e.list(pair), e.plan([{0, 1}], [2 * e.most + 1, 2 * e.most]), 14)
    half = (e.most + 1) // 2
    twice = [(0, 1, half), (0, 1, half)]
    check("(0,1) twice, W one above the most litres", e.list(twice), e.plan([{0, 1}], [2 * half, 0]), 0)
    check("the same, all to depot 0: level only if figures are cut to the width of litres", e.list(twice), e.plan([{0, 1}], [2 * half, 2 * half]), 15)
    known(e, "own 0 twice, W one above the most litres, and own 1 of 1", [own(0, half), own(0, half), own(1, 1)], [{0}, {1}], [2 * half, 1])
    false_plan(e, "the same, exchanged: falling only if figures are cut", [own(0, half), own(0, half), own(1, 1)], [{1}, {0}])
    near = [own(0, e.most), own(1, e.most - 1)]
    known(e, "the most litres and one less differ", near, [{0}, {1}], [e.most, e.most - 1])
    false_plan(e, "the same, merged", near, [{0, 1}])
    false_plan(e, "the same, exchanged", near, [{1}, {0}])


def part_editions():
    say("A list of one edition and a plan of the other: row 7, also where all but the marks is the same.")
    for e, other in ((E1, E2), (E2, E1)):
        for sites, groups, shares in (([], [], []), ([(0, 1, 10)], [{0, 1}], [10]), (NINE_ONE, [{0, 1}, {2}], [9, 0])):
            check("a plan of the list's edition", e.list(sites), e.plan(groups, shares), 0)
            check("of the other", e.list(sites), other.plan(groups, shares), 7)
        check("row 7 before row 8", e.T, other.plan_head("410100"), 7)
        check("row 7 before row 9", e.T, other.plan_head("010200"), 7)
        check("row 7 before row 10", e.T, other.TP[:-1], 7)
        check("row 7 before row 15", e.T, other.plan([{0, 1}], [11]), 7)
        check("row 6 before row 7", e.list([(0, 1, 0)]), other.TP, 6)
        say("A list whose mark is of one edition and whose records are of the other.")
        check("row 3: T", e.list_mark + other.T[2:], e.TP, 3)
        check("no sites: the mark alone tells", e.list_mark + other.list([])[2:], e.plan([], []), 0)
        fits = 24 // e.site_bytes, 24 // other.site_bytes  # so many records of either edition have 24 bytes
        check(f"row 4: {fits[0]} sites counted, {fits[1]} records of the other edition", e.list([], count=fits[0]) + other.list([own(0, 10)] * fits[1])[4:], e.TP, 4)
        check("row 4: the other edition's site mark", e.list([(0, 1, 10, other.site_mark)]), e.TP, 4)
        check("row 4: a share mark of edition 2", e.list([(0, 1, 10, E2.share_mark)]), e.TP, 4)
        say("A plan whose mark is of one edition and whose shares are of the other.")
        check("row 10: T", e.T, e.plan_mark + other.TP[2:], 10)
        check("row 11: the other edition's share mark", e.T, e.TP[:-e.share_bytes] + e.share(10, other.share_mark), 11)
        check("row 11: a site mark of edition 2", e.T, e.TP[:-e.share_bytes] + e.share(10, E2.site_mark), 11)
        check("row 11: a group marked 47 32", e.T, e.TP.replace(b"GR", b"G2"), 11)
        say("Marks of neither edition: row 1 and row 7.")
        for mark in ("4C00", "4C31", "4C33", "4C34", "324C", "6C32", "5032", "4D32"):
            check(f"row 1: {mark}", bytes.fromhex(mark) + e.T[2:], e.TP, 1)
        for mark in ("5000", "5031", "5033", "4C32", "3250", "7032"):
            check(f"row 7: {mark}", e.T, bytes.fromhex(mark) + e.TP[2:], 7)
    check("row 1: 4C 32 and no more", b"L2", E2.TP, 1)
    check("row 1: 4C 32 and half a count", b"L2\1", E2.TP, 1)
    say("Litres above 65,535 beside others: an aquatic centre of 70,000.")
    known(E2, "own 0 of 70,000, (0,1) of 9, (1,2) of 1", [own(0, 70000), (0, 1, 9), (1, 2, 1)], [{0}, {1}, {2}], [70000, 9, 1], [70000, 0, 0])
    known(E2, "(0,1) of 70,000, own 1 of 10", [(0, 1, 70000), own(1, 10)], [{0, 1}], [70010], [70010, 20])
    known(E2, "own 0 of 65,536, own 1 of 65,535: the low two bytes would rise", [own(0, 65536), own(1, 65535)], [{0}, {1}], [65536, 65535])
    false_plan(E2, "the same, exchanged", [own(0, 65536), own(1, 65535)], [{1}, {0}])


def split_ties(groups):
    """Each group cut in two, in every way that leaves both parts."""
    for i, g in enumerate(groups):
        members = sorted(g)
        for k in range(1, (1 << len(members)) - 1):
            chosen = {d for j, d in enumerate(members) if k >> j & 1}
            yield groups[:i] + [chosen, set(members) - chosen] + groups[i + 1:]


def placed(sites, groups):
    """Shares that place every litre and keep row 14, each site wholly with its first depot that may have it."""
    by, place = carried(sites, groups), {d: i for i, g in enumerate(groups) for d in g}
    return [w * size(sites, groups[k]) if place[a] == k else 0 for (a, b, w), k in zip(sites, by)]


def false_plan(e, words, sites, groups, shares=None):
    """A plan that is well formed with every litre placed, of groups that are not the definition's: refused by row 15 or 16."""
    assert [set(g) for g in groups] != groups_of(sites), words
    shares = placed(sites, groups) if shares is None else shares
    row = first_row(e.list(sites), e.plan(groups, shares))
    assert row in (15, 16), (words, row)
    check(f"{words}: row {row}", e.list(sites), e.plan(groups, shares), row)


def level(sites, groups):
    """Level shares for these groups, or None where there are none."""
    try:
        return shares_of(sites, groups)
    except StopIteration:
        return None


def part_false(e):
    """In edition 2 every figure is taken `scale` times, so that litres and shares need all their bytes."""
    def true(words, sites, groups, weights, shares=None):
        known(e, words, sites, groups, weights, shares, e.scale)

    def false(words, sites, groups, shares=None):
        false_plan(e, words, scaled(sites, e.scale), groups, shares and scaled(shares, e.scale))

    say("False plans that are well formed, with every litre placed.")
    false("the nine sites, the innermost core {0,1,2,3} first", NINE, [{0, 1, 2, 3}, {4}, {5}], level(NINE, [{0, 1, 2, 3}, {4}, {5}]))
    false("the nine sites, the core, then {4,5}", NINE, [{0, 1, 2, 3}, {4, 5}], level(NINE, [{0, 1, 2, 3}, {4, 5}]))
    false("the nine sites in one group", NINE, [{0, 1, 2, 3, 4, 5}])
    false("the nine sites, {5} first", NINE, [{5}, {0, 1, 2, 3, 4}])
    false("the nine sites, single depots 0 to 5", NINE, [{d} for d in range(6)])
    false("the nine sites, single depots 5 to 0", NINE, [{d} for d in range(5, -1, -1)])
    false("(0,1) of 9, (1,2) of 1 in one group", NINE_ONE, [{0, 1, 2}])
    false("(0,1) of 9, (1,2) of 1, {2} first", NINE_ONE, [{2}, {0, 1}])
    false("(0,1) of 9, (1,2) of 1, {1,2} first", NINE_ONE, [{1, 2}, {0}])
    false("(0,1) of 9, (1,2) of 1, {0}, {1}, {2}", NINE_ONE, [{0}, {1}, {2}])
    false("(0,1) of 9, (1,2) of 1, {2}, {1}, {0}", NINE_ONE, [{2}, {1}, {0}])
    false("own 0 of 4, own 1 of 3 merged", FALLING, [{0, 1}])
    false("own 0 of 4, own 1 of 3 exchanged", FALLING, [{1}, {0}])
    false("own 0 of 7, (0,1) of 6 exchanged", SEVEN, [{1}, {0}])
    false("T split, {0} first", [(0, 1, 10)], [{0}, {1}])
    false("T split, {1} first", [(0, 1, 10)], [{1}, {0}])
    five = [own(d, 5 - d) for d in range(5)]
    true("own sites of 5, 4, 3, 2, 1: single depots in order", five, [{0}, {1}, {2}, {3}, {4}], [5, 4, 3, 2, 1], [5, 4, 3, 2, 1])
    for i in range(4):
        groups = [{d} for d in range(5)]
        groups[i], groups[i + 1] = groups[i + 1], groups[i]
        false(f"the same, depots {i} and {i + 1} exchanged", five, groups)
    false("the same, from the lightest", five, [{d} for d in range(4, -1, -1)])
    for i in range(4):
        false(f"the same, depots {i} and {i + 1} merged", five, [{d} for d in range(i)] + [{i, i + 1}] + [{d} for d in range(i + 2, 5)])
    eleven = [own(0, 5), (0, 1, 6), own(2, 5)]
    true("11/2 and 5 differ", eleven, [{0, 1}, {2}], [11, 5], [10, 1, 5])
    false("11/2 and 5 merged", eleven, [{0, 1, 2}])
    false("5 before 11/2", eleven, [{2}, {0, 1}], [10, 1, 5])
    twice = [own(0, 5), (1, 2, 10)]
    true("an own site counts once: 5 and 10/2 are equal", twice, [{0, 1, 2}], [15], [15, 15])
    false("the same, the own site first", twice, [{0}, {1, 2}], [5, 10])
    false("the same, the pair first", twice, [{1, 2}, {0}], [5, 10])
    pairs = [(0, 1, 3), (2, 3, 3), (0, 1, 1)]
    true("several sites name one pair", pairs, [{0, 1}, {2, 3}], [4, 3])
    false("the same, exchanged", pairs, [{2, 3}, {0, 1}], level(pairs, [{2, 3}, {0, 1}]))
    false("the same, merged", pairs, [{0, 1, 2, 3}])
    equal = [(0, 1, 4), (2, 3, 4)]
    true("two heaviest sets: their union is the group", equal, [{0, 1, 2, 3}], [8])
    false("a heaviest set that is not the largest", equal, [{0, 1}, {2, 3}], level(equal, [{0, 1}, {2, 3}]))
    high = [(62, 63, e.most), (63, 61, e.most), own(61, 1)]
    known(e, "depots 61 to 63", high, groups_of(high), totals(high, groups_of(high)))
    say("Every way to split one group of the nine sites or of the triangle, level where that can be.")
    for sites, right in ((NINE, [{0, 1, 2, 3, 4}, {5}]), (TRIANGLE, [{0, 1, 2}])):
        for groups in some(e, split_ties(right)):
            false("groups " + ", ".join("{" + ",".join(map(str, sorted(g))) + "}" for g in groups), sites, groups, level(sites, groups))
    halves, singles = [set(range(32)), set(range(32, 64))], [{d} for d in range(64)]
    for words, plan, row in some(e, (("in two groups of 32", e.plan(halves, [32 * e.most] * 512), 16), ("single depots", e.plan(singles, [e.most] * 512), 16),
                                     ("one share one less", e.plan([set(range(64))], [64 * e.most] * 511 + [64 * e.most - 1]), 14))):
        check(f"the 512 sites, {words}", e.list(e.LARGE), plan, row)
    falls = [own(d, (64 - d) * e.step) for d in range(64)]
    check("64 groups of one depot: passes", e.list(falls), e.plan(singles, [w for _, _, w in falls]), 0)
    check("the same, the last two exchanged", e.list(falls), e.plan(singles[:62] + [{63}, {62}], [w for _, _, w in falls]), 16)


def drawn(seed):
    """Draws numbers below a bound, by a fixed rule."""
    def numbers(seed):
        while True:
            seed = (seed * 6364136223846793005 + 1442695040888963407) % (1 << 64)
            yield seed >> 33

    source = numbers(seed)
    return lambda n: (next(source) if n < 1 << 31 else next(source) << 31 | next(source)) % n


def drawn_roll(draw, depots):
    """A roll with 1 to 9 crews at each of the first depots, often few, and some at no more than three of the others."""
    roll = bytearray(1 + draw((1, 3, 9)[draw(3)]) if d < depots else 0 for d in range(64))
    for _ in range(draw(4)):
        roll[depots + draw(64 - depots)] = draw(10)
    return bytes(roll)


def part_small(e, networks, rolls=False):
    say("Small networks" + (" with rolls" if rolls else "") + ": the groups are counted over all sets. The true plan passes; a share changed by one, two groups exchanged, merged or split do not.")
    draw = drawn(5 if rolls else 1)
    for k in range(networks):
        depots = 2 + draw(5)
        most = (2, 5, 20, 65535)[k % 4] * e.step
        sites = [(draw(depots), draw(depots), 1 + draw(most)) for _ in range(1 + draw(9))]
        if rolls:
            sites = Sites(sites, drawn_roll(draw, depots))
        groups = groups_of(sites)
        shares = shares_of(sites, groups)
        name = f"network {k}"
        check(name + ": the true plan", e.list(sites), e.plan(groups, shares), 0)
        i = draw(len(sites))
        changed = shares[:i] + [shares[i] - 1 if shares[i] else shares[i] + 1] + shares[i + 1:]
        row = first_row(e.list(sites), e.plan(groups, changed))
        assert row in (14, 15), name
        check(f"{name}: share {i} changed by one: row {row}", e.list(sites), e.plan(groups, changed), row)
        if len(groups) > 1:
            i = draw(len(groups) - 1)
            others = groups[:i] + [groups[i + 1], groups[i]] + groups[i + 2:]
            false_plan(e, f"{name}: groups {i} and {i + 1} exchanged", sites, others, level(sites, others))
            others = groups[:i] + [groups[i] | groups[i + 1]] + groups[i + 2:]
            false_plan(e, f"{name}: groups {i} and {i + 1} merged", sites, others)
        splits = list(split_ties(groups))
        if splits:
            others = splits[draw(len(splits))]
            false_plan(e, f"{name}: a group split", sites, others, level(sites, others))


PAIR = [(0, 1, 12)]
ONES = crews_roll({}, 1)
ALL = set(range(64))


def rolled(sites, given, others=0):
    """The sites with these crews by depot, and so many at every other."""
    return Sites(sites, crews_roll(given, others))


def named_roll(sites):
    """"A roll with 1 for each depot that a site names and 0 for every other.\""""
    return Sites(sites, crews_roll({d: 1 for d in named(sites)}))


def part_isolated():
    e = E2
    say("Depots with crews that no site names are listed: together they are the last group, with W 0.")
    known(e, "(0,1) of 12, one crew at depot 2 too", rolled(PAIR, {0: 1, 1: 1, 2: 1}), [{0, 1}, {2}], [12, 0], [12])
    known(e, "(1,2) of 12, nine crews at depot 0 too", rolled([(1, 2, 12)], {0: 9, 1: 1, 2: 1}), [{1, 2}, {0}], [12, 0], [12])
    known(e, "own 0 of 12, own 1 of 1 with nine crews, one crew at depot 2", rolled([own(0, 12), own(1, 1)], {0: 1, 1: 9, 2: 1}), [{0}, {1}, {2}], [12, 1, 0], [12, 9])
    known(e, "own 0 and own 1 of 4 each, crews at depots 2 and 3 too", rolled(FOURS, {0: 1, 1: 1, 2: 3, 3: 7}), [{0, 1}, {2, 3}], [8, 0], [8, 8])
    sites = rolled(PAIR, {0: 3, 1: 1, 5: 9, 63: 2})
    known(e, "(0,1) of 12, crews at depots 5 and 63 too", sites, [{0, 1}, {5, 63}], [12, 0], [36])
    for words, groups, row in (("left out", [{0, 1}], 13), ("depot 63 left out", [{0, 1}, {5}], 13), ("depot 5 left out", [{0, 1}, {63}], 13),
                               ("with depot 2, which has no crew", [{0, 1}, {2, 5, 63}], 13), ("depot 2 behind them", [{0, 1}, {5, 63}, {2}], 13),
                               ("an empty group behind them", [{0, 1}, {5, 63}, set()], 12), ("depot 5 twice", [{0, 1}, {5}, {5, 63}], 12),
                               ("joined to the group before", [{0, 1, 5, 63}], 15), ("depot 5 joined to it", [{0, 1, 5}, {63}], 15), ("depot 63 joined to it", [{0, 1, 63}, {5}], 15),
                               ("each in a group of its own", [{0, 1}, {5}, {63}], 16), ("each in a group of its own, 63 first", [{0, 1}, {63}, {5}], 16),
                               ("their group first", [{5, 63}, {0, 1}], 16), ("depot 5 first", [{5}, {0, 1}, {63}], 16)):
        shares = placed(sites, groups) if row == 15 else [36]
        check(f"row {row}: {words}", e.list(sites), e.plan(groups, shares), row)
    say("No sites: they are the only group.")
    none = rolled([], {0: 1, 7: 9, 63: 3})
    known(e, "crews at depots 0, 7 and 63", none, [{0, 7, 63}], [0], [])
    for words, groups, row in (("no group", [], 13), ("depot 63 left out", [{0, 7}], 13), ("depot 1 too", [{0, 1, 7, 63}], 13), ("depot 7 twice", [{0, 7}, {7, 63}], 12),
                               ("two groups", [{0, 7}, {63}], 16), ("three", [{0}, {7}, {63}], 16)):
        check(f"row {row}: {words}", e.list(none), e.plan(groups, []), row)
    known(e, "no sites and no crews", rolled([], {}), [], [], [])
    check("row 13: a group", e.list(rolled([], {})), e.plan([{0}], []), 13)
    say("All 64 depots, none of them with a site; then one with a site, and two.")
    for n in (1, 9):
        record = e.list(rolled([], {}, n))
        check(f"no sites, {n} at each", record, e.plan([ALL], []), 0)
        check("row 13: no group", record, e.plan([], []), 13)
        check("row 13: depot 63 left out", record, e.plan([ALL - {63}], []), 13)
        check("row 16: 64 groups", record, e.plan([{d} for d in range(64)], []), 16)
        for d in (0, 63):
            record, others = e.list(rolled([own(d, 7)], {}, n)), ALL - {d}
            check(f"own {d} of 7, {n} at each", record, e.plan([{d}, others], [7 * n]), 0)
            check("row 13: the others left out", record, e.plan([{d}], [7 * n]), 13)
            check("row 15: one group", record, e.plan([ALL], [7 * 64 * n]), 15)
            check("row 16: 64 groups", record, e.plan([{d}] + [{x} for x in sorted(others)], [7 * n]), 16)
            check("row 16: the others first", record, e.plan([others, {d}], [7 * n]), 16)
    check("(0,1) of 12, nine at every other", e.list(rolled(PAIR, {0: 1, 1: 1}, 9)), e.plan([{0, 1}, ALL - {0, 1}], [12]), 0)
    check("512 own sites of depot 5, nine at each", e.list(rolled([own(5, e.most)] * 512, {}, 9)), e.plan([{5}, ALL - {5}], [9 * e.most] * 512), 0)


def part_crews():
    e = E2
    say("Crews, in edition 2: a list may end in a roll.")
    assert e.list(rolled(PAIR, {0: 3, 1: 1})) == bytes.fromhex("4C32010053320001 0C000000 4452 0301") + bytes(62)
    known(e, "(0,1) of 12, three crews and one: W 12, q 4", rolled(PAIR, {0: 3, 1: 1}), [{0, 1}], [12], [36])
    say("The same at 1 to 9 crews of depot 0 and of depot 1: depot 0 has its crews times 12.")
    for n in range(1, 10):
        known(e, f"{n} crews and one", rolled(PAIR, {0: n, 1: 1}), [{0, 1}], [12], [12 * n])
        known(e, f"{10 - n} crews and {n}", rolled(PAIR, {0: 10 - n, 1: n}), [{0, 1}], [12], [12 * (10 - n)])
    check("row 15: level for one crew each, q = 2", e.list(rolled(PAIR, {0: 3, 1: 1})), e.plan([{0, 1}], [12]), 15)
    check("row 15: level for one crew each, at q = 4", e.list(rolled(PAIR, {0: 3, 1: 1})), e.plan([{0, 1}], [24]), 15)
    check("row 15: three crews and one exchanged", e.list(rolled(PAIR, {0: 1, 1: 3})), e.plan([{0, 1}], [36]), 15)
    check("row 14: s above w x q, q = 4", e.list(rolled(PAIR, {0: 3, 1: 1})), e.plan([{0, 1}], [49]), 14)
    two = PAIR + [own(2, 5)]
    known(e, "(0,1) of 12, own 2 of 5, one crew each: {0,1} first", rolled(two, {0: 1, 1: 1, 2: 1}), [{0, 1}, {2}], [12, 5])
    known(e, "the same with nine, nine and one: {2} first", rolled(two, {0: 9, 1: 9, 2: 1}), [{2}, {0, 1}], [5, 12], [108, 5])
    false_plan(e, "the groups of one crew each", rolled(two, {0: 9, 1: 9, 2: 1}), [{0, 1}, {2}], [108, 5])
    known(e, "own 0 of 4, own 1 of 8, one crew and two: as many litres per crew, one group", rolled([own(0, 4), own(1, 8)], {0: 1, 1: 2}), [{0, 1}], [12], [12, 24])
    false_plan(e, "these as two groups", rolled([own(0, 4), own(1, 8)], {0: 1, 1: 2}), [{1}, {0}], [4, 16])
    say("Nine crews at each of 64 depots: q is 576.")
    nines = Sites([own(d, 7) for d in range(64)], crews_roll({}, 9))
    plan = e.plan([set(range(64))], [7 * 576] * 64)
    check("64 own sites of 7", e.list(nines), plan, 0)
    check("row 14: s for 64 depots of one crew", e.list(nines), e.plan([set(range(64))], [7 * 64] * 64), 14)
    check("512 own sites of 4,294,967,295 litres, nine crews each", e.list(Sites(e.LARGE, crews_roll({}, 9))), e.plan([set(range(64))], [576 * e.most] * 512), 0)
    say("Crews at one depot only.")
    known(e, "own 5 of 7, crews at depot 5 only", rolled([own(5, 7)], {5: 9}), [{5}], [7], [63])
    check("row 23: (0,1), crews at depot 0 only", e.list(rolled(PAIR, {0: 9})), e.plan([{0, 1}], [12]), 23)
    check("row 23: (0,1), crews at depot 1 only", e.list(rolled(PAIR, {1: 9})), e.plan([{0, 1}], [12]), 23)
    say("A roll with 1 for each depot that a site names and 0 for every other: the same plans as without one.")
    for words, sites in (("T", [(0, 1, 10)]), ("nine sites", NINE), ("own 0 of 7, (0,1) of 6", SEVEN), ("no sites", [])):
        groups = groups_of(sites)
        for ss in (shares_of(sites, groups), placed(sites, groups), [0] * len(sites)):
            row = first_row(e.list(sites), e.plan(groups, ss))
            check(f"{words}, without a roll: {'passes' if row == 0 else 'row %d' % row}", e.list(sites), e.plan(groups, ss), row)
            check("and with one", e.list(named_roll(sites)), e.plan(groups, ss), row)
    part_isolated()
    say("Rows of a list with a roll.")
    pair, P = e.list(PAIR), e.plan([{0, 1}], [36])
    good = ROLL_MARK + crews_roll({0: 3, 1: 1})
    check("row 3: a roll short of a byte", pair + good[:-1], P, 3)
    check("row 3: a byte behind a roll", pair + good + b"\0", P, 3)
    check("row 3: two rolls", pair + good + good, P, 3)
    check("row 3: a roll's mark alone", pair + ROLL_MARK, P, 3)
    check("row 3: a roll before the sites counts as sites", e.list_head("0100") + good + pair[4:] + b"\0", P, 3)
    check("row 3: a roll in edition 1", E1.list([(0, 1, 10)]) + good, E1.TP, 3)
    for mark in ("4453", "5244", "4552", "0000"):
        check(f"row 4: {mark} for the roll's mark", pair + bytes.fromhex(mark) + good[2:], P, 4)
    check("row 4: a site's mark, behind it a good roll", e.list([(0, 1, 12, b"SU")]) + good, P, 4)
    for d, n in ((0, 10), (1, 255), (63, 10), (7, 128)):
        check(f"row 22: {n} at depot {d}", e.list(rolled(PAIR, {0: 3, 1: 1, d: n})), P, 22)
    check("row 22: no sites, 10 at depot 0", e.list(rolled([], {0: 10})), e.plan([], []), 22)
    check("row 23: the second site's second depot", e.list(rolled(PAIR + [(1, 2, 5)], {0: 3, 1: 1})), P, 23)
    check("row 23: no crew at all", e.list(rolled(PAIR, {})), P, 23)
    say("Pairs of rows, the earlier is answered.")
    check("rows 4 and 22", pair + b"RD" + crews_roll({0: 10, 1: 1}), P, 4)
    check("rows 5 and 22", e.list(rolled([(0, 64, 12)], {0: 10})), P, 5)
    check("rows 5 and 23", e.list(rolled([(64, 1, 12)], {0: 1})), P, 5)
    check("rows 6 and 22", e.list(rolled([(0, 1, 0)], {0: 10, 1: 1})), P, 6)
    check("rows 6 and 23", e.list(rolled([(0, 1, 0)], {0: 1})), P, 6)
    check("rows 22 and 23: the named depots have none, and depot 63 has 10", e.list(rolled(PAIR, {63: 10})), P, 22)
    check("rows 22 and 7", e.list(rolled(PAIR, {0: 10, 1: 1})), b"", 22)
    check("rows 23 and 7", e.list(rolled(PAIR, {0: 1})), b"", 23)
    check("row 7, the list is good", e.list(rolled(PAIR, {0: 3, 1: 1})), b"", 7)
    say("Going back, row 21 refuses a list with a roll, after all rows of the list and before the plan's.")
    full = e.list(rolled(PAIR, {0: 3, 1: 1}))
    convert("row 21", "downgrade", 21, (full,), 100)
    convert("with its plan", "downgrade", 21, (full, P), 100, 100)
    convert("a roll of ones too", "downgrade", 21, (e.list(named_roll(PAIR)),), 100)
    convert("rows 22 and 21", "downgrade", 22, (e.list(rolled(PAIR, {0: 10, 1: 1})),), 100)
    convert("rows 23 and 21", "downgrade", 23, (e.list(rolled(PAIR, {0: 1})),), 100)
    convert("rows 21 and 7", "downgrade", 21, (full, b""), 100, 100)
    convert("rows 21 and 20", "downgrade", 21, (full,), 0)
    convert("row 1: up", "upgrade", 1, (full,), 200)
    convert("row 3: a list of edition 1 with a roll, up", "upgrade", 3, (E1.list([(0, 1, 10)]) + good,), 200)


def roll_out(words, sites):
    """The list that is held, written out with its roll."""
    list_out(words, book.e.list(sites))


def part_desk_isolated():
    e = E2
    say("Depots with crews that no site names, on a desk: left out, one of them left out, each by itself, joined to the group before, and in front of it; then as the last group.")
    table(3)
    sites = rolled(PAIR, {0: 3, 1: 1, 5: 9, 63: 2})
    ask("load", e.list(sites), answer="done")
    roll_out("the list with its roll", sites)
    for groups, row in (([{0, 1}], 13), ([{0, 1}, {5}], 13), ([{0, 1}, {2, 5, 63}], 13), ([{0, 1}, {5}, {63}], 16), ([{0, 1, 5, 63}], 15), ([{0, 1, 63}, {5}], 15), ([{5, 63}, {0, 1}], 16)):
        ask("propose", e.plan(groups, placed(sites, groups) if row == 15 else [36]), answer=f"refused {row}")
    ask("depot", 5, answer="refused 17")
    plan = e.plan([{0, 1}, {5, 63}], [36])
    ask("propose", plan, answer="done")

    def figures():
        ask("share", 0, answer="share 36 48")
        ask("share", 1, answer="refused 18")
        ask("depot", 0, answer="depot 12 4")
        ask("depot", 5, answer="depot 0 11")
        ask("depot", 63, answer="depot 0 11")
        for d in (2, 62, 64):
            ask("depot", d, answer="refused 19")
        ask("difference", 0, 5, answer="difference 132 44")
        ask("difference", 63, 1, answer="difference -132 44")
        ask("difference", 5, 63, answer="difference 0 121")
        ask("difference", 5, 2, answer="refused 19")
        at_least(0, 0, 1, 5, 63)
        at_least(1, 0, 1)
        at_least(3, 0, 1)
        at_least(4)
        at_least(2 ** 32 - 1)
        ask("written", 34, answer="refused 20")
        ask("written", 35, answer=f"length 35 {text(plan)}")

    figures()
    say("The list and the plan that are written out, in a desk with one place.")
    table(1)
    held(sites, plan)
    figures()
    roll_out("the same list", sites)
    say("A site for one of them, and then for the other: with depots 0 and 1 the first has 102/13, and the second has 0/2 and then 1/2.")
    table(3)
    held(sites, plan)
    ask("add", 5, 2, 90, answer="refused 23")
    ask("depot", 5, answer="depot 0 11")
    ask("add", 5, 0, 90, answer="done")
    ask("depot", 63, answer="refused 17")
    ask("propose", e.plan([{0, 1, 5}], [54, 918]), answer="refused 13")
    ask("propose", e.plan([{0, 1, 5}, {63}], [54, 918]), answer="done")
    ask("depot", 5, answer="depot 102 13")
    ask("depot", 63, answer="depot 0 2")
    at_least(0, 0, 1, 5, 63)
    at_least(7, 0, 1, 5)
    ask("change", 0, 12, words="a change keeps the roll, and they stay listed", answer="done")
    ask("propose", e.plan([{0, 1, 5}], [54, 918]), answer="refused 13")
    ask("propose", e.plan([{0, 1, 5}, {63}], [54, 918]), answer="done")
    ask("add", 63, 63, 1, answer="done")
    ask("propose", e.plan([{0, 1, 5}, {63}], [54, 918, 2]), answer="done")
    ask("depot", 63, answer="depot 1 2")
    at_least(0, 0, 1, 5, 63)
    at_least(1, 0, 1, 5)
    again()
    say("Without the roll they are not listed.")
    ask("load", e.list(PAIR), answer="done")
    ask("propose", e.plan([{0, 1}, {63}], [12]), answer="refused 13")
    ask("propose", e.plan([{0, 1}], [12]), answer="done")
    ask("depot", 63, answer="refused 19")
    say("No sites and no places: all 64 depots, and one; 63 depots and one own site.")
    for sites, groups in ((rolled([], {}, 9), [ALL]), (rolled([], {}, 1), [ALL]), (rolled([], {9: 4}), [{9}]), (rolled([own(63, 7)], {}, 1), [{63}, ALL - {63}]), (rolled([own(0, 7)], {}, 9), [{0}, ALL - {0}])):
        counted[key_of(sites)] = groups
        table(len(sites))
        ask("load", e.list(sites), answer="done")
        shares = [w * size(sites, {d}) for d, _, w in sites]
        ask("propose", e.plan(groups[:-1], shares), answer="refused 13")
        ask("propose", e.plan(groups, shares), answer="done")
        last, q = max(groups[-1]), size(sites, groups[-1])
        ask("depot", last, answer=f"depot 0 {q}")
        ask("difference", last, min(groups[-1]), answer=f"difference 0 {q * q}")
        ask("depot", 0)
        ask("depot", 63)
        at_least(0, *set().union(*groups))
        ask("atleast", 1)
        ask("atleast", 7)
        ask("share", 0)
        ask("written", e.plan_length(len(groups), len(sites)), answer="length")
        ask("add", last, last, 1, answer="refused 2")
        again()


def part_desk_crews():
    e = E2
    say("A desk of edition 2 keeps the roll, or the lack of one, of the list last loaded.")
    table(5, e)
    roll_out("a fresh desk has none", [])
    three = rolled(PAIR, {0: 3, 1: 1})
    ask("load", e.list(rolled(PAIR, {0: 10})), words="rows 22 and 23", answer="refused 22")
    ask("load", e.list(rolled(PAIR, {0: 3})), words="row 23", answer="refused 23")
    roll_out("still fresh", [])
    ask("load", e.list(three), words="three crews and one", answer="done")
    roll_out("the list with its roll", three)
    ask("propose", e.plan([{0, 1}], [24]), words="level for one crew each", answer="refused 15")
    ask("propose", e.plan([{0, 1}], [36]), answer="done")
    ask("share", 0, answer="share 36 48")
    ask("depot", 0, answer="depot 12 4")
    ask("depot", 1, answer="depot 12 4")
    ask("depot", 2, answer="refused 19")
    ask("difference", 0, 1, answer="difference 0 16")
    at_least(3, 0, 1)
    at_least(4)
    ask("load", e.list(rolled(PAIR, {0: 3})), words="a refused load keeps list, roll and plan", answer="refused 23")
    ask("load", e.list(rolled(PAIR, {9: 11})), answer="refused 22")
    ask("depot", 0, answer="depot 12 4")
    roll_out("and the list", three)
    ask("add", 0, 2, 5, words="row 23: depot 2 has no crew", answer="refused 23")
    ask("add", 2, 0, 5, answer="refused 23")
    ask("add", 64, 2, 5, words="rows 5 and 23", answer="refused 5")
    ask("add", 0, 2, 0, words="rows 6 and 23", answer="refused 6")
    ask("depot", 0, words="the plan is still held", answer="depot 12 4")
    ask("change", 0, 20, words="a change and an added site drop the plan and keep the roll", answer="done")
    ask("depot", 0, answer="refused 17")
    roll_out("after a change", rolled([(0, 1, 20)], {0: 3, 1: 1}))
    ask("add", 1, 0, 4, answer="done")
    roll_out("after an added site", rolled([(0, 1, 20), (1, 0, 4)], {0: 3, 1: 1}))
    ask("propose", e.plan([{0, 1}], [60, 4]), answer="done")
    ask("depot", 1, answer="depot 24 4")
    ask("load", e.list(PAIR), words="a load without a roll leaves none", answer="done")
    roll_out("no roll", PAIR)
    ask("add", 0, 2, 5, answer="done")
    ask("load", e.list(named_roll(PAIR)), words="a roll of ones is written out, the lack of one is not", answer="done")
    roll_out("a roll of ones", named_roll(PAIR))
    ask("propose", e.plan([{0, 1}], [12]), answer="done")
    ask("depot", 0, answer="depot 12 2")
    ask("depot", 2, answer="refused 19")
    say("Depots ranked by litres per crew.")
    sites = rolled([own(0, 9), own(1, 8), (0, 2, 2), own(3, 4)], {0: 9, 1: 2, 2: 1, 3: 1})
    ask("load", e.list(sites), answer="done")
    groups = definition(book.sites)
    ask("propose", e.plan(groups, shares_of(book.sites, groups)), answer="done")
    ask_all(5)
    again()
    part_desk_isolated()
    say("The full list with a roll: 512 sites, nine crews each.")
    table(512)
    full = Sites(e.LARGE, crews_roll({}, 9))
    counted[key_of(full)] = [set(range(64))]
    held(full, e.plan([set(range(64))], [576 * e.most] * 512))
    ask("depot", 63, answer=f"depot {512 * e.most} 576")
    ask("share", 511, answer=f"share {576 * e.most} {576 * e.most}")
    ask("difference", 0, 63, answer="difference 0 331776")
    ask("list", 4166)
    ask("list", 4165, answer="refused 20")
    ask("add", 0, 1, 1, answer="refused 2")
    say("A desk of edition 1 reads no roll, and one that goes over has none.")
    table(3, E1)
    ask("load", E1.list([(0, 1, 10)]) + ROLL_MARK + crews_roll({0: 3, 1: 1}), answer="refused 3")
    held([(0, 1, 10)], E1.plan([{0, 1}], [10]))
    ask("migrate", 3, answer="done")
    roll_out("it has gone over", [(0, 1, 10)])
    ask("depot", 0, answer="depot 10 2")
    ask("load", e.list(three), words="and takes lists with rolls from there on", answer="done")
    roll_out("a roll", three)


LONGEST = 65536  # bytes of a line


def part_lines(e):
    say("Lines that are no calls.")
    bad("an unknown word", "chck - -")
    bad("a word too few", f"check {text(e.T)}")
    bad("no words", "check")
    bad("a word too many", f"check {text(e.T)} {text(e.TP)} -")
    bad("an odd number of digits", f"check {text(e.T)}0 {text(e.TP)}")
    bad("a byte that is no digit", f"check {text(e.T)} {text(e.TP)[:-1]}G")
    bad("two signs for none", f"check -- {text(e.TP)}")
    bad("an upper-case call", f"CHECK {text(e.T)} {text(e.TP)}")
    bad("a tab", f"check\t{text(e.T)} {text(e.TP)}")
    bad("no length", f"make {text(e.T)}")
    bad("a length of no digits", f"make {text(e.T)} -")
    bad("a hexadecimal length", f"make {text(e.T)} 1A")
    bad("a length below zero", f"make {text(e.T)} -1")
    bad("a length above 8,192", f"make {text(e.T)} 8193")
    bad("a length of twenty digits", f"make {text(e.T)} 18446744073709551617")
    bad("a comment of 65,537 bytes", "#" * (LONGEST + 1))
    long = f"check {text(e.T)} {text(e.TP)}"
    raw("a line of 16,385 bytes, with spaces behind", long + " " * (16385 - len(long)), "passes")
    stretched = e.T + b"\0" * ((LONGEST - len("check  -")) // 2 - len(e.T))
    assert first_row(stretched, b"") == 3
    raw("a line of 65,536 bytes: a list of 32,764", f"check {text(stretched)} -", "refused 3")
    assert len(lines[-1]) == LONGEST
    raw("make, with a list of 8,193 bytes", f"make {text(stretched[:8193])} 3", "refused 3 A5A5A5")
    raw("lower case, and spaces between the words", f"  check   {text(e.T).lower()}  {text(e.TP).lower()} ", "passes")
    say("a blank line, and one of spaces")
    lines.extend(["", "   "])


book = Book(E1, 512)


def table(places, e=None):
    """A fresh desk, of the edition before where none is named, and a table."""
    global book
    book = Book(e or book.e, places)
    lines.append(f"{book.e.table} {places}")
    answers.append(f"{book.e.table} {places}")


def ask(name, *given, words=None, answer=None):
    """A call of the desk: what the book has. Where an answer is given here, the book's begins with it."""
    if words:
        say(words)
    lines.append(" ".join([name] + [text(x) if isinstance(x, bytes) else str(x) for x in given]))
    found = getattr(book, name)(*given)
    assert answer is None or found.split()[:len(answer.split())] == answer.split(), (words, lines[-1][:200], "meant", answer[:200], "found", found[:200])
    answers.append(found)
    return found


def held(sites, plan):
    """A list is loaded, and its plan becomes the held one."""
    ask("load", book.e.list(sites), answer="done")
    ask("propose", plan, answer="done")


def marks():
    """Marks in litres: 0, at each group's W/q, rounded down and up, one below and one above it, and the largest."""
    groups = definition(book.sites)
    at = [x for g, w in zip(groups, totals(book.sites, groups)) for x in (w // size(book.sites, g), -(-w // size(book.sites, g)))]
    return sorted({0, 2 ** 32 - 1} | {min(max(0, x + y), 2 ** 32 - 1) for x in at for y in (-1, 0, 1)})


def ask_all(depots):
    """Every call that only reads: each site, each depot, each pair, marks, the plan and the list written out."""
    for i in range(len(book.sites) + 1):
        ask("share", i)
    for a in range(depots):
        ask("depot", a)
        for b in range(depots) if book.e is E1 else (0, a, depots - 1):
            ask("difference", a, b)
    others = [d for d in listed(book.sites) if d >= depots]
    for d in others:
        ask("depot", d)
        ask("difference", 0, d)
    for mark in marks():
        ask("atleast", mark)
    ask("written", book.e.plan_length(depots + bool(others), len(book.sites)))
    ask("list", len(book.e.list(book.sites)))


def part_desk_examples(e):
    """The desk is fresh."""
    T, TP = e.T, e.TP
    n = len(TP)
    say("The examples of rows 17 to 20.")
    list_out("before any list: the list without sites", e.list_head("0000"))
    ask("share", 0, words="row 17: fresh desk, share of site 0", answer="refused 17")
    ask("depot", 0, answer="refused 17")
    ask("difference", 0, 0, answer="refused 17")
    ask("atleast", 0, answer="refused 17")
    ask("atleast", 2 ** 32 - 1, answer="refused 17")
    ask("written", 4, answer="refused 17 A5A5A5A5")
    ask("written", 0, answer="refused 17 -")
    ask("load", T, answer="done")
    list_out("T's list, no plan held", T)
    held([(0, 1, 10)], TP)
    list_out("T's list, its plan held", T)
    ask("share", 0, answer="share 10 20")
    ask("depot", 0, answer="depot 10 2")
    ask("depot", 1, answer="depot 10 2")
    ask("difference", 0, 1, answer="difference 0 4")
    ask("atleast", 5, words="at least 5 litres: both bring 10/2", answer="set 0300000000000000")
    ask("atleast", 6, words="at least 6: none", answer="set 0000000000000000")
    ask("share", 1, words="row 18: T's plan held, site 1", answer="refused 18")
    ask("depot", 2, words="row 19: T's plan held, depot 2", answer="refused 19")
    ask("written", n - 1, words=f"row 20: T's plan into {n - 1} bytes", answer="refused 20 " + "A5" * (n - 1))
    ask("written", n, answer=f"length {n} " + text(TP))
    ask("written", n + 2, words="the bytes behind are unchanged", answer=f"length {n} " + text(TP) + "A5A5")
    ask("share", 2 ** 64 - 1, words="the largest site number", answer="refused 18")
    ask("depot", 255, answer="refused 19")
    ask("difference", 0, 2, words="row 19: the second depot, the first, both", answer="refused 19")
    ask("difference", 2, 0, answer="refused 19")
    ask("difference", 255, 255, answer="refused 19")
    ask("written", 0, answer="refused 20 -")
    raw("check and make leave the desk as it is", f"check {text(e.list(FOURS))} {text(e.plan([{0, 1}], [8, 8]))}", "passes")
    raw("the same", f"make {text(e.list([own(0, 7)]))} {n}", f"length {n} " + text(e.plan([{0}], [7])))
    ask("share", 0, answer="share 10 20")


def part_desk_rows(e):
    """The desk holds T and its plan."""
    T, TP = e.T, e.TP
    other = E1 if e is E2 else E2
    say("Load, rows 1 to 6: the list and its plan are kept.")
    for row, bs in ((1, b""), (1, e.plan_mark + T[2:]), (1, other.T), (1, other.list([])), (1, other.list_head("0102")), (1, other.T[:-1]), (1, bytes.fromhex("4C33") + T[2:]),
                    (2, e.list_head("0102")), (2, e.list([own(0, 1)] * 513)), (3, T[:-1]), (3, T + b"\0"),
                    (4, T.replace(e.site_mark, b"SU")), (5, e.list([(0, 64, 10)])), (5, e.list([(255, 0, 10)])), (6, e.list([(0, 1, 0)])),
                    (4, e.list([(64, 1, 0), (0, 1, 10, b"SU")])), (5, e.list([(0, 1, 0), (0, 64, 10)]))):
        ask("load", bs, answer=f"refused {row}")
        ask("share", 0, answer="share 10 20")
        ask("list", len(T), answer=f"length {len(T)} " + text(T))
    say("Change, rows 6 and 18; add, rows 2, 5 and 6; the plan is kept.")
    for i, w, row in ((0, 0, 6), (1, 0, 6), (1, 1, 18), (2 ** 64 - 1, e.most, 18), (2 ** 64 - 1, 0, 6), (512, 1, 18)):
        ask("change", i, w, answer=f"refused {row}")
    for a, b, w, row in ((64, 0, 1, 5), (0, 64, 1, 5), (255, 255, 0, 5), (0, 1, 0, 6), (63, 63, 0, 6)):
        ask("add", a, b, w, answer=f"refused {row}")
    ask("written", len(TP), answer=f"length {len(TP)} " + text(TP))
    ask("list", len(T) + 1, answer=f"length {len(T)} " + text(T) + "A5")
    ask("list", len(T) - 1, answer="refused 20 " + "A5" * (len(T) - 1))
    say("Propose, rows 7 to 16: the older plan is kept.")
    for row, bs in ((7, b""), (7, TP[:4]), (7, bytes.fromhex("504D010100")), (7, other.TP), (7, other.plan([], [])), (7, other.plan_head("410200")), (7, bytes.fromhex("5033") + TP[2:]),
                    (8, e.plan_head("410100")), (9, e.plan_head("010200")),
                    (10, TP + b"\0"), (10, TP[:-1]), (11, TP.replace(e.share_mark, b"SG")), (11, TP.replace(b"GR", e.share_mark)), (12, e.plan([{0}, {0, 1}], [10])),
                    (12, e.plan([set(), {0, 1}], [10])), (13, e.plan([{0}], [10])), (13, e.plan([{0, 1, 2}], [10])), (13, e.plan([], [10])),
                    (14, e.plan([{0, 1}], [21])), (15, e.plan([{0, 1}], [11])), (15, e.plan([{0, 1}], [9])), (16, e.plan([{0}, {1}], [0]))):
        ask("propose", bs, answer=f"refused {row}")
        ask("share", 0, answer="share 10 20")
    ask("list", len(T), answer=f"length {len(T)} " + text(T))
    ask("load", e.list(FOURS), words="row 16: own sites 0 and 1 of 4, groups {0}, {1}, shares 4, 4", answer="done")
    ask("propose", e.plan([{0}, {1}], [4, 4]), answer="refused 16")
    ask("depot", 0, words="a refused proposal is not held", answer="refused 17")
    ask("propose", e.plan([{0, 1}], [8, 8]), answer="done")
    ask("depot", 0, answer="depot 8 2")


def part_desk_plans(e):
    T, TP = e.T, e.TP
    say("Success drops the plan, even if no figure differs.")
    for name, given in some(e, (("change", (0, 10)), ("change", (0, 11)), ("add", (0, 1, 1)), ("add", (5, 5, e.most)), ("load", (T,)), ("load", (e.list([]),)))):
        held([(0, 1, 10)], TP)
        ask(name, *given, answer="done")
        ask("share", 0, answer="refused 17")
        ask("share", 7, answer="refused 17")
        ask("depot", 9, answer="refused 17")
        ask("difference", 9, 9, answer="refused 17")
        ask("atleast", 0, answer="refused 17")
        ask("written", 3, answer="refused 17 A5A5A5")
        ask("list", e.list_length(2))
        ask("propose", TP)
    say("A plan of the list before is not true of the new one; the new one's is.")
    held([(0, 1, 10)], TP)
    ask("change", 0, 12, answer="done")
    ask("propose", TP, answer="refused 15")
    ask("propose", e.plan([{0, 1}], [12]), answer="done")
    ask("share", 0, answer="share 12 24")
    ask("change", 0, e.most, answer="done")
    ask("propose", e.plan([{0, 1}], [e.most]), answer="done")
    ask("share", 0, answer=f"share {e.most} {2 * e.most}")
    say("Propose after propose: the second false, the second true, the same again.")
    ask("load", e.list(TRIANGLE), answer="done")
    ask("propose", e.plan([{0, 1, 2}], [3, 3, 0]), answer="done")
    ask("share", 2, answer="share 0 3")
    ask("propose", e.plan([{0, 1, 2}], [3, 3, 1]), answer="refused 15")
    ask("share", 2, answer="share 0 3")
    ask("propose", e.plan([{0, 1, 2}], [2, 2, 1]), answer="done")
    ask("share", 2, answer="share 1 3")
    ask("propose", e.plan([{0, 1, 2}], [2, 2, 1]), answer="done")
    ask("propose", e.plan([{0}, {1}, {2}], [0, 0, 0]), answer="refused 16")
    plan = e.plan([{0, 1, 2}], [2, 2, 1])
    ask("written", len(plan), answer=f"length {len(plan)} " + text(plan))
    say("An empty list: its plan is held.")
    ask("load", e.list([]), answer="done")
    ask("written", 5, answer="refused 17")
    ask("list", 5, answer=f"length 4 {text(e.list_mark)}0000A5")
    ask("propose", e.plan([], [], group_count=1), answer="refused 10")
    ask("propose", TP, answer="refused 9")
    ask("propose", e.plan([{0}], []), answer="refused 13")
    ask("propose", e.plan([], []), answer="done")
    ask("share", 0, answer="refused 18")
    ask("depot", 0, answer="refused 19")
    ask("difference", 0, 0, answer="refused 19")
    ask("atleast", 0, answer="set " + "00" * 8)
    ask("atleast", 2 ** 32 - 1, answer="set " + "00" * 8)
    ask("written", 4, answer="refused 20 A5A5A5A5")
    ask("written", 6, answer=f"length 5 {text(e.plan_mark)}000000A5")
    ask("list", 4, answer=f"length 4 {text(e.list_mark)}0000")
    ask("list", 3, answer="refused 20 A5A5A5")
    ask("add", 63, 63, 1, answer="done")
    ask("list", len(T), answer=f"length {len(T)} {text(e.list_mark)}0100{text(e.site_mark)}3F3F" + text(number(1, e.litres_width)))
    ask("written", 6, answer="refused 17")
    say("The lists with known plans, loaded and asked; then built site by site.")
    for sites in ([own(0, 7)], FOURS, FALLING, SEVEN, [own(0, 6), (0, 1, 6)], [own(0, 5), (0, 1, 6)], NINE_ONE, TRIANGLE, NINE)[::1 if e is E1 else 3]:
        sites = scaled(sites, e.scale)
        groups = definition(sites)
        held(sites, e.plan(groups, shares_of(sites, groups)))
        ask_all(1 + max(listed(sites)))
    table(512)
    for s in NINE:
        ask("add", *s, answer="done")
    ask("propose", e.plan([{0, 1, 2, 3, 4}, {5}], shares_of(NINE, definition(NINE))), answer="done")
    ask("depot", 4, answer="depot 8 5")
    ask("difference", 4, 5, answer="difference 3 5")
    ask("difference", 5, 4, answer="difference -3 5")
    say("W/q is compared before it is divided: 11/2 and 5.")
    held([own(0, 5), (0, 1, 6), own(2, 5)], e.plan([{0, 1}, {2}], [10, 1, 5]))
    ask("difference", 1, 2, answer="difference 1 2")
    ask("difference", 2, 1, answer="difference -1 2")


def list_out(words, record):
    """The list that is held, written out: into a buffer of its length, one more, one less, more and less by a record, and none."""
    n, step = len(record), book.e.site_bytes
    say(f"{words}: {n} bytes")
    ask("list", n, answer=f"length {n} {text(record)}")
    ask("list", n + 1, answer=f"length {n} {text(record)}A5")
    ask("list", n - 1, answer="refused 20 " + "A5" * (n - 1))
    if book.e is E1:
        ask("list", n + step, answer=f"length {n} {text(record)}" + "A5" * step)
        if n > 4:
            ask("list", n - step, answer="refused 20 " + "A5" * (n - step))
        ask("list", 0, answer="refused 20 -")


def again():
    """The list that is held, written out, loaded into a fresh desk with places enough, and written out again."""
    e, sites, places = book.e, book.sites, book.places
    record = e.list(sites)
    word, n, whole = ask("list", len(record)).split()
    assert (word, int(n), bytes.fromhex(whole)) == ("length", len(record), record)
    assert list_row(e, record) == 0 and sites_in(e, record) == sites and roll_of(sites_in(e, record)) == roll_of(sites)
    for more in (0, 1):
        table(min(600, len(sites) + more))
        ask("load", bytes.fromhex(whole), answer="done")
        assert book.sites == sites and roll_of(book.sites) == roll_of(sites)
        ask("list", len(record), answer=f"length {n} {whole}")
    if sites:
        table(len(sites) - 1)
        ask("load", bytes.fromhex(whole), answer="refused 2")
        ask("list", 4, answer=f"length 4 {text(e.list_mark)}0000")
    table(places)
    ask("load", bytes.fromhex(whole), answer="done")


def part_desk_lists(e):
    T, TP = e.T, e.TP
    n, p = len(T), len(TP)
    say("The list written out. What was loaded is written out as the same bytes: the lists with known plans, with and without their plans.")
    table(512)
    for sites in some(e, ([], [(0, 1, 10)], [(1, 0, 10)], [own(0, 7)], FOURS, FALLING, SEVEN, NINE_ONE, TRIANGLE, NINE)):
        sites = scaled(sites, e.scale)
        groups = definition(sites)
        ask("load", e.list(sites), answer="done")
        list_out("no plan held", e.list(sites))
        ask("propose", e.plan(groups, shares_of(sites, groups)), answer="done")
        list_out("a plan held", e.list(sites))
        ask("written", len(e.plan(groups, shares_of(sites, groups))), answer="length")
        ask("share", 0)
    say("The order of sites and of a site's two depots, equal sites, and the ends of depots and litres are kept.")
    ends = [(63, 0, e.most), (0, 63, 1), (0, 63, 1), own(63, 256 ** (e.litres_width - 1)), own(0, 255), (63, 0, e.most)]
    record = {E1: bytes.fromhex("4C530600" "53543F00FFFF" "5354003F0100" "5354003F0100" "53543F3F0001" "53540000FF00" "53543F00FFFF"),
              E2: bytes.fromhex("4C320600" "53323F00FFFFFFFF" "5332003F01000000" "5332003F01000000" "53323F3F00000001" "53320000FF000000" "53323F00FFFFFFFF")}[e]
    assert e.list(ends) == record
    ask("load", record, answer="done")
    list_out("six sites", record)
    again()
    say("Changes and added sites: the first site, the last, litres of one byte and of all; refused ones change nothing.")
    last = 0x1234 if e is E1 else 0x12345678
    two, three = e.list([(0, 1, 257), (1, 2, e.most)]), e.list([(0, 1, 257), (1, 2, e.most), (63, 5, last)])
    assert three.endswith(bytes.fromhex("0102FFFF" "53543F053412" if e is E1 else "0102FFFFFFFF" "53323F0578563412"))
    ask("load", e.list(NINE_ONE), answer="done")
    ask("change", 0, 257, answer="done")
    ask("list", len(two), answer=f"length {len(two)} " + text(e.list([(0, 1, 257), (1, 2, 1)])))
    ask("change", 1, e.most, answer="done")
    ask("list", len(two), answer=f"length {len(two)} " + text(two))
    ask("change", 1, 0, answer="refused 6")
    ask("change", 2, 9, answer="refused 18")
    ask("add", 64, 0, 9, answer="refused 5")
    ask("add", 0, 0, 0, answer="refused 6")
    ask("load", e.list(FOURS)[:-1], answer="refused 3")
    ask("propose", TP, answer="refused 9")
    ask("list", len(two), answer=f"length {len(two)} " + text(two))
    ask("add", 63, 5, last, answer="done")
    list_out("a site added", three)
    ask("load", e.list([own(2, 3)]), words="a shorter list: nothing of the longer one is written", answer="done")
    list_out("one site", e.list([own(2, 3)]))
    ask("load", e.list([]), answer="done")
    list_out("none", e.list_head("0000"))
    say("Rows 17 and 20: without a plan the plan written out is refused by row 17 whatever the buffer, the list by row 20 alone.")
    ask("load", T, answer="done")
    for length in (0, n - 1, p - 1):
        ask("written", length, answer="refused 17")
    for length in (0, 3, 4, 5, n - 1):
        ask("list", length, answer="refused 20")
    for length in (n, p - 1, p, 8192):
        ask("list", length, answer=f"length {n} " + text(T) + "A5" * (length - n))
    ask("propose", TP, answer="done")
    ask("list", p - 1, words="row 20 of the plan and not of the list", answer=f"length {n} " + text(T) + "A5" * (p - 1 - n))
    ask("written", p - 1, answer="refused 20")
    ask("list", n - 1, answer="refused 20")
    ask("written", p, words="the plan is kept", answer=f"length {p} " + text(TP))
    say("Round trips: written out, loaded, written out again; and a table with a place too few.")
    for sites in ([], [own(63, 1)], FOURS, NINE, [own(d, 64 - d) for d in range(64)])[:5 if e is E1 else 4]:
        table(100)
        for s in scaled(sites, e.scale):
            ask("add", *s, answer="done")
        again()
    say("Counts of one byte and of two.")
    for n in (255, 256, 257, 511, 512) if e is E1 else (256, 512):
        sites = [(i % 64, i // 8, (65535 - 127 * i) * e.step) for i in range(n)]
        record = e.list(sites)
        assert record[2:4] == number(n, 2) and len(record) == 4 + e.site_bytes * n
        table(512)
        ask("load", record, answer="done")
        ask("list", len(record), answer=f"length {len(record)} {text(record)}")
        ask("list", len(record) - 1, answer="refused 20")
    if e is E1:
        again()
        list_out("512 sites", record)
    ask("add", 0, 0, 1, answer="refused 2")
    ask("change", 511, 1, answer="done")
    ask("list", 8192, answer=f"length {len(record)} " + text(record[:-e.litres_width] + number(1, e.litres_width) + b"\xA5" * (8192 - len(record))))
    table(600)
    list_out("a fresh desk again", e.list_head("0000"))


def at_least(mark, *depots):
    """The question for a mark, and the depots that it must give."""
    ask("atleast", mark, answer="set " + text(group(depots)[2:]))


def part_desk_marks(e):
    T, TP = e.T, e.TP
    say("The depots at or over a mark. T: 10/2 each. A mark is not cut to 16 or to 31 bits, nor is its product with q cut to 32.")
    held([(0, 1, 10)], TP)
    for mark in (0, 1, 4, 5):
        at_least(mark, 0, 1)
    for mark in (6, 10, 65535, 65536, 65536 + 5, 2 ** 31 - 1, 2 ** 31, 2 ** 31 + 5, 2 ** 32 - 1):
        at_least(mark)
    say("W/q is not rounded up: 11/2 reaches 5 and not 6. With a second group of 5, both reach 5.")
    held([own(0, 5), (0, 1, 6)], e.plan([{0, 1}], [10, 1]))
    at_least(5, 0, 1)
    at_least(6)
    held([own(0, 5), (0, 1, 6), own(2, 5)], e.plan([{0, 1}, {2}], [10, 1, 5]))
    at_least(4, 0, 1, 2)
    at_least(5, 0, 1, 2)
    at_least(6)
    say("The nine sites: 8/5 and 1. Two groups: 9/2 and 1.")
    held(NINE, e.plan([{0, 1, 2, 3, 4}, {5}], shares_of(NINE, definition(NINE))))
    at_least(1, 0, 1, 2, 3, 4, 5)
    at_least(2)
    held(NINE_ONE, e.plan([{0, 1}, {2}], [9, 0]))
    at_least(0, 0, 1, 2)
    at_least(1, 0, 1, 2)
    at_least(2, 0, 1)
    at_least(4, 0, 1)
    at_least(5)
    ask("propose", TP, words="refused calls keep the plan", answer="refused 9")
    ask("load", b"", answer="refused 1")
    at_least(2, 0, 1)
    ask("change", 1, 1, words="the same litres: the plan is dropped", answer="done")
    ask("atleast", 2, answer="refused 17")
    ask("atleast", 0, answer="refused 17")
    ask("propose", e.plan([{0, 1}, {2}], [9, 0]), answer="done")
    at_least(2, 0, 1)
    ask("add", 2, 2, 8, words="depot 2 becomes the heaviest, with 8; then 0 and 1 with 10/2", answer="done")
    ask("atleast", 2, answer="refused 17")
    ask("propose", e.plan([{2}, {0, 1}], shares_of(book.sites, [{2}, {0, 1}])), answer="done")
    at_least(5, 0, 1, 2)
    at_least(6, 2)
    at_least(8, 2)
    at_least(9)
    say("Depots 61 to 63, the highest bits.")
    high = [(62, 63, e.most), (63, 61, e.most), own(61, 1)]
    held(high, e.plan(definition(high), shares_of(high, definition(high))))
    for mark in marks():
        ask("atleast", mark)
    say("W/q from the most litres down, and above them: 3 times the most for two depots, the most, one litre less.")
    top = [own(0, e.most), own(1, e.most), (0, 1, e.most), own(2, e.most), own(3, e.most - 1)]
    held(top, e.plan([{0, 1}, {2}, {3}], [2 * e.most, 2 * e.most, e.most, e.most, e.most - 1]))
    for mark in (0, 1, e.most - 2, e.most - 1):
        at_least(mark, 0, 1, 2, 3)
    at_least(e.most, 0, 1, 2)
    if e is E1:
        for mark in (e.most + 1, 98302):
            at_least(mark, 0, 1)
        at_least(98303)
    say(f"64 groups, each depot by itself and each {1000 * e.step:,} litres below the one before: at its litres, one above, one below.")
    steps = [own(37 * k % 64, (64000 - 1000 * k) * e.step) for k in range(64)]
    counted[key_of(steps)] = [{a} for a, _, _ in steps]  # own sites alone, no two with equal litres: the next group is the heaviest depot left
    held(steps, e.plan(definition(steps), [w for _, _, w in steps]))
    at_least(0, *range(64))
    at_least(1, *range(64))
    for k in range(64) if e is E1 else (0, 1, 31, 32, 62, 63):
        (a, _, w), before = steps[k], [d for d, _, _ in steps[:k]]
        at_least(w + 1, *before)
        at_least(w, *before, a)
    for k in (0, 1, 31, 32, 62, 63):
        w = steps[k][2]
        at_least(w - 1, *(d for d, _, _ in steps[:k + 1]))
        at_least(w + 65536, *(d for d, _, x in steps if x >= w + 65536))
    at_least(2 ** 32 - 1)


def part_desk_tables(e):
    T, TP = e.T, e.TP
    say("Tables of few and of many places.")
    table(0)
    ask("atleast", 0, answer="refused 17")
    list_out("a table of no place", e.list_head("0000"))
    ask("load", T, answer="refused 2")
    ask("load", e.list([], count=1), words="row 2 before row 3", answer="refused 2")
    ask("add", 0, 1, 10, answer="refused 2")
    ask("add", 64, 1, 0, words="row 2 before rows 5 and 6", answer="refused 2")
    ask("load", e.list([]), answer="done")
    ask("propose", e.plan([], []), answer="done")
    ask("add", 0, 1, 10, answer="refused 2")
    at_least(0)
    at_least(1)
    ask("written", 5, answer=f"length 5 {text(e.plan_mark)}000000")
    ask("list", 4, answer=f"length 4 {text(e.list_mark)}0000")
    table(1)
    ask("written", 5, words="a fresh desk again", answer="refused 17")
    ask("atleast", 1, answer="refused 17")
    ask("load", e.list(FOURS), answer="refused 2")
    ask("add", 0, 1, 10, answer="done")
    ask("add", 0, 1, 10, answer="refused 2")
    ask("propose", TP, answer="done")
    ask("add", 64, 1, 0, answer="refused 2")
    ask("change", 0, 0, answer="refused 6")
    ask("load", e.list(FOURS), answer="refused 2")
    ask("share", 0, answer="share 10 20")
    list_out("the one place", T)
    table(2)
    ask("load", e.list(FOURS), answer="done")
    ask("load", e.list(TRIANGLE), answer="refused 2")
    ask("load", T, words="a shorter list", answer="done")
    ask("propose", e.plan([{0, 1}], [10]), answer="done")
    ask("share", 1, answer="refused 18")
    list_out("one of two places", T)
    ask("add", 2, 2, 3, answer="done")
    ask("add", 2, 2, 3, answer="refused 2")
    list_out("both", e.list([(0, 1, 10), own(2, 3)]))
    say("The largest list.")
    record, plan, top = e.list(e.LARGE), e.LARGE_PLAN, 8 * e.most
    n, p = len(record), len(plan)
    counted[key_of(e.LARGE)] = [set(range(64))]  # as document 01 has it
    for places in (512, 600) if e is E1 else (600,):
        table(places)
        ask("load", record, answer="done")
        ask("add", 0, 0, 1, answer="refused 2")
        ask("propose", plan, answer="done")
        ask("share", 511, answer=f"share {64 * e.most} {64 * e.most}")
        ask("share", 512, answer="refused 18")
        ask("depot", 63, answer=f"depot {512 * e.most} 64")
        ask("depot", 64, answer="refused 19")
        ask("difference", 0, 63, answer="difference 0 4096")
        for mark in (0, 65536, top - 1, top, top + 1, 2 ** 26, 2 ** 26 + 1, 2 ** 31, 2 ** 32 - 1):
            if mark < 2 ** 32:
                at_least(mark, *range(64 if mark <= top else 0))
        ask("written", p - 1, answer="refused 20")
        ask("written", p, answer=f"length {p} " + text(plan))
        ask("list", n, words="512 sites and their plan", answer=f"length {n} " + text(record))
        ask("list", n - 1, answer="refused 20")
        ask("propose", plan[:-1] + b"\1", answer="refused 14")
        ask("change", 511, e.most - 1, answer="done")
        ask("list", n, words="the last one changed", answer=f"length {n} " + text(record[:-e.litres_width] + b"\xFE" + b"\xFF" * (e.litres_width - 1)))
    say("Differences: 510 sites of the most litres beside 1 litre; then the largest of all, 480 such sites of one depot beside 63 depots of 1 litre each.")
    table(511)
    ask("load", record, answer="refused 2")
    ask("load", e.list([own(0, e.most)] * 510), answer="done")
    ask("add", 1, 1, 1, answer="done")
    ask("add", 1, 1, 1, answer="refused 2")
    ask("propose", e.plan([{0}, {1}], [e.most] * 510 + [1]), answer="done")
    ask("difference", 0, 1, answer=f"difference {510 * e.most - 1} 1")
    ask("difference", 1, 0, answer=f"difference -{510 * e.most - 1} 1")
    at_least(1, 0, 1)
    at_least(2, 0)
    if e is E1:
        at_least(510 * e.most, 0)
        at_least(510 * e.most + 1)
    else:
        at_least(2 ** 32 - 1, 0)
    wide = [own(0, e.most)] * 480 + [(d, d + 1, 2) for d in range(1, 63, 2)] + [own(63, 1)]
    groups = [{0}, set(range(1, 64))]
    counted[key_of(wide)] = groups  # depot 0 has the most; of the others any set has at most a litre for each depot, and all together have it
    table(512)
    held(wide, e.plan(groups, [e.most] * 480 + [63] * 32))
    ask("difference", 0, 63, answer=f"difference {63 * (480 * e.most - 1)} 63")
    ask("difference", 1, 0, answer=f"difference -{63 * (480 * e.most - 1)} 63")
    ask("difference", 1, 63, answer="difference 0 3969")
    ask("depot", 0, answer=f"depot {480 * e.most} 1")
    ask("depot", 62, answer="depot 63 63")
    ask("share", 480, answer="share 63 126")


def part_desk_litres(e):
    say("Litres at the ends of both editions: what does not fit is a bad line, whatever rows apply, and leaves the desk as it was.")
    for w, fits in ((65535, True), (65536, e is E2), (4294967295, e is E2), (4294967296, False), (2 ** 32 + 10, False)):
        table(2)
        held([(0, 1, 10)], e.TP)
        ask("change", 1, w, answer="refused 18" if fits else "bad line")
        ask("add", 64, 0, w, answer="refused 5" if fits else "bad line")
        ask("change", 0, w, answer="done" if fits else "bad line")
        ask("share", 0, answer="refused 17" if fits else "share 10 20")
        ask("add", 1, 0, w, answer="done" if fits else "bad line")
        ask("list", e.list_length(2), answer=f"length {e.list_length(2 if fits else 1)}")
        if fits:
            ask("add", 1, 0, w, answer="refused 2")
            ask("propose", e.plan([{0, 1}], [w, w]), answer="done")
            ask("share", 1, answer=f"share {w} {2 * w}")
            ask("depot", 1, answer=f"depot {2 * w} 2")
            at_least(w, 0, 1)
            if w < 2 ** 32 - 1:
                at_least(w + 1)


def part_desk_editions():
    say("Desks of the two editions in turn: `table` and `table2` begin afresh.")
    for e, other in ((E1, E2), (E2, E1), (E1, E2)):
        table(3, e)
        ask("list", 4, answer=f"length 4 {text(e.list_mark)}0000")
        ask("load", other.T, answer="refused 1")
        ask("propose", other.plan([], []), answer="refused 7")
        ask("propose", e.plan([], []), answer="done")
        ask("load", other.list([]), words="the plan of no sites is kept", answer="refused 1")
        ask("written", 5, answer=f"length 5 {text(e.plan_mark)}000000")
        held([(0, 1, 10)], e.TP)
        ask("propose", other.TP, answer="refused 7")
        ask("load", other.T, answer="refused 1")
        raw("check and make take either edition whatever the desk's", f"check {text(other.T)} {text(other.TP)}", "passes")
        raw("the same", f"make {text(other.T)} 26", f"length {len(other.TP)} {text(other.TP)}" + "A5" * (26 - len(other.TP)))
        raw("the same", f"check {text(e.T)} {text(other.TP)}", "refused 7")
        ask("written", 26, answer=f"length {len(e.TP)} {text(e.TP)}" + "A5" * (26 - len(e.TP)))
        bad("no tables: the desk is left as it was", f"{other.table} 601")
        bad("the same", f"{other.table}")
        ask("share", 0, answer="share 10 20")
        ask("list", 13, answer=f"length {len(e.T)} {text(e.T)}" + "A5" * (13 - len(e.T)))
    for places in (0, 1, 600):
        for e in (E2, E1):
            table(places, e)
            ask("load", e.T, answer="done" if places else "refused 2")
            ask("list", e.list_length(1), answer=f"length {e.list_length(min(1, places))}")


def part_desk_lines(e):
    T, TP = e.T, e.TP
    n, p = len(T), len(TP)
    say("Lines that are no calls of the desk; it is left as it was.")
    table(3)
    held([(0, 1, 10)], TP)
    for line in some(e, (
                 "table 601", "table 18446744073709551617", "table", "table -1", "table 3 3", "table 0x3", "table2 601", "table2 18446744073709551617", "table2", "table2 -1", "table2 3 3",
                 "table2 0x3", "table3 3", "table1 3", "table02 3", "table 2 3", "Table2 3", "TABLE2 3", "table-2 3", "2 3", "load", f"load {text(T)} -", f"load {text(T)}0", "load XY",
                 "change 0", f"change 0 {e.most + 1}", f"change 0 {70000 * e.step}", "change 18446744073709551616 1", "change -1 1", "change 0 1 1", "change - 1",
                 "add 0 1", "add 256 1 1", "add 0 256 1", f"add 0 1 {e.most + 1}", "add 0 1 1 1", f"add 0 1 {70000 * e.step}", "add", "propose", f"propose {text(TP)} {text(TP)}", "propose 5",
                 "share", "share 18446744073709551616", "share 99999999999999999999999", "share 0 0", "share A", "depot", "depot 256", "depot 300", "depot 0 1",
                 "difference", "difference 0", "difference 0 256", "difference 256 0", "difference 0 1 2", "written", "written 8193", "written -", "written 1 1", "fresh", "Load -",
                 "atleast", "atleast 4294967296", "atleast 4294967301", "atleast 18446744073709551616", "atleast 18446744073709551621", "atleast 99999999999999999999999",
                 "atleast 5 5", "atleast -1", "atleast +5", "atleast 0x5", "atleast A", "atleast 5.0", "atleast 4,999", "atleast -", "atLeast 5", "ATLEAST 5", "at_least 5", "at least 5", "atleast5",
                 "list", "list -1", "list 8193", "list 10 10", "LIST 4", "List 4", "list -", "list +10", "list 0xA", "list A", "list 10.0", "list 1,000", "list10", "lists 10", "list 18446744073709551616",
                 "list 18446744073709551626", "list 99999999999999999999999", f"list {text(T)}", f"list {text(T)} 10", "change2 0 1", "add2 0 1 1", "load2 -", "list2 4")):
        lines.append(line)
        answers.append("bad line")
    ask("share", 0, answer="share 10 20")
    raw("zeros in front", "share 000000000000000000000000", "share 10 20")
    raw("the same", "atleast 000000000000000000000005", "set 0300000000000000")
    raw("the same", f"list 0000000000000000000000{n}", f"length {n} " + text(T))
    raw("the largest mark, with zeros in front", "atleast 00000000004294967295", "set 0000000000000000")
    raw("spaces around a mark", "  atleast   6 ", "set 0000000000000000")
    raw("the largest site number", f"change {2 ** 64 - 1} 1", "refused 18")
    raw("spaces", f"  written   {p}  ", f"length {p} " + text(TP))
    raw("spaces", f"  list   {n}  ", f"length {n} " + text(T))
    if e is E1:
        bad("a line of 65,537 bytes: nothing of it is carried out", "change 0 11" + " " * (LONGEST + 1 - len("change 0 11")))
    ask("propose", e.plan_mark + b"\0" * 8191, words="a plan of 8,193 bytes", answer="refused 9")
    ask("load", T + b"\0" * (8193 - n), words="a list of 8,193 bytes", answer="refused 3")
    ask("share", 0, answer="share 10 20")
    ask("written", 8192, words="the largest buffer", answer=f"length {p}")
    ask("list", 8192, answer=f"length {n} " + text(T) + "A5" * (8192 - n))
    table(512)


def asked():
    """The figures of every question: each site and one beyond, each listed depot and one that is not, differences, marks."""
    found = [ask("share", i) for i in range(len(book.sites) + 1)]
    depots = listed(book.sites) + [64]
    for a, b in zip(depots, depots[1:] + depots[:1]):
        found += [ask("depot", a), ask("difference", a, b)]
    return found + [ask("atleast", mark) for mark in marks()]


def written_out(plan, record):
    """The plan that is held, or None, and the list, written out: into a buffer of the length, longer and shorter by a byte, and none."""
    for name, bs in (("written", plan), ("list", record)):
        for more in (-1, 0, 1):
            if bs is None:
                ask(name, 40 + more, answer="refused 17 " + "A5" * (40 + more))
            else:
                n = len(bs)
                ask(name, n + more, answer=f"length {n} {text(bs)}" + "A5" * more if more >= 0 else "refused 20 " + "A5" * (n - 1))
        ask(name, 0, answer="refused 17 -" if bs is None else "refused 20 -")


def goes_over(words, places):
    """The desk goes over to a new table: the questions get the same figures before and after, and the list and the plan are written out as the converter makes them of those written out before."""
    say(f"{words}: {len(book.sites)} sites, {'no plan' if book.plan is None else 'a plan'} held, into {places} places")
    sites, plan = book.sites, book.plan
    before = asked()
    written_out(plan, E1.list(sites))
    ask("migrate", places, answer="done")
    after = asked()
    assert after == before and (plan is None) == all(x == "refused 17" for x in after), words
    row, records = converted("upgrade", *([E1.list(sites)] if plan is None else [E1.list(sites), plan]))
    assert row == 0, words
    written_out(None if plan is None else records[1], records[0])
    assert (book.e, book.places, book.sites) == (E2, places, sites)


def part_migrate():
    say("A busy desk goes over: `migrate`. T, with its plan and without one, into a table of one place and of more.")
    for old, places, plan in ((1, 1, E1.TP), (1, 1, None), (3, 1, E1.TP), (1, 2, None), (512, 512, E1.TP), (600, 600, None), (1, 600, E1.TP), (600, 1, E1.TP)):
        table(old, E1)
        ask("load", E1.T, answer="done")
        if plan:
            ask("propose", plan, answer="done")
        goes_over("T", places)
    table(1, E1)
    held([(0, 1, 10)], E1.TP)
    ask("migrate", 1, words="the answers in full", answer="done")
    ask("share", 0, answer="share 10 20")
    ask("depot", 1, answer="depot 10 2")
    ask("difference", 0, 1, answer="difference 0 4")
    at_least(5, 0, 1)
    at_least(6)
    ask("written", 25, answer="length 25 " + "5032010100" "47520300000000000000" "53330A00000000000000")
    ask("written", 24, words="row 20, by the longer records: 21 bytes, enough in edition 1, to 24 are too few", answer="refused 20")
    ask("written", 21, answer="refused 20")
    ask("list", 12, answer="length 12 " + "4C320100" "533200010A000000")
    for length in (11, 10):
        ask("list", length, answer="refused 20")
    say("Behind it the desk is one of edition 2: what is of edition 1 is refused by rows 1 and 7, and the plan is kept.")
    for bs in (E1.T, E1.list([]), E1.list(FOURS), E1.list_head("0102"), E1.T[:-1], b"L3" + E2.T[2:]):
        ask("load", bs, answer="refused 1")
    for bs in (E1.TP, E1.plan([], []), E1.plan_head("410200"), E1.TP[:-1], b"P3" + E2.TP[2:]):
        ask("propose", bs, answer="refused 7")
    ask("load", E2.list_mark + E1.T[2:], answer="refused 3")
    ask("propose", E2.plan_mark + E1.TP[2:], answer="refused 10")
    ask("share", 0, answer="share 10 20")
    say("It does not go over again: a bad line, with places enough and with too few.")
    for places in (1, 2, 600, 0):
        lines.append(f"migrate {places}")
        answers.append("bad line")
        assert book.migrate(places) == "bad line"
        ask("written", 25, answer=f"length 25 {text(E2.TP)}")
    table(3, E2)
    ask("migrate", 3, words="nor does a fresh desk of edition 2", answer="bad line")
    ask("load", E2.T, answer="done")
    ask("migrate", 3, answer="bad line")
    ask("list", 12, answer=f"length 12 {text(E2.T)}")
    say("Litres above 65,535: before the step a bad line, behind it a site's.")
    for w in (65536, 70000, 2 ** 32 - 1):
        table(2, E1)
        held([(0, 1, 10)], E1.TP)
        ask("change", 0, w, answer="bad line")
        ask("add", 1, 0, w, answer="bad line")
        ask("share", 0, answer="share 10 20")
        ask("migrate", 2, answer="done")
        ask("share", 0, answer="share 10 20")
        ask("change", 0, 2 ** 32, answer="bad line")
        ask("change", 1, w, answer="refused 18")
        ask("add", 64, 0, w, answer="refused 5")
        ask("share", 0, answer="share 10 20")
        ask("change", 0, w, answer="done")
        ask("share", 0, answer="refused 17")
        ask("add", 1, 0, w, answer="done")
        ask("add", 1, 0, w, answer="refused 2")
        ask("propose", E2.plan([{0, 1}], [w, w]), answer="done")
        ask("share", 1, answer=f"share {w} {2 * w}")
        at_least(w, 0, 1)
        ask("list", 20, answer=f"length 20 {text(E2.list([(0, 1, w), (1, 0, w)]))}")
    say("Row 2: a place too few for the sites. The old desk and its table are as they were, and the calls go on there.")
    for sites in ([(0, 1, 10)], NINE_ONE, NINE):
        groups, n = definition(sites), len(sites)
        for plan in (E1.plan(groups, shares_of(sites, groups)), None):
            table(n + 2, E1)
            ask("load", E1.list(sites), answer="done")
            if plan:
                ask("propose", plan, answer="done")
            before = asked()
            for places in sorted({0, n // 2, n - 1}):
                ask("migrate", places, answer="refused 2")
            assert asked() == before
            written_out(plan, E1.list(sites))
            ask("load", E2.list(sites), words="it is still of edition 1", answer="refused 1")
            ask("change", 0, 65536, answer="bad line")
            ask("migrate", n, words="and goes over where the places are enough", answer="done")
            ask("migrate", n, answer="bad line")
            ask("share", n - 1, answer=before[n - 1])
            ask("add", 0, 0, 1, words="with the new table's places", answer="refused 2")
    table(2, E1)
    held([(0, 1, 10)], E1.TP)
    ask("migrate", 0, words="refused; then calls that write", answer="refused 2")
    ask("add", 2, 2, 3, answer="done")
    ask("add", 2, 2, 3, words="the old table's places", answer="refused 2")
    ask("migrate", 1, answer="refused 2")
    ask("change", 0, 12, answer="done")
    ask("migrate", 1, answer="refused 2")
    ask("propose", E1.plan([{0, 1}, {2}], [12, 3]), answer="done")
    ask("migrate", 1, answer="refused 2")
    ask("written", E1.plan_length(2, 2), answer=f"length {E1.plan_length(2, 2)} " + text(E1.plan([{0, 1}, {2}], [12, 3])))
    ask("load", E1.T, answer="done")
    ask("migrate", 1, words="one site again: a place is enough", answer="done")
    ask("list", 12, answer=f"length 12 {text(E2.T)}")
    ask("share", 0, answer="refused 17")
    say("No sites: no place is enough, without a plan and with the plan of no sites.")
    for places in (0, 1, 600):
        for plan in (None, E1.plan([], [])):
            table(0, E1)
            if plan:
                ask("propose", plan, answer="done")
            goes_over("no sites", places)
            ask("propose", E1.plan([], []), answer="refused 7")
            ask("propose", E2.plan([], []), answer="done")
            ask("add", 63, 63, E2.most, answer="done" if places else "refused 2")
    say("The lists with known plans, loaded, gone over and asked; every call behind the step.")
    for sites in ([own(0, 7)], FOURS, FALLING, SEVEN, [own(0, 5), (0, 1, 6)], TRIANGLE, NINE, [(62, 63, 65535), (63, 61, 65535), own(61, 1)]):
        groups = definition(sites)
        table(len(sites), E1)
        held(sites, E1.plan(groups, shares_of(sites, groups)))
        goes_over("a known list", len(sites) + 1)
        ask("propose", E2.plan(groups, turned(sites, groups)), words="another plan of the list", answer="done")
        ask("propose", E2.plan(groups, shares_of(sites, groups)), answer="done")
        ask("add", *own(0, E2.most), words="a heavy site joins", answer="done")
        ask("share", 0, answer="refused 17")
        groups = definition(book.sites)
        ask("propose", E2.plan(groups, shares_of(book.sites, groups)), answer="done")
        asked()
        ask("add", 0, 0, 1, answer="refused 2")
        ask("change", len(sites), 1, answer="done")
        list_out("a site changed", E2.list(sites + [own(0, 1)]))
        ask("load", E2.list(sites), answer="done")
        list_out("loaded again", E2.list(sites))
    say("Figures in all their bytes: litres and shares whose bytes differ, and the ends of both.")
    for sites in ([(0, 1, 0x1234), (1, 0, 0xFEDC), own(0, 0x00FF), own(1, 0xFF00)], [own(0, 65535), own(1, 65535), (0, 1, 65535), own(2, 65535), own(3, 65534)]):
        groups = definition(sites)
        table(8, E1)
        held(sites, E1.plan(groups, shares_of(sites, groups)))
        goes_over("wide figures", 8)
    say("The largest list: 512 sites, into 512 places and into 600; 511 are too few. No site can be added.")
    longest = [own(i % 64, 65535 - i % 64) for i in range(512)]
    counted[key_of(longest)] = [{d} for d in range(64)]  # own sites alone, each depot lighter than the one before
    counted[key_of(E1.LARGE)] = [set(range(64))]  # as document 01 has it
    for sites, plan, groups, places in ((E1.LARGE, E1.LARGE_PLAN, 1, 512), (longest, E1.plan([{d} for d in range(64)], [w for _, _, w in longest]), 64, 600)):
        table(600, E1)
        held(sites, plan)
        ask("migrate", 511, answer="refused 2")
        before = [ask("share", 511), ask("share", 512), ask("depot", 63), ask("difference", 0, 63), ask("difference", 63, 0), ask("atleast", 8 * 65535 - 63)]
        ask("migrate", places, answer="done")
        assert [ask("share", 511), ask("share", 512), ask("depot", 63), ask("difference", 0, 63), ask("difference", 63, 0), ask("atleast", 8 * 65535 - 63)] == before
        records = converted("upgrade", E1.list(sites), plan)[1]
        n, m = E2.plan_length(groups, 512), 4100
        assert [len(r) for r in records] == [m, n]
        ask("written", n, answer=f"length {n} {text(records[1])}")
        ask("written", n - 1, answer="refused 20")
        ask("list", m, answer=f"length {m} {text(records[0])}")
        ask("list", m - 1, answer="refused 20")
        ask("list", 3076, answer="refused 20")
        ask("add", 0, 0, 1, answer="refused 2")
        ask("change", 511, E2.most, answer="done")
        ask("depot", 63, answer="refused 17")
    say("The new table is its own: with more places than the old one, and with fewer.")
    table(1, E1)
    ask("add", 0, 1, 10, answer="done")
    ask("migrate", 600, answer="done")
    ask("add", 2, 3, 70000, answer="done")
    ask("list", 20, answer=f"length 20 {text(E2.list([(0, 1, 10), (2, 3, 70000)]))}")
    many = [(k % 64, k // 8, E2.most - k) for k in range(511)]
    ask("load", E2.list(many), words="511 sites, and one more", answer="done")
    ask("add", 63, 0, 1, answer="done")
    ask("add", 0, 0, 1, answer="refused 2")
    ask("list", 4100, answer=f"length 4100 {text(E2.list(many + [(63, 0, 1)]))}")
    table(600, E1)
    ask("add", 0, 1, 10, answer="done")
    ask("migrate", 2, answer="done")
    ask("add", 1, 2, 10, answer="done")
    ask("add", 1, 2, 10, answer="refused 2")
    ask("load", E2.list(TRIANGLE), answer="refused 2")
    say("Lines that are no step; the desk is left as it was.")
    table(3, E1)
    held([(0, 1, 10)], E1.TP)
    for line in ("migrate", "migrate 601", "migrate 602", "migrate 4096", "migrate 8192", "migrate 65536", "migrate 65537", "migrate 4294967297", "migrate 18446744073709551617", "migrate 99999999999999999999999", "migrate -",
                 "migrate -1", "migrate +3", "migrate 0x3", "migrate A", "migrate 3.0", "migrate 1,0", "migrate 3 3", "migrate 3 -", "migrate - 3", f"migrate {text(E1.T)}", f"migrate 3 {text(E1.T)}",
                 "Migrate 3", "MIGRATE 3", "migrate3", "migrate2 3", "migrat 3", "migrates 3", "mi grate 3", "migrate_ 3", "widen 3", "upgrade 3", "table 3 migrate"):
        lines.append(line)
        answers.append("bad line")
    ask("written", 21, answer=f"length 21 {text(E1.TP)}")
    raw("spaces, and zeros in front: a line that is one", "  migrate   0000000000000000000000002  ", book.migrate(2))
    ask("written", 25, answer=f"length 25 {text(E2.TP)}")
    table(600, E1)
    ask("migrate", 600, words="the most places", answer="done")
    ask("list", 4, answer="length 4 4C320000")
    say("Before any `table` a desk has 512 places; behind `table` and `table2` it is fresh.")
    table(1, E1)
    ask("list", 4, answer="length 4 4C530000")
    ask("migrate", 0, answer="done")
    table(1, E1)
    ask("list", 4, answer="length 4 4C530000")
    ask("load", E1.T, answer="done")
    ask("migrate", 1, answer="done")
    table(1, E2)
    ask("list", 4, answer="length 4 4C320000")
    table(512, E1)


def turned(sites, groups):
    """Level shares of another kind: worked out with each site's depots exchanged."""
    other = shares_of(with_roll([(b, a, w) for a, b, w in sites], roll_of(sites)), groups)
    return [w * size(sites, groups[k]) - (s if a != b else 0) for (a, b, w), k, s in zip(sites, carried(sites, groups), other)]


def near_miss(e, draw, sites, groups, shares):
    """A plan near the true one: a share moved, shares exchanged, groups exchanged, merged or cut."""
    kind, groups, shares = draw(6), list(groups), list(shares)
    i, j = draw(len(shares)), draw(len(groups))
    if kind == 0:
        shares[i] += 1
    elif kind == 1:
        shares[i] = max(0, shares[i] - 1)
    elif kind == 2:
        k = draw(len(shares))
        shares[i], shares[k] = shares[k], shares[i]
    elif kind == 3 and j:
        groups[j - 1], groups[j] = groups[j], groups[j - 1]
    elif kind == 4 and j:
        groups[j - 1:j + 1] = [groups[j - 1] | groups[j]]
        shares = placed(sites, groups)
    else:
        groups[j:j + 1] = [{min(groups[j])}, groups[j] - {min(groups[j])}]
        shares = level(sites, groups) or shares if all(groups) else shares
    return e.plan(groups, shares)


def drawn_depot(draw, depots):
    """A depot below the number, or where the list that is held has a roll any listed one."""
    all_listed = listed(book.sites) if roll_of(book.sites) else []
    return all_listed[draw(len(all_listed))] if all_listed and draw(2) else draw(depots)


def part_histories(first, histories, least, over=False, rolls=False):
    """At least so many proposals become the held plan. Where `over` is true, desks go over to edition 2 on the way. Where `rolls` is true, two lists of three that are loaded into a desk of edition 2 have one."""
    say("Histories: calls drawn by a fixed rule, over at most 6 depots. Proposals are true, true of an earlier list, near misses, and the same again."
        + (" Desks of edition 1 go over to edition 2 at any point, or try to with too few places." if over else ""))
    if rolls:
        say("Of the lists that are loaded in edition 2 some have a roll, and some of these a byte above 9 or a named depot without crews, or depots with crews that no site names.")
    draw, done, steps = drawn((11 if over else 3 if first is E1 else 7) + (12 if rolls else 0)), 0, {"done": 0, "refused 2": 0, "bad line": 0}
    seen, isolated = set(), 0
    for k in range(histories):
        say(f"history {k}")
        depots, few = 1 + draw(6), (1, 2, 6, None)[draw(4)]
        table((3, 5, 8, 512, 600)[draw(5)], first)
        plans = [first.plan([], [])]
        for _ in range(30 + draw(31)):
            kind, n, e = draw(24), len(book.sites), book.e
            most = few or e.most
            if over and draw(6 if n and e is E1 else 40) == 0:
                steps[ask("migrate", (n - 1, draw(n), draw(n), n - 1, n, n + draw(4), 600)[draw(7)] if n else draw(3))] += 1
            elif kind < (3 if rolls and not n else 1):
                sites = [(draw(depots), draw(depots), 1 + draw(most)) for _ in range(draw(6))]
                if rolls and e is E2 and draw(3):
                    roll = bytearray(drawn_roll(draw, depots))
                    if not draw(4):
                        roll[draw(depots + 1)] = (0, 10)[draw(2)]
                    sites = Sites(sites, roll)
                ask("load", e.list(sites))
                if rolls:
                    seen.add((answers[-1], roll_of(book.sites) is None, roll_of(sites) is None))
            elif kind < 2:
                ask("change", draw(n + 1), draw(most + 1))
            elif kind < 4:
                ask("add", draw(depots), draw(depots) if draw(20) else 64, draw(most + 1) if draw(4) else 1)
            elif kind < 8 and listed(book.sites):
                groups = definition(book.sites)
                plans.append(e.plan(groups, (shares_of, turned)[draw(2)](book.sites, groups)))
                done += ask("propose", plans[-1]) == "done"
                isolated += set(listed(book.sites)) != named(book.sites)
            elif kind < 11 and n:
                groups = definition(book.sites)
                done += ask("propose", near_miss(e, draw, book.sites, groups, (shares_of, turned)[draw(2)](book.sites, groups))) == "done"
            elif kind < 12:
                ask("propose", plans[draw(len(plans))])
            elif kind < 13:
                ask("propose", plans[-1])
            elif kind < 15:
                ask("share", draw(n + 1))
            elif kind < 17:
                ask("depot", drawn_depot(draw, depots + 1))
            elif kind < 19:
                ask("difference", draw(depots), drawn_depot(draw, depots))
            elif kind < 20:
                ask("written", draw(2) * 60 + draw(60))
            elif kind < 22:
                long = len(e.list(book.sites))
                ask("list", (0, long + draw(3) - 1, long, draw(60))[draw(4)])
            else:
                near = marks()
                ask("atleast", near[draw(len(near))] if draw(8) else draw(2) * 65536 + draw(most + 1))
        e = book.e
        if k % 4 and listed(book.sites):
            groups = definition(book.sites)
            ask("propose", e.plan(groups, turned(book.sites, groups)), answer="done")
        ask_all(depots)
        again()
    assert done >= least and (not over or min(steps.values()) >= (2 if rolls else 8)), (done, steps)
    assert not rolls or isolated >= (5 if over else 8), (over, isolated, done)
    assert not rolls or over or {x[0] for x in seen} >= {"done", "refused 22", "refused 23"} and {x[2] for x in seen} == {True, False}, seen


def other_way(way):
    return next(x for x in WAYS if x != way)


def convert(words, way, row, given, *sizes):
    """A line of one way: a list, or a list and its plan, and the length of a buffer for each. The row is the one that the case is written for, 0 for none."""
    found, records = converted(way, *given)
    if not found:
        assert list_row(WAYS[way][1], records[0]) == 0 and (len(given) == 1 or first_row(*records) == 0), words  # a plan that passed passes after
        assert converted(other_way(way), *records) == (0, list(given)), words
        found = 20 if any(n < len(r) for n, r in zip(sizes, records)) else 0
    assert found == row and len(sizes) == len(given), (words, way, "meant", row, "found", found)
    if words:
        say(words)
    lines.append(" ".join([way] + [text(x) for x in given] + [str(n) for n in sizes]))
    buffers = [b"\xA5" * n for n in sizes]
    if not row:
        buffers = [r + b[len(r):] for r, b in zip(records, buffers)]
    lengths = "" if row else " ".join(str(len(r)) for r in records)
    answers.append(" ".join([f"refused {row}" if row else f"length {lengths}" if len(given) == 1 else f"lengths {lengths}"] + [text(b) for b in buffers]))


def there_and_back(words, way, *given):
    """Both ways, into buffers of just the length: what the first line writes is put to the second, which writes the first bytes."""
    convert(words, way, 0, given, *map(len, converted(way, *given)[1]))
    written = tuple(bytes.fromhex(x) for x in answers[-1].split()[-len(given):])
    convert("and back", other_way(way), 0, written, *map(len, given))
    assert answers[-1].split()[-len(given):] == [text(x) for x in given]


def refused_plans(e, w):
    """For each of rows 7 to 16 a list of litres w and a plan that the row refuses."""
    one, plan = e.list([(0, 1, w)]), e.plan([{0, 1}], [w])
    other = E2 if e is E1 else E1
    cases = [(7, one, b""), (7, one, b"PM" + plan[2:]), (7, one, other.plan([{0, 1}], [10])), (8, one, e.plan_head("410100")), (9, one, e.plan_head("010200")), (10, one, plan + b"\0"),
             (11, one, plan.replace(e.share_mark, b"SG")), (12, one, e.plan([{0}, {0, 1}], [w])), (13, one, e.plan([{0}], [w])), (14, one, e.plan([{0, 1}], [2 * w + 1])),
             (15, one, e.plan([{0, 1}], [w + 1])), (16, e.list([own(0, w), own(1, w)]), e.plan([{0}, {1}], [w, w]))]
    for row, list_bytes, plan_bytes in cases:
        assert first_row(list_bytes, plan_bytes) == row
    return cases


def part_convert(way, cases):
    """The cases are checks of lists and plans of the way's edition."""
    e, other = WAYS[way]
    say(f"{way}: lists and plans of edition {1 if e is E1 else 2} that were put to `check`. A plan that passes is converted along with its list; another gets the row that it got there"
        + (", or row 21 by its list." if e is E2 else "."))
    small = [x for x in cases if len(x[1]) != e.list_length(512) and not x[0].startswith("the plan of the list before")]
    for i, (words, list_bytes, plan_bytes, row) in enumerate(small):
        found, records = converted(way, list_bytes, plan_bytes)
        assert found == row or found == 21 and row not in range(1, 7), words
        convert(words if found == row else f"{words}; here row 21", way, found, (list_bytes, plan_bytes), *(map(len, records) if records else ((24, 48), (24, 48), (11, 0), (24, 48), (0, 13))[i % 5]))
    say("The same lists alone.")
    seen = set()
    for i, (_, list_bytes, _, row) in enumerate(small):
        if list_bytes not in seen and len(list_bytes) < 1000:
            seen.add(list_bytes)
            found, records = converted(way, list_bytes)
            assert found == row if row in range(1, 7) else found in (0, 21)
            convert(None, way, found, (list_bytes,), len(records[0]) if records else (24, 24, 0)[i % 3])
    say("A list of the other edition: row 1, whatever the plan and the buffers.")
    for sites, groups, shares in (([], [], []), ([(0, 1, 10)], [{0, 1}], [10]), (NINE_ONE, [{0, 1}, {2}], [9, 0])):
        convert(None, way, 1, (other.list(sites),), 40)
        for plan in (other.plan(groups, shares), e.plan(groups, shares), b""):
            convert(None, way, 1, (other.list(sites), plan), 40, 60)
    convert(None, way, 1, (other.T,), 0)
    convert(None, way, 1, (other.T, other.TP), 0, 0)
    if e is E2:
        convert("row 1 and not row 21: litres of 65,535 in edition 1", way, 1, (E1.list([own(0, 65535)] * 4), E1.plan([{0}], [65535] * 4)), 40, 60)
    convert("row 3: the mark of this edition, the record of the other", way, 3, (e.list_mark + other.T[2:],), 12)
    convert("no sites: the mark alone tells", way, 0, (e.list_mark + other.list([])[2:],), 4)
    say("A plan of the other edition: row 7.")
    for sites, groups, shares in (([], [], []), ([(0, 1, 10)], [{0, 1}], [10]), (NINE_ONE, [{0, 1}, {2}], [9, 0])):
        convert(None, way, 7, (e.list(sites), other.plan(groups, shares)), 40, 60)
    convert("the same, buffers too short", way, 7, (e.T, other.TP), 0, 0)
    convert("row 10: the mark of this edition, the share of the other", way, 10, (e.T, e.plan_mark + other.TP[2:]), 12, 25)
    convert("row 11: the other edition's share mark", way, 11, (e.T, e.TP[:-e.share_bytes] + e.share(10, other.share_mark)), 12, 25)


def part_convert_buffers(way):
    e, other = WAYS[way]
    say(f"{way}: buffers of the length, longer and shorter. Bytes behind what is written stay as they were; where one of two is too short, neither is written.")
    for words, sites, groups, shares in (("T", [(0, 1, 10)], [{0, 1}], [10]), ("no sites", [], [], []), ("two groups", NINE_ONE, [{0, 1}, {2}], [9, 0])):
        a, b = e.list(sites), e.plan(groups, shares)
        n, m = other.list_length(len(sites)), other.plan_length(len(groups), len(sites))
        say(f"{words}: {n} and {m} bytes")
        for k in sorted({0, 3, n - 1, n, n + 1, n + 7, len(a)}):
            convert(None, way, 20 if k < n else 0, (a,), k)
        pairs = ((n, m), (n - 1, m), (n, m - 1), (n - 1, m - 1), (n + 3, m + 2), (n - 1, m + 40), (n + 40, m - 1), (0, m), (n, 0), (0, 0), (n + 1, m), (n, m + 1), (m, n), (len(a), len(b)), (n + m, 4))
        for k, j in pairs if words == "T" else pairs[:9]:
            convert(None, way, 20 if k < n or j < m else 0, (a, b), k, j)
    say("The largest buffer.")
    convert(None, way, 0, (e.T,), 8192)
    convert(None, way, 0, (e.T, e.TP), *((8192, len(other.TP)) if e is E1 else (len(other.T), 8192)))
    convert(None, way, 0, (e.T, e.TP), 8192, 8192)
    say("Rows 7 to 16 with buffers too short: the plan's row, and not row 20.")
    for row, list_bytes, plan_bytes in refused_plans(e, 10):
        convert(None, way, row, (list_bytes, plan_bytes), 0, 0)
        convert(None, way, row, (list_bytes, plan_bytes), *((len(other.T) - 1, 60) if row % 2 else (60, 4)))
    say("Rows 1 to 6 with buffers too short.")
    for row, list_bytes in ((1, b""), (2, e.list_head("0102")), (3, e.T[:-1]), (4, e.T.replace(e.site_mark, b"SU")), (5, e.list([(0, 64, 10)])), (6, e.list([(0, 1, 0)]))):
        convert(None, way, row, (list_bytes,), 0)
        convert(None, way, row, (list_bytes, e.TP if row % 2 else b""), 0, 0)


def part_convert_litres():
    def one(w):
        return E2.list([(0, 1, w)]), E2.plan([{0, 1}], [w])

    say("downgrade, row 21: litres 1 to 65,535 fit.")
    for w in (1, 255, 256, 65534, 65535):
        convert(f"litres {w:,}", "downgrade", 0, one(w)[:1], 10)
        convert(None, "downgrade", 0, one(w), 10, 21)
        convert("and there", "upgrade", 0, (E1.list([(0, 1, w)]), E1.plan([{0, 1}], [w])), 12, 25)
    say("Above 65,535, also where the low two bytes are 0 or would fit.")
    for w in (65536, 65537, 65546, 70000, 131071, 16777216, 2 ** 31, 2 ** 32 - 65536, 2 ** 32 - 1):
        convert(f"litres {w:,}", "downgrade", 21, one(w)[:1], 10)
        convert(None, "downgrade", 21, one(w), 10, 21)
    say("The first, the middle, the last and every one of three sites.")
    for chosen in ([0], [1], [2], [0, 1, 2]):
        sites = [(0, 1, 65536 if 0 in chosen else 65535), (1, 2, 65536 if 1 in chosen else 65535), (2, 0, 65536 if 2 in chosen else 65535)]
        groups = definition(sites)
        convert(None, "downgrade", 21, (E2.list(sites),), 22)
        convert(None, "downgrade", 21, (E2.list(sites), E2.plan(groups, shares_of(sites, groups))), 22, 60)
    sites = [(0, 1, 65535), (1, 2, 65535), (2, 0, 65535)]
    there_and_back("all three of 65,535, W 196,605: a share above 65,535 fits", "downgrade", E2.list(sites), E2.plan([{0, 1, 2}], [196605] * 3))
    there_and_back("own 0 three times of 65,535: W is no figure of a site", "downgrade", E2.list([own(0, 65535)] * 3), E2.plan([{0}], [65535] * 3))
    say("Row 21 with a plan that rows 7 to 16 refuse: 21. For litres that fit, such a plan gets its own row.")
    for (_, list_bytes, plan_bytes), (row, fits, same) in zip(refused_plans(E2, 65536), refused_plans(E2, 65535)):
        convert(None, "downgrade", 21, (list_bytes, plan_bytes), 16, 37)
        convert(None, "downgrade", row, (fits, same), 16, 37)
    say("Row 21 with buffers too short: 21.")
    for given, sizes in ((one(65536)[:1], (0,)), (one(65536)[:1], (9,)), (one(65536), (0, 0)), (one(65536), (9, 21)), (one(65536), (10, 20)), ((one(65536)[0], b""), (0, 0))):
        convert(None, "downgrade", 21, given, *sizes)
    say("Rows 1 to 6 in a list that has a site of 65,536 litres too: the list's row, and not row 21.")
    two, big = E2.list([(0, 1, 65536), (0, 1, 10)]), (0, 1, 65536)
    for row, list_bytes in ((1, b"L3" + two[2:]), (1, b"LS" + two[2:]), (2, E2.list([big], count=513)), (3, two[:-1]), (3, two + b"\0"), (4, E2.list([big, (0, 1, 10, b"SU")])),
                            (4, E2.list([big, (0, 1, 10, b"ST")])), (5, E2.list([big, (0, 64, 10)])), (6, E2.list([big, (0, 1, 0)])), (6, E2.list([(0, 1, 0), big]))):
        convert(None, "downgrade", row, (list_bytes,), 16)
        convert(None, "downgrade", row, (list_bytes, E2.plan([{0, 1}], [65536, 10])), 16, 27)
    say("Going there no litres are refused by row 21: two bytes have none above 65,535.")
    there_and_back("own 0 of 65,535, (0,1) of 65,535, own 1 of 1", "upgrade", E1.list([own(0, 65535), (0, 1, 65535), own(1, 1)]), E1.plan([{0, 1}], [131070, 1, 2]))


def part_convert_back():
    say("There and back: what one line writes is put to the next, which writes the first bytes.")
    ends = [(63, 0, 65535), (0, 63, 1), (0, 63, 1), own(63, 256), own(0, 255), (63, 0, 65535)]
    marks = [own(0, 0x5453), (0, 1, 0x3253), (1, 0, 0x4853), (2, 1, 0x3353), own(2, 0x534C), (0, 2, 0x324C)]  # litres whose bytes are marks
    for way, (e, _) in WAYS.items():
        say(way)
        there_and_back("T", way, e.T)
        there_and_back("T and its plan", way, e.T, e.TP)
        if e is E1:
            there_and_back("no sites", way, e.list([]))
        else:
            there_and_back("no sites, and their plan", way, e.list([]), e.plan([], []))
        for words, sites in (("equal sites, the ends of depots and litres, the order of sites and of a site's two depots", ends), ("litres whose bytes are marks", marks), ("the nine sites", NINE)):
            groups = definition(sites)
            if e is E1:
                there_and_back(f"{words}: the list alone", way, e.list(sites))
            shares = (shares_of if e is E1 else turned)(sites, groups)
            assert is_true(e, sites, e.plan(groups, shares))
            there_and_back(f"{words}: with a plan", way, e.list(sites), e.plan(groups, shares))
    falls = [own(d, 64 - d) for d in range(64)]
    there_and_back("64 groups", "downgrade", E2.list(falls), E2.plan([{d} for d in range(64)], [w for _, _, w in falls]))
    say("Small networks, drawn by a fixed rule, with a true plan, and a plan near it.")
    draw = drawn(4)
    for k in range(16):
        way = ("upgrade", "downgrade")[k % 2]
        e, depots, most = WAYS[way][0], 2 + draw(5), (2, 20, 300, 65535)[k // 2 % 4]
        sites = [(draw(depots), draw(depots), 1 + draw(most)) for _ in range(1 + draw(8))]
        groups = groups_of(sites)
        shares = (shares_of, turned)[draw(2)](sites, groups)
        there_and_back(f"network {k}", way, e.list(sites), e.plan(groups, shares))
        near = near_miss(e, draw, sites, groups, shares)
        row = first_row(e.list(sites), near)
        assert is_true(e, sites, near) == (row == 0)
        convert("a plan near it", way, row, (e.list(sites), near), WAYS[way][1].list_length(len(sites)), 99)
    say("512 sites: document 01's, own i mod 64 of 65,535, one group of 64.")
    there_and_back("512 sites", "upgrade", E1.list(E1.LARGE), E1.LARGE_PLAN)
    longest = [own(i % 64, 65535 - i % 64) for i in range(512)]
    plan = [{d} for d in range(64)], [w for _, _, w in longest]
    there_and_back("64 groups of 512 sites, the longest plan: 3,076 and 3,717 bytes, 4,100 and 5,765", "upgrade", E1.list(longest), E1.plan(*plan))
    assert tuple(map(len, converted("upgrade", E1.list(longest), E1.plan(*plan))[1])) == (4100, 5765)
    there_and_back("the list alone", "downgrade", E2.list(longest))
    convert("the list's buffer one byte short, the plan's wanting altogether", "downgrade", 20, (E2.list(longest), E2.plan(*plan)), 3075, 0)
    convert("the plan's one byte short", "downgrade", 20, (E2.list(longest), E2.plan(*plan)), 3076, 3716)
    convert("only the last site's litres too many", "downgrade", 21, (E2.list(longest[:-1] + [own(63, 65536)]),), 40)
    convert("512 sites, own i mod 64 of 4,294,967,295", "downgrade", 21, (E2.list(E2.LARGE), E2.LARGE_PLAN), 40, 60)


def part_convert_lines():
    say("Lines that are no upgrade or downgrade.")
    for way, (e, other) in WAYS.items():
        T, TP, n, m = text(e.T), text(e.TP), len(other.T), len(other.TP)
        for line in (f"{way}", f"{way} {T}", f"{way} {n}", f"{way} {T} {TP}", f"{way} {T} {TP} {n}", f"{way} {T} {n} {m}", f"{way} {T} {TP} {n} {m} 1", f"{way} {T} {TP} {n} {m} -",
                     f"{way} {T} 8193", f"{way} {T} {TP} 8193 {m}", f"{way} {T} {TP} {n} 8193", f"{way} {T} -1", f"{way} {T} +{n}", f"{way} {T} 0x{n}", f"{way} {T} {n}.0", f"{way} {T} 1,000",
                     f"{way} {T} {2 ** 64 + n}", f"{way} {T} {TP} {n} {2 ** 64 + m}", f"{way} {T} {TP} {2 ** 64 + n} {m}", f"{way} {T} A", f"{way} {T} {TP} A {m}", f"{way} {T} {TP} {n} A",
                     f"{way} {T} -", f"{way} {T} {TP} - {m}", f"{way} {T} {TP} {n} -", f"{way} {T}0 {n}", f"{way} {T[:-1]}G {n}", f"{way} XY {n}", f"{way} -- {n}", f"{way} {T}0 {TP} {n} {m}",
                     f"{way} {T[:-1]}G {TP} {n} {m}", f"{way} {T} {TP}0 {n} {m}", f"{way} {T} {TP[:-1]}G {n} {m}", f"{way} {T} -- {n} {m}", f"{way} {n} {m} {T} {TP}", f"{way} {T} {n} {TP} {m}",
                     f"{way.upper()} {T} {n}", f"{way.title()} {T} {TP} {n} {m}", f"{way}d {T} {n}", f"{way}2 {T} {n}", f"{way.replace('grade', ' grade')} {T} {n}", f"{way[:-1]} {T} {n}", f"{way}{T} {n}"):
            lines.append(line)
            answers.append("bad line")
        say("Lines that are: none for bytes, zeros in front, spaces, lower case, a plan of two digits that are a number too.")
        convert("no list", way, 1, (b"",), 4)
        convert("no list and no plan", way, 1, (b"", b""), 4, 5)
        convert("no list and no bytes to write to", way, 1, (b"", b""), 0, 0)
        convert("no plan", way, 7, (e.T, b""), n, m)
        convert("a plan of one byte", way, 7, (e.T, b"\x12"), n, m)
        raw("zeros in front", f"{way} {T} 00000000000000000000{n}", f"length {n} {text(other.T)}")
        raw("the same", f"{way} {T} {TP} 00000000000000000000{n} 00000000000000000000{m}", f"lengths {n} {m} {text(other.T)} {text(other.TP)}")
        raw("spaces", f"  {way}   {T}  {n}  ", f"length {n} {text(other.T)}")
        raw("the same, and lower case", f"  {way}   {T.lower()}  {TP.lower()}   {n}  {m}  ", f"lengths {n} {m} {text(other.T)} {text(other.TP)}")
        if e is E1:
            convert("a list of 8,193 bytes", way, 3, (e.T + b"\0" * (8193 - len(e.T)), e.TP), 3, 3)
        else:
            convert("a plan of 8,193 bytes", way, 10, (e.T, e.TP + b"\0" * (8193 - len(e.TP))), 3, 3)


def part_converter(cases):
    """Before and after, the desk is asked what it holds."""
    def held_still():
        e = book.e
        ask("share", 0, answer="share 10 20")
        ask("depot", 1, answer="depot 10 2")
        ask("written", len(e.TP), answer=f"length {len(e.TP)} {text(e.TP)}")
        ask("list", len(e.T), answer=f"length {len(e.T)} {text(e.T)}")

    say("Files between the editions. The desk, which holds T and its plan, of either edition, is left as it was.")
    for way, (e, other) in WAYS.items():
        for desk in (e, other):
            table(1, desk)
            held([(0, 1, 10)], desk.TP)
            held_still()
            convert("T alone", way, 0, (e.T,), len(other.T))
            convert("T and its plan", way, 0, (e.T, e.TP), len(other.T), len(other.TP))
            convert("another list and its plan", way, 0, (e.list(FOURS), e.plan([{0, 1}], [8, 8])), other.list_length(2), other.plan_length(1, 2))
            convert("refused", way, 3, (e.T[:-1], e.TP), 4, 5)
            convert("refused", way, 15, (e.T, e.plan([{0, 1}], [11])), 4, 5)
            convert("refused", way, 20, (e.T, e.TP), 4, 5)
            held_still()
        part_convert(way, cases[e])
        part_convert_buffers(way)
        held_still()
    part_convert_litres()
    part_convert_back()
    part_convert_lines()
    say("The desk is still what it was.")
    held_still()
    table(3)
    ask("share", 0, words="and a fresh one is fresh", answer="refused 17")
    convert("T and its plan, no plan held", "upgrade", 0, (E1.T, E1.TP), 12, 25)
    ask("share", 0, answer="refused 17")
    ask("list", 4, answer=f"length 4 {text(book.e.list_mark)}0000")


# what a make line answers: the plan where it is forced, else nothing is known here
makes = []


def make(words, list_bytes, length, row, plan=None):
    say(words)
    lines.append(f"make {text(list_bytes)} {length}")
    whole = b"\xA5" * length
    if row:
        makes.append(f"refused {row} {text(whole)}")
    else:
        makes.append(f"length {len(plan)} {text(plan + whole[len(plan):])}")


def part_make(e):
    p = len(e.TP)
    say("make: from here on, where the plan is forced.")
    make(f"row 20: T's plan into {p - 1} bytes", e.T, p - 1, 20)
    make(f"T into {p} bytes", e.T, p, 0, e.TP)
    make(f"T into {p + 1} bytes: the last is unchanged", e.T, p + 1, 0, e.TP)
    make("row 20: T into no bytes", e.T, 0, 20)
    make("row 1: no bytes", b"", 8, 1)
    make("row 2", e.list_head("0102"), 8, 2)
    make("row 3", e.T[:-1], p, 3)
    make("row 4", e.T.replace(e.site_mark, b"SU"), p, 4)
    make("row 5", e.list([(0, 64, 10)]), p, 5)
    make("row 6", e.list([(0, 1, 0)]), p, 6)
    make("rows 6 and 20: the earlier", e.list([(0, 1, 0)]), 0, 6)
    make("no sites", e.list([]), 6, 0, e.plan([], []))
    make("row 20: no sites into 4 bytes", e.list([]), 4, 20)
    for words, sites in (("own 0 of 7", [own(0, 7)]), ("own 0 and own 1 of 4 each", FOURS), ("own 0 of 4, own 1 of 3", FALLING),
                         ("own 0 of 7, (0,1) of 6", SEVEN), ("own 0 of 6, (0,1) of 6", [own(0, 6), (0, 1, 6)]),
                         ("own 0 of 5, (0,1) of 6", [own(0, 5), (0, 1, 6)]), ("(0,1) of 9, (1,2) of 1", NINE_ONE),
                         ("own sites of 5 to 1", [own(d, 5 - d) for d in range(5)]), ("11/2 and 5", [own(0, 5), (0, 1, 6), own(2, 5)]),
                         ("two pairs of 4", [(0, 1, 4), (2, 3, 4)])):
        sites = scaled(sites, e.scale)
        groups = groups_of(sites)
        plan = e.plan(groups, shares_of(sites, groups))
        assert first_row(e.list(sites), plan) == 0
        make(words, e.list(sites), len(plan) + 3, 0, plan)
    if e is E2:
        for words, sites in (("(0,1) of 12, three crews and one", rolled(PAIR, {0: 3, 1: 1})), ("nine, nine and one", rolled(PAIR + [own(2, 5)], {0: 9, 1: 9, 2: 1})),
                             ("one group of one crew and two", rolled([own(0, 4), own(1, 8)], {0: 1, 1: 2})), ("a roll of ones", named_roll(PAIR)),
                             ("crews at a depot that no site names", rolled([own(5, 7)], {5: 2, 6: 9})), ("at two such depots", rolled(PAIR, {0: 3, 1: 1, 5: 9, 63: 2})),
                             ("at depot 0 alone of these", rolled([own(1, 12), own(2, 1)], {0: 9, 1: 1, 2: 9})), ("no sites, crews at three depots", rolled([], {0: 1, 7: 9, 63: 3})),
                             ("no sites and no crews", rolled([], {}))):
            groups = groups_of(sites)
            plan = e.plan(groups, shares_of(sites, groups))
            assert first_row(e.list(sites), plan) == 0
            make(words, e.list(sites), len(plan) + 3, 0, plan)
        for words, sites, groups in (("no sites and a roll of ones", Sites([], ONES), [ALL]), ("no sites, nine crews each", rolled([], {}, 9), [ALL]),
                                     ("own 63 of 7, a roll of ones", Sites([own(63, 7)], ONES), [{63}, ALL - {63}]), ("own 0 of 7, nine crews each", rolled([own(0, 7)], {}, 9), [{0}, ALL - {0}])):
            plan = e.plan(groups, shares_of(sites, groups))
            assert first_row(e.list(sites), plan) == 0
            make(words, e.list(sites), len(plan), 0, plan)
            make("row 20: one byte less", e.list(sites), len(plan) - 1, 20)
        make("row 22", e.list(rolled(PAIR, {0: 10, 1: 1})), p, 22)
        make("row 23", e.list(rolled(PAIR, {0: 3})), p, 23)
        make("rows 23 and 20: the earlier", e.list(rolled(PAIR, {0: 3})), 0, 23)
        make("row 20", e.list(rolled(PAIR, {0: 3, 1: 1})), p - 1, 20)
        make("row 3: a roll short of a byte", e.list(rolled(PAIR, {0: 3, 1: 1}))[:-1], p, 3)
        full = Sites(e.LARGE, crews_roll({}, 9))
        plan = e.plan([set(range(64))], [576 * e.most] * 512)
        make("the 512 sites, nine crews each", e.list(full), len(plan), 0, plan)
    plan = e.LARGE_PLAN
    make("the 512 sites", e.list(e.LARGE), len(plan), 0, plan)
    make("row 20: the 512 sites into one byte less", e.list(e.LARGE), len(plan) - 1, 20)
    falls = [own(d, (64 - d) * e.step) for d in range(64)]
    make("64 groups, into 8,192 bytes", e.list(falls), 8192, 0, e.plan([{d} for d in range(64)], [w for _, _, w in falls]))
    longest = [own(i % 64, e.most - i % 64) for i in range(512)]
    plan = e.plan([{d} for d in range(64)], [w for _, _, w in longest])
    assert len(plan) == e.plan_length(64, 512) and first_row(e.list(longest), plan) == 0
    make("64 groups of 512 sites: the longest plan", e.list(longest), len(plan), 0, plan)


def main():
    cases = {}
    for e in (E1, E2):
        before = len(checks)
        part_examples(e)
        part_known(e)
        part_lists(e)
        part_plans(e)
        cases[e] = checks[before:]
        part_false(e)
        part_small(e, 40 if e is E1 else 12)
        part_widths(e)
    part_editions()
    part_crews()
    part_small(E2, 30, rolls=True)
    part_lines(E1)
    say("The desk. Before any `table` it is fresh, of edition 1, and has 512 places.")
    for e in (E1, E2):
        if e is E2:
            table(512, e)
        part_desk_examples(e)
        part_desk_rows(e)
        part_desk_plans(e)
        part_desk_marks(e)
        part_desk_lists(e)
        part_desk_tables(e)
        part_desk_litres(e)
        part_desk_lines(e)
    part_desk_editions()
    part_desk_crews()
    part_migrate()
    part_converter(cases)
    part_histories(E1, 20, 100)
    part_histories(E2, 3, 15)
    part_histories(E1, 12, 40, over=True)
    part_histories(E2, 16, 60, rolls=True)
    part_histories(E1, 8, 20, over=True, rolls=True)
    part_make(E1)
    part_make(E2)
    folder = sys.argv[1]
    script = "\n".join(lines)  # the last line lacks its newline
    if len(sys.argv) > 2:
        got = subprocess.run([sys.argv[2]], input=script.encode(), stdout=subprocess.PIPE, check=True).stdout.decode().split("\n")[:-1]
        mine = answers + makes
        different = [i for i in range(max(len(got), len(mine))) if i >= len(got) or i >= len(mine) or got[i] != mine[i]]
        print(len(mine), "answers,", len(different), "differ,", sum(i < len(answers) for i in different), "of them before the part `make`")
        written = answers + got[len(answers):]
    else:
        written = answers + makes
    open(folder + "/stdin", "w").write(script)
    open(folder + "/stdout", "w").write("".join(x + "\n" for x in written))
    print(len(answers), "answers, and", len(makes), "of the part `make`")


main()
