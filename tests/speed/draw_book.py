#!/usr/bin/env python3
"""Draws a book to measure with, and orders against it. The book can be released.

    draw_book.py CODES SLICES GROUPS [SEED]             the book, on standard output
    draw_book.py CODES SLICES GROUPS SEED --orders N    N orders against it, a line `DAY CODE ..` each

The same numbers give the same book. It is of form 2 and has a term of 365 days.

- GROUPS groups, of which exactly one code is in each car, have together about two thirds of the codes; the others are options.
  Where an order names no code of a group, a supplementing rule adds its first.
- Options bring other options along, and ask for codes of groups or exclude each other. Codes of a group, but never its first,
  exclude codes of another, or ask for some. So the set of all first codes is good on every day.
- A position has its variants by the codes of a group, by those of two groups, or by a group and an option; each car has one of
  them. An optional position has them by an option and the codes of a group. There is one position for every two codes.
- At each of SLICES - 1 days one variant in fifty ends, and its successor begins.
"""

import random
import sys

TERM = 365


def either(codes):
    """The rule that one of these codes is there, which binds like a single code."""
    return codes[0] if len(codes) == 1 else f"({'/'.join(codes)})"


class Drawn:
    """A drawn book: its groups and options, and its rows."""

    def __init__(self, codes, slices, groups, seed=1):
        if not (2 * groups <= codes <= 2000 and 1 <= slices <= 64 and groups >= 2):
            sys.exit("there are at least 2 groups, twice as many codes or more, up to 2,000, and 1 to 64 slices")
        self.dice = random.Random(f"{codes} {slices} {groups} {seed}")
        self.days = sorted(self.dice.sample(range(2, TERM + 1), slices - 1))
        self.groups = self.draw_groups(max(2 * groups, 2 * codes // 3), groups)
        in_groups = sum(map(len, self.groups))
        self.options = [f"O{number:04}" for number in range(codes - in_groups)]
        self.rows = [f"book,DRAWN,1,{TERM},2"]
        names = [code for group in self.groups for code in group] + self.options
        self.rows += [f"code,{name},{name.lower()}" for name in names]
        self.draw_rules()
        self.draw_positions(codes // 2)

    def draw_groups(self, codes, groups):
        """Groups of at least two codes each, which have so many codes together."""
        sizes = [2] * groups
        for _ in range(codes - 2 * groups):
            sizes[min(self.dice.randrange(groups), self.dice.randrange(groups))] += 1
        sizes = [min(size, 60) for size in sizes]
        return [[f"G{g:03}K{k:02}" for k in range(size)] for g, size in enumerate(sizes)]

    def some(self, codes, most):
        """One to so many of these codes, in their order."""
        chosen = set(self.dice.sample(codes, self.dice.randint(1, min(most, len(codes)))))
        return [code for code in codes if code in chosen]

    def some_with_first(self, group):
        """The first code of a group, which most orders have, and some of the others."""
        return group[:1] + self.some(group[1:], len(group) - 1)

    def draw_rules(self):
        """Each group, what it adds, and the rules that bind options and codes of groups."""
        dice, rows = self.dice, self.rows
        for g, group in enumerate(self.groups):
            rows.append(f"group,G{g:04},one,{'/'.join(group)},,")
            rows.append(f"supplement,D{g:04},{50 + g % 50},{group[0]},{'+'.join('-' + code for code in group[1:])},,")
        for n, option in enumerate(self.options):
            group = dice.choice(self.groups)
            other = dice.choice(self.options)
            if n % 3 == 0:
                rows.append(f"construct,A{n:04},{option},{either(self.some_with_first(group))},,")
            elif n % 3 == 1 and other != option:
                rows.append(f"construct,A{n:04},{option},-{other}/{group[0]},,")
            elif other > option:
                rows.append(f"supplement,B{n:04},{10 + n % 30},{other},{option}+{either(self.some(group, 4))},,")
        for g, group in enumerate(self.groups):
            for k, code in enumerate(group[1:], 1):
                other = dice.choice(self.groups)
                if other is group or dice.random() < 0.5:
                    continue
                if dice.random() < 0.5:
                    rule = "-" + either(self.some(other[1:], 3))
                else:
                    rule = f"{either(self.some_with_first(other))}/{dice.choice(self.options or group)}"
                rows.append(f"construct,R{g:03}K{k:02},{code},{rule},,")

    def classes(self, group, most):
        """The codes of a group, parted into at most so many classes, none of them empty."""
        count = min(most, len(group))
        parts = [[code] for code in group[:count]]
        for code in group[count:]:
            self.dice.choice(parts).append(code)
        return [either(part) for part in parts]

    def usages(self):
        """Formulas of which each car meets just one, or for an optional position at most one, and its kind."""
        dice = self.dice
        group = dice.choice(self.groups)
        kind = dice.random()
        if kind < 0.35 or not self.options:
            return "mandatory", self.classes(group, 20)
        if kind < 0.6:
            other = dice.choice(self.groups)
            if other is not group:
                return "mandatory", [f"{a}+{b}" for a in self.classes(group, 5) for b in self.classes(other, 3)]
        option = dice.choice(self.options)
        with_option = [f"{option}+{part}" for part in self.classes(group, 6)]
        if kind < 0.85:
            return "mandatory", with_option + [f"-{option}+{part}" for part in self.classes(group, 3)]
        return "optional", with_option

    def draw_positions(self, count):
        """Modules, positions and their variants, and what changes at each day."""
        positions = [self.usages() for _ in range(count)]
        flat = [(p, v) for p, (_, usages) in enumerate(positions) for v in range(len(usages))]
        changes = max(1, len(flat) // 50)
        changing = self.dice.sample(flat, changes * len(self.days))
        ends = {at: self.days[n // changes] for n, at in enumerate(changing)}
        rows = self.rows
        rows += [f"module,M{m:03},module {m}" for m in range(count // 20 + 1)]
        number = 0
        for p, (kind, usages) in enumerate(positions):
            rows.append(f"position,P{p:04},M{p // 20:03},{kind},,")
            for v, usage in enumerate(usages):
                end = ends.get((p, v))
                for days in [","] if end is None else [f",{end - 1}", f"{end},"]:
                    rows.append(f"variant,V{number:05},P{p:04},N{number:07},1,{usage},{days}")
                    number += 1

    def text(self):
        """The book."""
        return "\n".join(self.rows) + "\n"

    def order(self):
        """A day and codes: of a quarter of the groups, but at most ten, one code each, and of the options at most three."""
        groups = self.dice.sample(self.groups, min(10, len(self.groups) // 4))
        codes = [self.dice.choice(group) for group in groups]
        codes += self.dice.sample(self.options, min(3, len(self.options) // 10))
        return self.dice.randint(1, TERM), codes


if __name__ == "__main__":
    words = sys.argv[1:]
    orders = int(words[5]) if words[4:5] == ["--orders"] and len(words) == 6 else None
    if len(words) not in (3, 4) and orders is None:
        sys.exit(__doc__)
    book = Drawn(*map(int, words[:4]))
    if orders is None:
        sys.stdout.write(book.text())
    else:
        for _ in range(orders):
            day, codes = book.order()
            print(day, *codes)
