#!/usr/bin/env python3
"""Makes a plan like that of an international gateway with a roaming hub, of any size, to see what a verdict on such a plan takes.

  tools/gateway_plan.py [--rows R] [--covers C] [--relays N] [--seed S] [--mistakes M [--only K]] [--turned T] > PLAN

The plan has version 2, R rows in all, C covers and N relays, an even number. The same words make the same octets. If a plan of
these sizes cannot be made, a line on standard error says why, and the status is 1.

The relays are in mated pairs. The first third of the pairs are gateways, where the covered titles come in. The last third
serve the home network: registers of subscribers, and ranges of numbers. Those between are hubs for roaming partners. Of two pairs
the first is the gateways and the second the home's; one pair brings all titles to their destinations itself. Both relays of a
pair have the same prefixes, and their destinations in the other order. The selectors are

  4:0:1:4   E.164 titles: country codes, national codes and ranges below them, of one to nine digits
  4:0:7:4   E.214 titles of subscribers: country and network codes, and ranges of them at home
  4:0:1:3   national titles at home: the country code is dropped and a 0 put in front
  4:64:1:4, 4:64:7:4, 4:64:1:3   the same titles after a mate has handed them over

A pair backs up a country in one of two ways. Both ways: each relay hands a title to the other one with translation type 64, whose
rows lead to no mate. One way: the first relay hands the title to the second one as it is, and that one never hands it back.

A cover is for one country or, if there are more covers than that takes, for one national code, at one gateway, for subsystem 6, 7 or
8 of E.164 titles or 6 of E.214 titles. It allows the destinations of its country.

--mistakes M plants M mistakes, each in another country, and has a comment on each at the top of the plan. Each of them by itself
makes the plan refused. With --only K the K-th of them is planted and no other. The kinds are

  back    the second relay of a pair that backs up one way hands the title back, so that it goes in a circle
  place   a destination is one that no cover allows
  gap     the row of a country is missing at a mate
  put     no 0 is put in front of the titles that go home
  own     a destination is the relay itself, which has no such subsystem

--turned T changes the order of the first two destinations of T rows: a new plan, for a change of plans.
"""
import argparse
import random
import sys

# Country codes, and for some of them the national codes of mobile networks.
CODES = """1 7 20 27 30 31 32 33 34 36 39 40 41 43 44 45 46 47 48 49 51 52 53 54 55 56 57 58 60 61 62 63 64 65 66 81 82 84 86 90 91
92 93 94 95 98 211 212 213 216 218 220 221 222 223 224 225 226 227 228 229 230 231 232 233 234 235 236 237 238 239 240 241 242
243 244 245 248 249 250 251 252 253 254 255 256 257 258 260 261 262 263 264 265 266 267 268 269 290 291 297 298 299 350 351 352
353 354 355 356 357 358 359 370 371 372 373 374 375 376 377 378 380 381 382 385 386 387 389 420 421 423 500 501 502 503 504 505
506 507 508 509 590 591 592 593 594 595 596 597 598 599 670 672 673 674 675 676 677 678 679 680 681 682 683 685 686 687 688 689
690 691 692 850 852 853 855 856 880 886 960 961 962 963 964 965 966 967 968 970 971 972 973 974 975 976 977 992 993 994 995 996
998""".split()
NATIONAL = {
    "49": "151 152 155 157 159 160 162 163 170 171 172 173 174 175 176 177 178 179".split(),
    "33": "60 61 62 63 64 65 66 67 68 69 73 74 75 76 77 78".split(),
    "44": "73 74 75 77 78 79".split(), "39": "32 33 34 36 37 38 39 350 351 352".split(),
    "34": "60 61 62 63 64 65 66 67 68 69 71 72 73 74".split(), "43": "650 660 664 676 680 681 688 699".split(),
    "41": "74 75 76 77 78 79".split(), "31": "61 62 63 64 65".split(), "32": "46 47 48 49".split(),
    "48": "50 51 53 57 60 66 69 72 73 78 79 88".split(), "90": "50 53 54 55".split(),
    "7": "90 91 92 93 95 96 98 99 70 77".split(), "86": "13 14 15 16 17 18 19".split(),
    "91": "70 72 73 74 75 76 77 78 79 80 81 82 83 84 85 86 87 88 89 90 91 92 93 94 95 96 97 98 99".split(),
    "1": "201 202 203 205 206 207 208 209 210 212 213 214 215 216 217 218 219 224 225 228 229 231 234 239 240 242 246 248 251 252 253 "
         "254 256 260 262 264 267 268 269 270 276 281 284 301 302 303 304 305 307 308 309 310 312 313 314 315 316 317 318 319 320 321 "
         "323 325 330 331 334 336 337 339 340 345 347 351 352 360 361 364 385 386 401 402 404".split(),
}
HOME = "49"
SUBSYSTEMS = (6, 7, 8)
INTERNATIONAL, MOBILE, DOMESTIC = "4:0:1:4", "4:0:7:4", "4:0:1:3"
HANDED_OVER = {INTERNATIONAL: "4:64:1:4", MOBILE: "4:64:7:4", DOMESTIC: "4:64:1:3"}
LONGEST_PREFIX = 9
PATIENCE = 1_000_000


class Unmakeable(Exception):
    """Why there is no plan of these sizes."""


def point(zone, number):
    return f"{zone}-{number // 8}-{number % 8}"


class Country:
    """A country code with its national codes and its destinations, which for the home country are places in the network."""

    def __init__(self, code, number, most_codes, draw):
        self.code = code
        self.national = NATIONAL.get(code, [])[:most_codes]
        while len(self.national) < 3:
            more = f"{draw.randint(5, 9)}{draw.randint(0, 9)}"
            if more not in self.national:
                self.national.append(more)
        zone, count = (3, 6) if self.is_home() else (2, 2)
        self.places = [point(zone, 8 * number + i) for i in range(count)]
        self.is_backed_both_ways = draw.random() < 0.5

    def is_home(self):
        return self.code == HOME

    def weight(self):
        """How many ranges it gets in comparison with others."""
        return 8 if self.is_home() else 4 if self.code in NATIONAL else 1


class Relay:
    def __init__(self, name, place, role, mate, is_first):
        self.name, self.point, self.role, self.mate, self.is_first = name, place, role, mate, is_first
        self.rows = []

    def row(self, selector, prefix):
        return next(row for row in self.rows if (row.selector, row.prefix) == (selector, prefix))


class Row:
    """A row of a relay. Each target is a dict of what its table has."""

    def __init__(self, selector, prefix, ssn, targets):
        self.selector, self.prefix, self.ssn, self.targets = selector, prefix, ssn, targets

    def lines(self):
        ssn = [] if self.ssn is None else [f"ssn = {self.ssn}"]
        return ["[[node.row]]", f'selector = "{self.selector}"', f'prefix = "{self.prefix}"', *ssn, f"targets = {self.listed()}"]

    def listed(self):
        return "[" + ", ".join(spelled(target) for target in self.targets) + "]"

    def short(self):
        """The row on one line."""
        return f"{self.selector} {'-' if self.ssn is None else self.ssn} {self.prefix} {self.listed()}"


def spelled(target):
    values = (f"{key} = {value}" if isinstance(value, int) else f'{key} = "{value}"' for key, value in target.items())
    return "{ " + ", ".join(values) + " }"


def ends(relay, country, number):
    """Two destinations of a country; the second relay of a pair has them in the other order."""
    first, second = (country.places[(number + i) % len(country.places)] for i in range(2))
    return [{"final": first}, {"final": second}] if relay.is_first else [{"final": second}, {"final": first}]


def backed_up(relay, country, selector, targets):
    """The targets, and after them the mate if the relay may hand the title to it."""
    if country.is_backed_both_ways:
        return targets + [{"relay": relay.mate, "selector": HANDED_OVER[selector]}]
    return targets + [{"relay": relay.mate}] if relay.is_first else targets


def onward(relay, pair, **change):
    """Both relays of a pair, with what is done to the title."""
    return [{"relay": to.name, **change} for to in (pair if relay.is_first else pair[::-1])]


class Network:
    """The relays with their rows, and the covers. What is `wanted` of a relay is a row without its targets, and how to make them."""

    def __init__(self, sizes):
        self.sizes = sizes
        self.draw = random.Random(f"gateway {sizes.seed} {sizes.rows} {sizes.covers} {sizes.relays}")
        self.make_relays(sizes.relays // 2)
        self.make_countries(sizes.rows // sizes.relays)
        self.make_rows()
        self.make_covers()

    def make_relays(self, pairs):
        outer = 1 if pairs < 3 else pairs // 3
        counts = {"gw": outer, "hub": max(0, pairs - 2 * outer), "home": outer if pairs > 1 else 0}
        self.relays, self.pairs = [], {role: [] for role in counts}
        for role, count in counts.items():
            for i in range(count):
                names, number = [f"{role}{i}a", f"{role}{i}b"], len(self.relays)
                pair = [Relay(names[j], point(1, 8 * ((number + j) % 256) + 1 + (number + j) // 256), role, names[1 - j], j == 0)
                        for j in range(2)]
                self.relays += pair
                self.pairs[role].append(pair)
        self.gateways = [relay for relay in self.relays if relay.role == "gw"]

    def make_countries(self, rows_each):
        """As many countries as the rows of one relay are enough for, the home country first, and then those with national codes."""
        most_codes = max(2, min(24, rows_each // 12))
        count = max(1, min(len(CODES), (rows_each - 4 * most_codes) // 8))
        others = [code for code in CODES if code != HOME]
        self.draw.shuffle(others)
        others.sort(key=lambda code: code not in NATIONAL)
        self.countries = [Country(code, i, most_codes, self.draw) for i, code in enumerate([HOME, *others[:count - 1]])]
        self.home = self.countries[0]

    # ---- Where titles go

    def goes_home(self, country):
        return country.is_home() and bool(self.pairs["home"])

    def hub_of(self, country):
        """The pair of hubs that serves a country, or none."""
        hubs = self.pairs["hub"]
        if not hubs or country.is_home():
            return None
        number = int(country.code) % (len(hubs) + 1)
        return None if number == len(hubs) else hubs[number]

    def home_of(self, national):
        return self.pairs["home"][int(national) % len(self.pairs["home"])]

    def gateway_targets(self, relay, country, national, selector, number, is_handed_over):
        """What a gateway does with the titles of a country, or of one of its national codes."""
        new = {"selector": selector} if is_handed_over else {}
        if self.goes_home(country):
            pair = self.home_of(national or country.national[0])
            return onward(relay, pair, strip=len(HOME), put="0", selector=DOMESTIC) if selector == INTERNATIONAL else onward(relay, pair, **new)
        hub = self.hub_of(country)
        if hub:
            return onward(relay, hub, **new)
        targets = ends(relay, country, number)
        return targets if is_handed_over else backed_up(relay, country, selector, targets)

    # ---- Rows

    def wanted(self, pair, number):
        """The rows that a pair must have."""
        role = pair[0].role
        if role == "home":
            return self.wanted_at_home()
        find = self.wanted_at_gateway if role == "gw" else self.wanted_at_hub
        return [row for country in self.served(role, number) for row in find(country)]

    def wanted_at_gateway(self, country):
        codes = [(country.code, None), *((country.code + national, national) for national in country.national)]
        for k, (prefix, national) in enumerate(codes):
            for selector in (INTERNATIONAL, MOBILE):
                def targets(relay, is_handed_over, k=k, national=national, selector=selector):
                    return self.gateway_targets(relay, country, national, selector, k, is_handed_over)
                if k <= 1 or country.is_home():
                    yield selector, prefix, None, lambda relay, targets=targets: targets(relay, False)
                if k == 0 or self.goes_home(country):
                    yield HANDED_OVER[selector], prefix, None, lambda relay, targets=targets: targets(relay, True)

    def wanted_at_hub(self, country):
        for k, prefix in enumerate([country.code, country.code + country.national[0]]):
            for selector in (INTERNATIONAL, MOBILE):
                yield selector, prefix, None, lambda relay, k=k, selector=selector: backed_up(relay, country, selector, ends(relay, country, k))
                if k == 0:
                    yield HANDED_OVER[selector], prefix, None, lambda relay: ends(relay, country, 0)

    def wanted_at_home(self):
        rows = []
        for prefix, selector in (("0", DOMESTIC), (HOME, MOBILE)):
            rows.append((selector, prefix, None,
                         lambda relay, selector=selector: backed_up(relay, self.home, selector, ends(relay, self.home, 0))))
            rows.append((HANDED_OVER[selector], prefix, None, lambda relay: ends(relay, self.home, 1)))
        return rows

    def served(self, role, number):
        """The countries whose titles go over a pair."""
        if role == "hub":
            return [country for country in self.countries if self.hub_of(country) is self.pairs["hub"][number]]
        return self.countries if role == "gw" else [self.home]

    def ranges(self, role, number):
        """More rows without end: blocks of ranges below the national codes, half of which split a range that is there."""
        countries = self.served(role, number) or self.countries[1:2] or self.countries[:1]
        weights = [country.weight() for country in countries]
        found, count = {}, 0
        while True:
            country = self.draw.choices(countries, weights)[0]
            national = self.draw.choice(country.national)
            selector = MOBILE if self.draw.random() < 0.2 else DOMESTIC if role == "home" else INTERNATIONAL
            front = f"0{national}" if selector == DOMESTIC else country.code + national
            has_ssn = country.is_home() and selector != MOBILE and self.draw.random() < 0.25
            ssn = self.draw.choice(SUBSYSTEMS) if has_ssn else None
            earlier = found.setdefault((selector, front), [])
            for prefix in self.block(front, earlier):
                def targets(relay, country=country, national=national, selector=selector, count=count + 1):
                    if role == "gw":
                        return self.gateway_targets(relay, country, national, selector, count, False)
                    return backed_up(relay, country, selector, ends(relay, country, count))
                is_new = yield selector, prefix, ssn, targets
                if is_new:
                    count += 1
                    if len(prefix) < LONGEST_PREFIX:
                        earlier.append(prefix)

    def block(self, front, earlier):
        """Prefixes that follow each other, one or two digits longer than this one or than an earlier one."""
        if earlier and self.draw.random() < 0.5:
            front = self.draw.choice(earlier)
        width = 1 if len(front) >= 8 else self.draw.choice((1, 1, 2))
        first = self.draw.randrange(10 ** width)
        for i in range(first, min(10 ** width, first + self.draw.randint(1, 10 * width))):
            if len(front) + width <= LONGEST_PREFIX:
                yield f"{front}{i:0{width}}"

    def make_rows(self):
        """Gives each relay its part of the rows: those that it must have, and then ranges."""
        left, relays_left = self.sizes.rows, len(self.relays)
        for pairs in self.pairs.values():
            for number, pair in enumerate(pairs):
                counts = [left // relays_left]
                counts.append((left - counts[0]) // (relays_left - 1))
                left, relays_left = left - sum(counts), relays_left - 2
                made = self.rows_of(pair, number, counts)
                for relay, count in zip(pair, counts):
                    kept = sorted(made[:count], key=lambda row: (row[0], row[1], row[2] or 0))
                    relay.rows = [Row(selector, prefix, ssn, targets(relay)) for selector, prefix, ssn, targets in kept]

    def rows_of(self, pair, number, counts):
        made = {row[:3]: row for row in self.wanted(pair, number)}
        if len(made) > min(counts):
            raise Unmakeable(f"{pair[0].name} needs {len(made)} rows and gets {min(counts)}: take more rows, or fewer relays")
        ranges, is_new, idle = self.ranges(pair[0].role, number), None, 0
        while len(made) < max(counts):
            row = ranges.send(is_new)
            is_new = row[:3] not in made
            idle = 0 if is_new else idle + 1
            if idle > PATIENCE:
                raise Unmakeable(f"no more ranges are found for {pair[0].name}")
            if is_new:
                made[row[:3]] = row
        return list(made.values())

    # ---- Covers

    def parts(self, count):
        """Prefixes with their countries: whole countries, then national codes in place of the first of them, then longer prefixes."""
        parts = [(country.code, country) for country in self.countries]
        for country in self.countries:
            if len(parts) >= count:
                return parts
            parts = parts[1:] + [(country.code + national, country) for national in country.national]
        split = 0
        while len(parts) - split < count:
            prefix, country = parts[split]
            parts += [(f"{prefix}{digit}", country) for digit in range(10)]
            split += 1
        return parts[split:]

    def make_covers(self):
        kinds = [*((INTERNATIONAL, ssn) for ssn in SUBSYSTEMS), (MOBILE, 6)]
        each = len(self.gateways) * len(kinds)
        parts = self.parts(-(-self.sizes.covers // each))
        covers = [(gateway.name, selector, ssn, prefix, max(len(prefix), 12 if selector == MOBILE else 10), country)
                  for prefix, country in parts for gateway in self.gateways for selector, ssn in kinds]
        self.covers = covers[:self.sizes.covers]
        if len(self.covers) < self.sizes.covers:
            raise Unmakeable(f"there are no more than {len(self.covers)} covers")
        self.covered = {country for _, country in parts[:max(1, len(self.covers) // each)]}

    # ---- The text

    def text(self, comments=()):
        lines = [*(f"# {comment}" for comment in comments), "version = 2", ""]
        for relay in self.relays:
            lines += ["[[node]]", f'name = "{relay.name}"', f'point = "{relay.point}"', "subsystems = []"]
            for row in relay.rows:
                lines += row.lines()
            lines.append("")
        for node, selector, ssn, prefix, least, country in self.covers:
            allowed = ", ".join(f'"{place}/{ssn}"' for place in country.places)
            lines += ["[[cover]]", f'node = "{node}"', f'selector = "{selector}"', f"ssn = {ssn}", f'prefix = "{prefix}"', f"least = {least}",
                      "most = 15", f"allowed = [{allowed}]"]
        return "\n".join(lines) + "\n"

    def turn(self, count):
        """Changes the order of the first two destinations of some rows."""
        rows = [row for relay in self.relays for row in relay.rows if len(row.targets) >= 2 and all("final" in to for to in row.targets[:2])]
        for row in random.Random(f"edits {self.sizes.seed}").sample(rows, min(len(rows), count)):
            row.targets[0], row.targets[1] = row.targets[1], row.targets[0]


# ---- Mistakes: each function gives the relay, the row and its new targets (none: the row is missing), or none if it has no place


def back(network, country):
    if country.is_backed_both_ways or network.hub_of(country) or network.goes_home(country):
        return None
    relay = network.gateways[1]
    row = relay.row(INTERNATIONAL, country.code)
    return relay, row, row.targets + [{"relay": relay.mate}]


def place(network, country):
    if network.goes_home(country):
        return None
    relay = (network.hub_of(country) or network.gateways[::-1])[1]
    row = relay.row(INTERNATIONAL, country.code)
    return relay, row, [{"final": point(6, int(country.code) % 2048)}, *row.targets[1:]]


def gap(network, country):
    hub = network.hub_of(country)
    if hub:
        return hub[1], hub[1].row(INTERNATIONAL, country.code), None
    if not country.is_backed_both_ways or network.goes_home(country):
        return None
    relay = network.gateways[1]
    return relay, relay.row(HANDED_OVER[INTERNATIONAL], country.code), None


def put(network, country):
    if not network.goes_home(country):
        return None
    row = network.gateways[0].row(INTERNATIONAL, HOME)
    return network.gateways[0], row, [{key: value for key, value in target.items() if key != "put"} for target in row.targets]


def own(network, country):
    if network.goes_home(country):
        return None
    relay = (network.hub_of(country) or network.gateways)[0]
    row = relay.row(INTERNATIONAL, country.code)
    return relay, row, [*row.targets[:-1], {"final": relay.point}]


KINDS = (back, place, gap, put, own)


def mistakes(network, count):
    """So many mistakes in different countries, the kinds in turn: each a kind, a country, and what its function gives."""
    free = [country for country in network.countries if country in network.covered]
    random.Random(f"mistakes {network.sizes.seed}").shuffle(free)
    found = []
    while len(found) < count:
        turn = len(found) % len(KINDS)
        possible = ((kind, country) for kind in KINDS[turn:] + KINDS[:turn] for country in free if kind(network, country))
        kind, country = next(possible, (None, None))
        if kind is None:
            raise Unmakeable(f"the covered countries have room for {len(found)} mistakes")
        free.remove(country)
        found.append((kind, country, *kind(network, country)))
    return found


def planted(network, count, only):
    """Plants mistakes, and gives a line on each."""
    lines = []
    for number, (kind, country, relay, row, targets) in enumerate(mistakes(network, count), 1):
        if only in (None, number):
            before = row.short()
            if targets is None:
                relay.rows.remove(row)
            else:
                row.targets = targets
            after = "nothing" if targets is None else row.short()
            lines.append(f"mistake {number}: {kind.__name__}, country {country.code}, relay {relay.name}: was {before}, is {after}")
    return lines


def made(sizes, mistakes=0, only=None, turned=0):
    """The text of a plan. The sizes are an object with seed, rows, covers and relays."""
    if sizes.relays < 2 or sizes.relays % 2:
        raise Unmakeable("relays are in pairs: take an even number from 2 on")
    network = Network(sizes)
    if turned:
        network.turn(turned)
    return network.text(planted(network, mistakes, only))


def main():
    parser = argparse.ArgumentParser(description=__doc__, formatter_class=argparse.RawDescriptionHelpFormatter)
    for name, usual in (("seed", 1), ("rows", 4000), ("covers", 240), ("relays", 6), ("mistakes", 0), ("only", None), ("turned", 0)):
        parser.add_argument(f"--{name}", type=int, default=usual, metavar="N")
    words = parser.parse_args()
    try:
        sys.stdout.write(made(words, words.mistakes, words.only, words.turned))
    except Unmakeable as fault:
        sys.exit(f"tools/gateway_plan.py: {fault}")


if __name__ == "__main__":
    main()
