"""Pairs of small plans for the tools that check `change` and `order`: drawn ones, and what is printed of both and of a bad mixed route.

What is lawful is known by brute force (small_plans.py). A pair is a dictionary with an `old` and a `new` plan.
"""
import small_plans
from small_plans import FAR, SELECTORS, Cover, Final, Plan, Relay, Row, has, is_safe, route_of


# ---- what is printed

def check_plans(pair, status, lines):
    """The kind of an answer that is decided by the plans alone, or None. The lines that are read are taken from the list."""
    for which in ("old", "new"):
        bound = is_safe([pair[which]])
        first = lines.pop(0)
        if bound is None:
            assert first.startswith(f"{which} refused ") and status == 1, f"{which} isn't safe"
            return f"{which} refused"
        assert first == f"{which} accepted bound {bound}", f"{which} is safe for {bound}"
    same = [node[:4] for node in pair["old"].nodes] == [node[:4] for node in pair["new"].nodes]
    if not same:
        assert lines == ["other nodes"] and status == 69, "the nodes differ"
        return "other nodes"
    return None


def held_and_route(pair, lines):
    """The plan that was held at each hop of a printed mixed route, its spots and its last step."""
    hops = [line.split(" ", 1) for line in lines]
    assert all(which in pair for which, _ in hops), "a hop of no plan"
    spots, made = route_of([(pair[which], line) for which, line in hops])
    return [which for which, _ in hops], spots, made


def check_bad_route(pair, words, lines):
    """A bad mixed route as it is printed: the words `KIND covers I J`, and the lines of its hops. Returns what was held, and the spots."""
    assert words[-3] == "covers"
    covers = pair["old"].covers[int(words[-2])], pair["new"].covers[int(words[-1])]
    kind = words[:-3]
    held, spots, made = held_and_route(pair, lines)
    assert 1 <= len(spots) <= 15 and all(has(c, spots[0]) for c in covers)
    if kind[0] == "loop":
        assert made[0] == "sent" and made[1] == spots[int(kind[1])]
    elif kind == ["long"]:
        assert len(spots) == 15 and len(set(spots)) == 15
    elif kind[0] == "forbidden":
        assert made[0] == "ended" and kind[1] == f"{made[1]}/{made[2]}" and any(made[1:3] not in c.allowed for c in covers)
    elif kind[:2] == ["no", "row"]:
        assert made == ("no row", int(kind[2]))
    else:
        assert kind == ["overgrown"] and made == ("overgrown",)
    return held, spots


# ---- pairs that are drawn

class Draw(small_plans.Draw):
    def other(self, shape, plan):
        """A second plan: drawn anew over the same covers, a few relays changed, or all anew."""
        fresh = self.plan(shape)
        if self.chance(0.1):
            return fresh
        covers = [c if self.chance(0.8) else self.cover(len(shape)) for c in plan.covers]
        if self.chance(0.5):
            return Plan(fresh.nodes, covers)
        return Plan([new if self.chance(0.3) else old for old, new in zip(plan.nodes, fresh.nodes)], covers)

    def pair(self):
        """Two plans of the same nodes that are safe alone, most times."""
        shape = self.shape()
        old = self.until_safe(lambda: self.plan(shape))
        new = self.until_safe(lambda: self.other(shape, old))
        if self.chance(0.03):
            node = self.random.randrange(len(shape))
            change = self.one([{"point": "1-0-7"}, {"subsystems": [7]}, {"concerned": ["2-0-2"]}, {"name": "z"}])
            if "name" not in change:
                new = new._replace(nodes=[n._replace(**change) if i == node else n for i, n in enumerate(new.nodes)])
        return {"old": old, "new": new}

    def towards(self, shape):
        """A plan that brings the titles of each first digit over the relays in an order of their own, so that it is safe by itself."""
        names = [node.name for node in shape]
        rows = [[] for _ in shape]
        for digit in "012":
            order = list(range(len(shape)))
            self.random.shuffle(order)
            for place, node in enumerate(order):
                later = order[place + 1:]
                targets = [Final(FAR[0], 6)]
                if later and self.chance(0.7):
                    targets.insert(0 if self.chance(0.8) else 1, Relay(names[self.one(later)], 0, "", None, None))
                if isinstance(targets[0], Relay) and self.chance(0.6):
                    targets = targets[:1]
                rows[node].append(Row(SELECTORS[0], None, digit, targets))
        covers = [Cover(self.random.randrange(len(shape)), SELECTORS[0], 6, digit, 1, 2, [(FAR[0], 6)]) for digit in "012"
                  for _ in range(2)]
        return Plan([node._replace(rows=own) for node, own in zip(shape, rows)], covers)

    def crossing_pair(self):
        """Two safe plans of the same covers that bring titles over the same relays in other orders."""
        shape = self.shape()
        old, new = self.towards(shape), self.towards(shape)
        kept = [self.chance(0.2) for _ in shape]
        nodes = [before if keep else after for keep, before, after in zip(kept, old.nodes, new.nodes)]
        mixed = Plan(nodes, old.covers)
        return {"old": old, "new": mixed if is_safe([mixed]) is not None else Plan(new.nodes, old.covers)}
