"""A model of all schedules of a plan (docs/PLANS.md): each order of the steps of nodes beside one another, and the reports of all of them. It knows trees, modes,
callbacks, locks and all steps, and nothing of `[[key]]`, `repeat` and limits. What is made of a plan is small, so its schedules are gone through one by one.

A compute is two moves: it looks up and claims an empty place, or finds something; then it fills what it claimed. Who comes to a claimed place waits (docs/MODEL.md).
A step on places that no node beside it may change, or touch where it changes them, comes to the same before and after all of theirs: it is moved on alone.
"""
import collections
import json
import tomllib

Step = collections.namedtuple("Step", "word key text context")
# What stands at a place: a "value", a kept "fault", or the "claim" of a compute. A value whose close fails has a number, in the order in which they were kept.
Entry = collections.namedtuple("Entry", "kind text closeable number")
# Where a node is: it "waits" for its turn, then for its "locks", makes its calls "before" (a test its body as the last of them), waits for its "children", makes its
# calls "after", has "ended", or is "skipped". `claimed` says that its step has claimed its place and is to fill it.
At = collections.namedtuple("At", "phase call step claimed", defaults=(0, 0, False))
Result = collections.namedtuple("Result", "faults aborts computed found closed close_faults", defaults=((), (), 0, 0, 0, 0))
State = collections.namedtuple("State", "store at results")

LOOKS = ("want", "none")
STORES = ("put", "put!", "remove")
COMPUTES = ("compute", "compute!", "computefail")
OVER = ("ended", "skipped")


class TooManyStates(Exception):
    """The plan has more states than are gone through."""


def step_of(text, path):
    """A step of the node with this path, which begins with the node."""
    words = text.split(" ")
    if words[0] in ("fail", "abort"):
        return Step(words[0], None, words[1], None)
    up = 0
    if len(words) > 2 and words[-2] == "up":
        words, up = words[:-2], int(words[-1])
    return Step(words[0], words[1], words[2] if len(words) > 2 else "", path[up])


class Plan:
    """A plan: by the number of each node its path to the root, children, calls and locks, and which nodes may run beside it."""

    def __init__(self, text):
        read = tomllib.loads(text)
        self.keeps_faults = read.get("keep_faults", False)
        self.nodes = read["node"]
        self.ids = [node["id"] for node in self.nodes]
        self.all = range(len(self.ids))
        self.parents = [self.ids.index(it.rpartition("/")[0]) if "/" in it else None for it in self.ids]
        self.children = [[it for it in self.all if self.parents[it] == node] for node in self.all]
        self.paths = [self.path_of(node) for node in self.all]
        self.is_test = ["test" in node for node in self.nodes]
        self.is_concurrent = [node.get("mode") == "concurrent" for node in self.nodes]
        self.calls = [{"before": self.calls_before(node), "after": self.calls_after(node)} for node in self.all]
        self.locks = [self.locks_of(node) for node in self.all]
        self.has_locks = any(len(locks) > 1 or locks[""] for locks in self.locks)
        self.beside = [[other for other in self.all if self.are_beside(node, other)] for node in self.all]
        self.touched = [self.touched_by(node) for node in self.all]
        self.apart = [{step for step in self.steps_of(node) if self.is_apart(node, step)} for node in self.all]

    def path_of(self, node):
        return [node] + ([] if self.parents[node] is None else self.path_of(self.parents[node]))

    def calls_of(self, node, kind, owners):
        """The callbacks of this kind that these nodes register, as lists of steps that the node makes."""
        return [[step_of(it, self.paths[node]) for it in call] for owner in owners for call in self.nodes[owner].get(kind, [])]

    def calls_before(self, node):
        if not self.is_test[node]:
            return self.calls_of(node, "before_all", [node])
        body = [step_of(it, self.paths[node]) for it in self.nodes[node]["test"]]
        return [*self.calls_of(node, "before_each", reversed(self.paths[node])), body]

    def calls_after(self, node):
        kind, owners = ("after_each", reversed(self.paths[node])) if self.is_test[node] else ("after_all", [node])
        return self.calls_of(node, kind, owners)[::-1]

    def locks_of(self, node):
        """Each lock that a test at or below the node takes, and whether to write. The one without a name is taken by all, to write if isolated."""
        locks = {"": any(self.nodes[it].get("isolated") for it in self.paths[node])}
        for mode, name in (lock.split(" ", 1) for it in self.paths[node] for lock in self.nodes[it].get("locks", [])):
            locks[name] = locks.get(name, False) or mode == "READ_WRITE"
        return locks

    def are_beside(self, node, other):
        """Whether the two stand in the subtrees of two different concurrent children of one container."""
        pairs = ((a, b) for a in self.paths[node] for b in self.paths[other])
        return any(
            a != b and self.parents[a] is not None and self.parents[a] == self.parents[b] and self.is_concurrent[a] and self.is_concurrent[b] for a, b in pairs
        )

    def touches(self, step):
        """The places that a step touches, and whether it may change them. Values of one context whose closes fail are a place, too."""
        if step.word in STORES:
            yield (step.context, step.key), True
        elif step.word in LOOKS + COMPUTES:
            for context in self.paths[step.context]:
                yield (context, step.key), context == step.context and step.word in COMPUTES
        if is_bad(step):
            yield (step.context, None), True

    def steps_of(self, node):
        return [step for calls in self.calls[node].values() for call in calls for step in call]

    def touched_by(self, node):
        """All places that a node's steps touch, and whether one may change them."""
        places = {}
        for place, changes in (touch for step in self.steps_of(node) for touch in self.touches(step)):
            places[place] = places.get(place, False) or changes
        return places

    def is_apart(self, node, step):
        """Whether the step comes to the same before and after all steps of nodes beside this one."""
        beside = [self.touched[other] for other in self.beside[node]]
        return not any(place in other and (changes or other[place]) for place, changes in self.touches(step) for other in beside)


def is_bad(step):
    """Whether the step may leave a value whose close fails."""
    return step.word in ("put!", "compute!") and step.text.startswith("bad")


def renumbered(store, context):
    """The store, in which the numbers of a context begin at 1 again: only their order matters."""
    numbers = sorted(entry.number for (at, _), entry in store.items() if at == context and entry.number)
    return {place: entry._replace(number=numbers.index(entry.number) + 1) if place[0] == context and entry.number else entry for place, entry in store.items()}


def with_value(store, step):
    """The store with the value of a step at its place."""
    store = {place: entry for place, entry in store.items() if place != (step.context, step.key)}
    last = max((entry.number for (at, _), entry in store.items() if at == step.context), default=0)
    store[step.context, step.key] = Entry("value", step.text, step.word.endswith("!"), last + 1 if is_bad(step) else 0)
    return renumbered(store, step.context)


def without(store, context, key):
    """The store without what stands at this place."""
    return renumbered({place: entry for place, entry in store.items() if place != (context, key)}, context)


def put_in(items, index, item):
    return items[:index] + (item,) + items[index + 1 :]


class Schedules:
    """Goes through the states of a plan, from the beginning to all its ends. In turn no node runs beside another, as in a plain run."""

    def __init__(self, plan, most=4000, in_turn=False):
        self.plan, self.most, self.in_turn = plan, most, in_turn
        self.takes_locks = plan.has_locks and not in_turn
        self.seen, self.waiting, self.reports = set(), [], set()

    def all_reports(self):
        """The reports of all schedules, each a tuple of the nodes' JSON members."""
        count = len(self.plan.ids)
        self.keep(State({}, (At("waits"),) * count, (Result(),) * count))
        while self.waiting:
            state = self.waiting.pop()
            going = [node for node in self.plan.all if state.at[node].phase in ("locks", "before", "after")]
            if not going:
                self.reports.add(self.report_of(state))
                continue
            alone = [node for node in going if self.is_alone(state, node, going)][:1]
            moved = [after for after in (self.moved(state, node) for node in alone or going) if after is not None]
            assert moved, "no node goes on"
            for after in moved:
                self.keep(after)
        return self.reports

    def keep(self, state):
        """Notes a state to go on from, unless it was there before."""
        state = self.settled(state)
        known = (frozenset(state.store.items()), state.at, state.results)
        if known not in self.seen:
            self.seen.add(known)
            if len(self.seen) > self.most:
                raise TooManyStates
            self.waiting.append(state)

    def is_alone(self, state, node, going):
        """Whether nothing is lost where only this node goes on."""
        at = state.at[node]
        return at.phase != "locks" and (len(going) == 1 or self.in_turn or self.step_at(node, at) in self.plan.apart[node])

    def step_at(self, node, at):
        return self.plan.calls[node][at.phase][at.call][at.step]

    # ---- what follows without a step

    def settled(self, state):
        """The state when nodes have begun and ended that may."""
        goes_on = True
        while goes_on:
            goes_on = False
            for node in self.plan.all:
                after = self.next_phase(state, node)
                if after is not None:
                    state, goes_on = after, True
        return state

    def next_phase(self, state, node):
        """The state when the node has gone on to its next call or phase, if it may."""
        at = state.at[node]
        if at.phase == "waits":
            return self.put_at(state, node, self.first_of(node)) if self.may_begin(state, node) else None
        if at.phase == "children":
            return self.put_at(state, node, At("after")) if self.are_over(state, self.plan.children[node]) else None
        if at.phase not in ("before", "after"):
            return None
        calls = self.plan.calls[node][at.phase]
        if at.call < len(calls):
            return self.put_at(state, node, At(at.phase, at.call + 1)) if at.step >= len(calls[at.call]) else None
        if at.phase == "after":
            return self.closed(state, node)
        return self.put_at(state, node, At("after" if self.plan.is_test[node] else "children"))

    def first_of(self, node):
        return At("locks" if self.plan.is_test[node] and self.takes_locks else "before")

    def are_over(self, state, nodes):
        return all(state.at[node].phase in OVER for node in nodes)

    def may_begin(self, state, node):
        """A container's concurrent children begin at once, and the others one after the other when those have ended."""
        parent, is_concurrent = self.plan.parents[node], self.plan.is_concurrent
        if parent is None:
            return True
        if state.at[parent].phase != "children":
            return False
        if is_concurrent[node] and not self.in_turn:
            return True
        order = (not is_concurrent[node], node)
        return self.are_over(state, [it for it in self.plan.children[parent] if (not is_concurrent[it], it) < order])

    def closed(self, state, node):
        """The state when the node has ended: the values in its context are closed, the one that was kept last first."""
        here = [entry for (context, _), entry in state.store.items() if context == node and entry.kind == "value" and entry.closeable]
        failed = sorted((entry for entry in here if entry.number), key=lambda entry: -entry.number)
        result = state.results[node]
        faults = result.faults + tuple(f"close {entry.text}" for entry in failed)
        result = result._replace(faults=faults, closed=len(here), close_faults=len(failed))
        store = {place: entry for place, entry in state.store.items() if place[0] != node}
        return State(store, put_in(state.at, node, At("ended")), put_in(state.results, node, result))

    def put_at(self, state, node, at):
        return state._replace(at=put_in(state.at, node, at))

    # ---- steps

    def moved(self, state, node):
        """The state when the node has made its next step, or taken its locks; nothing if it waits."""
        at = state.at[node]
        if at.phase == "locks":
            return self.put_at(state, node, At("before")) if self.are_free(state, node) else None
        step = self.step_at(node, at)
        if step.word in ("fail", "abort"):
            return self.failed(state, node, step.text, step.word)
        if at.claimed:
            return self.filled(state, node, step)
        if step.word in STORES:
            return self.stored(state, node, step)
        found = next((state.store[place] for place in ((it, step.key) for it in self.plan.paths[step.context]) if place in state.store), None)
        if found is not None and found.kind == "claim":
            return None
        return self.looked(state, node, step, found) if step.word in LOOKS else self.computed(state, node, step, found)

    def are_free(self, state, node):
        """Whether no test that runs has a lock against the test."""
        mine = self.plan.locks[node]
        held = [self.plan.locks[it] for it in self.plan.all if self.plan.is_test[it] and state.at[it].phase in ("before", "after")]
        return not any(name in mine and (writes or mine[name]) for locks in held for name, writes in locks.items())

    def stored(self, state, node, step):
        at = state.store.get((step.context, step.key))
        if at is not None and at.kind == "claim":
            return None
        store = without(state.store, step.context, step.key) if step.word == "remove" else with_value(state.store, step)
        return self.passed(state._replace(store=store), node)

    def looked(self, state, node, step, found):
        if found is None:
            seen = "none"
        else:
            seen = f"fault {found.text}" if found.kind == "fault" else f"got {found.text}"
        if seen == ("none" if step.word == "none" else f"got {step.text}"):
            return self.passed(state, node)
        named = f"none {step.key}" if step.word == "none" else f"want {step.key} {step.text}"
        return self.failed(state, node, f"{named}: {seen}")

    def computed(self, state, node, step, found):
        if found is None:
            claimed = {**state.store, (step.context, step.key): Entry("claim", "", False, 0)}
            return self.put_at(state._replace(store=claimed), node, state.at[node]._replace(claimed=True))
        if found.kind == "fault":
            is_wanted = step.word == "computefail" and found.text == step.text
            return self.passed(state, node) if is_wanted else self.failed(state, node, f"{step.word} {step.key}: fault {found.text}")
        state = self.counted(state, node, found=1)
        return self.failed(state, node, f"computefail {step.key}: got {found.text}") if step.word == "computefail" else self.passed(state, node)

    def filled(self, state, node, step):
        """The factory of the node's compute gives its value, or fails."""
        if step.word != "computefail":
            return self.passed(self.counted(state._replace(store=with_value(state.store, step)), node, computed=1), node)
        store = without(state.store, step.context, step.key)
        if self.plan.keeps_faults:
            store[step.context, step.key] = Entry("fault", step.text, False, 0)
        return self.passed(state._replace(store=store), node)

    def counted(self, state, node, computed=0, found=0):
        result = state.results[node]
        result = result._replace(computed=result.computed + computed, found=result.found + found)
        return state._replace(results=put_in(state.results, node, result))

    def passed(self, state, node):
        at = state.at[node]
        return self.put_at(state, node, At(at.phase, at.call, at.step + 1))

    def failed(self, state, node, text, word="fail"):
        """A failure before ends these calls and skips the nodes below; one after ends its own call."""
        at, result = state.at[node], state.results[node]
        result = result._replace(aborts=(*result.aborts, text)) if word == "abort" else result._replace(faults=(*result.faults, text))
        state = state._replace(results=put_in(state.results, node, result))
        if at.phase == "after":
            return self.put_at(state, node, At("after", at.call + 1))
        for below in (it for it in self.plan.all if node in self.plan.paths[it][1:]):
            state = self.put_at(state, below, At("skipped"))
        return self.put_at(state, node, At("after"))

    # ---- reports

    def report_of(self, state):
        """What is reported of each node."""
        return tuple(self.reported(state.at[node], state.results[node]) for node in self.plan.all)

    def reported(self, at, result):
        told = result.faults + result.aborts
        status = "failed" if result.faults else "aborted" if result.aborts else "skipped" if at.phase == "skipped" else "successful"
        return status, told[0] if told else None, max(len(told) - 1, 0), result.computed, result.found, result.closed, result.close_faults


MEMBERS = ("status", "fault", "more", "computed", "found", "closed", "close_faults")


def reports_of(plan, most):
    """The reports of all schedules of a plan, and that of its plain run."""
    return Schedules(plan, most).all_reports(), next(iter(Schedules(plan, most, in_turn=True).all_reports()))


def but_for_computed_and_found(report):
    """What is one but for computed and found: all other members, the sum of both for each node, and of each for all."""
    nodes = tuple((*node[:3], node[3] + node[4], *node[5:]) for node in report)
    return nodes, sum(node[3] for node in report), sum(node[4] for node in report)


def json_of(plan, report):
    """The lines of the report's nodes in JSON."""
    heads = [{"id": id_text, "test": is_test} for id_text, is_test in zip(plan.ids, plan.is_test)]
    return [json.dumps({**head, **dict(zip(MEMBERS, node))}, separators=(",", ":")) for head, node in zip(heads, report)]
