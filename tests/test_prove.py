"""Tries bin/prove.py with crates that are only made up, and a proof that only waits."""
import threading
import time

from support.program import TOP, loaded

prove = loaded("prove", TOP / "bin" / "prove.py")


class Crate:
    def __init__(self, name, lines, *deps):
        self.name, self.lines, self.deps = name, lines, list(deps)

    def below(self):
        found = []
        for dep in self.deps:
            found += [it for it in [*dep.below(), dep] if it not in found]
        return found

    def count(self, _):
        return self.lines


def crates():
    tree = Crate("tree", 1000)
    words = Crate("words", 100)
    lexer = Crate("lexer", 500, tree)
    lint = Crate("lint", 900, tree, words)
    return Crate("tool", 100, lexer, lint)


def test_the_longest_chain_comes_first():
    plan = prove.Plan(crates())
    assert [it.name for it in plan.ready(set(), set())] == ["tree", "words"]
    done = {it for it in plan.crates if it.name in ("tree", "words")}
    assert [it.name for it in plan.ready(done, done)] == ["lint", "lexer"]


def test_the_rest_is_what_two_jobs_take():
    plan = prove.Plan(crates())
    cost = {it.name: plan.cost[it] for it in plan.crates}
    # words ends beside tree, lexer beside lint
    wanted = cost["tree"] + cost["lint"] + cost["tool"]
    assert abs(plan.remaining(set(), {}, 2) - wanted) < 1e-9
    assert abs(plan.remaining(set(), {}, 1) - sum(cost.values())) < 1e-9


def run(jobs, fails=()):
    """Returns whether all are proved, the names in the order of their ends, and the most at one time."""
    lock, ended, now, most = threading.Lock(), [], [], [0]

    def prove_one(crate):
        with lock:
            assert all(dep.name in ended for dep in crate.deps)
            now.append(crate)
            most[0] = max(most[0], len(now))
        time.sleep(0.02)
        with lock:
            now.remove(crate)
            ended.append(crate.name)
        return crate.name not in fails, f"{crate.name} said\n"

    return prove.prove_all(prove.Plan(crates()), jobs, prove_one), ended, most[0]


def test_each_crate_follows_those_below_it(capsys):
    is_well, ended, most = run(2)
    assert is_well and sorted(ended) == ["lexer", "lint", "tool", "tree", "words"] and most == 2
    out, err = capsys.readouterr()
    assert "== tree\ntree said\n" in out
    assert err.startswith("resb: 0:00: 0 of 5 crates proved, at work on tree, words\n")
    assert "4 of 5 crates proved, at work on tool; about 0 min left" in err


def test_nothing_begins_after_a_failure(capsys):
    is_well, ended, _ = run(1, fails=["lint"])
    assert not is_well and "tool" not in ended and ended[-1] == "lint"
