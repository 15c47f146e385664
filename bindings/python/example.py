#!/usr/bin/env python3
"""A tour of the package riichi_table: it trains nothing and shows everything. Each part is a cell."""
# %% A hand: its shanten, the nearest complete hand, its waits
from riichi_table import Refused, Table, hand, observe, replay, safe, selfplay

print(hand("1m 2m 3m 4p 5p 6p 7s 8s 9s E E P P"))
print(hand("1m 9m 1p 9p 1s 9s E S W N P 5m 5m"))

# %% A table: four seats, each asked in its turn, each told only what it may know
table = Table(seed=7)
for seat in table.awaited():
    seen = table.observe(seat)
    print(seat, [line["type"] for line in seen.lines], "may answer", seen.actions)
    table.step(seat, seen.actions[0])

# %% What breaks a rule is refused by its name, and the seat is asked again
try:
    table.step(0, {"type": "dahai", "actor": 0, "pai": "1m", "tsumogiri": False})
except Refused as fault:
    print(fault, "-", fault.rule)

# %% A player: it wins where it may, riichi where it may, else it calls nothing and discards the first tile


def answer(kinds: list[str]) -> int:
    """The number of a win, or of the first that is no call."""
    return next(kinds.index(kind) for kind in ("hora", "reach", "none", "dahai") if kind in kinds)


turn = table.turn()
while turn is not None:
    turn = table.choose(turn, answer([action["type"] for action in table.observe(turn).actions]))
print("deeds", table.deeds, "points", table.points())

# %% Its record: checked, summed up, and seen by a watcher without tiles
record = table.record()
print(replay(record))
print(observe(record).splitlines()[2][:100])
table.close()

# %% Which tiles are safe to discard, and why; and a game between four built-in players
arrivals = [line for line in record.splitlines() if line.startswith(("game ", "wall "))]
arrivals += [f'sit {{"type":"join","name":"{name}"}}' for name in "abcd"]
arrivals += [f'say {seat} {{"type":"none"}}' for _ in ("start of the game", "start of the hand") for seat in range(4)]
print(safe(0, "\n".join([*arrivals, ""])))
print(selfplay(7))

# %% A turn-based environment, in PettingZoo's form
from riichi_table.aec import RiichiEnv  # noqa: E402

env = RiichiEnv(red=False)
env.reset(seed=1)
total = dict.fromkeys(env.possible_agents, 0.0)
for agent in env.agent_iter():
    observation, reward, termination, truncation, info = env.last()
    total[agent] += reward
    env.step(None if termination or truncation else env.action_space(agent).sample(observation["action_mask"]))
print(total)
