"""A table as a turn-based environment in PettingZoo's AEC form.

    env = RiichiEnv()
    env.reset(seed=7)
    for agent in env.agent_iter():
        observation, reward, termination, truncation, info = env.last()
        env.step(None if termination or truncation else env.action_space(agent).sample(observation["action_mask"]))

A seat is asked only where it can do more than pass, and where it alone can go on; the other seats pass by themselves. An action is a number: the
place of an answer in `info["actions"]`, the answers that the seat may give, of which there are at most ACTIONS; the mask says which places hold
one. An observation has the lines that the seat was told since it was asked last. A reward is the change of the seat's points since then. Once
the game has ended each seat is asked once more, and steps by None.
PettingZoo and Gymnasium are used where they are there (`RiichiEnv` is then an `AECEnv`, and masks are arrays of numpy), and not needed.
"""
from __future__ import annotations

import importlib
import operator
import random
from typing import Any, Iterator

from .table import Observation, Table


def _named(module: str, name: str, otherwise: Any) -> Any:
    try:
        return getattr(importlib.import_module(module), name)
    except ImportError:
        return otherwise


ACTIONS = 128
"""The size of the action space. (A turn has fewer than 100 answers: 14 discards marked or not, and kans, a riichi, a win.)"""

AGENTS = ["seat_0", "seat_1", "seat_2", "seat_3"]


class Discrete:
    """The actions 0 to n - 1, for where Gymnasium isn't there."""

    def __init__(self, n: int) -> None:
        self.n = n

    def contains(self, action: object) -> bool:
        """Whether the action is one of them."""
        return isinstance(action, int) and 0 <= action < self.n

    def sample(self, mask: Any = None) -> int:
        """A random one of those that the mask allows."""
        return random.choice([action for action in range(self.n) if mask is None or mask[action]])


_Base: Any = _named("pettingzoo", "AECEnv", object)
_Space: Any = _named("gymnasium.spaces", "Space", object)
# (Gymnasium's spaces take masks as arrays)
_array: Any = list if _Space is object else _named("numpy", "array", list)


def _mask_of(choices: int) -> Any:
    bits = [1] * choices + [0] * (ACTIONS - choices)
    return bits if _array is list else _array(bits, dtype="int8")


class Observations(_Space):  # type: ignore[misc]
    """What may be observed: lines of mjai, which have no fixed size, and the mask of the actions."""

    def contains(self, seen: Any) -> bool:
        """Whether it has both."""
        return isinstance(seen, dict) and set(seen) == {"observation", "action_mask"} and len(seen["action_mask"]) == ACTIONS


class RiichiEnv(_Base):  # type: ignore[misc]
    """One game, asked seat by seat."""

    metadata = {"name": "riichi_table_v1", "is_parallelizable": False, "render_modes": []}

    def __init__(self, **rules: Any) -> None:
        """The rules are those of Table: limit, draws, red and walls."""
        self._rules = rules
        self._actions = _named("gymnasium.spaces", "Discrete", Discrete)(ACTIONS)
        self._observations = Observations()
        self.possible_agents = list(AGENTS)
        self.agents: list[str] = []
        self.table: Table | None = None

    def action_space(self, agent: str) -> Any:
        """The numbers that an action may have."""
        return self._actions

    def observation_space(self, agent: str) -> Any:
        """The forms that an observation may have."""
        return self._observations

    @property
    def num_agents(self) -> int:
        """How many agents are still there."""
        return len(self.agents)

    @property
    def max_num_agents(self) -> int:
        """How many agents there are at most."""
        return len(self.possible_agents)

    def reset(self, seed: int | None = None, options: dict[str, Any] | None = None) -> None:
        """A new game with the walls of a seed."""
        self.close()
        self.table = Table(0 if seed is None else seed, **{**self._rules, **(options or {})})
        self.agents = list(AGENTS)
        self.rewards = dict.fromkeys(AGENTS, 0.0)
        self._cumulative_rewards = dict.fromkeys(AGENTS, 0.0)
        self.terminations = dict.fromkeys(AGENTS, False)
        self.truncations = dict.fromkeys(AGENTS, False)
        self.infos: dict[str, dict[str, Any]] = {agent: {"actions": ()} for agent in AGENTS}
        self._points = self.table.points()
        self._seen = dict.fromkeys(AGENTS, Observation())
        self._select(self.table.turn())

    def step(self, action: int | None) -> None:
        """The selected agent gives the answer of this number; None where its game is over."""
        agent = self.agent_selection
        if self.terminations[agent]:
            self._leave(agent, action)
            return
        assert self.table is not None
        # (an integer of numpy too)
        action = None if action is None else operator.index(action)
        if action is None or not 0 <= action < self._choices:
            raise ValueError(f"{action} is masked: the seat may give {self._choices} answers")
        self._cumulative_rewards[agent] = 0.0
        self._select(self.table.choose(AGENTS.index(agent), action))

    def observe(self, agent: str) -> dict[str, Any]:
        """What the agent was told since it was asked last, and the mask of the actions."""
        count = self._choices if agent == self.agent_selection else 0
        return {"observation": self._seen[agent].lines, "action_mask": _mask_of(count)}

    def last(self, observe: bool = True) -> tuple[Any, float, bool, bool, dict[str, Any]]:
        """What stands for the selected agent."""
        agent = self.agent_selection
        seen = self.observe(agent) if observe else None
        return seen, self._cumulative_rewards[agent], self.terminations[agent], self.truncations[agent], self.infos[agent]

    def agent_iter(self, max_iter: int = 1 << 62) -> Iterator[str]:
        """The agents in the order in which they are asked, to the game's end."""
        while self.agents and max_iter > 0:
            max_iter -= 1
            yield self.agent_selection

    def render(self) -> None:
        """Nothing is drawn."""

    def close(self) -> None:
        """The table is closed."""
        if self.table is not None:
            self.table.close()
            self.table = None

    def _select(self, seat: int | None) -> None:
        assert self.table is not None
        self._reward()
        if seat is None:
            self._end()
            return
        agent = AGENTS[seat]
        seen = self.table.observe(seat)
        self._choices = self.table.choices(seat)
        self._seen[agent] = seen
        self.infos[agent] = {"actions": seen.actions}
        self.agent_selection = agent

    def _reward(self) -> None:
        assert self.table is not None
        points = self.table.points()
        for agent, now, before in zip(AGENTS, points, self._points):
            self.rewards[agent] = float(now - before)
            self._cumulative_rewards[agent] += now - before
        self._points = points

    def _end(self) -> None:
        assert self.table is not None
        self._choices = 0
        for seat, agent in enumerate(AGENTS):
            self._seen[agent] = Observation(self.table.observe(seat).texts)
            self.infos[agent] = {"actions": ()}
            self.terminations[agent] = True
        self.agent_selection = self.agents[0]

    def _leave(self, agent: str, action: int | None) -> None:
        if action is not None:
            raise ValueError(f"{agent} has no action any more but None")
        self.agents.remove(agent)
        all_kept: list[dict[str, Any]] = [self.rewards, self._cumulative_rewards, self.terminations, self.truncations, self.infos]
        for kept in all_kept:
            del kept[agent]
        self.rewards = dict.fromkeys(self.agents, 0.0)
        if self.agents:
            self.agent_selection = self.agents[0]
        else:
            self.close()
