"""A premise of a Primary's laws that no run meets is found: a law under it would say nothing. The
rules stand for the program.
"""
import json
import unittest
from typing import Any
from unittest import mock

from uptane_tools.oracle.reference import REPOSITORIES, ROLES
from uptane_tools.trial import premises, proved_rounds


def ruled(tried: Any, vehicle: Any, trust: dict[str, Any], served: dict[str, Any]) -> tuple:
    """What the program has to say, by the rules."""
    verdict, why, due, known = tried.wanted(vehicle, trust, served)
    state = {}
    for it in REPOSITORIES:
        roots = [trust[it]["root"], *served[it + "_roots"]]
        named = {json.loads(text)["signed"]["version"]: text for text in reversed(roots)}
        state[it] = {"root": named[known[it]["root"]["version"]]} | known[it]["versions"]
    return verdict, " ".join(map(str, why)), due, state


def of_all_signatures(met: premises.Met, text: str, stolen: set[str], texts: dict[str,
                                                                                  str]) -> bool:
    """That nobody else could sign any text by a key that isn't stolen. Each text has a valid
    signature by each key, so it holds where all are stolen.
    """
    return stolen >= {
        key for it in REPOSITORIES for root in premises.roots(texts, it) for role in ROLES
        for key in root[role]["keys"]}


@mock.patch.object(proved_rounds.Tried, "answers", ruled)
class Premises(unittest.TestCase):
    """What is told of lists in which a premise is another one."""

    def unmet(self) -> list[str]:
        """What isn't as it must be."""
        return [name for name, well in proved_rounds.cases("", 1, 3) if not well]

    def test_each_is_met(self) -> None:
        self.assertEqual(self.unmet(), [])

    def test_one_over_all_signatures_is_found(self) -> None:
        with mock.patch.object(premises.Met, "is_unforged", of_all_signatures):
            found = self.unmet()
        self.assertIn("all premises of what a thief serves as image: met 0 times", found)
        self.assertIn("all premises of what a thief serves as director: met 0 times", found)

    def test_one_of_a_round_is_found(self) -> None:
        with mock.patch.object(premises.Met, "knows_keys", lambda met, texts: False):
            self.assertIn("KnowsKeys of a round: met 0 times", self.unmet())
