"""Why a coterie or a plan was refused: a class for each fault, named as in its line. `qlock-show explain CODE` explains it."""
from typing import Dict, Type

from .faults import Refused


class CoterieRefused(Refused):
    """The text describes no coterie."""


class PlanRefused(Refused):
    """The text is not that of an optimal plan of the coterie."""


class NotToml(CoterieRefused):
    """The text is not a TOML document."""

    code = "F1"


class Keys(CoterieRefused):
    """A key is missing, or unknown, or its value is of the wrong kind."""

    code = "F2"


class BadName(CoterieRefused):
    """The text listed for this voter is not a name."""

    code = "F3"


class RepeatedName(CoterieRefused):
    """An earlier voter has the same name as this one."""

    code = "F4"


class UnknownName(CoterieRefused):
    """This quorum lists a name that no voter has."""

    code = "F5"


class RepeatedMember(CoterieRefused):
    """This quorum lists a name twice."""

    code = "F6"


class CapacityCount(CoterieRefused):
    """There are this many capacities, and another number of voters."""

    code = "F7"


class BadCapacity(CoterieRefused):
    """The capacity of this voter is not in 1 to 1000."""

    code = "F8"


class NoVoters(CoterieRefused):
    """There is no voter."""

    code = "E1"


class TooManyVoters(CoterieRefused):
    """There are more than 64 voters."""

    code = "E2"


class NoQuorums(CoterieRefused):
    """There is no quorum."""

    code = "E3"


class TooManyQuorums(CoterieRefused):
    """There are more than 4096 quorums."""

    code = "E4"


class EmptyQuorum(CoterieRefused):
    """This quorum has no member."""

    code = "E5"


class VoterOutOfRange(CoterieRefused):
    """This quorum has this member, which is not the number of a voter. No text has this fault."""

    code = "E6"


class Disjoint(CoterieRefused):
    """These two quorums have no common member."""

    code = "E7"


class Contained(CoterieRefused):
    """One of these two quorums is within the other, or they are equal."""

    code = "E8"


class WrongLength(PlanRefused):
    """There is not one weight for each quorum and one for each voter."""

    code = "P1"


class TooLarge(PlanRefused):
    """The quorums' weights or the voters' weights sum to more than 1,000,000."""

    code = "P2"


class Empty(PlanRefused):
    """All weights of the quorums are 0, or all weights of the voters."""

    code = "P3"


class NotOptimal(PlanRefused):
    """The weights are no certificate: the product of the first two numbers is not that of the others."""

    code = "P4"


class BadText(PlanRefused):
    """This line is missing or not in the format, or there is text after the last line."""

    code = "P5"


class WrongLoad(PlanRefused):
    """The load in the text is not the weights' load in lowest terms."""

    code = "P6"


class WrongCycle(PlanRefused):
    """The cycle's length in the text is not the sum of the quorums' weights."""

    code = "P7"


class NotOptimalRatio(PlanRefused):
    """The weights are no certificate for the voters' capacities."""

    code = "P8"


class WrongCapacity(PlanRefused):
    """The capacities in the text are not those of the coterie."""

    code = "P9"


class WrongBound(PlanRefused):
    """The bound in the text is not the weights' bound in lowest terms."""

    code = "P10"


class NoPlan(Refused):
    """No optimal plan of the coterie was found. `Plan.find(coterie, cycle=1000)` finds one whose load is near its bound."""

    code = "N1"

    @property
    def cause(self) -> str:
        """Why: the code of a fault of the search, as `S1`."""
        return self.line.split()[2]


KINDS: Dict[str, Type[Refused]] = {
    kind.code: kind
    for kind in (
        NotToml, Keys, BadName, RepeatedName, UnknownName, RepeatedMember, CapacityCount, BadCapacity, NoVoters, TooManyVoters,
        NoQuorums, TooManyQuorums, EmptyQuorum, VoterOutOfRange, Disjoint, Contained, WrongLength, TooLarge, Empty, NotOptimal,
        BadText, WrongLoad, WrongCycle, NotOptimalRatio, WrongCapacity, WrongBound, NoPlan,
    )
}


def refusal_of(line: str) -> Refused:
    """Returns the fault of a line, as `E7 Disjoint 0 1`."""
    return KINDS.get(line.split()[0], Refused)(line)
