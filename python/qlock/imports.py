"""Coteries from the files of systems that run. `python3 -m qlock import KIND FILE` writes one.

A reader for each kind (`zoo`, `etcd`, `nodetool`, `zones`) takes the text of a file, and returns who votes: a `Roster`. There
is one rule for all, `quorums_of`: a majority of the votes in each of a majority of the groups (Kumar 1991). `coterie_of` writes
the coterie's text.
"""
import json
import re
from collections import Counter
from itertools import accumulate, islice, product
from typing import Any, Callable, Dict, Iterable, Iterator, List, Mapping, NamedTuple, Sequence, Tuple

from .plans import Quorum

MOST_VOTERS = 64
MOST_QUORUMS = 4096
_NAME_BYTES = 64
_FEW = 'docs/choosing.md has coteries with few quorums, as "cyclic N"'


class ImportFault(ValueError):
    """A file gives no coterie. Each reason has a class of its own."""


class NotText(ImportFault):
    """The file is not UTF-8."""


class NotJson(ImportFault):
    """The text is not JSON."""


class MissingKey(ImportFault):
    """Something in the JSON has no such key, or its value is of another kind."""


class BadLine(ImportFault):
    """This line is not in the format of the file."""


class RepeatedKey(ImportFault):
    """An earlier line has the same key as this one."""


class NoVoters(ImportFault):
    """Nobody in the file has a vote."""


class NoGroup(ImportFault):
    """There are groups or weights, and this server is in no group."""


class TwoGroups(ImportFault):
    """This server is in more than one group, or twice in one."""


class UnknownServer(ImportFault):
    """A group lists this server, which the file does not have, or which is an observer."""


class NoZone(ImportFault):
    """This node has no zone."""


class RepeatedName(ImportFault):
    """Two voters have this name, once each character that a name can't have is a `-`."""


class TooManyVoters(ImportFault):
    """There are more than 64 voters."""


class TooManyQuorums(ImportFault):
    """There are more than 4096 quorums."""


class Member(NamedTuple):
    """One who votes."""

    name: str
    votes: int = 1
    """how many votes it has in its group"""


class Roster(NamedTuple):
    """Who votes in a system, and by which rule."""

    rule: str
    """who votes, and what a quorum is, in words"""
    groups: Sequence[Sequence[Member]]
    """the voters, group by group: without groups all are in one. Each has a vote at least"""
    notes: Sequence[str] = ()
    """what else the file says of them"""


def name_of(text: str) -> str:
    """Returns the name of a voter: each character that a name can't have becomes a `-`, and 64 of them stay."""
    return re.sub(r"[^A-Za-z0-9_.:-]", "-", text)[:_NAME_BYTES] or "-"


def majorities(votes: Sequence[int]) -> Iterator[Tuple[int, ...]]:
    """Returns the minimal sets with more than half of the votes, each as ascending places. Who has most votes comes first, so
    whoever passes the half is one of those with the fewest votes in its set, and the set is minimal."""
    order = sorted(range(len(votes)), key=lambda place: -votes[place])
    # left[seen] is the votes of all but those of so many first places of the order
    left = [*accumulate((votes[place] for place in reversed(order)), initial=0)][::-1]

    def grown(chosen: Tuple[int, ...], got: int, seen: int) -> Iterator[Tuple[int, ...]]:
        if 2 * got > left[0]:
            yield tuple(sorted(chosen))
        elif 2 * (got + left[seen]) > left[0]:
            place = order[seen]
            yield from grown((*chosen, place), got + votes[place], seen + 1)
            yield from grown(chosen, got, seen + 1)

    return grown((), 0, 0)


def quorums_of(groups: Sequence[Sequence[int]]) -> Iterator[Quorum]:
    """Returns the sets with a majority of the votes in each of a majority of the groups. A group is the votes of its voters, who
    are numbered group by group. Of a group with more than 4096 majorities only so many are there, and one more."""
    first = [0, *accumulate(map(len, groups))]
    sides = [[*islice(majorities(votes), MOST_QUORUMS + 1)] for votes in groups]
    for chosen in majorities([1] * len(groups)):
        for parts in product(*(sides[group] for group in chosen)):
            yield tuple(first[group] + place for group, part in zip(chosen, parts) for place in part)


def _checked_names(roster: Roster) -> List[str]:
    names = [member.name for group in roster.groups for member in group]
    if not names:
        raise NoVoters("nobody in the file has a vote")
    if len(names) > MOST_VOTERS:
        raise TooManyVoters(f"{len(names)} voters, and a coterie has at most {MOST_VOTERS}. Choose some of them; {_FEW}")
    for name, voters in Counter(names).items():
        if voters > 1:
            raise RepeatedName(f"{voters} voters have the name {name}")
    return names


def _checked_quorums(roster: Roster, voters: int) -> List[Quorum]:
    votes = [[member.votes for member in group] for group in roster.groups]
    quorums = [*islice(quorums_of(votes), MOST_QUORUMS + 1)]
    if len(quorums) > MOST_QUORUMS:
        raise TooManyQuorums(f"{voters} voters have more than {MOST_QUORUMS} quorums by the rule of the file. {_FEW}")
    return quorums


def _list_of(names: Iterable[str]) -> str:
    return "[" + ", ".join(f'"{name}"' for name in names) + "]"


def coterie_of(roster: Roster) -> str:
    """Returns the text of a coterie. Its first line is a comment with the rule."""
    names = _checked_names(roster)
    quorums = _checked_quorums(roster, len(names))
    lines = [f"# {roster.rule}: {len(names)} voters, {len(quorums)} quorums"]
    lines += [f"# {note}" for note in roster.notes]
    lines += [f"voters = {_list_of(names)}", "quorums = ["]
    lines += [f"  {_list_of(names[voter] for voter in quorum)}," for quorum in quorums]
    return "\n".join([*lines, "]\n"])


_NUMBER = "[0-9]{1,18}"
_VALUES = {"server": r"\S.*", "group": f"{_NUMBER}(?::{_NUMBER})*", "weight": _NUMBER}
# a key is apart from its value as in all properties of Java
_KEYS = {word: re.compile(rf"{word}\.({_NUMBER})(?:\s*[=:]\s*|\s+)({value})") for word, value in _VALUES.items()}


def _zoo_keys(text: str) -> Dict[str, Dict[int, str]]:
    """Returns the values of the lines server.N, group.N and weight.N, by these words and their numbers."""
    values: Dict[str, Dict[int, str]] = {word: {} for word in _KEYS}
    for number, line in enumerate(map(str.strip, text.splitlines()), 1):
        word = line.partition(".")[0]
        if word not in _KEYS:
            continue
        found = _KEYS[word].fullmatch(line)
        if not found:
            raise BadLine(f"line {number} is not in the format of a line {word}.N")
        if int(found[1]) in values[word]:
            raise RepeatedKey(f"line {number} has {word}.{found[1]} again")
        values[word][int(found[1])] = found[2]
    return values


def _is_observer(address: str) -> bool:
    """Returns whether a server has no vote, by the value of its line: HOST:PORT:PORT:ROLE;PORT, or several hosts with `|`."""
    return any(it.strip().lower().endswith(":observer") for it in address.partition(";")[0].split("|"))


def _check_groups(servers: Mapping[int, str], groups: Sequence[Sequence[int]]) -> None:
    """Checks that each server is in one group, and nobody else in any, as ZooKeeper does."""
    listed = Counter(server for group in groups for server in group)
    for server, times in listed.items():
        if server not in servers:
            raise UnknownServer(f"a group lists server {server}, and no voter has a line server.{server}")
        if times > 1:
            raise TwoGroups(f"the groups list server {server} {times} times")
    for server in servers:
        if server not in listed:
            raise NoGroup(f"server {server} is in no group, and there are groups or weights")


def _with_votes(groups: Iterable[Iterable[Member]]) -> List[List[Member]]:
    """Returns the groups without members that have no vote. A group without votes does not count."""
    kept = ([member for member in group if member.votes] for group in groups)
    return [group for group in kept if group]


def zoo(text: str) -> Roster:
    """Reads server.N, group.N and weight.N of ZooKeeper's zoo.cfg, or of the file that its dynamicConfigFile names."""
    keys = _zoo_keys(text)
    servers = {number: address for number, address in keys["server"].items() if not _is_observer(address)}
    weights = {number: int(weight) for number, weight in keys["weight"].items()}
    groups = [[int(number) for number in group.split(":")] for group in keys["group"].values()]
    rule = "ZooKeeper's servers, a majority"
    if groups or weights:
        _check_groups(servers, groups)
        rule += " of the weight in a majority of the groups"
    members = [[Member(f"server.{it}", weights.get(it, 1)) for it in group] for group in groups or [[*servers]]]
    notes = [f"server.{number} is {name_of(address.partition(';')[0])}" for number, address in servers.items()]
    return Roster(rule, _with_votes(members), notes)


def _json_of(text: str) -> Any:
    try:
        return json.loads(text)
    except (ValueError, RecursionError):
        raise NotJson("the text is not JSON") from None


def _found(value: Any, key: str, kind: type) -> Any:
    """Returns the value of a key, or `None` if there is none, or it is of another kind."""
    found = value.get(key) if isinstance(value, dict) else None
    return found if isinstance(found, kind) else None


def _field(value: Any, key: str, kind: type) -> Any:
    """Returns the value of a key, which has to be there."""
    found = _found(value, key, kind)
    if found is None:
        raise MissingKey(f'something in the JSON has no "{key}", or one of another kind')
    return found


def _etcd_member(member: Any) -> Member:
    """Returns a member. One that has not started yet has no name, so it gets its number, as etcdctl writes it."""
    return Member(name_of(_found(member, "name", str) or format(_field(member, "ID", int), "x")))


def etcd(text: str) -> Roster:
    """Reads what `etcdctl member list -w json` writes."""
    members = _field(_json_of(text), "members", list)
    voting = [_etcd_member(member) for member in members if not _found(member, "isLearner", bool)]
    return Roster("etcd's members without learners, a majority", [voting])


def _grouped(who: str, places: str, pairs: Sequence[Tuple[str, str]]) -> Roster:
    """Returns the roster of pairs of a place and a name. Fewer than three places are no groups: two have no majority but both."""
    groups: Dict[str, List[Member]] = {}
    for place, name in pairs:
        groups.setdefault(place, []).append(Member(name_of(name)))
    if len(groups) < 3:
        return Roster(f"{who}, a majority, as they have fewer than three {places}", [[Member(name_of(it)) for _, it in pairs]])
    return Roster(f"{who}, a majority in a majority of the {places}", [*groups.values()])


_CENTRE = re.compile(r"Datacenter:\s*(\S.*)")
_STATUS = re.compile(r"[UD?][A-Z?]\s+(?P<name>\S+)\s.*\s(?P<rack>\S+)")
_RING = re.compile(r"(?P<name>\S+)\s+(?P<rack>\S+)\s+(?:Up|Down|\?)\s+(?:Normal|Leaving|Joining|Moving)\s.*")


def _nodes(text: str) -> List[Tuple[str, str, str]]:
    """Returns the data centre, rack and address of each node, once: `nodetool ring` has a line for each of its tokens."""
    centre, nodes = "", []
    for line in map(str.strip, text.splitlines()):
        named, node = _CENTRE.fullmatch(line), _STATUS.fullmatch(line) or _RING.fullmatch(line)
        if named:
            centre = named[1]
        elif node:
            nodes.append((centre, node["rack"], node["name"]))
    return [*dict.fromkeys(nodes)]


def nodetool(text: str) -> Roster:
    """Reads what Cassandra's `nodetool status` or `nodetool ring` writes. Nodes that are down, join or leave count, too."""
    nodes = _nodes(text)
    if len({centre for centre, _, _ in nodes}) > 1:
        return _grouped("Cassandra's nodes", "data centres", [(centre, name) for centre, _, name in nodes])
    return _grouped("Cassandra's nodes", "racks", [(rack, name) for _, rack, name in nodes])


_ZONE = "topology.kubernetes.io/zone"


def _labelled(item: Any) -> Tuple[str, str]:
    """Returns the zone and the name of a node of Kubernetes."""
    metadata = _field(item, "metadata", dict)
    name, zone = _field(metadata, "name", str), _found(_found(metadata, "labels", dict), _ZONE, str)
    if not zone:
        raise NoZone(f"node {name_of(name)} has no label {_ZONE}")
    return zone, name


def _listed(text: str) -> Iterator[Tuple[str, str]]:
    """Returns the zone and the name of each line NAME ZONE. Empty lines don't count, nor does the heading of kubectl."""
    for number, words in enumerate(map(str.split, text.splitlines()), 1):
        if not words or words == ["NAME", "ZONE"]:
            continue
        if len(words) != 2:
            raise BadLine(f"line {number} is not a name and a zone")
        if words[1] == "<none>":
            raise NoZone(f"node {name_of(words[0])} has no zone")
        yield words[1], words[0]


def zones(text: str) -> Roster:
    """Reads what `kubectl get nodes -o json` writes, or lines NAME ZONE."""
    if text.lstrip().startswith("{"):
        return _grouped("nodes", "zones", [_labelled(item) for item in _field(_json_of(text), "items", list)])
    return _grouped("nodes", "zones", [*_listed(text)])


READERS: Dict[str, Callable[[str], Roster]] = {"zoo": zoo, "etcd": etcd, "nodetool": nodetool, "zones": zones}


def imported(kind: str, content: bytes) -> str:
    """Returns the text of the coterie in a file of this kind. Raises its fault: an `ImportFault`."""
    try:
        text = content.decode()
    except UnicodeDecodeError:
        raise NotText("the file is not UTF-8") from None
    return coterie_of(READERS[kind](text))
