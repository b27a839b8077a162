"""The table of service paths that the routes of all peers give, and what a lookup answers."""
import bgp

ANY = bytes(8)


class Routes:
    """The routes of all peers, each name of a peer by its last word."""

    def __init__(self):
        self.of = {}

    def apply(self, change):
        if change.all:
            self.of = {key: route for key, route in self.of.items() if key[0] != change.peer}
        for name in change.withdrawn:
            self.of.pop((change.peer, name), None)
        for name, route in change.announced:
            self.of[change.peer, name] = route


def accepted(setup, route):
    return not setup.targets or any(target in setup.targets for target in route.targets)


def lowest_peers(found):
    """Of each name the value of the peer with the lowest number."""
    lowest = {}
    for (peer, name), value in found:
        if name not in lowest or peer < lowest[name][0]:
            lowest[name] = peer, value
    return {name: value for name, (_, value) in lowest.items()}


def usable_instances(setup, routes):
    """The forwarder and the instance of each instance route that may be used, by its name."""
    numbers = {(instance.rd, instance.kind): number for number, instance in enumerate(setup.instances)}
    found = []
    for (peer, name), route in routes.of.items():
        usable = name[0] == bgp.SFIR and accepted(setup, route) and route.next_hop in setup.addresses
        if usable and name[1:] in numbers:
            found.append(((peer, name), (setup.addresses.index(route.next_hop), numbers[name[1:]])))
    return lowest_peers(found)


def paths(setup, routes):
    """Of each SPI the hops of the path route with the lowest RD."""
    named = [(key, route.hops) for key, route in routes.of.items() if key[1][0] == bgp.SFPR and accepted(setup, route)]
    chosen = {}
    for (_, rd, spi), hops in sorted(lowest_peers(named).items(), key=lambda pair: pair[0][1], reverse=True):
        chosen[spi] = hops
    return chosen


def choice(instances, spi, si, types):
    """The forwarder and the instance that serve a hop; None where it has no candidate."""
    candidates = sorted(
        ((name[2], name[1]), where) for name, where in instances.items()
        if any(kind == name[2] and (name[1] in rds or ANY in rds) for kind, rds in types))
    return candidates[(spi + si) % len(candidates)][1] if candidates else None


def table_of(setup, routes):
    """The hops of each path with their choices, by SPI."""
    instances = usable_instances(setup, routes)
    return {spi: [(si, choice(instances, spi, si, types)) for si, types in hops]
            for spi, hops in sorted(paths(setup, routes).items())}


def hop_for(rows, si):
    """The hop with the greatest service index not above the given one, or None."""
    return max((row for row in rows if row[0] <= si), key=lambda row: row[0], default=None)


def text(setup, version, table):
    lines = [f"version {version}"]
    for spi, rows in table.items():
        words = []
        for si, chosen in rows:
            words.append(f"{si}=none" if chosen is None
                         else f"{si}={setup.instances[chosen[1]].name}@{setup.forwarders[chosen[0]]}")
        lines.append(" ".join([f"path {spi}"] + words))
    return "".join(line + "\n" for line in lines)
