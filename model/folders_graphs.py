"""What the superiors of a board show, in words: whether they are parents, suppliers or both, and what circles they run
in."""


def way_of(steps, parents, links):
    """Whether these steps from a device to a superior are parents, links, or some of both."""
    if all(parents[device] == superior for device, superior in steps):
        return "parents"
    return "links" if all(step in links for step in steps) else "parents and links"


def shortest_circle(device, superiors):
    """The devices of the shortest circle through this one, from it on, or nothing."""
    came_from, row = {}, [device]
    for one in row:
        for superior in superiors[one]:
            if superior == device:
                circle = [one]
                while circle[-1] != device:
                    circle.append(came_from[circle[-1]])
                return circle[::-1]
            if superior not in came_from:
                came_from[superior] = one
                row.append(superior)
    return None


def circle_words(parents, pairs, named):
    """Of the shortest circle of all how long it is and what it is made of, and whether the named device is in one."""
    superiors = [set() if parent is None else {parent} for parent in parents]
    for consumer, supplier in pairs:
        superiors[consumer].add(supplier)
    found = [circle for circle in (shortest_circle(device, superiors) for device in range(len(parents))) if circle]
    least = min(found, key=len)
    length = {2: "two", 3: "three", len(parents): "all"}.get(len(least), "more")
    inside = "named" if shortest_circle(named, superiors) else "above the named one"
    way = way_of(list(zip(least, least[1:] + least[:1])), parents, set(pairs))
    return "a circle of %s through %s, %s" % (length, way, inside)


def superior_words(board):
    """What superiors there are, whether a link comes twice or says what the parent says, and how the order runs."""
    links = set(board.links)
    parents = [(device, parent) for device, parent in enumerate(board.parents) if parent is not None]
    kinds = " and ".join(filter(None, ["parents" if parents else "", "links" if links else ""])) or "no superiors"
    again = ", a link twice" * (len(links) < len(board.links)) + ", a link to the parent" * bool(links & set(parents))
    full = ", %d links" % len(board.links) * (len(board.links) > 254)
    n = len(board.order)
    order = "rising" if board.order == list(range(n)) else "falling" if board.order == list(range(n))[::-1] else "mixed"
    return kinds + again + full + ", order " + order
