"""Lays out a graph in layers: where its boxes stand, and by which points its edges go.

An edge leads up, from a box to one of a layer above. In a layer that it only passes it has a place
of its own, so that it crosses no box, and right above its source a place for its label.
"""
from dataclasses import dataclass, field

GAP_X, GAP_Y, GAP_COMPONENTS = 26, 44, 40
SWEEPS, PASSES = 16, 24
LEAST_WIDTH, ASPECT = 960, 1.9


@dataclass(eq=False)
class Box:
    """A box of a size. A loop is drawn in the margin at its right."""

    item: object
    width: float
    height: float
    margin: float = 0
    x: float = 0
    y: float = 0

    @property
    def center(self):
        return self.x + self.width / 2


@dataclass(eq=False)
class Route:
    """An edge between boxes, with the size of its label."""

    item: object
    source: Box
    target: Box
    label_width: float = 0
    label_height: float = 0
    # Where it goes, from the source to the target, and where the middle of its label is.
    points: list = field(default_factory=list)
    label: tuple = (0, 0)
    # The places in the layers that it passes, from the lower box to the upper one.
    bends: list = field(default_factory=list)
    is_reversed: bool = False

    @property
    def lower(self):
        return self.target if self.is_reversed else self.source

    @property
    def upper(self):
        return self.source if self.is_reversed else self.target

    @property
    def is_loop(self):
        return self.source is self.target


class Component:
    """The boxes that are joined to each other, and the routes between."""

    def __init__(self, boxes, routes, most_width):
        self.boxes, self.routes = boxes, [one for one in routes if not one.is_loop]
        self.turn_cycles()
        self.rank(most_width)
        self.make_layers()
        self.order()
        self.place_x()
        self.place_y()
        self.draw()

    # ---- layers

    def turn_cycles(self):
        """Turns routes around, so that none leads back to where it comes from."""
        onward = {box: [] for box in self.boxes}
        for route in self.routes:
            onward[route.source].append(route)
        state = dict.fromkeys(self.boxes, 0)
        for box in self.boxes:
            stack = [(box, iter(onward[box]))] if not state[box] else []
            state[box] = state[box] or 1
            while stack:
                top, rest = stack[-1]
                route = next(rest, None)
                if route is None:
                    state[top] = 2
                    stack.pop()
                elif state[route.target] == 1:
                    route.is_reversed = True
                elif state[route.target] == 0:
                    state[route.target] = 1
                    stack.append((route.target, iter(onward[route.target])))

    def rank(self, most_width):
        """Gives each box its layer: below the boxes that it leads to, where there is room."""
        uppers = {box: {one.upper for one in self.routes if one.lower is box} for box in self.boxes}
        self.ranks, used, waiting = {}, {}, list(self.boxes)
        while waiting:
            ready = [box for box in waiting if uppers[box] <= self.ranks.keys()]
            box = min(ready, key=lambda one: self.highest(uppers[one]))
            rank = self.highest(uppers[box])
            room = box.width + GAP_X
            while used.get(rank, 0) and used[rank] + room > most_width:
                rank += 2
            used[rank] = used.get(rank, 0) + room
            self.ranks[box] = rank
            waiting.remove(box)
        self.pull_down()

    def highest(self, uppers):
        return max((self.ranks[one] + 2 for one in uppers), default=0)

    def pull_down(self):
        """Moves a box that leads nowhere to right above the first that leads to it."""
        for box in self.boxes:
            below = [self.ranks[one.lower] for one in self.routes if one.upper is box]
            leads = any(one.lower is box for one in self.routes)
            if below and not leads:
                self.ranks[box] = min(below) - 2

    def make_layers(self):
        """The layers from the top, with a place in each for the routes that pass it."""
        least = min(self.ranks.values())
        self.ranks = {box: rank - least for box, rank in self.ranks.items()}
        self.layers = [[] for _ in range(max(self.ranks.values()) + 1)]
        self.joins = []
        for box in self.boxes:
            self.layers[self.ranks[box]].append(box)
        for route in self.routes:
            self.bend(route)
        self.up = {box: [] for layer in self.layers for box in layer}
        self.down = {box: [] for layer in self.layers for box in layer}
        for lower, upper in self.joins:
            self.up[lower].append(upper)
            self.down[upper].append(lower)

    def bend(self, route):
        first, last = self.ranks[route.lower], self.ranks[route.upper]
        labelled = last + 1 if route.is_reversed else first - 1
        before = route.lower
        for rank in range(first - 1, last, -1):
            size = (route.label_width, route.label_height) if rank == labelled else (0, 0)
            bend = Box(None, *size)
            self.layers[rank].append(bend)
            route.bends.append(bend)
            self.joins.append((before, bend))
            before = bend
        self.joins.append((before, route.upper))

    # ---- order in the layers

    def order(self):
        """Orders each layer by where its neighbours stand, and keeps what crosses least."""
        best = self.crossings(), [list(layer) for layer in self.layers]
        for sweep in range(SWEEPS):
            is_down = sweep % 2 == 0
            layers = self.layers[1:] if is_down else self.layers[-2::-1]
            for layer in layers:
                self.order_layer(layer, self.up if is_down else self.down)
            crossings = self.crossings()
            if crossings < best[0]:
                best = crossings, [list(layer) for layer in self.layers]
        self.layers = best[1]

    def order_layer(self, layer, neighbours):
        places = {box: place for each in self.layers for place, box in enumerate(each)}
        def rank(box):
            near = [places[one] for one in neighbours[box]]
            return sum(near) / len(near) if near else places[box]
        layer.sort(key=rank)

    def crossings(self):
        """How many pairs of joins cross."""
        places = {box: place for each in self.layers for place, box in enumerate(each)}
        total = 0
        for layer in self.layers:
            ends = [places[one] for box in layer for one in sorted(self.up[box], key=places.get)]
            total += sum(a > b for at, a in enumerate(ends) for b in ends[at + 1 :])
        return total

    # ---- places

    def place_x(self):
        """Puts each box near the middle of its neighbours."""
        for layer in self.layers:
            at = 0
            for box in layer:
                box.x = at
                at += box.width + box.margin + GAP_X
        every = {box: self.up[box] + self.down[box] for box in self.up}
        for number in range(PASSES):
            near = self.up if number % 2 == 0 else self.down
            layers = self.layers if number % 2 == 0 else self.layers[::-1]
            for layer in layers:
                self.spread(layer, near if number < PASSES - 4 else every)
        least = min(box.x for layer in self.layers for box in layer)
        for box in self.up:
            box.x -= least

    def spread(self, layer, near):
        """Moves the boxes of a layer to where they are wanted, as near as their order and widths
        let them: neighbours that would overlap stand side by side around their middle."""
        blocks, offset = [], 0
        for box in layer:
            middles = [one.center for one in near[box]]
            wanted = sum(middles) / len(middles) if middles else box.center
            weight = 4 if box.item is None else max(len(middles), 0.2)
            block = [(wanted - box.width / 2 - offset) * weight, weight, [(box, offset)]]
            offset += box.width + box.margin + GAP_X
            while blocks and blocks[-1][0] / blocks[-1][1] > block[0] / block[1]:
                last = blocks.pop()
                block = [last[0] + block[0], last[1] + block[1], last[2] + block[2]]
            blocks.append(block)
        for total, weight, boxes in blocks:
            for box, offset in boxes:
                box.x = total / weight + offset

    def place_y(self):
        """Puts the layers one below the other. Where many routes pass there is more room."""
        at, self.tops, self.bottoms = 0, [], []
        for number, layer in enumerate(self.layers):
            height = max((box.height for box in layer), default=0)
            for box in layer:
                box.y = at
            self.tops.append(at)
            self.bottoms.append(at + height)
            joins = sum(len(self.down[box]) for box in layer)
            at += height + GAP_Y + min(60, 2 * joins)
        for box in self.up:
            if box.item is None:
                number = next(at for at, layer in enumerate(self.layers) if box in layer)
                box.y = (self.tops[number] + self.bottoms[number] - box.height) / 2
        self.width = max(box.x + box.width + box.margin for box in self.up)
        self.height = self.bottoms[-1]

    # ---- routes

    def draw(self):
        """The points of the routes. On the side of a box they stand apart from each other."""
        ports = {}
        for box in self.boxes:
            self.share(box, [one for one in self.routes if one.lower is box], ports, "lower")
            self.share(box, [one for one in self.routes if one.upper is box], ports, "upper")
        for route in self.routes:
            x, end_x = ports[route, "lower"], ports[route, "upper"]
            points = [(x, route.lower.y)]
            rank = self.ranks[route.lower]
            for bend in route.bends:
                rank -= 1
                points += [(bend.center, self.bottoms[rank]), (bend.center, self.tops[rank])]
            points += [(end_x, self.bottoms[self.ranks[route.upper]])]
            points += [(end_x, route.upper.y + route.upper.height)]
            labelled = route.bends[-1 if route.is_reversed else 0]
            route.label = labelled.center, labelled.y + labelled.height / 2
            route.points = points[::-1] if route.is_reversed else points

    def share(self, box, routes, ports, side):
        near = {one: one.bends[0 if side == "lower" else -1].center for one in routes}
        step = box.width / (len(routes) + 1)
        if len(routes) == 1:
            (route,) = routes
            inset = min(16, box.width / 2)
            ports[route, side] = min(max(near[route], box.x + inset), box.x + box.width - inset)
            return
        for place, route in enumerate(sorted(routes, key=near.get), 1):
            ports[route, side] = box.x + step * place


def components(boxes, routes):
    """The boxes that are joined, with the routes between, in the order of the first box."""
    group = {box: [box] for box in boxes}
    for route in routes:
        one, other = group[route.source], group[route.target]
        if one is not other:
            one += other
            group.update(dict.fromkeys(other, one))
    places = {box: place for place, box in enumerate(boxes)}
    for members in {id(each): each for each in group.values()}.values():
        own = set(members)
        yield sorted(members, key=places.get), [one for one in routes if one.source in own]


def laid_out(boxes, routes):
    """Places the boxes and routes. Gives the width and the height of the whole."""
    area = sum((box.width + box.margin + GAP_X) * (box.height + 2 * GAP_Y) for box in boxes)
    most = max([LEAST_WIDTH, (area * ASPECT) ** 0.5])
    made = [Component(*one, most) for one in components(boxes, routes)]
    made.sort(key=lambda one: (len(one.boxes) == 1, -one.height))
    most = max([most, *(one.width for one in made)])
    x = y = height = width = 0
    for one in made:
        if x and x + one.width > most:
            x, y, height = 0, y + height + GAP_COMPONENTS, 0
        move(one, x, y)
        x += one.width + GAP_COMPONENTS
        width, height = max(width, x - GAP_COMPONENTS), max(height, one.height)
    return width, y + height


def move(component, x, y):
    """Moves all that a component has."""
    for box in component.boxes:
        box.x, box.y = box.x + x, box.y + y
    for route in component.routes:
        route.points = [(one + x, other + y) for one, other in route.points]
        route.label = route.label[0] + x, route.label[1] + y
