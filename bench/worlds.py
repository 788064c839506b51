"""Worlds as texts (docs/CHECKPOINT.md), each with a room in which one player or more have links."""
from runs import folder

ROOT_OBJECT, WIZARD, ROOM, PLAYER = 1, 2, 3, 4
NOWHERE = -1


def literal(value):
    """A number, a text, or a list of such, as a program writes it. What is a literal already is made by `Literal`."""
    if isinstance(value, Literal):
        return value.text
    if isinstance(value, str):
        escaped = value.replace("\\", "\\\\").replace('"', '\\"')
        return f'"{escaped}"'
    if isinstance(value, list):
        return "{" + ", ".join(map(literal, value)) + "}"
    return str(value)


class Literal:
    """A value that is spelled already."""

    def __init__(self, text):
        self.text = text


class Thing:
    """An object: where it stands, what it defines, what it has of others' properties, and its verbs."""

    def __init__(self, name, parent=ROOT_OBJECT, location=NOWHERE, flags="000000"):
        self.name, self.parent, self.location, self.flags = name, parent, location, flags
        self.defines, self.values, self.verbs = {}, {}, []
        self.children, self.contents = [], []

    def verb(self, names, lines):
        """A verb that takes no objects, and can be called. Its lines are spelled as the server does it."""
        self.verbs.append((names, lines))


class World:
    """Objects by number, and links by number with their players."""

    def __init__(self):
        self.things, self.links = {}, {}
        self.put(0, Thing("System"))
        self.put(ROOT_OBJECT, Thing("Root", parent=NOWHERE))
        self.put(WIZARD, Thing("Wizard", flags="111000"))
        self.put(ROOM, Thing("Room"))
        self.enter(1, PLAYER, ROOM)

    @property
    def room(self):
        return self.things[ROOM]

    def put(self, number, thing):
        self.things[number] = thing
        return thing

    def enter(self, link, number, room):
        """A player with a link, in a room, who may do all."""
        self.links[link] = number
        self.put(number, Thing("Player", location=room, flags="111000"))

    def write(self, name):
        """Writes the text to a file, whose path it gives."""
        path = folder.file(name)
        with open(path, "w") as file:
            file.writelines(line + "\n" for line in self.lines())
        return path

    def lines(self):
        for thing in self.things.values():
            thing.children, thing.contents = [], []
        for number, thing in sorted(self.things.items()):
            if thing.parent != NOWHERE:
                self.things[thing.parent].children.append(number)
            if thing.location != NOWHERE:
                self.things[thing.location].contents.append(number)
        yield from ("MOO-CHECKPOINT 1", "next 1", f"greatest {max(self.things)}", "ending 0")
        yield f"links {len(self.links)}"
        for link, player in sorted(self.links.items()):
            yield f"link {link} #{player} 0"
        yield f"objects {len(self.things)}"
        for number, thing in sorted(self.things.items()):
            yield from self.object_lines(number, thing)
        yield from ("tasks 0", "end")

    def object_lines(self, number, thing):
        yield f"object {number}"
        yield f"name {literal(thing.name)}"
        yield f"owner #{WIZARD}"
        yield f"parent #{thing.parent}"
        yield f"location #{thing.location}"
        yield f"children {objects(thing.children)}"
        yield f"contents {objects(thing.contents)}"
        yield f"flags {thing.flags}"
        yield f"defines {literal(list(thing.defines))}"
        yield from self.slot_lines(thing)
        yield f"verbs {len(thing.verbs)}"
        for names, lines in thing.verbs:
            yield f"verb {literal(names)} #{WIZARD} xd none none none {len(lines)}"
            yield from lines

    def slot_lines(self, thing):
        """Slots in the order of the properties that the object defines, then its parent, and so on upwards."""
        own = [literal(value) for value in thing.defines.values()]
        inherited = [literal(thing.values[name]) if name in thing.values else "clear" for name in self.inherited(thing)]
        yield f"slots {len(own) + len(inherited)}"
        for value in own + inherited:
            yield f"slot #{WIZARD} r {value}"

    def inherited(self, thing):
        while thing.parent != NOWHERE:
            thing = self.things[thing.parent]
            yield from thing.defines


def objects(numbers):
    return "{" + ", ".join(f"#{number}" for number in numbers) + "}"


def loop(turns, body, before=()):
    """The lines of a verb: some statements, and then a loop."""
    return [*before, f"for i in [1..{turns}]", *(f"  {line}" for line in body), "endfor"]
