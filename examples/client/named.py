"""An application by names: components by their paths, types and slots by their names, over the requests of a tool."""
import tool
import wire


class Named:
    """What a tool added, by path. A path has the names on the way down from the App: `living/valve`; the App's is ``.
    A slot is a path, a point and a name: `living/valve.out`."""

    def __init__(self, over, schema):
        self.tool, self.schema = over, schema
        self.known = {"": (tool.APP, schema.type("sys::App"))}

    def add(self, path, type_name, **config):
        """Adds a component of a type, as `math::Add2`; what is not given begins as its type says."""
        parent, _, name = path.rpartition("/")
        type_ = self.schema.type(type_name)
        new = self.tool.add(self.known[parent][0], type_.kit.number, type_.number, name, type_.config(**config))
        self.known[path] = new, type_

    def place(self, slot):
        """The id and the number of a slot."""
        path, _, name = slot.rpartition(".")
        component, type_ = self.known[path]
        return component, type_.slot(name).number

    def slot(self, slot):
        path, _, name = slot.rpartition(".")
        return self.known[path][1].slot(name)

    def link(self, source, target):
        self.tool.link(self.place(source), self.place(target))

    def write(self, slot, value):
        component, number = self.place(slot)
        self.tool.write_slot(component, number, self.slot(slot).kind, str(value))

    def invoke(self, slot, value=None):
        """Runs an action, with a value where it takes one."""
        argument = b"" if value is None else wire.write_value(self.slot(slot).kind, str(value))
        self.tool.invoke(*self.place(slot), argument)

    def clear(self, path):
        self.tool.clear(self.known[path][0])
