"""Reads a specification as a tree. A node is a tuple, mostly with its kind in front; a name is its token."""

from .statements import StatementReader
from .tokens import Refused


class Reader(StatementReader):
    """Reads a specification from left to right."""

    def specification(self):
        self.must("specification")
        self.name()
        self.must(";")
        if self.may("default"):
            self.queue()
            self.must(";")
        if self.may("timescale"):
            self.name()
            self.must(";")
        parts = []
        while part := self.common():
            parts.append(part)
        self.must("initialize")
        self.must("begin")
        if not self.is_next("init"):
            raise Refused
        parts.append(("system", self.statement()))
        self.may(";")
        for spelled in ("end", ";", "end", "."):
            self.must(spelled)
        if not self.is_kind("end"):
            raise Refused
        return parts

    def queue(self):
        self.must("individual", "common")
        self.must("queue")

    def common(self):
        if self.is_next("const", "type"):
            return self.section()
        if self.may("channel"):
            return self.channel()
        if self.may("module"):
            return self.header()
        if self.may("body"):
            return self.body()
        if self.is_next("procedure", "pure", "function"):
            return self.routine()
        if self.may("modvar"):
            return ("modvars", self.while_names(self.modvar))
        return None

    def own(self):
        if self.may("ip"):
            return ("points", self.while_names(self.point))
        if self.is_next("var"):
            return self.section()
        if self.may("state"):
            names = self.names()
            self.must(";")
            return ("states", names)
        if self.may("stateset"):
            return ("statesets", self.while_names(self.stateset))
        return None

    def section(self):
        """A section of constants, types or variables."""
        if self.may("const"):
            return ("consts", self.while_names(self.constdef))
        if self.may("type"):
            return ("types", self.while_names(self.typedef))
        self.must("var")
        return ("vars", self.while_names(self.vardef))

    def constdef(self):
        name = self.name()
        self.must("=")
        value = self.constant()
        self.must(";")
        return name, value

    def typedef(self):
        name = self.name()
        self.must("=")
        text = self.typetext()
        self.must(";")
        return name, text

    def vardef(self):
        names = self.names()
        self.must(":")
        text = self.typetext()
        self.must(";")
        return names, text

    def typetext(self):
        if self.may("("):
            names = self.names()
            self.must(")")
            return ("enumeration", names)
        first = self.may("packed")
        if self.is_next("array"):
            first = first or self.next()
            self.open()
            self.must("array")
            self.must("[")
            index = self.several(self.typetext)
            self.must("]")
            self.must("of")
            of = self.typetext()
            self.close()
            return ("array", first, index, of)
        if self.is_next("record"):
            first = first or self.next()
            self.open()
            self.must("record")
            fields = [self.field()]
            while self.may(";"):
                if self.is_next("end"):
                    break
                fields.append(self.field())
            self.must("end")
            self.close()
            return ("record", first, fields)
        if self.is_next("set"):
            first = first or self.next()
            self.open()
            self.must("set")
            self.must("of")
            of = self.typetext()
            self.close()
            return ("set", first, of)
        return self.refuse() if first else self.shorttype()

    def field(self):
        names = self.names()
        self.must(":")
        return names, self.typetext()

    def params(self):
        if not self.may("("):
            return []
        parts = self.several(self.param, ";")
        self.must(")")
        return parts

    def param(self):
        names = self.names()
        self.must(":")
        return names, self.shorttype()

    def channel(self):
        name = self.name()
        self.must("(")
        roles = [self.name()]
        self.must(",")
        roles.append(self.name())
        self.must(")")
        self.must(";")
        by = []
        while self.may("by"):
            named = [self.name()]
            if self.may(","):
                named.append(self.name())
            self.must(":")
            by.append((named, self.while_names(self.interaction)))
        return ("channel", name, roles, by) if by else self.refuse()

    def interaction(self):
        name = self.name()
        params = self.params()
        self.must(";")
        return name, params

    def header(self):
        name = self.name()
        attribute = self.must("systemactivity", "activity")
        params = self.params()
        self.must(";")
        sections = []
        while self.is_next("ip", "export"):
            if self.may("ip"):
                sections.append(("points", self.while_names(self.point)))
            else:
                self.must("export")
                sections.append(("exports", self.while_names(self.export)))
        self.must("end")
        self.must(";")
        return ("header", name, attribute.text == "systemactivity", params, sections)

    def export(self):
        names = self.names()
        self.must(":")
        text = self.shorttype()
        self.must(";")
        return names, text

    def dims(self):
        """None, or the word `array` with the types."""
        array = self.may("array")
        if not array:
            return None
        self.must("[")
        types = self.several(self.shorttype)
        self.must("]")
        self.must("of")
        return array, types

    def point(self):
        names = self.names()
        self.must(":")
        dims = self.dims()
        channel = self.name()
        self.must("(")
        role = self.name()
        self.must(")")
        if not self.is_next(";"):
            self.queue()
        self.must(";")
        return names, dims, channel, role

    def modvar(self):
        names = self.names()
        self.must(":")
        dims = self.dims()
        header = self.name()
        self.must(";")
        return names, dims, header

    def stateset(self):
        name = self.name()
        self.must("=")
        self.must("[")
        states = self.names()
        self.must("]")
        self.must(";")
        return name, states

    def body(self):
        self.place -= 1
        self.open()
        self.must("body")
        name = self.name()
        self.must("for")
        header = self.name()
        self.must(";")
        parts = []
        while part := self.common() or self.own():
            parts.append(part)
        first, first_state = None, None
        if self.may("initialize"):
            if self.may("to"):
                first_state = self.name()
            first = self.block()
            self.must(";")
        groups = []
        while self.may("trans"):
            group = [self.transition()]
            while not self.is_next("trans", "end"):
                group.append(self.transition())
            groups.append(group)
        self.must("end")
        self.must(";")
        self.close()
        return ("body", name, header, parts, first_state, first, groups)

    def routine(self):
        is_function = not self.may("procedure")
        if is_function:
            self.may("pure")
            self.must("function")
        name = self.name()
        formals = []
        if self.may("("):
            formals = self.several(self.formal, ";")
            self.must(")")
        result = None
        if is_function:
            self.must(":")
            result = self.name()
        self.must(";")
        block = self.block()
        self.must(";")
        return ("routine", is_function, name, formals, result, block)

    def formal(self):
        by_place = self.may("var")
        names = self.names()
        self.must(":")
        return by_place, names, self.name()

    def block(self):
        sections = []
        while self.is_next("const", "type", "var"):
            sections.append(self.section())
        begin = self.must("begin")
        statements = self.statements()
        self.must("end")
        return sections, begin, statements

    def transition(self):
        clauses = []
        while clause := self.clause():
            clauses.append(clause)
        if self.may("name"):
            self.name()
            self.must(":")
        block = self.block()
        self.must(";")
        return clauses, block

    def clause(self):
        """A clause with its word, or None."""
        word = self.may("from", "to", "when", "provided", "any", "priority", "delay")
        return (word.text, word, *getattr(self, "clause_" + word.text)()) if word else None

    def clause_from(self):
        return (self.names(),)

    def clause_to(self):
        return (None if self.may("same") else self.name(),)

    def clause_when(self):
        at = self.access()
        self.must(".")
        return at, self.name()

    def clause_provided(self):
        return (None if self.may("otherwise") else self.expr(),)

    def clause_any(self):
        parts = self.several(self.param, ";")
        self.must("do")
        return (parts,)

    def clause_priority(self):
        first = self.next()
        return first, self.constant()

    def clause_delay(self):
        self.must("(")
        bounds = [self.expr()]
        if self.may(",") and not self.may("*"):
            bounds.append(self.expr())
        self.must(")")
        return (bounds,)
