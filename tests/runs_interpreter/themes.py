"""Draws specifications of one theme: links, time, levels or values. Much of what they do is seen at their ports."""

import re

LINKS = """specification links; {default}
type digit = 0..9;
channel c(u, v);
  by u: go(a: integer); ask;
  by v: num(a: integer); left;
channel l(u, v);
  by u: d(a: integer);
  by v: r(a: integer);
channel o(u, v);
  by u: {orders};
  by v: ok(a: integer);
module m systemactivity;
  ip b: o(v) {queue}; p, p2: c(v) {queue}; aa: array [1..2] of c(v) {queue};
end;
module k activity(k: integer);
  ip q, q2: c(v) {queue}; z: array [1..2] of c(v) {queue}; x: l(u) {queue}; y: l(v) {queue};
  export e: integer; f: digit;
end;
module g activity;
  ip t, t2: c(v) {queue}; x: l(u) {queue}; y: l(v) {queue};
end;
body gb for g;
  {grandchild_first}
  trans when t.go begin output t.num(a + 1000) end;
  trans when t.ask begin output t2.left, t.left end;
  trans when t2.go begin output x.d(a), y.r(a + 1) end;
  trans when t2.ask begin output t.left end;
  trans when y.d begin output t.num(a + 2000) end;
  trans when x.r begin output t2.num(a + 3000) end;
end;
body kb for k;
  modvar w: g;
  ip i: l(u); j: l(v);
  initialize begin e := k; {child_first} end;
  trans when q.go {child_clause} begin output q.num(a + 100 * k); {child} end;
  trans when q.ask begin {child} end;
  trans when q2.go begin {child}; output x.d(a) end;
  trans when q2.ask begin {child}; output q2.left end;
  trans when z[2].ask begin {child}; output z[1].left, j.r(7) end;
  trans any h: 1..2 do when z[h].go begin output z[3 - h].num(a + h) end;
  trans when y.d begin e := a; output q.num(a + 10); {child} end;
  trans when x.r begin f := a; output y.r(a) end;
  trans when i.r begin output q2.num(a); output y.r(a) end;
end;
body mb for m;
  modvar v, w: k; s: array [1..2] of k;
  ip i, i2: l(v); j: l(u); h: array [1..2] of l(v) {queue};
  var n: integer;
  procedure drop(var g: integer); begin release v; g := 1 end;
  procedure turn(var g: integer; d: digit); begin for g := 1 to 3 do if g = d then release w end;
  procedure keep(var g: integer); begin output p.num(g); g := g + 1; output p.num(v.e) end;
  initialize begin n := 1; {first} end;
  {order_parts}
  trans when p.go begin output p.num(a) end;
  trans when p2.go begin output i.r(a), i2.r(a + 1) end;
  trans when p2.ask begin {order} end;
  trans when p.ask begin {order}; output p.left end;
  trans when aa[1].ask begin {order} end;
  trans any h: 1..2 do when aa[h].go {root_clause} begin output aa[h].num(a + h) end;
  trans when aa[2].go begin output h[1].r(a), j.d(a) end;
  trans when i.d begin output p.num(a + 7) end;
  trans when h[1].d begin output aa[1].num(a + 30), h[2].r(a) end;
  trans when i2.d begin output p2.num(a + 8), i2.r(5) end;
  trans when j.r begin output aa[1].num(a) end;
  trans when h[2].d begin output aa[2].num(a); {order} end;
end;
modvar x: m;
initialize begin init x with mb end;
end.
"""
TIME = """specification timed; {default}
channel c(u, v);
  by u: go(a: integer); ask;
  by v: num(a: integer); left;
module m systemactivity; ip p, p2: c(v) {queue}; end;
module k activity(k: integer); ip q: c(v) {queue}; export e: integer; end;
body kb for k;
  state s0, s1;
  initialize to s0 begin e := k end;
  trans when q.go begin e := a; output q.num(a + 100) end;
  {child_parts}
end;
body mb for m;
  state s0, s1, s2;
  stateset ends = [s1, s2];
  modvar v, w: k;
  var n, i: integer; b: boolean;
  function slow(n: integer): integer;
  begin slow := n; while n > 0 do n := n - 1 end;
  initialize to s{state} begin n := 1; i := 0; {first} end;
  {parts}
  trans when p.go begin i := a; output p.num(i) end;
  trans when p.ask to s0 begin output p.left end;
end;
modvar x: m;
initialize begin init x with mb end;
end.
"""
LEVELS = """specification levels;
type digit = 0..9; row = array [digit] of digit; pair = record a: digit; b: row end;
channel c(u, v);
  by u: go(a: integer); ask(b: row);
  by v: num(a: integer); line(b: row);
module m systemactivity; ip p: c(v); end;
module k activity(n: integer); end;
function down(n: integer): integer;
begin if n > 0 then down := down(n - 1) + 1 else down := {end} end;
function sum(r: row; n: integer): integer;
begin if n < 0 then sum := 0 else sum := sum(r, n - 1) + r[n] end;
function made: pair;
var d: digit;
begin made.a := {digit}; for d := 0 to {last} do made.b[d] := {element}; made.b[{digit}] := {remade} end;
body ka for k;
  procedure dive(n: integer);
  begin if n > 0 then dive(n - 1) else {leaf} end;
  initialize begin {leaf}; {leaf} end;
end;
body kb for k;
  modvar v: k;
  procedure dive(n: integer);
  begin if n > 0 then dive(n - 1) else {inner} end;
  initialize begin {inner}; {inner_dive} end;
end;
body mb for m;
  modvar v: k;
  var n: integer; r: row; d: digit;
  procedure dive(var g: integer; n: integer);
  begin g := g + 1; if n > 0 then dive(g, n - 1) else {end_statement} end;
  initialize begin n := 0; for d := 0 to 9 do r[d] := {element}; {first} end;
  trans when p.go provided {condition} begin n := a; {work}; output p.num(n) end;
  provided otherwise begin {work}; output p.num(- n) end;
  trans when p.ask begin output p.line(b), p.num(sum(b, {count})) end;
  trans priority 3 any i: 1..2; j: digit do provided (i + j = down({depth})) and (n < 3)
    begin n := n + 1; {work}; output p.line(r) end;
end;
modvar x: m;
initialize begin init x with mb end;
end.
"""


VALUES = """specification values;
const c = 3;
type hue = (red, green, blue); warm = red..green; digit = 0..9; near = -2..2; below = -9..-4; few = 5..7; only = c..c;
  letter = 'a'..'e'; sign = ' '..''''; yes = true..true; digits = set of digit; hues = set of warm; nears = set of near;
  letters = set of letter; bits = set of boolean; row = array [near] of {kind};
  pair = record a: {kind}; b, d: {kind} end;
  grid = array [warm, boolean] of {kind}; nest = record a: row; b: {kind}; e: pair end; deep = array [hue] of pair;
channel c1(u, v);
  by u: go{params}; ask{params}; in1;
  by v: num{params}; left{params}; out1;
  by u, v: both{params};
channel c2(u, v);
  by u: only1{params};
module m systemactivity;
  ip p: c1(v); q: c1(u); r: array [{index}] of c1(v); s: array [{index}, {index}] of c1(u);
    t: c2(u); w: array [{index}] of c2(v);
end;
body mb for m;
  {echoes}
end;
modvar x: m;
initialize begin init x with mb end;
end.
"""


class Theme:
    """Fills the gaps of a text."""

    def __init__(self, draw):
        self.draw = draw

    def one(self, text):
        """One of some choices, between bars, with its gaps filled."""
        return self.filled(self.draw.choice([choice.strip() for choice in text.split("|")]))

    def some(self, least, most, text, between="; "):
        return between.join(self.one(text) for _ in range(self.draw.randint(least, most)))

    def filled(self, text):
        """The text with something for each gap, which is a name between braces."""
        before, opened, rest = text.partition("{")
        if not opened:
            return text
        name, _, rest = rest.partition("}")
        return before + self.filled(getattr(self, "gap_" + name)()) + self.filled(rest)

    def written(self, text):
        return self.filled(text)

    def gap_default(self):
        return self.one("| | | default individual queue; | default common queue;")

    def gap_queue(self):
        return self.one("| | | | individual queue | individual queue | common queue")

    def gap_digit(self):
        return str(self.draw.randint(0, 4))

    def gap_two(self):
        return self.one("1 | 2 | 1 | 2 | n")


class Links(Theme):
    """Children that are begun, released and tied by orders that come in at a port."""

    count = 9

    def written(self, text):
        """The text without some transitions. Most of those that may meet a fault have others beside them."""
        lines = []
        for line in text.split("\n"):
            # What nothing awaits stays in its queue, until that is moved.
            if line.startswith("  trans when") and self.draw.random() < (0.5 if "when p." in line else 0.3):
                continue
            lines.append(line)
            is_risky = "{order}" in line or "{child}" in line
            if is_risky and "begin" in line and "trans" in line and self.draw.random() < 0.9:
                lines.append(line[: line.index("begin")].replace("{child_clause}", "") + "begin end;")
        return self.filled("\n".join(lines))

    def gap_orders(self):
        return "; ".join(f"o{number}" for number in range(self.count))

    def gap_module(self):
        return self.one("v | v | v | w | s[{two}]")

    def gap_point(self):
        return self.one("p | p | p | p2 | aa[{two}]")

    def gap_childs(self):
        return self.one("q | q | q | q2 | z[{two}]")

    def gap_link(self):
        return self.one("""attach {point} to {module}.{childs} | attach {point} to {module}.{childs}
            | connect i to {module}.x | connect {module}.x to i2 | connect j to {module}.y
            | connect h[{two}] to {module}.x
            | connect v.x to w.y | connect {module}.x to {module}.y | connect i to j | connect h[{two}] to j""")

    def gap_untie(self):
        return self.one("""detach {point} | detach {module} | detach {module}.{childs} | disconnect {module}
            | disconnect i | disconnect {module}.x | disconnect j | disconnect {point}""")

    def gap_order(self):
        return self.one("""{link} | {link} | {link} | {link} | {link} | {link} | {untie} | {untie}
            | {untie} | release {module}
            | init {module} with kb({digit}) | init {module} with kb({digit}); {link}; {link}
            | detach {point}; attach {point} to {module}.{childs}
            | init v with kb({digit}); attach {point} to v.{childs}
            | init w with kb({digit}); attach p to w.q; connect i to w.x | disconnect i; connect i to {module}.x
            | release v; init v with kb({digit}); attach {point} to v.{childs}
            | release w; init w with kb({digit}); {link}
            | detach p; attach p to {module}.q; output p.left | detach p; detach p2; attach p2 to {module}.q
            | all c: k do output p.num(c.e) | all c: k do detach c
            | all c: k do begin {kill}; output p.num(c.e) end
            | drop({place}) | turn({place}, {digit}) | keep({place}) | n := {module}.e
            | {module}.e := n + {digit}
            | {module}.f := n * {digit} | output {point}.num({module}.e + 50)
            | output i.r({digit}), h[{two}].r(3)
            | n := n mod 2 + 1 | for n := 1 to 2 do {link} | output j.d({digit})""")

    def gap_kill(self):
        return self.one("release c | release v | if c.e = {digit} then release w | connect c.x to i | detach c")

    def gap_place(self):
        return self.one("n | n | v.e | w.e | {module}.e")

    def gap_first(self):
        return self.one("""init v with kb(1); init w with kb(2); {link} | init v with kb(1) | init v with kb(1); {link}
            | init s[1] with kb(3); {link}
            | init v with kb(1); attach p to v.q; {order}
            | init v with kb(1); init w with kb(2); connect v.x to w.y; {order}
            | init v with kb(1); attach p to v.q; attach p2 to v.q2; connect i to v.x
            | init v with kb(1); init w with kb(2); attach p to v.q; attach p2 to w.q2;
              connect v.x to w.y; connect i to w.x
            | init v with kb(1); init w with kb(2); attach aa[1] to v.z[2]; attach p2 to w.q;
              connect w.x to i2; connect j to v.y
            | init s[1] with kb(1); init s[2] with kb(2); n := 1; attach p to s[n].q; n := 2; attach aa[n] to s[n].q2;
              connect h[2] to s[1].x""")

    def gap_order_parts(self):
        parts = []
        for number in range(self.count):
            text = f"trans when b.o{number} begin {{order}}; output b.ok({number}) end;"
            parts.append(self.filled(text))
            if self.draw.random() < 0.85:
                parts.append(f"trans when b.o{number} begin output b.ok(-1) end;")
        return "\n  ".join(parts)

    def gap_grandchild_first(self):
        return self.one("""| initialize begin output t.left end;
            | initialize begin output x.d(9), t2.num(8) end;""")

    def gap_child_first(self):
        return self.one("""| init w with gb | init w with gb; attach q to w.t
            | init w with gb; attach q2 to w.t; connect i to w.y
            | init w with gb; attach q to w.t | init w with gb; attach q to w.t; attach q2 to w.t2
            | init w with gb; connect j to w.x; attach z[2] to w.t2; attach q to w.t | output q.left
            | output x.d(4)""")

    def gap_child(self):
        return self.one("""| | init w with gb | init w with gb; attach q to w.t | attach q2 to w.t
            | attach z[1] to w.t2 | detach q
            | detach w | release w | connect i to w.y | disconnect i | output i.d(6) | output j.r(2)
            | e := e + 1
            | disconnect w.x | detach q2 | f := e""")

    def gap_root_clause(self):
        return self.one("| | provided a > 2 | provided v.e > 1 | provided n < 5")

    def gap_child_clause(self):
        return self.one("| | provided a > 1 | provided e < 5")


class Timed(Theme):
    """Delays, priorities and states, of an instance and its children."""

    def gap_state(self):
        return self.one("0 | 0 | 1")

    def gap_first(self):
        return self.one("""| init v with kb(1) | init v with kb(1); init w with kb(2)
            | init v with kb(1); attach p2 to v.q""")

    def gap_bound(self):
        return self.one("0 | 1 | 2 | 2 | 3 | 4 | n | i | slow(i) | slow(n) | n - i | 4 div i | v.e")

    def gap_delay(self):
        return self.one("delay({bound}) | delay({bound}, {bound}) | delay({bound}, *)")

    def gap_clauses(self):
        clauses = ["{delay}", "{from}", "{to}", "{provided}", "{priority}"]
        self.draw.shuffle(clauses)
        return " ".join(clauses)

    def gap_from(self):
        return self.one("| from s0 | from s1 | from ends | from s0, s1")

    def gap_to(self):
        return self.one("| to s0 | to s1 | to s2 | to same")

    def gap_provided(self):
        return self.one("""| | | provided n < 3 | provided i > 0 | provided b | provided 4 div i > 1
            | provided slow(n) < {digit}
            | provided v.e < 3""")

    def gap_priority(self):
        return self.one("| | priority 0 | priority 1 | priority 2")

    def gap_part(self):
        return self.one("""trans {clauses} begin {work} end; | trans {clauses} begin {work} end;
            | trans {clauses} begin {work} end; {clauses} begin {work} end;
            | trans {clauses} begin {work} end; provided otherwise begin {work} end;
            | trans when p2.go {priority} {provided} begin {work} end; provided otherwise begin {work} end;
            | trans any a: 0..2 do provided a = i {priority} begin {work}; i := a + 1 end;
            | trans {priority} any a: 1..2; e: boolean do from s1 provided n = a
              begin output p.num(a); {work} end;""")

    def gap_parts(self):
        return self.some(2, 4, "{part}", "\n  ")

    def gap_work(self):
        return self.one("""output p.num({digit}) | output p.num({digit}) | output p.left | n := n + 1
            | n := n + 1; output p.num(n)
            | i := n; output p2.num(i) | b := n > {digit} | i := i - 1 | v.e := v.e + 1
            | init w with kb({digit}) | release v
            | output p.num(v.e) | n := n div i |""")

    def gap_child_parts(self):
        return self.some(1, 3, """trans {child_delay} {child_provided} {from01} to s1 begin output q.num(e) end;
            | trans from s0 to s1 {priority} begin e := e + 1 end;
            | trans {child_delay} {priority} from s1 to s0 begin e := e - 1; output q.left end;""", "\n  ")

    def gap_child_delay(self):
        return self.one("| delay({digit}) | delay({digit}, {digit}) | delay(e, *)")

    def gap_child_provided(self):
        return self.one("| provided e < 3 | provided e > {digit}")

    def gap_from01(self):
        return self.one("| from s0 | from s1")


class Levels(Theme):
    """Routines and initialize parts that nest, and count statements."""

    def gap_depth(self):
        return self.one("0 | 1 | 2 | 3 | 29 | 30 | 31 | 32 | 33")

    def gap_end(self):
        return self.one("0 | 0 | n | 1 div n")

    def gap_leaf(self):
        return self.one("n := 1 | | n := down({depth}) | while n < 3 do n := n + 1 | begin begin end end")

    def gap_inner(self):
        return self.one("init v with ka(n - 1) | init v with ka({depth}) | n := down({depth}) |")

    def gap_inner_dive(self):
        return self.one("| dive({depth}) | dive(n)")

    def gap_end_statement(self):
        return self.one("n := 1 | init v with kb(n) | init v with ka(n) | begin begin end end")

    def gap_element(self):
        return self.one("d | 9 - d | d * d mod 10 | down(d) | 1")

    def gap_last(self):
        return self.one("9 | 9 | 9 | 3")

    def gap_remade(self):
        return self.one("{digit} | {digit} | {digit} | {digit} | made.a | made.b[0]")

    def gap_work(self):
        return self.one("""dive(n, {depth}) | dive(n, 2) | init v with {body}({depth}) | n := down({depth})
            | n := made.a | n := made.b[n mod 10] | r := made.b | n := sum(made.b, {count}) | r[made.a] := made.b[n]
            | r[n mod 10] := {digit}
            | n := sum(r, {count}) | case n of 0, 1: n := 5; 2: begin end; 3, 4, 5: n := 0 end
            | repeat n := n + 1 until n > {digit}
            | all e: digit do if e > n then n := n + 1 | for d := 3 downto {digit} do n := n + r[d]
            | n := n * n * n
            | dive(n, down({depth})) | n := r[n] | while n < {digit} do begin n := n + 1; ; end""")

    def gap_body(self):
        return self.one("ka | kb")

    def gap_first(self):
        return self.one("| {work} | {work}; {work}")

    def gap_condition(self):
        return self.one("""n > {digit} | down(n) < 3 | sum(r, n) > {digit} | 10 div n > 2 | odd(down({depth}))
            | made.b[n] > {digit} | made.a < 3""")

    def gap_count(self):
        return self.one("9 | 9 | 3 | n | 10")


class Values(Theme):
    """Interactions with values of many kinds, some of which come back as they went in."""

    def gap_kind(self):
        return self.one("""integer | boolean | char | hue | warm | digit | near | below | few | only | letter | sign
            | yes | digits | hues | nears | letters | bits""")

    def gap_group(self):
        return self.one("row | pair | grid | nest | deep")

    def gap_params(self):
        return self.one("| (a: {kind}) | (a: {kind}) | (a: {group}) | (a, b: {kind}) | (a: {kind}; b: {group})")

    def gap_index(self):
        return self.one("near | hue | letter | boolean | only | few | 0..1 | sign | warm")

    def gap_echoes(self):
        return "ECHOES"

    def written(self, text):
        """The text, in which each interaction that comes in at one point goes out as it is."""
        text = super().written(text)
        params, lines = dict(re.findall(r"(go|ask|both)(\(.*?\))?;", text)), []
        for back, name in (("q", "go"), ("q", "ask"), ("p", "both")):
            names = ", ".join(re.findall(r"(\w)(?=[,:])", params[name]))
            values = f"({names})" if names else ""
            lines.append(f"trans when p.{name} begin output {back}.{name}{values} end;")
        return text.replace("ECHOES", "\n  ".join(lines))


THEMES = [
    (Links, LINKS), (Links, LINKS), (Links, LINKS), (Timed, TIME), (Timed, TIME), (Levels, LEVELS), (Values, VALUES),
]


def themed(draw):
    """The text of a specification of a theme."""
    theme, text = draw.choice(THEMES)
    return theme(draw).written(text)
