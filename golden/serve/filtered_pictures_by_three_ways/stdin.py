"""Request lines: edits of two series, and views of them in two sessions, most of them with a filter."""
import random

draw = random.Random(11)
STARTS, STEPS = {"a": 0, "b": -700}, {"a": 1, "b": 7}


def integer(least, greatest):
    return draw.randint(least, greatest)


def atom():
    subject = draw.choice("tv")
    sign = draw.choice(["<", "<=", "=", "!=", ">=", ">"])
    space = draw.choice(["", " ", "  "])
    return f"{subject}{space}{sign}{space}{integer(-20, 20) if subject == 'v' else integer(-750, 300)}"


def expression(depth):
    kind = draw.randrange(5) if depth else 0
    if kind == 1:
        return f"not {unit(depth - 1)}"
    if kind in (2, 3):
        return f" {draw.choice(['and', 'or'])} ".join(expression(depth - 1) for _ in range(integer(2, 3)))
    return unit(depth)


def unit(depth):
    return f"({expression(depth - 1)})" if depth and draw.random() < 0.4 else atom()


def where():
    return f" where {expression(3)}" if draw.random() < 0.8 else ""


def view(session):
    name = draw.choice("ab")
    start = STARTS[name] + integer(-10, 110) * STEPS[name]
    end = start + integer(1, 150 * STEPS[name])
    low = integer(-20, 20)
    shown = draw.choice(["auto", f"{low}..{low + integer(0, 30)}"])
    canvas = f"{draw.choice([1, 2, 5, 16, 33, 120])} {draw.choice([1, 2, 7, 31])}"
    return f"view {session} {name} {canvas} {start} {end} {shown}{where()}"


def move(session):
    start = integer(-700, 300)
    return draw.choice([f"zoom {session} {start} {start + integer(1, 200)}", f"pan {session} {integer(-60, 60)}"])


def edit():
    name = draw.choice("ab")
    time = STARTS[name] + integer(0, 220) * STEPS[name]
    values = [draw.choice(["-", str(integer(-20, 20)), str(integer(-20, 20))]) for _ in range(integer(1, 40))]
    return draw.choice([f"append {name} {' '.join(values)}", f"set {name} {time} {integer(-20, 20)}", f"clear {name} {time} {integer(0, 9)}"])


for name in "ab":
    print(f"create {name} {STARTS[name]} {STEPS[name]} 0")
    print(f"append {name} {' '.join(str(integer(-20, 20)) for _ in range(120))}")
for session in (1, 2):
    print(f"open {session} 90000")
    print(view(session))
for _ in range(300):
    session = integer(1, 2)
    print(draw.choice([view, view, move, lambda _: edit()])(session))
