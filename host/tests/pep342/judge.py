# CPython's side: generators run as they are. Where this machine departs from PEP 342 (docs/rules/PEP342.md, "Departures"), what CPython does
# there is observed first, the departure is counted, and the program goes on as the machine does; there is no other place where the
# two may differ.
import gc
import inspect
import os
import sys
import warnings


class E101(Exception):
    pass


class E102(Exception):
    pass


class E103(Exception):
    pass


class StackOverflow(Exception):
    pass


class Wrong(BaseException):
    """CPython does not do what the list of departures says."""


OPEN = object()
CREATED, RUNNING, YIELDED, AWAITING, RETURNED, FAILED = range(6)


class Handle:
    def __init__(self, function, generator):
        self.function, self.generator = function, generator
        self.over = None      # Returned or Failed
        self.awaits = False   # suspended by an await
        self.closing = OPEN   # the signal, while it is closed
        self.handed = False   # handed over, and not closed


class World:
    pass


w = World()


def begin():
    w.events, w.departures, w.handles, w.running = [], set(), [], []
    w.await_now = False
    w.operations = {}
    w.waiting = []  # handed over, for a cleanup that waits


def limits(depth, stack, registers, real_close):
    w.depth, w.stack, w.registers, w.real_close = depth, stack, registers, real_close


def functions(fs):
    w.functions = fs


def log(name, value):
    w.events.append(f"{name} {value}")


def code(e):
    if isinstance(e, GeneratorExit):
        return "exit"
    if isinstance(e, ValueError):
        return "3"
    if isinstance(e, StackOverflow):
        return "4"
    if isinstance(e, RuntimeError):
        return "6"
    if isinstance(e, (E101, E102, E103)):
        return type(e).__name__
    raise Wrong(repr(e)) from e


def raised(e):
    log("raised", code(e))


def result(h, value):
    log({YIELDED: "yield", AWAITING: "await", RETURNED: "stop"}.get(status(h), "?"), value)


def add(a, n):
    return ((a or 0) + n) % 1000


def odd(a):
    return (a or 0) % 2 == 1


def awaited(value):
    w.running[-1].awaiting = value
    w.await_now = True
    return value


def make(f):
    h = Handle(f, None)
    h.generator = w.functions[f](w.running[-1] if w.running else None)
    w.handles.append(h)
    return h


def current():
    return w.running[-1]


def status(h):
    if h in w.running:
        return RUNNING
    if h.over is not None:
        if inspect.getgeneratorstate(h.generator) != inspect.GEN_CLOSED:
            raise Wrong("not closed")
        return h.over
    if inspect.getgeneratorstate(h.generator) == inspect.GEN_CREATED:
        return CREATED
    return AWAITING if h.awaits else YIELDED


def seen(n):
    w.departures.add(n)


def tried(operation, state):
    """An operation on a generator in this state."""
    key = f"{operation}{state}"
    w.operations[key] = w.operations.get(key, 0) + 1


def observe(kind, f, *args):
    """CPython raises such an exception here."""
    try:
        f(*args)
    except kind as e:
        return e
    except BaseException as e:
        raise Wrong(f"{e!r}, not {kind}") from e
    raise Wrong(f"no {kind}")


def busy(h, f, *args):
    """A running one: CPython's ValueError is fault 3."""
    if h.generator is None:
        raise ValueError
    raise observe(ValueError, f, *args)


def room(h):
    frames, height = 1 + len(w.running), w.registers[0] + sum(w.registers[1 + r.function] for r in w.running)
    if frames + 1 > w.depth or height + w.registers[1 + h.function] > w.stack:
        seen(11)
        raise StackOverflow


def enter(h, f, *args):
    """An entry, and what comes of it."""
    h.awaits = False
    w.await_now = False
    w.running.append(h)
    try:
        value = f(*args)
    except StopIteration as e:
        w.running.pop()
        h.over, h.closing = RETURNED, OPEN
        return RETURNED, e.value
    except Wrong:
        raise
    except BaseException as e:
        w.running.pop()
        closed = h.closing is not OPEN and code(e) == h.closing
        h.closing = OPEN
        if closed:
            h.over = RETURNED
            return "closed", None
        h.over = FAILED
        raise
    w.running.pop()
    if w.await_now:
        w.await_now = False
        h.awaits = True
        return AWAITING, value
    return YIELDED, value


def told(h, what, value):
    """A suspension or an end that a send or a throw leads to."""
    if what == YIELDED and h.closing is not OPEN:
        # it awaited inside a close; CPython's send returns the value
        seen(15)
        h.closing = OPEN
        raise RuntimeError("yield while closing")
    if what == "closed":
        # CPython's send raised the signal
        seen(15)
    if what == RETURNED:
        seen(4)
    return value


def send(h, value):
    s = status(h)
    tried("send", s)
    if s == RUNNING:
        busy(h, lambda: h.generator.send(value))
    if s in (RETURNED, FAILED):
        observe(StopIteration, h.generator.send, value)
        seen(3)
        raise ValueError
    room(h)
    if s == CREATED and value is not None:
        observe(TypeError, h.generator.send, value)
        seen(1)
        value = None
    return told(h, *enter(h, h.generator.send, value))


def throw(h, e):
    s = status(h)
    tried("throw", s)
    if e is None:
        if h.generator is not None:
            observe(TypeError, h.generator.throw, None)
        seen(5)
        e = GeneratorExit()
    if s == RUNNING:
        seen(10)
        busy(h, lambda: h.generator.throw(e))
    if s in (RETURNED, FAILED):
        if observe(BaseException, h.generator.throw, e) is not e:
            raise Wrong("another exception")
        seen(3)
        raise ValueError
    if s == CREATED:
        if observe(BaseException, h.generator.throw, e) is not e:
            raise Wrong("another exception")
        h.over = FAILED
        raise e
    room(h)
    return told(h, *enter(h, h.generator.throw, e))


def close(h, e):
    s = status(h)
    tried("close", s)
    if s == RUNNING:
        seen(10)
        busy(h, lambda: h.generator.close())
    if s in (CREATED, RETURNED, FAILED):
        if h.generator.close() is not None:
            raise Wrong("a value")
        if s == CREATED:
            h.over = RETURNED
        return None
    room(h)
    h.closing = code(e)
    if w.real_close and isinstance(e, GeneratorExit):
        return really_close(h)
    what, value = enter(h, h.generator.throw, e)
    if what == YIELDED:
        h.closing = OPEN
        if not isinstance(e, GeneratorExit):
            seen(6)
        raise RuntimeError("generator ignored GeneratorExit")
    if what == AWAITING:
        seen(9)
    if what == RETURNED and value is not None:
        seen(2)
    if what == "closed" and not isinstance(e, GeneratorExit):
        seen(6)
    return value


def really_close(h):
    """CPython's own close; the value that it drops is not known."""
    h.awaits = False
    w.await_now = False
    w.running.append(h)
    try:
        h.generator.close()
    except Wrong:
        raise
    except BaseException as e:
        w.running.pop()
        if inspect.getgeneratorstate(h.generator) == inspect.GEN_CLOSED:
            h.over, h.closing = FAILED, OPEN
            raise
        if not isinstance(e, RuntimeError):
            raise Wrong(repr(e)) from e
        if w.await_now:
            w.await_now = False
            seen(9)
            h.awaits = True
            return h.awaiting
        h.closing = OPEN
        raise
    w.running.pop()
    h.over, h.closing = RETURNED, OPEN
    return "?"


class Each:
    def __init__(self, h):
        self.h = h

    def __iter__(self):
        return self

    def __next__(self):
        h = self.h
        s = status(h)
        tried("next", s)
        if s == RUNNING:
            busy(h, lambda: next(h.generator))
        if s in (RETURNED, FAILED):
            e = observe(StopIteration, next, h.generator)
            if s == RETURNED:
                raise e
            seen(13)
            raise ValueError
        room(h)
        what, value = enter(h, next, h.generator)
        if what == RETURNED:
            raise StopIteration(value)
        return value


def each(h):
    return Each(h)


def drop(h):
    """The last reference goes. Those that waited for a cleanup are closed before it."""
    tried("drop", status(h))
    if h.handed:
        raise ValueError
    waiting, w.waiting = w.waiting, []
    for one in waiting + [h]:
        delete(one)


def delete(h):
    """CPython closes it now, and prints what escapes."""
    lost = []
    sys.unraisablehook = lambda u: lost.append(u.exc_value)
    h.closing = "exit"
    w.running.append(h)
    w.await_now = False
    h.generator = None
    w.running.pop()
    w.await_now = False
    sys.unraisablehook = sys.__unraisablehook__
    seen(12)
    for e in lost:
        if isinstance(e, Wrong):
            raise e
        seen(8 if isinstance(e, RuntimeError) else 7)
    h.over = RETURNED


def closes_at_once():
    """CPython closes a generator when its last reference goes, whatever is left of fuel and stack."""
    ran = []

    def sleeper():
        try:
            yield
        finally:
            ran.append(True)

    g = sleeper()
    next(g)
    del g
    if not ran:
        raise Wrong("not closed at once")


def drop_spent(h):
    """No fuel is left: here it waits until a later drop."""
    tried("drop", status(h))
    if h.handed:
        raise ValueError
    closes_at_once()
    seen(16)
    w.waiting.append(h)


def drop_deep(h):
    """It does not fit: here it stays as it was, and cannot be handed over again. Those that waited are lost too."""
    tried("drop", status(h))
    if h.handed:
        raise ValueError
    closes_at_once()
    seen(14)
    h.handed = True
    w.waiting = []
    raise ValueError


def run(text):
    begin()
    try:
        exec(compile(text, "program", "exec"), dict(globals()))
        end = "ok"
    except BaseException as e:
        end = f"wrong {e!r}"
    # nothing is collected: what still sleeps runs no more
    kept.append(w.handles)
    return end


kept = []


def main():
    gc.disable()
    # a later CPython warns of a return in a finally block
    warnings.simplefilter("ignore")
    out, lines = [], []
    for line in sys.stdin:
        if line != "#end\n":
            lines.append(line)
            continue
        end = run("".join(lines))
        lines = []
        out += w.events
        out.append("#departures " + " ".join(map(str, sorted(w.departures))))
        out.append("#operations " + " ".join(f"{k} {n}" for k, n in w.operations.items()))
        out.append(f"#end {end}")
    print("\n".join(out), flush=True)
    os._exit(0)


main()
