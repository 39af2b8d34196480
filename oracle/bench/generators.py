"""CPython generators, measured as `oracle bench` measures the original."""
import time

SAMPLES, BATCH = 101, 2000


def report(name, once):
    found = []
    for _ in range(SAMPLES):
        found.append(once() / BATCH)
    found.sort()
    print(f"| {name} | {found[SAMPLES // 2]:.1f} | {found[0]:.1f} |")


def timed(step):
    def once():
        start = time.perf_counter_ns()
        for _ in range(BATCH):
            step()
        return time.perf_counter_ns() - start

    return once


def body():
    a, b, c, d = 1, 2, 3, 4
    while True:
        a = yield b


def deep(n):
    if n == 1:
        yield from body()
    yield from deep(n - 1)


def sent(g):
    next(g)
    send = g.send
    return timed(lambda: send(1))


def fall(n):
    if n == 1:
        raise ValueError
    fall(n - 1)


def unwound():
    try:
        fall(4)
    except ValueError:
        pass


report("send + yield, 1 frame", sent(body()))
report("send + yield through 3 `yield from`", sent(deep(3)))
report("creation", timed(body))
report("4 calls + unwinding through them", timed(unwound))
