#!/usr/bin/env python3
# Works out `stdout` from the definitions of properties, traces and formulas alone: every value from the whole path, with no monitor.
import functools

TOP = (True, 8000001)
BOTTOM = (False, -8000001)
both = lambda a, b: (a[0] and b[0], min(a[1], b[1]))
either = lambda a, b: (a[0] or b[0], max(a[1], b[1]))
turn = lambda a: (not a[0], -a[1])
grade = lambda d: (d >= 0, 2 * d + 1)
every = lambda values: functools.reduce(both, values, TOP)
some = lambda values: functools.reduce(either, values, BOTTOM)

PATH = [
    (5, 0, None),
    (7, 0, (5, "called")),
    (12, 0, (5, "normal")),
    (3, 0, (6, "normal")),
    (9, 1, (5, "called")),
    (2, 1, (5, "exceptional")),
    (11, 0, (5, "called")),
    (14, 0, (5, "normal")),
    (4, 0, (5, "called")),
    (6, 1, (6, "normal")),
]

def prop(number, k):
    value, up, _ = PATH[k]
    return {1: grade(10 - value), 2: TOP if up else BOTTOM, 3: grade(4 - value)}[number]

def over(i, j):
    return range(i, j + 1)

def trace(i, j):
    always1 = every(prop(1, k) for k in over(i, j))
    eventually2 = some(prop(2, k) for k in over(i, j))
    never3 = every(turn(prop(3, k)) for k in over(i, j))
    eventually1 = some(prop(1, k) for k in over(i, j))
    return both(either(always1, eventually2), either(never3, eventually1))

CALLED_5 = [(5, "called")]
ENDED_5 = [(5, "normal"), (5, "exceptional")]
MIXED = [(5, "called"), (6, "normal")]

def holds(events, k):
    return PATH[k][2] in events

def core(form, i, n):
    if form == 0:
        return trace(i, n)
    values = [trace(i, k - 1) for k in over(i + 1, n) if holds(CALLED_5, k)]
    return every(values) if form == 1 else some(values)

def formula(afters, form, i, n):
    if not afters:
        return core(form, i, n)
    return every(formula(afters[1:], form, k, n) for k in over(i, n) if holds(afters[0], k))

for n in range(len(PATH)):
    number = 0
    for afters in range(4):
        for form in range(3):
            number += 1
            yes, far = formula([CALLED_5, ENDED_5, MIXED][3 - afters:], form, 0, n)
            print(f"position {n} formula {number}: {str(yes).lower()} {far}")
