"""Times iapws, a steam table in Python, and prints a table beside Climboat's times; compare/desk runs it.

Standard input has the states of `compare desk states`, its one argument is what `compare desk` printed. It fails if the two do not answer alike: the time of a wrong number means nothing.
"""

import platform
import statistics
import sys
import time
from collections import namedtuple

import iapws
import scipy
from iapws import IAPWS97
from scipy.optimize import brentq

# p in MPa, T in K, Climboat's v in m^3/kg and h in kJ/kg there, and the T that it found by p and v
State = namedtuple("State", "p T v h found")

# how far apart the answers may lie: v and h relative, T in K, since a search may stop at a difference in v of 1.0e-8 of it
ALIKE = {"v": 1.0e-9, "h": 1.0e-9, "T": 1.0e-3}


def volume(state):
    return IAPWS97(P=state.p, T=state.T).v


def enthalpy(state):
    return IAPWS97(P=state.p, T=state.T).h


def temperature(state):
    """(p,v) to T, between Climboat's ends and to the width at which its search stops."""
    upper = 623.15 if state.p >= 16.5291643 else IAPWS97(P=state.p, x=0).T
    return brentq(lambda T: IAPWS97(P=state.p, T=T).v - state.v, 273.15, upper, xtol=1.0e-6)


# a name of `compare desk`, how the table calls it, and how it is asked here
CALLS = [
    ("v", "(p,T) to v", volume),
    ("h", "(p,T) to h", enthalpy),
    ("T", "(p,v) to T, by scipy's brentq", temperature),
]


def microseconds(call, states):
    """For a call, the median of nine passes over the states."""
    times = []
    for _ in range(9):
        start = time.perf_counter()
        for state in states:
            call(state)
        times.append((time.perf_counter() - start) / len(states) * 1.0e6)
    return statistics.median(times)


def distances(states):
    """The largest distance from Climboat's answers, by name."""
    return {
        "v": max(abs(volume(s) - s.v) / s.v for s in states),
        "h": max(abs(enthalpy(s) - s.h) / abs(s.h) for s in states),
        "T": max(abs(temperature(s) - s.found) for s in states),
    }


def main():
    ours = {name: float(nanoseconds) / 1000.0 for name, nanoseconds in (line.split() for line in sys.argv[1].splitlines())}
    states = [State(*map(float, line.split())) for line in sys.stdin]
    print(f"iapws {iapws.__version__}, scipy {scipy.__version__}, Python {platform.python_version()}; {len(states)} states of region 1, medians of nine passes, microseconds for a call:")
    print()
    print("| region 1 | iapws | Climboat | ratio |")
    print("|---|---|---|---|")
    for name, what, call in CALLS:
        theirs = microseconds(call, states)
        print(f"| {what} | {theirs:.1f} | {ours[name]:.3f} | {theirs / ours[name]:.0f} |")
    apart = distances(states)
    print()
    print(f"largest distance between the two: v {apart['v']:.1e} and h {apart['h']:.1e} of it, T {apart['T']:.1e} K")
    wrong = [name for name in apart if not apart[name] <= ALIKE[name]]
    if wrong:
        sys.exit(f"desk: the two do not answer alike: {', '.join(f'{name} may be {ALIKE[name]:.0e} apart' for name in wrong)}")


main()
