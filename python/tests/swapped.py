"""A plugin of pytest: while it runs, SciPy's two calls are the package's, wherever SciPy, networkx and scikit-learn have taken them from."""
import sys

import scipy.optimize
import scipy.sparse.csgraph
import sigdorf

NAMES = {"linear_sum_assignment": scipy.optimize, "min_weight_full_bipartite_matching": scipy.sparse.csgraph}
calls = dict.fromkeys(NAMES, 0)


def counting(name):
    """The package's call of this name, each call of which is counted."""
    call = getattr(sigdorf, name)

    def counted(*arguments, **words):
        calls[name] += 1
        return call(*arguments, **words)

    return counted


def pytest_configure(config):
    for name, home in NAMES.items():
        kept, swapped = getattr(home, name), counting(name)
        for module in [module for module in sys.modules.values() if getattr(module, name, None) is kept]:
            setattr(module, name, swapped)


def pytest_terminal_summary(terminalreporter):
    terminalreporter.write_line(f"swapped calls: {sum(calls.values())}")
