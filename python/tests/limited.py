"""What all tests have in common: numpy and SciPy where they are there, and an end to a call that doesn't come back."""
import signal
import unittest

try:
    import numpy
except ImportError:
    numpy = None
try:
    import scipy.optimize
    import scipy.sparse
except ImportError:
    scipy = None

SECONDS = 60

if numpy:
    import sigdorf
else:
    sigdorf = None


@unittest.skipUnless(numpy, "numpy is not there")
class Limited(unittest.TestCase):
    def setUp(self):
        def stop(*_):
            raise TimeoutError(f"no answer in {SECONDS} s")

        signal.signal(signal.SIGALRM, stop)
        signal.alarm(SECONDS)

    def tearDown(self):
        signal.alarm(0)
