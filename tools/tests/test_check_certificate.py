"""check_certificate.py where there are more objects than persons: worked answers. With as many objects, compare_checkers tries it on all cases."""
from calls import ToolTest

ONE = "1\n1 1 5\n1 2 3\n"
ONE_BEST = "auction 2\noptimal 1 2 3\nassign 1 2 3\nprice 1 0\nprice 2 5\n"
TWO = "2\n1 1 1\n1 2 2\n2 1 1\n2 2 3\n"
TWO_BEST = "auction 2\noptimal 2 3 3\nassign 1 2 2\nassign 2 1 1\nprice 1 7\nprice 2 5\nprice 3 0\n"
TWO_BRACKET = "auction 2\nbracket bids 2 3 3 4\nassign 1 1 1\nassign 2 2 3\nprice 1 4\nprice 2 0\nprice 3 0\n"
LARGE = "10001\n" + "".join(f"{person} {person} 5\n" for person in range(1, 10_002))
LARGE_PICKS = "".join(f"assign {person} {person} 5\n" for person in range(1, 10_002))
LARGE_BEST = f"auction 3\noptimal 10001 10001 50005\n{LARGE_PICKS}" + "".join(f"price {thing} 0\n" for thing in range(1, 10_002))
NEAR, FAR = "2\n1 3 5\n2 3 7\n", "2\n1 15000 5\n2 15000 7\n"
NEAR_SET = "auction 1\ninfeasible 2 1\nperson 1\nperson 2\nobject 3\n"
FAR_SET = "auction 2\ninfeasible 2 1\nperson 1\nperson 2\nobject 15000\n"
STATUS = {"valid": 0, "invalid": 3, "refused": 5}


class Verdicts(ToolTest):
    def assert_verdicts(self, problem, cases, *words):
        """Each case is a number of objects, a certificate for the problem, and the line of its verdict; all are called with these words."""
        self.write("problem", problem)
        calls = []
        for place, (objects, certificate, _) in enumerate(cases):
            self.write(f"certificate {place}", certificate)
            calls.append(["tools/check_certificate.py", "problem", f"certificate {place}", *words, *(["--objects", objects] if objects else [])])
        for (objects, certificate, line), answer in zip(cases, self.answers(calls)):
            with self.subTest(objects=objects, certificate=certificate):
                self.assertEqual(answer, (STATUS[line.split()[0]], line + "\n", ""))

    def test_one_person(self):
        self.assert_verdicts(ONE, [
            (2, ONE_BEST, "valid optimal 3"),
            (2, ONE_BEST.replace("price 1 0", "price 1 2"), "invalid leftover 1"),
            (2, ONE_BEST.replace("price 2 5", "price 2 6"), "invalid slack 1"),
            (2, "auction 1\noptimal 1 -7\nassign 1 1 -7\nprice 1 1\n", "invalid size"),
            (3, ONE_BEST, "invalid size"),
            (3, "auction 2\noptimal 1 3 3\nassign 1 2 3\nprice 1 0\nprice 2 5\nprice 3 1\n", "invalid leftover 3"),
            (3, "auction 2\noptimal 1 3 3\nassign 1 2 3\nprice 1 1\nprice 2 5\nprice 3 1\n", "invalid leftover 1"),
            (None, ONE_BEST, "refused object 2"),
        ])

    def test_two_persons(self):
        self.assert_verdicts(TWO, [
            (3, TWO_BEST, "valid optimal 3"),
            (3, TWO_BRACKET, "valid bracket 3 4"),
            (3, TWO_BRACKET.replace("3 3 4", "3 2 4"), "invalid bound"),
            # A bound holds whatever the price of an object that nobody takes; it only is a lower one.
            (3, TWO_BRACKET.replace("3 3 4", "3 2 4").replace("price 3 0", "price 3 3"), "valid bracket 2 4"),
            (1, TWO_BEST, "refused objects"),
            (2, TWO_BEST, "invalid size"),
            (3, "auction 2\noptimal 2 3 2\nassign 1 1 1\nassign 2 1 1\nprice 1 7\nprice 2 5\nprice 3 0\n", "invalid twice 1"),
            (3, TWO_BEST.replace("2 3 3", "2 3 4"), "invalid cost"),
            (3, TWO_BEST.replace("assign 2 1", "assign 2 3"), "invalid arc 2"),
        ])

    def test_hall_sets(self):
        self.assert_verdicts(NEAR, [
            (3, NEAR_SET, "valid infeasible 2 1"),
            (3, FAR_SET, "invalid hall"),
            (3, NEAR_SET.replace("object 3", "object 2"), "invalid hall"),
            (None, NEAR_SET, "refused object 1"),
        ])
        self.assert_verdicts(FAR, [
            (20000, FAR_SET, "valid infeasible 2 1"),
            (15000, FAR_SET, "valid infeasible 2 1"),
            (14999, FAR_SET, "refused object 1"),
        ])

    def test_order_of_faults_of_a_problem(self):
        for problem, line in [("10001", "refused count"), ("x", "refused number 1"), ("2 x", "refused objects"), ("", "refused empty"), ("1 1", "refused cut 2")]:
            self.assert_verdicts(problem, [(1, "", line)])

    def test_lines_of_certificates(self):
        """The first line at which no certificate goes on so: what version 1 spells is no text of version 2."""
        self.assert_verdicts("1 1 1 0", [(None, text, f"refused certificate {line}") for text, line in [
            ("auction 3\n", 1),
            ("auction 2\n", 2),
            ("auction 2\noptimal 2 2 3\n", 2),
            ("auction 2\noptimal 2 1 3\n", 2),
            ("auction 2\noptimal 2 20001 3\n", 2),
            ("auction 2\noptimal 2 3\n", 2),
            ("auction 1\noptimal 1 2 3\n", 2),
            ("auction 2\nbracket bids 2 2 3 4\n", 2),
            ("auction 2\nbracket bids 2 3 4\n", 2),
            ("auction 2\noptimal 1 20000 3\nassign 1 20000 3\n", 4),
            ("auction 2\noptimal 1 20000 3\nassign 1 20001 3\n", 3),
            ("auction 1\noptimal 1 3\nassign 1 10001 3\n", 3),
            (ONE_BEST.removesuffix("price 2 5\n"), 5),
            (ONE_BEST + "price 3 0\n", 6),
            ("auction 2\ninfeasible 1 0\nperson 1\n", 2),
            ("auction 2\ninfeasible 1 1\nperson 1\nobject 10000\n", 4),
            ("auction 2\ninfeasible 1 2\nperson 1\nobject 20000\n", 4),
            ("auction 2\ninfeasible 1 2\nperson 1\nobject 1\nobject 10000\n", 5),
            ("auction 2\ninfeasible 1 2\nperson 1\nobject 1\nobject 20001\n", 5),
            ("auction 2\ninfeasible 1 2\nperson 1\nobject 19999\nobject 19999\n", 5),
            ("auction 2\ninfeasible 1 10001\nperson 1\n", 2),
            ("auction 2\ninfeasible 1 1\nperson 10001\n", 3),
            ("auction 1\ninfeasible 1 1\nperson 1\nobject 10001\n", 4),
        ]])

    def test_large_problem(self):
        self.assert_verdicts(LARGE, [
            (None, LARGE_BEST, "valid optimal 50005"),
            (None, LARGE_BEST.replace("price 10001 0", "price 10001 10003"), "valid optimal 50005"),
            (10002, LARGE_BEST, "invalid size"),
            (10000, LARGE_BEST, "refused objects"),
            (None, LARGE_BEST.replace("auction 3", "auction 1").replace("10001 10001", "10001"), "refused certificate 2"),
        ], "--large")
        self.assert_verdicts(LARGE, [(None, LARGE_BEST, "refused count")])
        self.assert_verdicts(FAR.replace("15000", "4194304"), [
            (4194304, "auction 3\ninfeasible 2 1\nperson 1\nperson 2\nobject 4194304\n", "valid infeasible 2 1"),
            (4194303, NEAR_SET, "refused object 1"),
        ], "--large")
        self.assert_verdicts("4194305", [(None, "", "refused count")], "--large")

    def test_small_problem_in_version_3(self):
        best, bracket = ONE_BEST.replace("auction 2", "auction 3"), TWO_BRACKET.replace("auction 2", "auction 3")
        self.assert_verdicts(ONE, [(2, best, "valid optimal 3"), (2, ONE_BEST, "valid optimal 3"), (3, best, "invalid size")], "--large")
        self.assert_verdicts(ONE, [(2, best, "refused certificate 1")])
        self.assert_verdicts(TWO, [(3, bracket, "valid bracket 3 4"), (3, bracket.replace("3 3 4", "3 2 4"), "invalid bound")], "--large")
        self.assert_verdicts(NEAR, [(3, NEAR_SET.replace("auction 1", "auction 3"), "valid infeasible 2 1")], "--large")

    def test_words_at_fault(self):
        self.write("problem", ONE)
        self.write("certificate", ONE_BEST)
        for words in [["--objects", "0"], ["--objects", "20001"], ["--objects", "4194305", "--large"], ["--objects", "two"], ["--objects"], ["third"], ["--large=yes"]]:
            status, output, said = self.call("tools/check_certificate.py", "problem", "certificate", *words)
            self.assertEqual((status, output), (2, ""))
            self.assertNotIn("Traceback", said)

    def test_words_in_any_order(self):
        self.write("problem", ONE)
        self.write("certificate", ONE_BEST)
        for words in [["--objects", "2", "problem", "certificate"], ["problem", "--objects", "2", "certificate"], ["problem", "certificate", "--objects=2"]]:
            self.assertEqual(self.call("tools/check_certificate.py", *words), (0, "valid optimal 3\n", ""))
