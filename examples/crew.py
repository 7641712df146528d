"""The crew of examples/crew.arcs, from Python."""
import sigdorf

persons = [0, 0, 0, 1, 1, 1, 2, 2, 3, 3, 3]
jobs = [0, 1, 2, 0, 2, 3, 1, 3, 0, 1, 3]
minutes = [40, 65, 30, 35, 20, 50, 45, 60, 55, 70, 40]
solution = sigdorf.solve(persons, jobs, minutes)
sigdorf.check(solution, persons, jobs, minutes)
print(solution.cost, "minutes, jobs", solution.columns.tolist())
try:
    sigdorf.solve([0, 1, 2, 2], [0, 0, 0, 1], [1, 1, 1, 1], (3, 3))
except sigdorf.Infeasible as fault:
    print(fault)
