// The least cost of a problem by LEMON, as a flow of one unit from each person to each object: `lemon simplex|scaling FILE`.
//
// Prints the seconds of a processor of the call alone, without reading and making the graph, the peak memory in bytes, and
// the cost. Built by `g++ -O3 -DNDEBUG -o lemon lemon.cpp`. LEMON 1.3.1: https://lemon.cs.elte.hu
#include <cstdio>
#include <cstdlib>
#include <cstring>
#include <ctime>
#include <vector>

#include <lemon/cost_scaling.h>
#include <lemon/network_simplex.h>
#include <lemon/static_graph.h>

using lemon::StaticDigraph;

// A problem as a graph: persons are the first nodes, objects the ones behind them.
struct Problem {
    int persons;
    std::vector<std::pair<int, int>> ends;
    std::vector<long long> costs;
};

static Problem problem_of(const char *name) {
    FILE *file = std::fopen(name, "r");
    Problem problem;
    if (file == nullptr || std::fscanf(file, "%d", &problem.persons) != 1) {
        std::exit(2);
    }
    std::vector<std::vector<std::pair<int, long long>>> rows(problem.persons);
    int person, object;
    long long cost;
    while (std::fscanf(file, "%d %d %lld", &person, &object, &cost) == 3) {
        rows[person - 1].push_back({problem.persons + object - 1, cost});
    }
    std::fclose(file);
    for (int tail = 0; tail < problem.persons; ++tail) {
        for (const auto &[head, arc_cost] : rows[tail]) {
            problem.ends.push_back({tail, head});
            problem.costs.push_back(arc_cost);
        }
    }
    return problem;
}

// The greatest memory that the process has had so far. Not that of getrusage: a process begins there with the peak of the
// one that started it.
static long peak() {
    FILE *status = std::fopen("/proc/self/status", "r");
    char line[256];
    long kilobytes = -1;
    while (status != nullptr && std::fgets(line, sizeof line, status) != nullptr) {
        if (std::sscanf(line, "VmHWM: %ld kB", &kilobytes) == 1) {
            break;
        }
    }
    if (status != nullptr) {
        std::fclose(status);
    }
    return 1024 * kilobytes;
}

template <typename Method> static int solve(const Problem &problem, long long &cost) {
    StaticDigraph graph;
    graph.build(2 * problem.persons, problem.ends.begin(), problem.ends.end());
    StaticDigraph::ArcMap<long long> costs(graph);
    StaticDigraph::ArcMap<long long> room(graph, 1);
    for (StaticDigraph::ArcIt arc(graph); arc != lemon::INVALID; ++arc) {
        costs[arc] = problem.costs[graph.index(arc)];
    }
    StaticDigraph::NodeMap<long long> supply(graph);
    for (int node = 0; node < 2 * problem.persons; ++node) {
        supply[graph.node(node)] = node < problem.persons ? 1 : -1;
    }
    const std::clock_t start = std::clock();
    Method method(graph);
    const auto answer = method.upperMap(room).costMap(costs).supplyMap(supply).run();
    const double seconds = static_cast<double>(std::clock() - start) / CLOCKS_PER_SEC;
    if (answer != Method::OPTIMAL) {
        return 3;
    }
    cost = method.totalCost();
    std::printf("%.6f %ld %lld\n", seconds, peak(), cost);
    return 0;
}

int main(int count, char **words) {
    if (count != 3) {
        return 2;
    }
    const Problem problem = problem_of(words[2]);
    long long cost = 0;
    if (std::strcmp(words[1], "simplex") == 0) {
        return solve<lemon::NetworkSimplex<StaticDigraph, long long>>(problem, cost);
    }
    return solve<lemon::CostScaling<StaticDigraph, long long>>(problem, cost);
}
