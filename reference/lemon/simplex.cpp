// Solves bipartite graphs with bounds by LEMON's network simplex, and times it: `simplex [--all]`. It is built and run by scripts/bench alone.
//
// Standard input has for each graph its rows, columns and edges, then row, column and weight of each edge, then the bounds of rows and columns.
// When all is read, standard output gets a line for each graph, with three numbers for each of two networks: the total weight of the edges
// chosen, the time of building the network with its maps and running the simplex, and the time of the run by itself, in microseconds.
// For each network every graph is solved once untimed and then once timed; between the two all others are solved.
//
// In both networks each edge of positive weight, or with --all each edge, is an arc of capacity 1 from its row to its column that costs the
// weight negated, and one more node, the hub, is joined to every vertex by an arc that costs nothing.
// Circulation: the hub's arcs lead to the rows and from the columns, with the vertex's bound as capacity; nothing is supplied.
// Supplies: each row supplies its bound and each column demands it; the arcs to the hub and from it take what the edges leave.

#include <lemon/network_simplex.h>
#include <lemon/smart_graph.h>

#include <chrono>
#include <cstdio>
#include <cstdlib>
#include <iostream>
#include <string>
#include <vector>

using Clock = std::chrono::steady_clock;
using lemon::SmartDigraph;

enum class Network { circulation, supplies };

struct Edge {
    int row, column, weight; // the ends as numbers of nodes
};

struct Problem {
    int rows, vertices;
    std::vector<Edge> edges;
    std::vector<int> bound;
};

struct Solved {
    long long total;
    double whole, run; // microseconds
};

static double microseconds(Clock::time_point from, Clock::time_point to) {
    return std::chrono::duration<double, std::micro>(to - from).count();
}

static Solved solve(const Problem &problem, Network network, bool all) {
    const auto start = Clock::now();
    const auto kept = [all](const Edge &edge) { return all || edge.weight > 0; };
    SmartDigraph graph;
    graph.reserveNode(problem.vertices + 1);
    graph.reserveArc(problem.edges.size() + problem.vertices);
    for (int v = 0; v <= problem.vertices; ++v) graph.addNode();
    const auto node = [&graph](int v) { return graph.nodeFromId(v); };
    const auto hub = node(problem.vertices);
    for (const Edge &edge : problem.edges)
        if (kept(edge)) graph.addArc(node(edge.row), node(edge.column));
    for (int v = 0; v < problem.vertices; ++v) {
        const bool to_hub = (v < problem.rows) == (network == Network::supplies);
        graph.addArc(to_hub ? node(v) : hub, to_hub ? hub : node(v));
    }

    SmartDigraph::ArcMap<int> capacity(graph, 1), cost(graph, 0);
    SmartDigraph::NodeMap<int> supply(graph, 0);
    int arc = 0;
    for (const Edge &edge : problem.edges)
        if (kept(edge)) cost[graph.arcFromId(arc++)] = -edge.weight;
    for (int v = 0; v < problem.vertices; ++v) {
        capacity[graph.arcFromId(arc++)] = problem.bound[v]; // no more than the bound is left
        if (network == Network::circulation) continue;
        supply[node(v)] = v < problem.rows ? problem.bound[v] : -problem.bound[v];
        supply[hub] -= supply[node(v)];
    }

    lemon::NetworkSimplex<SmartDigraph> simplex(graph);
    simplex.upperMap(capacity).costMap(cost).supplyMap(supply);
    const auto built = Clock::now();
    const auto result = simplex.run();
    const auto end = Clock::now();
    if (result != simplex.OPTIMAL) std::exit(1);
    return {-simplex.totalCost<long long>(), microseconds(start, end), microseconds(built, end)};
}

static std::vector<Solved> solve_all(const std::vector<Problem> &problems, Network network, bool all) {
    std::vector<Solved> solved;
    for (const Problem &problem : problems) solved.push_back(solve(problem, network, all));
    return solved;
}

static std::vector<Problem> read_all() {
    std::vector<Problem> problems;
    int rows, columns, edges;
    while (std::cin >> rows >> columns >> edges) {
        Problem problem{rows, rows + columns, std::vector<Edge>(edges), std::vector<int>(rows + columns)};
        for (auto &[row, column, weight] : problem.edges) {
            std::cin >> row >> column >> weight;
            row -= 1, column += rows - 1;
        }
        for (int &bound : problem.bound) std::cin >> bound;
        problems.push_back(problem);
    }
    return problems;
}

int main(int count, char **words) {
    const bool all = count == 2 && words[1] == std::string("--all");
    std::ios::sync_with_stdio(false);
    const auto problems = read_all();
    solve_all(problems, Network::circulation, all);
    const auto circulation = solve_all(problems, Network::circulation, all);
    solve_all(problems, Network::supplies, all);
    const auto supplies = solve_all(problems, Network::supplies, all);
    for (std::size_t k = 0; k < problems.size(); ++k) {
        const Solved &one = circulation[k], &other = supplies[k];
        std::printf("%lld %.3f %.3f ", one.total, one.whole, one.run);
        std::printf("%lld %.3f %.3f\n", other.total, other.whole, other.run);
    }
}
