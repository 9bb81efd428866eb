// Solves the net on standard input, as `benches net` prints it, by the network simplex of LEMON (lemon.cs.elte.hu). The
// graph has a node for each stay, for each round of each device, adapter and link, and a root. An arc leads from a stay to each
// round of its device in which it could be sent, at what its waiting costs; one from there to the adapter's round, one from
// there to its link's, if it is on one, and one to the root, each for as many stays as the device, the adapter and the link take. Prints the least cost, and the least processor time
// in milliseconds in which a solver was made over the graph and run.
#include <algorithm>
#include <cstdlib>
#include <ctime>
#include <iostream>
#include <limits>
#include <vector>

#include <lemon/network_simplex.h>
#include <lemon/smart_graph.h>

using Graph = lemon::SmartDigraph;

static int read() {
  int number;
  if (!(std::cin >> number)) {
    std::cerr << "lemon: no net\n";
    std::exit(1);
  }
  return number;
}

struct Stay {
  int device, arrival, last, weight;
};

int main() {
  const int runs = 10;
  const int stay_count = read(), devices = read(), adapters = read(), links = read(), rounds = read();
  const int units = devices + adapters, rows = units + links;
  std::vector<int> adapter_of(devices), link_of(adapters), caps(rows * rounds);
  std::vector<Stay> stays(stay_count);
  for (int &adapter : adapter_of) adapter = read();
  for (int &link : link_of) link = read();
  // The row above each, or all rows for the root.
  const auto row_above = [&](int row) {
    if (row < devices) return devices + adapter_of[row];
    return row < units && link_of[row - devices] >= 0 ? units + link_of[row - devices] : rows;
  };
  for (Stay &stay : stays) {
    stay.device = read();
    stay.arrival = read();
    stay.last = read();
    stay.weight = read();
  }
  for (int &cap : caps) cap = read();

  Graph graph;
  std::vector<Graph::Node> cells;
  for (std::size_t cell = 0; cell < caps.size(); ++cell) cells.push_back(graph.addNode());
  const Graph::Node root = graph.addNode();
  Graph::ArcMap<int> upper(graph), cost(graph);
  Graph::NodeMap<int> supply(graph, 0);
  supply[root] = -stay_count;
  const auto add = [&](Graph::Node from, Graph::Node to, int most, int price) {
    const Graph::Arc arc = graph.addArc(from, to);
    upper[arc] = most;
    cost[arc] = price;
  };
  for (int row = 0; row < rows; ++row) {
    const int above = row_above(row);
    for (int round = 0; round < rounds; ++round) {
      const int cell = row * rounds + round;
      if (caps[cell] > 0) add(cells[cell], above < rows ? cells[above * rounds + round] : root, caps[cell], 0);
    }
  }
  for (const Stay &stay : stays) {
    const Graph::Node node = graph.addNode();
    supply[node] = 1;
    for (int round = stay.arrival; round <= stay.last; ++round) {
      bool is_open = true;
      for (int row = stay.device; row < rows; row = row_above(row)) is_open = is_open && caps[row * rounds + round - 1] > 0;
      if (is_open) add(node, cells[stay.device * rounds + round - 1], 1, stay.weight * (round - stay.arrival));
    }
  }

  double least = std::numeric_limits<double>::infinity();
  long long best = 0;
  for (int run = 0; run < runs; ++run) {
    const std::clock_t start = std::clock();
    lemon::NetworkSimplex<Graph, int, int> simplex(graph);
    const auto answer = simplex.upperMap(upper).costMap(cost).supplyMap(supply).run();
    const double used = 1000.0 * (std::clock() - start) / CLOCKS_PER_SEC;
    if (answer != lemon::NetworkSimplex<Graph, int, int>::OPTIMAL) {
      std::cerr << "lemon: no plan\n";
      return 1;
    }
    best = simplex.totalCost<long long>();
    least = std::min(least, used);
  }
  std::cout << "cost " << best << " ms " << least << "\n";
}
