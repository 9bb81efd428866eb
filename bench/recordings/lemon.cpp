// Finds the least cost of the recording on standard input, as bench/recordings.py writes it, by the network simplex of LEMON
// (lemon.cs.elte.hu). No window of it ends before the last round, so the graph is a small one: for each round a node for each
// adapter, each device, and each weight of a device that occurs, and a root. Requests of a device, a weight and a round of arrival
// come in at their node. From there one waits a round at its weight, or goes to the device's node, from there to the adapter's, and
// from there to the root, by arcs for as many as the device and the adapter take. Prints the least cost, and the processor
// time in milliseconds in which the solver was made over the graph and run.
#include <algorithm>
#include <array>
#include <cstdlib>
#include <ctime>
#include <iostream>
#include <limits>
#include <map>
#include <sstream>
#include <string>
#include <vector>

#include <lemon/network_simplex.h>
#include <lemon/smart_graph.h>

using Graph = lemon::SmartDigraph;

struct Row {
  int openings, above;
  std::vector<int> caps;
};

static int weight_of(int priority) { return 16 >> priority / 256; }

int main() {
  std::ios::sync_with_stdio(false);
  int rounds = 0;
  std::vector<Row> adapters, devices;
  std::map<std::array<int, 2>, std::vector<int>> arrivals;  // by device and weight
  int requests = 0;
  const auto caps = [&](Row &row) -> std::vector<int> & {
    if (row.caps.empty()) row.caps.assign(rounds, row.openings);
    return row.caps;
  };
  for (std::string line; std::getline(std::cin, line);) {
    std::istringstream text(line);
    std::vector<std::string> fields;
    for (std::string field; std::getline(text, field, ',');) fields.push_back(field);
    const auto number = [&](int k) { return std::atoi(fields[k].c_str()); };
    if (fields[0] == "rounds") rounds = number(1);
    if (fields[0] == "sim") adapters.push_back({number(1), -1, {}});
    if (fields[0] == "dev") devices.push_back({number(4), number(1), {}});
    if (fields[0] == "cap") {
      auto &row = caps((fields[1] == "dev" ? devices : adapters)[number(2)]);
      std::fill(row.begin() + number(3) - 1, row.begin() + number(4), number(5));
    }
    if (fields[0] == "request") {
      auto &coming = arrivals[{number(2), weight_of(number(3))}];
      coming.resize(rounds);
      ++coming[number(4) - 1];
      ++requests;
    }
  }

  Graph graph;
  graph.reserveNode(rounds * (arrivals.size() + devices.size() + adapters.size()) + 1);
  const auto nodes = [&](std::size_t count) {
    std::vector<std::vector<Graph::Node>> made(count);
    for (auto &row : made)
      for (int round = 0; round < rounds; ++round) row.push_back(graph.addNode());
    return made;
  };
  const auto of_adapters = nodes(adapters.size()), of_devices = nodes(devices.size()), of_queues = nodes(arrivals.size());
  const Graph::Node root = graph.addNode();
  Graph::ArcMap<int> upper(graph), cost(graph);
  Graph::NodeMap<int> supply(graph, 0);
  supply[root] = -requests;
  const auto add = [&](Graph::Node from, Graph::Node to, int most, int price) {
    const Graph::Arc arc = graph.addArc(from, to);
    upper[arc] = most;
    cost[arc] = price;
  };
  for (int round = 0; round < rounds; ++round) {
    for (std::size_t a = 0; a < adapters.size(); ++a) add(of_adapters[a][round], root, caps(adapters[a])[round], 0);
    for (std::size_t d = 0; d < devices.size(); ++d) add(of_devices[d][round], of_adapters[devices[d].above][round], caps(devices[d])[round], 0);
  }
  std::size_t queue = 0;
  for (const auto &[key, coming] : arrivals) {
    const auto &here = of_queues[queue++];
    for (int round = 0; round < rounds; ++round) {
      supply[here[round]] = coming[round];
      add(here[round], of_devices[key[0]][round], requests, 0);
      if (round + 1 < rounds) add(here[round], here[round + 1], requests, key[1]);
    }
  }

  const std::clock_t start = std::clock();
  lemon::NetworkSimplex<Graph, int, int> simplex(graph);
  const auto answer = simplex.upperMap(upper).costMap(cost).supplyMap(supply).run();
  const double used = 1000.0 * (std::clock() - start) / CLOCKS_PER_SEC;
  if (answer != lemon::NetworkSimplex<Graph, int, int>::OPTIMAL) {
    std::cerr << "lemon: no plan\n";
    return 1;
  }
  std::cout << "cost " << simplex.totalCost<long long>() << " ms " << used << "\n";
}
