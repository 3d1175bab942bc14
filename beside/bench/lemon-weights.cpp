// One flow of least cost for each month, with a weight for each right in place of its date: LEMON's NetworkSimplex. A
// right weighs more than all juniors could gain by one unit of its water: 1, the weights of all junior instream rights,
// and the greatest weight of a junior diversion or zone. So they are strict, as long as 64 bits hold them; they double
// with each instream right. Where they may not fit, this says so on standard error, and its answer is what comes out.
#include <lemon/network_simplex.h>
#include <lemon/smart_graph.h>
#include "program.hpp"

using Graph = lemon::SmartDigraph;
using Amounts = Graph::ArcMap<Amount>;
using Simplex = lemon::NetworkSimplex<Graph, Amount, Amount>;

class LemonWeights {
 public:
  static constexpr bool writes_results = false;
  Amount called = -1;

  explicit LemonWeights(const Basin& basin)
      : basin(basin), high(graph, 0), cost(graph, 0), supply(graph, 0), on_link(basin.links.size()) {
    weigh();
    for (size_t node = 0; node < basin.nodes.size(); node++) nodes.push_back(graph.addNode());
    outside = graph.addNode();
    for (const Link& link : basin.links) links.push_back(graph.addArc(nodes[link.from], nodes[link.to]));
    for (size_t right = 0; right < basin.rights.size(); right++) {
      const Right& of = basin.rights[right];
      bool is_instream = of.kind == INSTREAM;
      if (is_instream) on_link[of.site].push_back((int)right);
      arcs.push_back(graph.addArc(nodes[of.node], is_instream ? nodes[basin.links[of.site].to] : outside));
      cost[arcs[right]] = -weights[right];
    }
    for (size_t node = 0; node < nodes.size(); node++)
      if (basin.nodes[node].is_outlet) graph.addArc(nodes[node], outside);
  }

  void solve(Month& month) {
    Amount most = sum(month.supply);  // no arc needs more
    for (size_t node = 0; node < nodes.size(); node++) supply[nodes[node]] = month.supply[node];
    supply[outside] = -most;
    for (Graph::ArcIt arc(graph); arc != lemon::INVALID; ++arc) high[arc] = most;
    for (size_t right = 0; right < arcs.size(); right++) high[arcs[right]] = std::min(most, month.want[right]);
    for (size_t link = 0; link < links.size(); link++) divide(month, (int)link, most);
    Simplex simplex(graph);
    simplex.upperMap(high).costMap(cost).supplyMap(supply);
    if (simplex.run() != Simplex::OPTIMAL) {
      fprintf(stderr, "no optimum in the month %d\n", month.index + 1);
      exit(1);
    }
    for (size_t right = 0; right < arcs.size(); right++) {
      Amount flow = simplex.flow(arcs[right]);
      if (basin.rights[right].kind == INSTREAM) {
        flow = simplex.flow(links[basin.rights[right].site]);
        for (int other : on_link[basin.rights[right].site]) flow += simplex.flow(arcs[other]);
      }
      month.delivered[right] = std::min(flow, month.want[right]);
    }
  }

 private:
  const Basin& basin;
  Graph graph;
  std::vector<Graph::Node> nodes;
  Graph::Node outside;
  std::vector<Graph::Arc> links, arcs;  // what each right takes; of an instream right, a part of its link's flow
  Amounts high, cost;
  Graph::NodeMap<Amount> supply;
  std::vector<Amount> weights;
  std::vector<std::vector<int>> on_link;  // the instream rights on each link

  void weigh() {
    const double most = 9e18 / 2 / (double)(basin.nodes.size() + 2);  // NetworkSimplex adds weights up along a path
    Amount instream = 0, greatest = 0;
    bool fits = true;
    weights.resize(basin.rights.size());
    for (size_t at = basin.rights.size(); at-- > 0;) {
      int right = basin.seniority[at];
      fits = fits && (double)instream + (double)greatest < most;
      weights[right] = (Amount)(1 + (uint64_t)instream + (uint64_t)greatest);
      if (basin.rights[right].kind == INSTREAM) instream = (Amount)((uint64_t)instream + (uint64_t)weights[right]);
      else greatest = std::max(greatest, weights[right]);
    }
    if (!fits) fprintf(stderr, "the weights may not fit in 64 bits\n");
  }

  // The flow of a link in parts, one for each instream right on it: each part has the weights of all that it serves.
  void divide(const Month& month, int link, Amount most) {
    std::vector<int>& rights = on_link[link];
    std::sort(rights.begin(), rights.end(), [&](int one, int other) { return month.want[one] < month.want[other]; });
    uint64_t weight = 0;
    for (int right : rights) weight += (uint64_t)weights[right];
    Amount below = 0;
    for (int right : rights) {
      high[arcs[right]] = std::min(most, month.want[right] - below);
      cost[arcs[right]] = -(Amount)weight;
      weight -= (uint64_t)weights[right];
      below = month.want[right];
    }
    high[links[link]] = std::min(most, month.carry[link] - below);
  }
};

int main(int count, char** words) { return program<LemonWeights>(count, words); }
