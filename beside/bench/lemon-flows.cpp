// The rights one after the other by a library's greatest flows: LEMON's Preflow, from nothing for each right and month.
// All seniors have what they got as outflow of their nodes, and the right in hand asks for more. An instream right
// takes from the room of its link what it asks for, which leaves at the link's tail and comes in again at its mouth.
#include <lemon/preflow.h>
#include <lemon/smart_graph.h>
#include "program.hpp"

using Graph = lemon::SmartDigraph;
using Amounts = Graph::ArcMap<Amount>;

class LemonFlows {
 public:
  static constexpr bool writes_results = false;
  Amount called = -1;

  explicit LemonFlows(const Basin& basin) : basin(basin), room(graph, 0), held(basin.links.size()) {
    for (size_t node = 0; node < basin.nodes.size(); node++) nodes.push_back(graph.addNode());
    source = graph.addNode();
    target = graph.addNode();
    for (const Link& link : basin.links) links.push_back(graph.addArc(nodes[link.from], nodes[link.to]));
    for (Graph::Node node : nodes) {
      in.push_back(graph.addArc(source, node));
      out.push_back(graph.addArc(node, target));
    }
  }

  void solve(Month& month) {
    for (size_t link = 0; link < links.size(); link++) room[links[link]] = month.carry[link];
    for (size_t node = 0; node < nodes.size(); node++) room[in[node]] = month.supply[node], room[out[node]] = 0;
    std::fill(held.begin(), held.end(), 0);
    Amount before = 0;
    for (int right : basin.seniority) {
      const Right& of = basin.rights[right];
      Amount asked = month.want[right] - (of.kind == INSTREAM ? std::min(month.want[right], held[of.site]) : 0);
      Amount missing = 0;
      if (asked > 0) {
        ask(of, asked);
        lemon::Preflow<Graph, Amounts> flow(graph, room, source, target);
        flow.runMinCut();
        missing = before + asked - flow.flowValue();
        ask(of, -missing);
        before = flow.flowValue();
      }
      month.delivered[right] = month.want[right] - missing;
      if (of.kind == INSTREAM) held[of.site] += asked - missing;
    }
  }

 private:
  const Basin& basin;
  Graph graph;
  std::vector<Graph::Node> nodes;
  Graph::Node source, target;
  std::vector<Graph::Arc> links, in, out;
  Amounts room;
  std::vector<Amount> held;  // of a link: what instream rights hold on it

  void ask(const Right& right, Amount amount) {
    room[out[right.node]] += amount;
    if (right.kind != INSTREAM) return;
    room[links[right.site]] -= amount;
    room[in[basin.links[right.site].to]] += amount;
  }
};

int main(int count, char** words) { return program<LemonFlows>(count, words); }
