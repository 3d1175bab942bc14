// The program that one would write first: for each right, seniors first, breadth-first searches from scratch, until it
// has what it wants or a search fails. The nodes that the last search did not come to are its reach.
#include "program.hpp"

class Plain {
 public:
  static constexpr bool writes_results = true;
  bool keeps_sets = true;
  Amount called = 0;
  std::vector<int> caller;

  explicit Plain(const Basin& basin) : basin(basin), nodes((int)basin.nodes.size()), reach(basin.rights.size()) {
    for (const Link& link : basin.links) add_arc(link.from, link.to);
    for (const Right& right : basin.rights)
      arc_of.push_back(right.kind == INSTREAM ? right.site : add_arc(right.node, nodes));
    first_outlet = (int)tail.size();
    for (int node = 0; node < nodes; node++)
      if (basin.nodes[node].is_outlet) add_arc(node, nodes);
    for (auto* list : {&flow, &low, &high}) list->resize(tail.size());
    steps.resize(nodes + 1);
    for (int arc = 0; arc < (int)tail.size(); arc++) steps[tail[arc]].push_back(2 * arc);
    for (int arc = 0; arc < (int)tail.size(); arc++) steps[head[arc]].push_back(2 * arc + 1);
    make_order();
  }

  void solve(Month& month) {
    open(month);
    for (int right : basin.seniority) {
      int arc = arc_of[right];
      Amount want = month.want[right];
      bool is_takeable = basin.rights[right].kind != INSTREAM && want > 0;
      if (is_takeable) find_caller(right);
      reach[right].clear();
      while (flow[arc] < want && search(arc)) push(arc, want - flow[arc]);
      if (flow[arc] < want)
        for (int node = 0; node < nodes; node++) reach[right].push_back(step_to[node] == NONE);
      month.delivered[right] = std::min(flow[arc], want);
      low[arc] = std::max(low[arc], month.delivered[right]);
    }
  }

  void find_flows(const Month&, std::vector<Amount>& flows, std::vector<Amount>& left) const {
    std::copy(flow.begin(), flow.begin() + flows.size(), flows.begin());
    for (int arc = first_outlet; arc < (int)tail.size(); arc++) left[tail[arc]] = flow[arc];
  }

  template <class Put> void each_in_reach(int right, Put put) const {
    for (int node = 0; node < nodes; node++)
      if (reach[right][node]) put(node);
  }

 private:
  enum { NONE = -1, FIRST = -2 };
  const Basin& basin;
  int nodes, first_outlet;
  // The links, what rights take, and what leaves at outlets; the node after the last one is outside.
  std::vector<int> tail, head;
  std::vector<int> arc_of;
  std::vector<Amount> flow, low, high;
  std::vector<std::vector<int>> steps;  // from each node: 2 * arc forward, 2 * arc + 1 backward
  std::vector<int> order, first_way, step_to, queue;
  std::vector<std::vector<char>> reach;

  int add_arc(int from, int to) {
    tail.push_back(from);
    head.push_back(to);
    return (int)tail.size() - 1;
  }

  int to(int step) const { return step & 1 ? tail[step / 2] : head[step / 2]; }
  int from(int step) const { return step & 1 ? head[step / 2] : tail[step / 2]; }
  Amount room(int step) const {
    int arc = step / 2;
    return step & 1 ? flow[arc] - low[arc] : high[arc] - flow[arc];
  }

  // The nodes, each after those upstream of it; and the way that water takes from each if nobody wants it.
  void make_order() {
    std::vector<int> waiting(nodes);
    first_way.assign(nodes, NONE);
    for (int link = (int)basin.links.size() - 1; link >= 0; link--) {
      waiting[head[link]]++;
      if (basin.links[link].per_day < 0) first_way[tail[link]] = link;
    }
    for (int arc = first_outlet; arc < (int)tail.size(); arc++) first_way[tail[arc]] = arc;
    for (int node = 0; node < nodes; node++)
      if (!waiting[node]) order.push_back(node);
    for (size_t at = 0; at < order.size(); at++)
      for (int step : steps[order[at]])
        if (!(step & 1) && step / 2 < (int)basin.links.size() && !--waiting[to(step)]) order.push_back(to(step));
  }

  // A month begins with all water flowing down the first rivers.
  void open(const Month& month) {
    std::fill(flow.begin(), flow.end(), 0);
    std::fill(low.begin(), low.end(), 0);
    std::fill(high.begin(), high.end(), RIVER);
    std::copy(month.carry.begin(), month.carry.end(), high.begin());
    for (size_t right = 0; right < arc_of.size(); right++)
      if (basin.rights[right].kind != INSTREAM) high[arc_of[right]] = month.want[right];
    std::vector<Amount> water(month.supply);
    water.push_back(0);
    for (int node : order) {
      flow[first_way[node]] += water[node];
      water[head[first_way[node]]] += water[node];
    }
    called = 0;
    caller.assign(basin.rights.size(), -1);
  }

  void find_caller(int right) {
    for (int senior : basin.seniority) {
      if (senior == right) return;
      if (reach[senior].empty() || !reach[senior][basin.rights[right].node]) continue;
      called++;
      caller[right] = senior;
      return;
    }
  }

  // Looks for a walk from an arc's head to its tail by steps with room.
  bool search(int arc) {
    step_to.assign(nodes + 1, NONE);
    step_to[head[arc]] = FIRST;
    queue.assign(1, head[arc]);
    for (size_t at = 0; at < queue.size(); at++)
      for (int step : steps[queue[at]]) {
        if (step / 2 == arc || step_to[to(step)] != NONE || room(step) <= 0) continue;
        step_to[to(step)] = step;
        if (to(step) == tail[arc]) return true;
        queue.push_back(to(step));
      }
    return false;
  }

  // Pushes along the walk that was found, and the arc.
  void push(int arc, Amount most) {
    for (int node = tail[arc]; node != head[arc]; node = from(step_to[node]))
      most = std::min(most, room(step_to[node]));
    for (int node = tail[arc]; node != head[arc]; node = from(step_to[node]))
      flow[step_to[node] / 2] += step_to[node] & 1 ? -most : most;
    flow[arc] += most;
  }
};

int main(int count, char** words) { return program<Plain>(count, words); }
