// The fastest program that we know how to write for the same answers, without a proof.
//
// 1. Water stays where it rises. A river leads from every node to an outlet, so what nobody takes can always leave:
//    each node keeps its water as an excess, and a right is raised from the nearest excess upstream of it.
// 2. A node that no excess can come to, by steps that have room, stays so for all juniors of the month: it is dry. So
//    what finds no water is looked at once a month.
// 3. Every other node has a label, the step by which water comes to it. A right is raised by going up the labels. Where
//    an excess is used up, or a step has no room any more, the nodes that hung on it are orphans and look for other
//    labels; those that find none are dry. So the dry nodes are known at every moment: they are the reach of a short
//    right, and the caller of a node is the first right that was short after it fell dry.
#include "program.hpp"

enum { WET = -1, DRY = -2, ORPHAN = -3, FREED = -4 };  // a node with an excess is wet; what is below 0 is no step

class Lexflow {
 public:
  static constexpr bool writes_results = true;
  bool keeps_sets = false;
  Amount called = 0;
  std::vector<int> caller;

  explicit Lexflow(const Basin& basin)
      : caller(basin.rights.size(), -1), basin(basin), nodes((int)basin.nodes.size()), links((int)basin.links.size()) {
    for (const Link& link : basin.links) ends.insert(ends.end(), {link.from, link.to});
    make_rows();
    make_order();
    for (auto* list : {&label, &distance, &before, &caller_of}) list->resize(nodes);
    for (auto* set : {&dry, &called_nodes, &seen}) set->resize((nodes + 63) / 64);
    room.resize(2 * links);
    excess.resize(nodes);
    epoch_of.resize(nodes);
    path.resize(nodes);
    taken.resize(nodes + 1);
    reach.resize(basin.rights.size());
  }

  void solve(Month& month) {
    open(month);
    for (int right : basin.seniority) {
      Amount want = month.want[right];
      is_all_dry = true;
      if (basin.rights[right].kind == INSTREAM) {
        month.delivered[right] = hold(basin.rights[right].site, want, month.carry[basin.rights[right].site]);
      } else {
        month.delivered[right] = want > 0 ? take(right, want) : 0;
      }
      if (month.delivered[right] < want) call(right);
    }
  }

  void find_flows(const Month& month, std::vector<Amount>& flow, std::vector<Amount>& left) {
    for (int link = 0; link < links; link++) flow[link] = month.carry[link] - room[2 * link];
    left = excess;
    for (int node : order) {
      int river = first_river[node];
      if (river < 0) continue;
      flow[river] += left[node];
      left[basin.links[river].to] += left[node];
    }
  }

  template <class Put> void each_in_reach(int right, Put put) const {
    for (size_t at = 0; at < dry.size(); at++)
      for (uint64_t rest = reach[right][at]; rest; rest &= rest - 1) put((int)at * 64 + __builtin_ctzll(rest));
  }

 private:
  using Set = std::vector<uint64_t>;
  struct Entry {
    int step, other;  // a step into the node of the row, and the node that it comes from
  };

  const Basin& basin;
  int nodes, links;
  std::vector<int> ends;  // where a step begins: 2 * link goes down the link, and 2 * link + 1 back up
  std::vector<int> start;
  std::vector<Entry> entries;
  std::vector<int> order, first_river;
  std::vector<Amount> room, excess;  // of steps, of nodes
  std::vector<int> label;
  std::vector<int> distance;  // how many labels lead up to an excess, where it was found in this epoch
  std::vector<uint32_t> epoch_of;
  uint32_t epoch = 0;
  std::vector<int> path;
  std::vector<Amount> taken;
  std::vector<int> orphans, freed, stack, before;
  Set dry, called_nodes, seen;
  std::vector<int> caller_of;  // of a node: the first short right with it in its reach
  bool is_all_dry;             // the reach of the right in hand is all dry nodes, not only those that aren't seen
  std::vector<Set> reach;

  static bool has(const Set& set, int node) { return set[node >> 6] >> (node & 63) & 1; }
  static void put(Set& set, int node) { set[node >> 6] |= (uint64_t)1 << (node & 63); }
  int head(int step) const { return ends[step ^ 1]; }
  bool gives_water(int node) const { return label[node] >= 0 || excess[node] > 0; }

  // A row for each node: first the links that come in, then those that go out, which are steps back up.
  void make_rows() {
    start.assign(nodes + 1, 0);
    for (int end : ends) start[end + 1]++;
    for (int node = 0; node < nodes; node++) start[node + 1] += start[node];
    std::vector<int> at(start.begin(), start.end() - 1);
    entries.resize(2 * links);
    for (int link = 0; link < links; link++) entries[at[ends[2 * link + 1]]++] = {2 * link, ends[2 * link]};
    for (int link = 0; link < links; link++) entries[at[ends[2 * link]]++] = {2 * link + 1, ends[2 * link + 1]};
  }

  // The nodes, each after those upstream of it; and the first river from each.
  void make_order() {
    std::vector<int> waiting(nodes);
    first_river.assign(nodes, -1);
    for (int link = links - 1; link >= 0; link--) {
      waiting[basin.links[link].to]++;
      if (basin.links[link].per_day < 0) first_river[basin.links[link].from] = link;
    }
    for (int node = 0; node < nodes; node++)
      if (!waiting[node]) order.push_back(node);
    for (size_t at = 0; at < order.size(); at++)
      for (int in = start[order[at]]; in < start[order[at] + 1]; in++)
        if ((entries[in].step & 1) && !--waiting[entries[in].other]) order.push_back(entries[in].other);
  }

  // A month begins: each node has its supply, and a label from upstream if it has none.
  void open(const Month& month) {
    for (int link = 0; link < links; link++) room[2 * link] = month.carry[link], room[2 * link + 1] = 0;
    std::copy(month.supply.begin(), month.supply.end(), excess.begin());
    std::fill(dry.begin(), dry.end(), 0);
    std::fill(called_nodes.begin(), called_nodes.end(), 0);
    if (keeps_sets) std::fill(caller.begin(), caller.end(), -1);
    called = 0;
    for (int node : order) {
      label[node] = excess[node] > 0 ? WET : first_label(node);
      if (label[node] == DRY) put(dry, node);
    }
  }

  int first_label(int node) const {
    int found = DRY;
    for (int at = start[node]; at < start[node + 1] && !(entries[at].step & 1); at++) {
      auto [step, other] = entries[at];
      if (room[step] <= 0 || !gives_water(other)) continue;
      found = step;
      if (excess[other] > 0) break;
    }
    return found;
  }

  Amount take(int right, Amount want) {
    int node = basin.rights[right].node;
    if (has(called_nodes, node)) {
      called++;
      if (keeps_sets) caller[right] = caller_of[node];
    }
    return pull(node, want, -1);
  }

  // Holds the flow on a link from below, and raises it as far as it is wanted.
  Amount hold(int link, Amount want, Amount carry) {
    int tail = ends[2 * link], mouth = ends[2 * link + 1], back = 2 * link + 1;
    Amount flow = carry - room[2 * link], held = flow - room[back];
    room[back] = flow - std::max(held, std::min(want, flow));
    if (room[back] == 0 && label[tail] == back && excess[tail] == 0) {
      orphan(tail);
      repair();
    }
    if (flow < want) flow += pull(tail, want - flow, link);
    while (flow < want && has(dry, mouth)) {
      if (!spread(mouth, tail)) {
        is_all_dry = false;
        break;
      }
      flow += push_round(link, want - flow);
    }
    return std::min(flow, want);
  }

  // A right is short: its reach, and the nodes whose first caller it is.
  void call(int right) {
    if (keeps_sets) reach[right].resize(dry.size());
    for (size_t at = 0; at < dry.size(); at++) {
      uint64_t set = is_all_dry ? dry[at] : dry[at] & ~seen[at], fresh = set & ~called_nodes[at];
      called_nodes[at] |= fresh;
      if (!keeps_sets) continue;
      reach[right][at] = set;
      for (; fresh; fresh &= fresh - 1) caller_of[at * 64 + __builtin_ctzll(fresh)] = right;
    }
  }

  // Brings up to `need` to a node. With a link, sends it on over that link, to have more from upstream of it.
  Amount pull(int node, Amount need, int link) {
    Amount got = 0;
    while (got < need && (excess[node] > 0 || label[node] != DRY)) {
      Amount amount = come_down(climb(node, need - got));
      got += amount;
      if (link >= 0) send(link, amount);
      if (!orphans.empty()) repair();
    }
    return got;
  }

  // Goes up the labels from a node, and takes of each excess what the steps below have room for. How far it went.
  int climb(int node, Amount most) {
    int depth = 0;
    taken[0] = 0;
    while (true) {
      for (; excess[node] == 0; node = ends[label[node]]) {
        path[depth] = label[node];
        most = std::min(most, room[label[node]]);
        taken[++depth] = 0;
      }
      Amount amount = std::min(most, excess[node]);
      excess[node] -= amount;
      most -= amount;
      taken[depth] += amount;
      if (excess[node] == 0) {
        label[node] = ORPHAN;
        epoch++;
        if (!adopt(node)) orphans.push_back(node);
      }
      if (most == 0 || label[node] == ORPHAN) return depth;
    }
  }

  // Pushes what was taken down the path.
  Amount come_down(int depth) {
    Amount amount = 0;
    for (int at = depth - 1; at >= 0; at--) {
      amount += taken[at + 1];
      int step = path[at], node = head(step);
      room[step] -= amount;
      room[step ^ 1] += amount;
      if (room[step] == 0 && label[node] == step && excess[node] == 0) orphan(node);
    }
    return amount + taken[0];
  }

  // Sends water on over a link, whose flow is held as it grows.
  void send(int link, Amount amount) {
    int mouth = ends[2 * link + 1];
    room[2 * link] -= amount;
    if (excess[mouth] == 0) label[mouth] = WET;
    excess[mouth] += amount;
  }

  void orphan(int node) {
    label[node] = ORPHAN;
    orphans.push_back(node);
  }

  // How many labels lead from a node up to an excess, or -1 where they end at an orphan.
  int way_up(int node) {
    int top = node, count = 0;
    for (; epoch_of[top] != epoch; top = ends[label[top]], count++) {
      if (excess[top] > 0) {
        epoch_of[top] = epoch;
        distance[top] = 0;
        break;
      }
      if (label[top] < 0) return -1;
    }
    count += distance[top];
    for (int left = count; epoch_of[node] != epoch; node = ends[label[node]]) {
      epoch_of[node] = epoch;
      distance[node] = left--;
    }
    return count;
  }

  // Gives an orphan the label with the shortest way up.
  bool adopt(int node) {
    int found = -1, least = nodes + 1;
    for (int at = start[node]; at < start[node + 1]; at++) {
      auto [step, other] = entries[at];
      if (room[step] <= 0) continue;
      if (excess[other] > 0) {
        found = step;
        least = 0;
        break;
      }
      int count = label[other] < 0 ? -1 : way_up(other);
      if (count >= 0 && count < least) found = step, least = count;
    }
    if (found < 0) return false;
    label[node] = found;
    epoch_of[node] = epoch;
    distance[node] = least + 1;
    return true;
  }

  // Gives all orphans labels; the nodes that can have none are dry.
  void repair() {
    epoch++;
    freed.clear();
    for (size_t at = 0; at < orphans.size(); at++) {
      int node = orphans[at];
      if (label[node] == ORPHAN && excess[node] == 0 && !adopt(node)) free(node);
    }
    orphans.clear();
    for (int node : freed)
      if (label[node] == FREED) regrow(node);
    for (int node : freed)
      if (label[node] == FREED) label[node] = DRY, put(dry, node);
  }

  // An orphan that nobody adopts leaves those that hang on it orphans too.
  void free(int node) {
    label[node] = FREED;
    freed.push_back(node);
    for (int at = start[node]; at < start[node + 1]; at++) {
      auto [step, other] = entries[at];
      if (label[other] == (step ^ 1) && excess[other] == 0) orphan(other);
    }
  }

  // A freed node beside one that has water, after all, takes its label from there, and so do those that it leads to.
  void regrow(int node) {
    for (int at = start[node]; at < start[node + 1] && label[node] == FREED; at++)
      if (room[entries[at].step] > 0 && gives_water(entries[at].other)) label[node] = entries[at].step;
    if (label[node] == FREED) return;
    stack.assign(1, node);
    while (!stack.empty()) {
      int from = stack.back();
      stack.pop_back();
      for (int at = start[from]; at < start[from + 1]; at++) {
        auto [step, other] = entries[at];
        if (label[other] != FREED || room[step ^ 1] <= 0) continue;
        label[other] = step ^ 1;
        stack.push_back(other);
      }
    }
  }

  // Marks the dry nodes to which water could go from a dry node, until it is at the last. Whether it comes there.
  bool spread(int first, int last) {
    std::fill(seen.begin(), seen.end(), 0);
    put(seen, first);
    stack.assign(1, first);
    for (size_t next = 0; next < stack.size(); next++)
      for (int at = start[stack[next]]; at < start[stack[next] + 1]; at++) {
        auto [step, other] = entries[at];
        if (room[step ^ 1] <= 0 || !has(dry, other) || has(seen, other)) continue;
        put(seen, other);
        before[other] = step ^ 1;
        if (other == last) return true;
        stack.push_back(other);
      }
    return false;
  }

  // Raises the flow of a link by water that goes round among dry nodes, as `spread` found.
  Amount push_round(int link, Amount most) {
    int tail = ends[2 * link], mouth = ends[2 * link + 1];
    for (int node = tail; node != mouth; node = ends[before[node]]) most = std::min(most, room[before[node]]);
    for (int node = tail; node != mouth; node = ends[before[node]]) {
      room[before[node]] -= most;
      room[before[node] ^ 1] += most;
    }
    room[2 * link] -= most;
    return most;
  }
};

int main(int count, char** words) { return program<Lexflow>(count, words); }
