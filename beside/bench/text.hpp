// Writes the text of a result, as `basin run` does.
#pragma once
#include <unistd.h>
#include <cstdlib>
#include <cstring>
#include "basin.hpp"

// Standard output, handed on in large parts.
class Output {
 public:
  void put(const std::string& text) {
    make_room(text.size());
    memcpy(&bytes[used], text.data(), text.size());
    used += text.size();
  }
  void put(Amount amount) {
    char digits[24];
    int count = 0;
    do digits[count++] = (char)('0' + amount % 10);
    while (amount /= 10);
    make_room(count);
    while (count) bytes[used++] = digits[--count];
  }
  void put(char sign) {
    make_room(1);
    bytes[used++] = sign;
  }
  void line(const std::string& front, Amount amount) {
    put(front);
    put(amount);
    put('\n');
  }
  void flush() {
    for (size_t written = 0; written < used;) {
      ssize_t more = write(1, &bytes[written], used - written);
      if (more <= 0) exit(6);
      written += more;
    }
    used = 0;
  }

 private:
  std::vector<char> bytes = std::vector<char>(1 << 20);
  size_t used = 0;
  void make_room(size_t count) {
    if (used + count > bytes.size()) flush();
  }
};

// A solver that writes results has, besides what the others have,
//   keeps_sets                       what it is told before the first month
//   find_flows(month, flow, left)    the flow of each link, and what leaves the basin at each node
//   each_in_reach(right, put)        calls `put` with each node of a short right's reach, in the order of the file
//   caller                           of each right the right that it answers to, or -1
class ResultText {
 public:
  explicit ResultText(const Basin& basin) : basin(basin), flow(basin.links.size()), left(basin.nodes.size()) {
    // (the fronts of all lines are made once)
    for (const Reservoir& reservoir : basin.reservoirs) {
      const std::string& name = basin.nodes[reservoir.node].name;
      open.push_back("open " + name + " ");
      evap.push_back("evap " + name + " ");
      close.push_back("close " + name + " ");
    }
    for (const Node& node : basin.nodes) {
      back.push_back("return " + node.name + " ");
      out.push_back("out " + node.name + " ");
      in.push_back("in " + node.name + "\n");
    }
    for (const Link& link : basin.links) flows.push_back("flow " + link.name + " ");
    for (const Right& right : basin.rights) deliver.push_back("deliver " + right.name + " ");
    is_back.resize(basin.nodes.size());
    for (const Return& row : basin.returns) is_back[row.node] = true;
    output.put("river-result 1\nrun " + basin.name_of_month(0) + " " + std::to_string(basin.months) + "\n");
  }

  template <class Solver> void put_month(const Month& month, Solver& solver) {
    output.put("month " + basin.name_of_month(month.index) + "\n");
    for (size_t at = 0; at < open.size(); at++) output.line(open[at], month.opening[at]);
    for (size_t at = 0; at < open.size(); at++) output.line(evap[at], month.evaporated[at]);
    for (size_t node = 0; node < back.size(); node++)
      if (is_back[node]) output.line(back[node], month.returned[node]);
    solver.find_flows(month, flow, left);
    for (size_t link = 0; link < flow.size(); link++) output.line(flows[link], flow[link]);
    for (int right : basin.seniority) {
      output.put(deliver[right]);
      output.put(month.delivered[right]);
      output.put(' ');
      output.put(month.want[right]);
      output.put('\n');
    }
    for (size_t node = 0; node < left.size(); node++)
      if (basin.nodes[node].is_outlet) output.line(out[node], left[node]);
    put_calls(month, solver);
    for (size_t at = 0; at < open.size(); at++) output.line(close[at], month.closing[at]);
    output.put("end\n");
  }

  void done() {
    output.put("done " + std::to_string(basin.months) + "\n");
    output.flush();
  }

 private:
  const Basin& basin;
  Output output;
  std::vector<std::string> open, evap, back, flows, deliver, out, in, close;
  std::vector<char> is_back;  // the nodes that returns name
  std::vector<Amount> flow, left;

  template <class Solver> void put_calls(const Month& month, Solver& solver) {
    for (int right : basin.seniority) {
      if (month.delivered[right] == month.want[right]) continue;
      output.put("call " + basin.rights[right].name + "\n");
      solver.each_in_reach(right, [&](int node) { output.put(in[node]); });
    }
    for (int right : basin.seniority)
      if (solver.caller[right] >= 0)
        output.put("called " + basin.rights[right].name + " " + basin.rights[solver.caller[right]].name + "\n");
  }
};
