// Made-up basins: those of `basin trial`, and larger ones in several shapes.
#pragma once
#include "basin.hpp"

// Numbers that look drawn: always the same after the same seed.
class Draw {
 public:
  explicit Draw(uint64_t seed) : state(seed + 1) {}
  Amount operator()(uint64_t below) {
    state = state * 6364136223846793005u + 1442695040888963407u;
    return (Amount)((state >> 33) % below);
  }
  Monthly twelve(uint64_t below, Amount times) {
    Monthly drawn;
    for (Amount& amount : drawn) amount = (*this)(below) * times;
    return drawn;
  }

 private:
  uint64_t state;
};

inline Monthly always(Amount amount) {
  Monthly amounts;
  amounts.fill(amount);
  return amounts;
}

inline std::string named(const char* front, int number) { return front + std::to_string(number); }

// A node after this one, at most so many further on.
inline int further(Draw& draw, int node, int most, int nodes) {
  return node + 1 + (int)draw(std::min(most, nodes - 1 - node));
}

inline void add_zones(Basin& basin, Draw& draw, Amount times) {
  for (int at = 0; at < (int)basin.reservoirs.size(); at++) {
    Monthly low = always((100 + draw(200)) * times), high = always(draw(400) * times);
    basin.rights.push_back({named("z", at) + "a", ZONE, at, 1, 18800101, 10000 + at, low, 0});
    basin.rights.push_back({named("z", at) + "b", ZONE, at, 2, 19400101, 20000 + at, high, 0});
  }
}

// The basin of `basin trial NUMBER SIZE`.
inline Basin make_trial(uint64_t number, int size) {
  Draw draw(number);
  Basin basin{1950, 10, 60, {}, {}, {}, {}, {}, {}};
  for (int node = 0; node < size; node++)
    basin.nodes.push_back({named("n", node), node == size - 1, false, node % 2 ? Monthly{} : draw.twelve(100, 1), {}});
  for (int node = 0; node < size - 1; node++)
    basin.links.push_back({named("r", node), node, further(draw, node, 3, size), -1});
  for (int node = 1; node < size - 1; node += 4) {
    int to = further(draw, node, 5, size);
    basin.links.push_back({named("c", node), node, to, draw(20)});
  }
  for (int node = 20; node < size - 1; node += 40) {
    Amount opening = draw(500);
    basin.reservoirs.push_back({node, opening, {{0, 0}, {1000, 100}}, always(draw(200))});
  }
  std::vector<Right> instream;
  for (int at = 0; at < size / 20; at++) {
    bool is_instream = at % 4 == 3;
    int site = (int)draw(is_instream ? size - 1 : size);
    int64_t date = (1850 + draw(100)) * 10000 + 101;
    Right right{named(is_instream ? "s" : "d", at), is_instream ? INSTREAM : DIVERSION, site, 0, date, at,
                always(draw(300)), 0};
    if (at % 4 == 0) {
      int node = (int)draw(size);
      Amount part = 1000 + draw(8000);
      basin.returns.push_back({(int)basin.rights.size(), node, part, 1 + (int)draw(12)});
    }
    (is_instream ? instream : basin.rights).push_back(right);
  }
  basin.rights.insert(basin.rights.end(), instream.begin(), instream.end());
  add_zones(basin, draw, 1);
  basin.finish();
  return basin;
}

// How the rivers lead; and what is drawn otherwise than in the first shape.
struct Shape {
  const char* name;
  enum { RANDOM, CHAIN, TREE, BRAID } rivers;
  int instream;  // per cent of the rights
  int load;      // about how much all rights want, in per cent of what flows in
  Amount times;  // every amount is so many times larger
  int gauged;    // per cent of the springs
};

const Shape SHAPES[] = {
    {"random", Shape::RANDOM, 25, 100, 1, 0},     {"gauged", Shape::RANDOM, 25, 100, 1, 50},
    {"chain", Shape::CHAIN, 25, 100, 1, 0},       {"tree", Shape::TREE, 25, 100, 1, 0},
    {"braid", Shape::BRAID, 25, 100, 1, 0},  // two long branches side by side
    {"half-instream", Shape::BRAID, 50, 200, 100000, 0},
};

struct Size {
  int nodes, links, rights, months;
};

// The nodes, every other one a spring; what flows in, in a month.
inline Amount add_nodes(Basin& basin, Draw& draw, const Shape& shape, Size size) {
  Amount inflow = 0;
  for (int node = 0; node < size.nodes; node++) {
    basin.nodes.push_back({named("n", node), node == size.nodes - 1, false, {}, {}});
    Node& made = basin.nodes.back();
    if (node % 2) continue;
    made.is_gauged = draw(100) < shape.gauged;
    if (made.is_gauged) {
      for (int month = 0; month < size.months; month++) made.series.push_back(draw(100) * shape.times);
      inflow += 50 * shape.times;
    } else {
      made.inflow = draw.twelve(100, shape.times);
      inflow += sum({made.inflow.begin(), made.inflow.end()}) / 12;
    }
  }
  return inflow;
}

inline int river_to(Draw& draw, const Shape& shape, int node, int nodes) {
  switch (shape.rivers) {
    case Shape::CHAIN: return node + 1;
    case Shape::TREE: return nodes - 1 - (nodes - 2 - node) / 2;
    case Shape::BRAID: return std::min(nodes - 1, node + 2);
    default: return further(draw, node, 3, nodes);
  }
}

inline void add_links(Basin& basin, Draw& draw, const Shape& shape, Size size) {
  int last = size.nodes - 1;
  for (int node = 0; node < last; node++)
    basin.links.push_back({named("r", node), node, river_to(draw, shape, node, size.nodes), -1});
  for (int at = 0; (int)basin.links.size() < size.links; at++) {
    int from, to;
    if (shape.rivers == Shape::BRAID) {
      from = at % last;
      to = std::min(last, from + (at < last ? 1 : 3));
    } else {
      from = (int)draw(last);
      to = further(draw, from, 5, size.nodes);
    }
    basin.links.push_back({named("c", at), from, to, draw(20) * shape.times});
  }
}

inline void add_rights(Basin& basin, Draw& draw, const Shape& shape, Size size, Amount inflow) {
  Amount most = std::max<Amount>(2, 2 * inflow * shape.load / (100 * size.rights));
  std::vector<Right> instream;
  int zones = 2 * (int)basin.reservoirs.size();
  for (int at = 0; at < size.rights - zones; at++) {
    bool is_instream = draw(100) < shape.instream;
    int site = (int)draw(is_instream ? size.nodes - 1 : size.nodes);
    int64_t date = (1850 + draw(100)) * 10000;
    date += (1 + draw(12)) * 100;
    date += 1 + draw(28);
    Monthly want = draw(4) == 0 ? draw.twelve(most + 1, 1) : always(draw(most + 1));
    if (!is_instream && draw(3) == 0) {
      int node = (int)draw(size.nodes);
      Amount part = 1000 + draw(8000);
      basin.returns.push_back({(int)basin.rights.size(), node, part, 1 + (int)draw(12)});
    }
    Right right{named(is_instream ? "s" : "d", at), is_instream ? INSTREAM : DIVERSION, site, 0, date, at, want, 0};
    (is_instream ? instream : basin.rights).push_back(right);
  }
  basin.rights.insert(basin.rights.end(), instream.begin(), instream.end());
  add_zones(basin, draw, shape.times);
}

// A basin of a shape. Its wants are drawn so that all together are about what flows in, or what the shape says of it.
inline Basin make_shaped(const Shape& shape, Size size) {
  Draw draw(7932);
  Basin basin{1950, 10, size.months, {}, {}, {}, {}, {}, {}};
  Amount inflow = add_nodes(basin, draw, shape, size);
  add_links(basin, draw, shape, size);
  for (int node = 20; node < size.nodes - 1; node += 40) {
    Amount opening = draw(500) * shape.times;
    basin.reservoirs.push_back({node, opening, {{0, 0}, {1000 * shape.times, 100 * shape.times}}, always(draw(200))});
  }
  add_rights(basin, draw, shape, size, inflow);
  basin.finish();
  return basin;
}
