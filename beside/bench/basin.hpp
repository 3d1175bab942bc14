// A basin, its months and what a run sums up, for the programs that basin is measured against. All amounts are whole.
#pragma once
#include <algorithm>
#include <array>
#include <cstdint>
#include <cstdio>
#include <string>
#include <utility>
#include <vector>

using Amount = int64_t;
using Monthly = std::array<Amount, 12>;

// What a river carries in a month.
const Amount RIVER = 1000000000000000;

enum Kind { DIVERSION, INSTREAM, ZONE };

struct Node {
  std::string name;
  bool is_outlet;
  bool is_gauged;
  Monthly inflow;
  std::vector<Amount> series;  // month by month, where it is gauged
};

struct Link {
  std::string name;
  int from, to;
  Amount per_day;  // -1 for a river
};

struct Reservoir {
  int node;
  Amount opening;
  std::vector<std::pair<Amount, Amount>> area;  // storages that rise, and the area at each
  Monthly rate;
};

struct Right {
  std::string name;
  Kind kind;
  int site;      // its node, link or reservoir
  int level;     // of a zone
  int64_t date;  // 19110615 for 1911-06-15
  int order;
  Monthly want;
  int node;  // where it takes; of an instream right the tail of its link
};

struct Return {
  int diversion;  // by its index among the rights
  int node;
  Amount part;
  int lag;
};

struct Basin {
  int year, month, months;  // the first month, and how many
  std::vector<Node> nodes;
  std::vector<Link> links;
  std::vector<Reservoir> reservoirs;
  std::vector<Right> rights;  // diversions, then instream rights, then zones
  std::vector<Return> returns;
  std::vector<int> seniority;  // the rights, seniors first

  // What follows from the rest.
  void finish() {
    for (Right& right : rights)
      right.node = right.kind == DIVERSION  ? right.site
                   : right.kind == INSTREAM ? links[right.site].from
                                            : reservoirs[right.site].node;
    for (size_t right = 0; right < rights.size(); right++) seniority.push_back((int)right);
    std::sort(seniority.begin(), seniority.end(), [&](int one, int other) {
      const Right &left = rights[one], &right = rights[other];
      return std::make_pair(left.date, left.order) < std::make_pair(right.date, right.order);
    });
  }

  // The calendar month with some index: 0 for January; and its year.
  int calendar(int index) const { return (month - 1 + index) % 12; }
  int year_of(int index) const { return year + (month - 1 + index) / 12; }
  std::string name_of_month(int index) const {
    char name[32];
    snprintf(name, sizeof name, "%04d-%02d", year_of(index), calendar(index) + 1);
    return name;
  }
};

inline int days_of(int year, int calendar) {
  static const int days[] = {31, 28, 31, 30, 31, 30, 31, 31, 30, 31, 30, 31};
  bool is_leap = year % 4 == 0 && (year % 100 != 0 || year % 400 == 0);
  return calendar == 1 && is_leap ? 29 : days[calendar];
}

inline Amount area_at(const Reservoir& reservoir, Amount storage) {
  const auto& area = reservoir.area;
  for (size_t at = 0; at + 1 < area.size(); at++) {
    auto [low, area_low] = area[at];
    auto [high, area_high] = area[at + 1];
    if (storage < high)
      return area_low + (Amount)((__int128)(storage - low) * (area_high - area_low) / (high - low));
  }
  return area.back().second;
}

// A month: what a solver is given, and `delivered`, which it writes.
struct Month {
  int index;
  std::vector<Amount> supply, returned;               // of nodes
  std::vector<Amount> carry;                          // of links
  std::vector<Amount> want, delivered;                // of rights
  std::vector<Amount> opening, evaporated, closing;   // of reservoirs
};

// The months one after the other. Between `open` and `close` a solver writes what is delivered.
class Run {
 public:
  Month month;

  explicit Run(const Basin& basin) : basin(basin), taken(basin.rights.size()) {
    month.supply.resize(basin.nodes.size());
    month.returned.resize(basin.nodes.size());
    month.carry.resize(basin.links.size());
    month.want.resize(basin.rights.size());
    month.delivered.resize(basin.rights.size());
    month.evaporated.resize(basin.reservoirs.size());
    for (const Reservoir& reservoir : basin.reservoirs) month.closing.push_back(reservoir.opening);
    for (const Return& row : basin.returns) taken[row.diversion].assign(1, 0);
  }

  void open(int index) {
    int calendar = basin.calendar(index), days = days_of(basin.year_of(index), calendar);
    month.index = index;
    month.opening = month.closing;
    for (size_t node = 0; node < basin.nodes.size(); node++) {
      const Node& of = basin.nodes[node];
      month.supply[node] = of.is_gauged ? of.series[index] : of.inflow[calendar];
    }
    add_returns();
    add_storage(calendar);
    for (size_t link = 0; link < basin.links.size(); link++) {
      Amount per_day = basin.links[link].per_day;
      month.carry[link] = per_day < 0 ? RIVER : per_day * days;
    }
    for (size_t right = 0; right < basin.rights.size(); right++) {
      const Right& of = basin.rights[right];
      Amount want = of.want[calendar];
      month.want[right] = of.kind == INSTREAM ? std::min(want, month.carry[of.site]) : want;
    }
  }

  void close() {
    std::fill(month.closing.begin(), month.closing.end(), 0);
    for (size_t right = 0; right < basin.rights.size(); right++) {
      if (basin.rights[right].kind == ZONE) month.closing[basin.rights[right].site] += month.delivered[right];
      if (!taken[right].empty()) taken[right].push_back(taken[right].back() + month.delivered[right]);
    }
  }

 private:
  const Basin& basin;
  std::vector<std::vector<Amount>> taken;  // of a diversion with returns: what it took before each month, in all

  void add_returns() {
    std::fill(month.returned.begin(), month.returned.end(), 0);
    for (const Return& row : basin.returns) {
      int from = month.index - row.lag;
      if (from < 0) continue;
      const auto& total = taken[row.diversion];
      Amount amount = row.part * total[from + 1] / 10000 - row.part * total[from] / 10000;
      month.returned[row.node] += amount;
      month.supply[row.node] += amount;
    }
  }

  void add_storage(int calendar) {
    for (size_t at = 0; at < basin.reservoirs.size(); at++) {
      const Reservoir& reservoir = basin.reservoirs[at];
      Amount storage = month.opening[at];
      month.evaporated[at] = std::min(storage, reservoir.rate[calendar] * area_at(reservoir, storage) / 100);
      month.supply[reservoir.node] += storage - month.evaporated[at];
    }
  }
};

inline Amount sum(const std::vector<Amount>& amounts) {
  Amount total = 0;
  for (Amount amount : amounts) total += amount;
  return total;
}

// What a report and a trial's summary say of a run.
struct Sums {
  struct OfRight {
    int months_short = 0;
    Amount wanted = 0, delivered = 0, worst = 0;
    int worst_month = -1;
  };
  std::vector<OfRight> rights;
  Amount called = 0;  // below 0 where a solver finds no callers
  Amount opening = 0, inflows = 0, returns = 0, closing = 0, evaporated = 0, diverted = 0, out = 0;

  explicit Sums(const Basin& basin) : rights(basin.rights.size()) {
    for (const Reservoir& reservoir : basin.reservoirs) opening += reservoir.opening;
    closing = opening;
  }

  // Adds a month that is closed.
  void add(const Basin& basin, const Month& month) {
    Amount supply = sum(month.supply), returned = sum(month.returned), evaporation = sum(month.evaporated);
    Amount diversions = 0;
    for (size_t right = 0; right < rights.size(); right++) {
      OfRight& of = rights[right];
      Amount missing = month.want[right] - month.delivered[right];
      of.months_short += missing > 0;
      of.wanted += month.want[right];
      of.delivered += month.delivered[right];
      if (missing > of.worst) of.worst = missing, of.worst_month = month.index;
      if (basin.rights[right].kind == DIVERSION) diversions += month.delivered[right];
    }
    inflows += supply - returned - (sum(month.opening) - evaporation);
    returns += returned;
    closing = sum(month.closing);
    evaporated += evaporation;
    diverted += diversions;
    out += supply - diversions - closing;
  }
};

inline void put_balance(const Basin& basin, const Sums& sums) {
  printf("balance");
  for (Amount amount :
       {sums.opening, sums.inflows, sums.returns, sums.closing, sums.evaporated, sums.diverted, sums.out})
    printf(" %lld", (long long)amount);
  printf("\ndone %d\n", basin.months);
}

inline void put_report(const Basin& basin, const Sums& sums) {
  printf("report %s %d\n", basin.name_of_month(0).c_str(), basin.months);
  for (int right : basin.seniority) {
    const auto& of = sums.rights[right];
    std::string worst = of.worst_month < 0 ? "-" : basin.name_of_month(of.worst_month);
    printf("right %s %d %lld %lld %s\n", basin.rights[right].name.c_str(), of.months_short, (long long)of.wanted,
           (long long)of.delivered, worst.c_str());
  }
  put_balance(basin, sums);
}

inline void put_summary(const Basin& basin, const Sums& sums) {
  Amount wanted = 0, delivered = 0, months_short = 0;
  for (const auto& of : sums.rights) wanted += of.wanted, delivered += of.delivered, months_short += of.months_short;
  printf("size %zu %zu %zu %d\n", basin.nodes.size(), basin.links.size(), basin.rights.size(), basin.months);
  printf("wanted %lld\ndelivered %lld\n", (long long)wanted, (long long)delivered);
  printf("short %lld\ncalled ", (long long)months_short);
  printf(sums.called < 0 ? "-\n" : "%lld\n", (long long)sums.called);
  put_balance(basin, sums);
}
