// The same as glpk.cpp with COIN-OR's Clp.
#include <cmath>
#include <coin/ClpSimplex.hpp>
#include <coin/CoinPackedMatrix.hpp>
#include "program.hpp"

class Clp {
 public:
  static constexpr bool writes_results = false;
  Amount called = -1;

  explicit Clp(const Basin& basin) : basin(basin), nodes((int)basin.nodes.size()), links((int)basin.links.size()) {
    std::vector<int> rows, columns;
    std::vector<double> factors;
    auto add = [&](int row, int column, double factor) {
      rows.push_back(row);
      columns.push_back(column);
      factors.push_back(factor);
    };
    for (int link = 0; link < links; link++) {
      add(basin.links[link].from, link, 1);
      add(basin.links[link].to, link, -1);
    }
    int row = nodes, last = links + (int)basin.rights.size();
    for (int right = 0; right < (int)basin.rights.size(); right++) {
      const Right& of = basin.rights[right];
      if (of.kind == INSTREAM) add(row, of.site, -1);
      add(of.kind == INSTREAM ? row++ : of.node, links + right, 1);
    }
    for (int node = 0; node < nodes; node++)
      if (basin.nodes[node].is_outlet) add(node, last++, 1);
    CoinPackedMatrix matrix(true, rows.data(), columns.data(), factors.data(), (int)factors.size());
    std::vector<double> zeros(last), column_high(last, COIN_DBL_MAX), row_low(row, -COIN_DBL_MAX), row_high(row);
    problem.setLogLevel(0);
    problem.loadProblem(matrix, zeros.data(), column_high.data(), zeros.data(), row_low.data(), row_high.data());
    problem.setOptimizationDirection(-1);
  }

  void solve(Month& month) {
    for (int node = 0; node < nodes; node++)
      problem.setRowBounds(node, (double)month.supply[node], (double)month.supply[node]);
    for (int link = 0; link < links; link++)
      if (basin.links[link].per_day >= 0) problem.setColumnBounds(link, 0, (double)month.carry[link]);
    for (int right = 0; right < (int)basin.rights.size(); right++)
      problem.setColumnBounds(links + right, 0, (double)month.want[right]);
    problem.dual();
    for (int right : basin.seniority) {
      if (month.want[right] > 0) raise(month, right);
      else month.delivered[right] = 0;
    }
  }

 private:
  const Basin& basin;
  int nodes, links;
  ClpSimplex problem;

  void raise(Month& month, int right) {
    problem.setObjectiveCoefficient(links + right, 1);
    problem.primal();
    if (!problem.isProvenOptimal()) {
      fprintf(stderr, "no optimum in the month %d\n", month.index + 1);
      exit(1);
    }
    Amount got = month.delivered[right] = llround(problem.primalColumnSolution()[links + right]);
    problem.setObjectiveCoefficient(links + right, 0);
    Amount most = basin.rights[right].kind == INSTREAM ? month.want[right] : got;
    problem.setColumnBounds(links + right, (double)got, (double)most);
  }
};

int main(int count, char** words) { return program<Clp>(count, words); }
