// The rights one after the other by linear programs, with GLPK's simplex method: the greatest delivery of each right,
// all seniors held at theirs. The basis is kept from right to right and from month to month. It reckons in doubles, and
// each delivery is rounded.
#include <glpk.h>
#include <cmath>
#include "program.hpp"

class Glpk {
 public:
  static constexpr bool writes_results = false;
  Amount called = -1;

  explicit Glpk(const Basin& basin) : basin(basin), nodes((int)basin.nodes.size()), links((int)basin.links.size()) {
    glp_term_out(GLP_OFF);
    problem = glp_create_prob();
    glp_set_obj_dir(problem, GLP_MAX);
    int instream = 0, outlets = 0;
    for (const Right& right : basin.rights) instream += right.kind == INSTREAM;
    for (const Node& node : basin.nodes) outlets += node.is_outlet;
    glp_add_rows(problem, nodes + instream);
    glp_add_cols(problem, links + (int)basin.rights.size() + outlets);
    set_terms();
    glp_adv_basis(problem, 0);
  }

  void solve(Month& month) {
    for (int node = 0; node < nodes; node++)
      glp_set_row_bnds(problem, node + 1, GLP_FX, (double)month.supply[node], 0);
    for (int link = 0; link < links; link++)
      if (basin.links[link].per_day >= 0) bound(link + 1, 0, month.carry[link]);
    for (int right = 0; right < (int)basin.rights.size(); right++) bound(column(right), 0, month.want[right]);
    for (int right : basin.seniority) {
      if (month.want[right] > 0) raise(month, right);
      else month.delivered[right] = 0;
    }
  }

 private:
  const Basin& basin;
  int nodes, links;
  glp_prob* problem;

  int column(int right) const { return links + right + 1; }

  void bound(int column, Amount low, Amount high) {
    glp_set_col_bnds(problem, column, low == high ? GLP_FX : GLP_DB, (double)low, (double)high);
  }

  // A row for each node, that what goes out is what is supplied and comes in; and a row for each instream right, that
  // it is delivered no more than its link's flow.
  void set_terms() {
    std::vector<int> rows(1), columns(1);
    std::vector<double> factors(1);
    auto add = [&](int row, int column, double factor) {
      rows.push_back(row);
      columns.push_back(column);
      factors.push_back(factor);
    };
    for (int link = 0; link < links; link++) {
      add(basin.links[link].from + 1, link + 1, 1);
      add(basin.links[link].to + 1, link + 1, -1);
      glp_set_col_bnds(problem, link + 1, GLP_LO, 0, 0);
    }
    int row = nodes, last = links + (int)basin.rights.size();
    for (int right = 0; right < (int)basin.rights.size(); right++) {
      const Right& of = basin.rights[right];
      add(of.kind == INSTREAM ? ++row : of.node + 1, column(right), 1);
      if (of.kind != INSTREAM) continue;
      add(row, of.site + 1, -1);
      glp_set_row_bnds(problem, row, GLP_UP, 0, 0);
    }
    for (int node = 0; node < nodes; node++) {
      if (!basin.nodes[node].is_outlet) continue;
      add(node + 1, ++last, 1);
      glp_set_col_bnds(problem, last, GLP_LO, 0, 0);
    }
    glp_load_matrix(problem, (int)factors.size() - 1, rows.data(), columns.data(), factors.data());
  }

  bool is_solved() {
    glp_smcp options;
    glp_init_smcp(&options);
    options.msg_lev = GLP_MSG_OFF;
    return glp_simplex(problem, &options) == 0 && glp_get_status(problem) == GLP_OPT;
  }

  void raise(Month& month, int right) {
    glp_set_obj_coef(problem, column(right), 1);
    if (!is_solved()) {
      glp_std_basis(problem);
      if (!is_solved()) {
        fprintf(stderr, "no optimum in the month %d\n", month.index + 1);
        exit(1);
      }
    }
    Amount got = month.delivered[right] = llround(glp_get_col_prim(problem, column(right)));
    glp_set_obj_coef(problem, column(right), 0);
    bound(column(right), got, basin.rights[right].kind == INSTREAM ? month.want[right] : got);
  }
};

int main(int count, char** words) { return program<Glpk>(count, words); }
