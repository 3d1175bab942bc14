// The words of each program. It answers as basin does to the same words:
//   PROGRAM trial NUMBER SIZE      the summary of a trial; a solver that finds no callers writes `called -`
//   PROGRAM report BASIN SERIES    the report
//   PROGRAM run BASIN SERIES       the result, where `Solver::writes_results`
#pragma once
#include "files.hpp"
#include "make.hpp"
#include "text.hpp"

// A solver is made for a basin and has
//   solve(month)    which writes what is delivered in a month
//   called          how many rights answered to a call in it, or -1
template <class Solver> Sums sums_of(const Basin& basin) {
  Solver solver(basin);
  Run run(basin);
  Sums sums(basin);
  for (int index = 0; index < basin.months; index++) {
    run.open(index);
    solver.solve(run.month);
    run.close();
    sums.add(basin, run.month);
    sums.called = solver.called < 0 ? -1 : sums.called + solver.called;
  }
  return sums;
}

template <class Solver> void put_result(const Basin& basin) {
  Solver solver(basin);
  solver.keeps_sets = true;
  Run run(basin);
  ResultText text(basin);
  for (int index = 0; index < basin.months; index++) {
    run.open(index);
    solver.solve(run.month);
    run.close();
    text.put_month(run.month, solver);
  }
  text.done();
}

template <class Solver> int program(int count, char** words) {
  std::string command = count == 4 ? words[1] : "";
  if (command == "trial") {
    Basin basin = make_trial(strtoull(words[2], nullptr, 10), atoi(words[3]));
    printf("trial %s %s\n", words[2], words[3]);
    put_summary(basin, sums_of<Solver>(basin));
    return 0;
  }
  if (command == "report") {
    Basin basin = Reader(words[2], words[3]).basin;
    put_report(basin, sums_of<Solver>(basin));
    return 0;
  }
  if constexpr (Solver::writes_results) {
    if (command == "run") {
      put_result<Solver>(Reader(words[2], words[3]).basin);
      return 0;
    }
  }
  fprintf(stderr, "usage: %s trial NUMBER SIZE | report BASIN SERIES%s\n", words[0],
          Solver::writes_results ? " | run BASIN SERIES" : "");
  return 2;
}
