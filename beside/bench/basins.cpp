// Writes made-up basins as files.
//   basins trial NUMBER SIZE STEM                    the basin of `basin trial`, as STEM.toml
//   basins SHAPE NODES LINKS RIGHTS MONTHS STEM      STEM.toml, and STEM.csv if nodes are gauged
#include <cstdlib>
#include <cstring>
#include "make.hpp"

static void put_monthly(FILE* file, const char* key, const Monthly& amounts) {
  fprintf(file, "%s = ", key);
  if (amounts == always(amounts[0])) {
    fprintf(file, "%lld\n", (long long)amounts[0]);
    return;
  }
  for (int month = 0; month < 12; month++)
    fprintf(file, "%s%lld", month ? ", " : "[", (long long)amounts[month]);
  fprintf(file, "]\n");
}

static void put_network(FILE* file, const Basin& basin) {
  for (const Node& node : basin.nodes) {
    fprintf(file, "\n[[node]]\nname = \"%s\"\n", node.name.c_str());
    if (node.is_outlet) fprintf(file, "outlet = true\n");
    if (node.is_gauged) fprintf(file, "inflow = \"gauged\"\n");
    else if (node.inflow != Monthly{}) put_monthly(file, "inflow", node.inflow);
  }
  for (const Link& link : basin.links) {
    fprintf(file, "\n[[link]]\nname = \"%s\"\n", link.name.c_str());
    const std::string &from = basin.nodes[link.from].name, &to = basin.nodes[link.to].name;
    fprintf(file, "from = \"%s\"\nto = \"%s\"\n", from.c_str(), to.c_str());
    if (link.per_day >= 0) fprintf(file, "per_day = %lld\n", (long long)link.per_day);
  }
  for (const Reservoir& reservoir : basin.reservoirs) {
    fprintf(file, "\n[[reservoir]]\nnode = \"%s\"\n", basin.nodes[reservoir.node].name.c_str());
    fprintf(file, "opening = %lld\narea = [", (long long)reservoir.opening);
    for (auto [storage, area] : reservoir.area)
      fprintf(file, "%s[%lld, %lld]", storage ? ", " : "", (long long)storage, (long long)area);
    fprintf(file, "]\n");
    put_monthly(file, "rate", reservoir.rate);
  }
}

static void put_rights(FILE* file, const Basin& basin) {
  static const char *tables[] = {"diversion", "instream", "zone"}, *keys[] = {"node", "link", "reservoir"};
  for (const Right& right : basin.rights) {
    const std::string& site = right.kind == INSTREAM ? basin.links[right.site].name : basin.nodes[right.node].name;
    fprintf(file, "\n[[%s]]\nname = \"%s\"\n%s = \"%s\"\n", tables[right.kind], right.name.c_str(), keys[right.kind],
            site.c_str());
    if (right.kind == ZONE) fprintf(file, "level = %d\n", right.level);
    fprintf(file, "date = \"%04d-%02d-%02d\"\norder = %d\n", (int)(right.date / 10000), (int)(right.date / 100 % 100),
            (int)(right.date % 100), right.order);
    put_monthly(file, "want", right.want);
  }
  for (const Return& row : basin.returns)
    fprintf(file, "\n[[return]]\ndiversion = \"%s\"\nnode = \"%s\"\npart = %lld\nlag = %d\n",
            basin.rights[row.diversion].name.c_str(), basin.nodes[row.node].name.c_str(), (long long)row.part, row.lag);
}

static FILE* opened(const std::string& path) {
  FILE* file = fopen(path.c_str(), "w");
  if (file) return file;
  perror(path.c_str());
  exit(5);
}

static void put_files(const Basin& basin, const std::string& stem) {
  FILE* file = opened(stem + ".toml");
  fprintf(file, "format = 1\nfirst_month = \"%s\"\nmonths = %d\n", basin.name_of_month(0).c_str(), basin.months);
  put_network(file, basin);
  put_rights(file, basin);
  fclose(file);
  if (std::none_of(basin.nodes.begin(), basin.nodes.end(), [](const Node& node) { return node.is_gauged; })) return;
  file = opened(stem + ".csv");
  fprintf(file, "month,node,amount\n");
  for (int month = 0; month < basin.months; month++)
    for (const Node& node : basin.nodes)
      if (node.is_gauged)
        fprintf(file, "%s,%s,%lld\n", basin.name_of_month(month).c_str(), node.name.c_str(),
                (long long)node.series[month]);
  fclose(file);
}

int main(int count, char** words) {
  if (count == 5 && !strcmp(words[1], "trial")) {
    put_files(make_trial(strtoull(words[2], nullptr, 10), atoi(words[3])), words[4]);
    return 0;
  }
  for (const Shape& shape : SHAPES)
    if (count == 7 && shape.name == std::string(words[1])) {
      put_files(make_shaped(shape, {atoi(words[2]), atoi(words[3]), atoi(words[4]), atoi(words[5])}), words[6]);
      return 0;
    }
  fprintf(stderr, "usage: basins trial NUMBER SIZE STEM | basins SHAPE NODES LINKS RIGHTS MONTHS STEM\n");
  return 2;
}
