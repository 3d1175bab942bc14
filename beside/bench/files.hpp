// Reads the files that `basins` writes: a table, or a key and its value, on each line. It refuses nothing.
#pragma once
#include <cstdlib>
#include <string_view>
#include <unordered_map>
#include "basin.hpp"

inline std::string bytes_of(const char* path) {
  FILE* file = fopen(path, "rb");
  if (!file) {
    perror(path);
    exit(5);
  }
  std::string bytes;
  char part[1 << 16];
  while (size_t got = fread(part, 1, sizeof part, file)) bytes.append(part, got);
  fclose(file);
  return bytes;
}

// What stands before a mark, which is cut off the text with it.
inline std::string_view cut(std::string_view& text, char mark) {
  size_t end = std::min(text.find(mark), text.size());
  std::string_view front = text.substr(0, end);
  text.remove_prefix(std::min(end + 1, text.size()));
  return front;
}

// All numbers in a text, whatever stands between them.
inline std::vector<Amount> numbers(std::string_view text) {
  std::vector<Amount> found;
  bool is_within = false;
  for (char sign : text) {
    bool is_digit = sign >= '0' && sign <= '9';
    if (is_digit && !is_within) found.push_back(0);
    if (is_digit) found.back() = found.back() * 10 + (sign - '0');
    is_within = is_digit;
  }
  return found;
}

class Reader {
 public:
  Basin basin{};

  Reader(const char* path, const char* series) {
    std::string bytes = bytes_of(path);
    for (std::string_view text = bytes; !text.empty();) {
      std::string_view line = cut(text, '\n');
      if (line.empty()) continue;
      if (line[0] == '[') {
        open(line.substr(2, line.size() - 4));
      } else {
        std::string_view key = cut(line, ' ');
        set(key, line.substr(2));
      }
    }
    basin.finish();
    if (std::string_view(series) != "-") read_series(series);
  }

 private:
  std::string table;
  std::unordered_map<std::string, int> nodes, links, reservoirs, rights;

  // Begins an entry of a table.
  void open(std::string_view name) {
    table = name;
    if (table == "node") basin.nodes.emplace_back();
    else if (table == "link") basin.links.push_back({"", 0, 0, -1});
    else if (table == "reservoir") basin.reservoirs.emplace_back();
    else if (table == "return") basin.returns.emplace_back();
    else basin.rights.emplace_back().kind = table == "diversion" ? DIVERSION : table == "zone" ? ZONE : INSTREAM;
  }

  // Sets a key of the entry that was begun last.
  void set(std::string_view key, std::string_view value) {
    if (table.empty()) set_top(key, value);
    else if (table == "node") set_node(basin.nodes.back(), key, value);
    else if (table == "link") set_link(basin.links.back(), key, value);
    else if (table == "reservoir") set_reservoir(basin.reservoirs.back(), key, value);
    else if (table == "return") set_return(basin.returns.back(), key, value);
    else set_right(basin.rights.back(), key, value);
  }

  static std::string text_of(std::string_view value) { return std::string(value.substr(1, value.size() - 2)); }
  static Amount number_of(std::string_view value) { return numbers(value)[0]; }
  static Monthly monthly(std::string_view value) {
    std::vector<Amount> found = numbers(value);
    Monthly amounts;
    for (size_t month = 0; month < 12; month++) amounts[month] = found[found.size() == 1 ? 0 : month];
    return amounts;
  }

  void set_top(std::string_view key, std::string_view value) {
    std::vector<Amount> found = numbers(value);
    if (key == "months") basin.months = (int)found[0];
    if (key == "first_month") basin.year = (int)found[0], basin.month = (int)found[1];
  }

  void set_node(Node& node, std::string_view key, std::string_view value) {
    if (key == "name") nodes[node.name = text_of(value)] = (int)basin.nodes.size() - 1;
    else if (key == "outlet") node.is_outlet = value == "true";
    else if (value == "\"gauged\"") node.is_gauged = true, node.series.resize(basin.months);
    else node.inflow = monthly(value);
  }

  void set_link(Link& link, std::string_view key, std::string_view value) {
    if (key == "name") links[link.name = text_of(value)] = (int)basin.links.size() - 1;
    else if (key == "from") link.from = nodes[text_of(value)];
    else if (key == "to") link.to = nodes[text_of(value)];
    else link.per_day = number_of(value);
  }

  void set_reservoir(Reservoir& reservoir, std::string_view key, std::string_view value) {
    if (key == "node") {
      reservoir.node = nodes[text_of(value)];
      reservoirs[text_of(value)] = (int)basin.reservoirs.size() - 1;
    } else if (key == "opening") {
      reservoir.opening = number_of(value);
    } else if (key == "rate") {
      reservoir.rate = monthly(value);
    } else {
      std::vector<Amount> found = numbers(value);
      for (size_t at = 0; at < found.size(); at += 2) reservoir.area.emplace_back(found[at], found[at + 1]);
    }
  }

  void set_right(Right& right, std::string_view key, std::string_view value) {
    if (key == "name") rights[right.name = text_of(value)] = (int)basin.rights.size() - 1;
    else if (key == "node") right.site = nodes[text_of(value)];
    else if (key == "link") right.site = links[text_of(value)];
    else if (key == "reservoir") right.site = reservoirs[text_of(value)];
    else if (key == "level") right.level = (int)number_of(value);
    else if (key == "order") right.order = (int)number_of(value);
    else if (key == "want") right.want = monthly(value);
    else if (key == "date") {
      std::vector<Amount> day = numbers(value);
      right.date = day[0] * 10000 + day[1] * 100 + day[2];
    }
  }

  void set_return(Return& row, std::string_view key, std::string_view value) {
    if (key == "diversion") row.diversion = rights[text_of(value)];
    else if (key == "node") row.node = nodes[text_of(value)];
    else if (key == "part") row.part = number_of(value);
    else row.lag = (int)number_of(value);
  }

  // The amounts of the gauged nodes: `1950-10,n4,37` on each line but the first.
  void read_series(const char* path) {
    std::string bytes = bytes_of(path);
    std::string_view text = bytes;
    for (cut(text, '\n'); !text.empty();) {
      std::string_view line = cut(text, '\n');
      int year = atoi(line.data()), month = atoi(line.data() + 5);
      cut(line, ',');
      std::string name(cut(line, ','));
      basin.nodes[nodes[name]].series[(year - basin.year) * 12 + month - basin.month] = atoll(line.data());
    }
  }
};
