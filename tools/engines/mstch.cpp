// work SOURCE DATA PARTIALS COUNT TEXT: as compare-engines says. mstch has no compiled templates: each rendering reads the source.
#include <chrono>
#include <fstream>
#include <iostream>
#include <limits>
#include <map>
#include <sstream>
#include <string>

#include <mstch/mstch.hpp>
#include <nlohmann/json.hpp>

static std::string read(const char* path) {
  std::ifstream file(path, std::ios::binary);
  std::stringstream text;
  text << file.rdbuf();
  return text.str();
}

static mstch::node node_of(const nlohmann::json& value) {
  if (value.is_object()) {
    mstch::map members;
    for (const auto& member : value.items()) members[member.key()] = node_of(member.value());
    return members;
  }
  if (value.is_array()) {
    mstch::array items;
    for (const auto& item : value) items.push_back(node_of(item));
    return items;
  }
  if (value.is_boolean()) return value.get<bool>();
  if (value.is_number_integer()) return value.get<int>();
  if (value.is_string()) return value.get<std::string>();
  return nullptr;
}

int main(int, char** words) {
  const std::string source = read(words[1]);
  const mstch::node data = node_of(nlohmann::json::parse(read(words[2])));
  std::map<std::string, std::string> partials;
  const nlohmann::json sources = nlohmann::json::parse(read(words[3]));
  for (const auto& partial : sources.items()) partials[partial.key()] = partial.value().get<std::string>();
  const int count = std::stoi(words[4]);
  double least = std::numeric_limits<double>::infinity();
  std::string answer;
  for (int run = 0; run < 2 * count; ++run) {
    const auto start = std::chrono::steady_clock::now();
    answer = mstch::render(source, data, partials);
    const std::chrono::duration<double, std::milli> taken = std::chrono::steady_clock::now() - start;
    if (run >= count) least = std::min(least, taken.count());
  }
  std::ofstream(words[5], std::ios::binary) << answer;
  std::cout << least << std::endl;
}
