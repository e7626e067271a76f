// Containers of the library: maps, sets, strings, streams; ranges and iterators of our own.
#include <cstdio>
#include <map>
#include <set>
#include <sstream>
#include <string>
#include <vector>

class Range {
public:
  class Iterator {
  public:
    Iterator(int at, int by) : at_(at), by_(by) {}
    int operator*() const { return at_; }
    Iterator &operator++() {
      at_ += by_;
      return *this;
    }
    bool operator!=(const Iterator &other) const { return at_ < other.at_; }

  private:
    int at_, by_;
  };
  Range(int first, int behind, int by = 1) : first_(first), behind_(behind), by_(by) {}
  Iterator begin() const { return {first_, by_}; }
  Iterator end() const { return {behind_, by_}; }

private:
  int first_, behind_, by_;
};
static std::map<std::string, std::vector<int>> index_of(const std::string &text) {
  std::map<std::string, std::vector<int>> found;
  std::istringstream words(text);
  std::string word;
  for (int at = 0; words >> word; at++) {
    if (word.size() < 2)
      continue;
    found[word].push_back(at);
  }
  return found;
}
static std::string joined(const std::set<std::string> &words, char gap) {
  std::string text;
  for (const auto &it : words) {
    if (!text.empty())
      text += gap;
    text += it;
  }
  return text;
}
int main() {
  auto index = index_of("to be or not to be that is a question or is it");
  std::set<std::string> twice;
  int last = 0;
  for (const auto &[word, places] : index) {
    if (places.size() > 1)
      twice.insert(word);
    if (places.back() > last)
      last = places.back();
  }
  int sum = 0;
  for (int it : Range(0, 20, 3))
    for (int other : Range(it, it + 2))
      sum += other % 5;
  std::printf("%s %d %d\n", joined(twice, '-').c_str(), last, sum);
  return 0;
}
