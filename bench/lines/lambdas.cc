// Lambdas with captures, functions as values, algorithms of the library over them.
#include <algorithm>
#include <cstdio>
#include <functional>
#include <numeric>
#include <vector>

static std::function<int(int)> adder(int by) {
  return [by](int it) { return it + by; };
}
static std::function<int()> counter() {
  int count = 0;
  return [count]() mutable {
    if (++count == 3)
      count = 10;
    return count;
  };
}
template <typename F> static int applied(const std::vector<int> &to, F each) {
  int sum = 0;
  for (int it : to)
    sum += each(it);
  return sum;
}
static std::function<int(int)> chain(const std::vector<std::function<int(int)>> &all) {
  return [all](int it) {
    for (const auto &each : all)
      it = each(it);
    return it;
  };
}
int main() {
  std::vector<int> numbers(20);
  std::iota(numbers.begin(), numbers.end(), -5);
  int seen = 0;
  std::stable_sort(numbers.begin(), numbers.end(), [&seen](int a, int b) {
    seen++;
    return a % 4 != b % 4 ? a % 4 < b % 4 : a > b;
  });
  auto last = std::remove_if(numbers.begin(), numbers.end(), [](int it) { return it < 0; });
  numbers.erase(last, numbers.end());
  auto next = counter();
  int sum = 0;
  for (int i = 0; i < 5; i++)
    sum += next();
  auto both = chain({adder(3), [](int it) { return it * it; }, adder(-1)});
  std::printf("%d %zu %d %d %d %d\n", numbers[0], numbers.size(), sum, both(2), applied(numbers, adder(1)),
              applied(numbers, [](int it) { return it % 2 ? 1 : 0; }));
  return seen == 0;
}
