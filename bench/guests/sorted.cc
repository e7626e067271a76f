// std::thread, std::async and futures: parts of a sequence sorted at once, and merged.
#include <algorithm>
#include <future>
#include <iostream>
#include <thread>
#include <vector>
int main() {
  std::vector<unsigned> values(80000);
  unsigned value = 1;
  for (auto &it : values)
    it = value = value * 1664525 + 1013904223;
  std::vector<std::thread> threads;
  for (int i = 0; i < 4; i++)
    threads.emplace_back([&, i] { std::sort(values.begin() + i * 20000, values.begin() + (i + 1) * 20000); });
  for (auto &it : threads)
    it.join();
  auto half = [&](int i) { std::inplace_merge(values.begin() + i, values.begin() + i + 20000, values.begin() + i + 40000); };
  auto one = std::async(std::launch::async, half, 0), other = std::async(std::launch::async, half, 40000);
  one.get(), other.get();
  std::inplace_merge(values.begin(), values.begin() + 40000, values.end());
  std::cout << std::is_sorted(values.begin(), values.end()) << ' ' << values[40000] << '\n';
}
