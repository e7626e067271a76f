// Templates with several instances: functions, classes, packs of arguments, one that is specialized.
#include <array>
#include <cstdio>
#include <string>

template <typename T> T largest(const T *at, int count) {
  T it = at[0];
  for (int i = 1; i < count; i++)
    if (it < at[i])
      it = at[i];
  return it;
}
template <typename T, int N> class Ring {
public:
  bool put(T it) {
    if (size_ == N)
      return false;
    slots_[(first_ + size_++) % N] = it;
    return true;
  }
  bool take(T &it) {
    if (size_ == 0)
      return false;
    it = slots_[first_];
    first_ = (first_ + 1) % N;
    size_--;
    return true;
  }

private:
  std::array<T, N> slots_{};
  int first_ = 0, size_ = 0;
};
template <typename T> int size_of(const T &) {
  return static_cast<int>(sizeof(T));
}
template <> int size_of(const std::string &it) {
  return static_cast<int>(it.size());
}
template <typename T> int sizes(const T &it) {
  return size_of(it);
}
template <typename T, typename... More> int sizes(const T &it, const More &...more) {
  return size_of(it) + sizes(more...);
}
template <unsigned N> struct Steps {
  static unsigned run(unsigned it) {
    if (it % 2)
      it = it * 3 + 1;
    return Steps<N - 1>::run(it / 2);
  }
};
template <> struct Steps<0> {
  static unsigned run(unsigned it) { return it; }
};
template <typename T, int N> static int filled(T with) {
  Ring<T, N> ring;
  int count = 0;
  while (ring.put(with))
    count++;
  for (T it; ring.take(it);)
    count++;
  return count;
}
int main() {
  const int numbers[] = {3, 9, 2};
  const double reals[] = {1.5, -2, 0.25, 4};
  const std::string texts[] = {"one", "two"};
  std::printf("%d %.2f %s\n", largest(numbers, 3), largest(reals, 4), largest(texts, 2).c_str());
  std::printf("%d %d %d\n", filled<int, 4>(1), filled<char, 7>('c'), filled<double, 2>(0));
  std::printf("%d %u\n", sizes(1, 'c', std::string("four"), 2.0), Steps<5>::run(27));
  return 0;
}
