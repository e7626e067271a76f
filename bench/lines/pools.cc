// Memory and life times: a pool with placement new, moves, shared owners, a guard that undoes.
#include <cstddef>
#include <cstdio>
#include <memory>
#include <new>
#include <utility>
#include <vector>

template <typename T, int N> class Pool {
public:
  Pool() {
    for (int i = 0; i < N; i++)
      free_.push_back(i);
  }
  template <typename... Words> T *make(Words &&...words) {
    if (free_.empty())
      return nullptr;
    int at = free_.back();
    free_.pop_back();
    return new (&room_[at]) T(std::forward<Words>(words)...);
  }
  void drop(T *it) {
    if (!it)
      return;
    it->~T();
    free_.push_back(static_cast<int>(reinterpret_cast<Room *>(it) - room_));
  }
  std::size_t left() const { return free_.size(); }

private:
  struct alignas(T) Room { unsigned char bytes[sizeof(T)]; };
  Room room_[N];
  std::vector<int> free_;
};
struct Point {
  Point(int x, int y) : x(x), y(y) { made++; }
  ~Point() { made--; }
  int x, y;
  static inline int made = 0;
};
class Buffer {
public:
  explicit Buffer(int size) : size_(size), at_(new int[size]()) {}
  Buffer(Buffer &&other) noexcept : size_(std::exchange(other.size_, 0)), at_(std::exchange(other.at_, nullptr)) { moves++; }
  Buffer &operator=(Buffer &&other) noexcept {
    std::swap(size_, other.size_);
    std::swap(at_, other.at_);
    return *this;
  }
  ~Buffer() { delete[] at_; }
  int size() const { return size_; }
  static inline int moves = 0;

private:
  int size_;
  int *at_;
};
template <typename F> struct Guard {
  F undo;
  ~Guard() { undo(); }
};
template <typename F> Guard(F) -> Guard<F>;

static int guarded(int n, int &balance) {
  balance++;
  Guard guard{[&balance] { balance--; }};
  if (n % 2)
    return balance;
  for (int i = 0; i < n; i++)
    if (i * i > n)
      return i;
  return -1;
}
int main() {
  Pool<Point, 4> pool;
  std::vector<Point *> points;
  for (int i = 0; i < 6; i++)
    points.push_back(pool.make(i, i * i));
  int missing = 0;
  for (Point *it : points)
    missing += it == nullptr;
  pool.drop(points[1]);
  pool.drop(points[5]);
  Buffer buffer = [](int n) { Buffer it(n); return n > 3 ? std::move(it) : Buffer(1); }(5);
  buffer = Buffer(9);
  auto shared = std::make_shared<Buffer>(std::move(buffer));
  std::weak_ptr<Buffer> weak = shared;
  auto second = weak.lock();
  shared.reset();
  int balance = 0, sum = 0;
  for (int i = 0; i < 9; i++)
    sum += guarded(i, balance);
  std::printf("%d %zu %d %d %d %d %d\n", missing, pool.left(), Point::made, second->size(), weak.expired(), sum, balance);
  return 0;
}
