// Exceptions through several frames, cleaned up on the way, caught by type, thrown again.
#include <cstdio>
#include <stdexcept>
#include <string>

static int opened, closed;

struct Handle {
  explicit Handle(int number) : number_(number) {
    if (number > 8)
      throw std::out_of_range("no such handle");
    opened++;
  }
  ~Handle() { closed++; }
  int number_;
};
static int deep(int n) {
  Handle handle(n);
  if (n == 3)
    throw std::runtime_error("three");
  if (n == 5)
    throw n;
  if (n > 5)
    return deep(n - 4) + handle.number_;
  return n;
}
static int guarded(int n) {
  try {
    Handle outer(0);
    return deep(n);
  } catch (const std::runtime_error &error) {
    return -static_cast<int>(std::string(error.what()).size());
  } catch (int number) {
    if (number == 5)
      throw;
    return number;
  }
}
static int all(int n) {
  int sum = 0;
  for (int i = 0; i < n; i++) {
    try {
      sum += guarded(i);
    } catch (const std::exception &error) {
      sum += 1000;
    } catch (...) {
      sum += 100;
    }
  }
  return sum;
}
static int never(int n) noexcept {
  try {
    return n / 2;
  } catch (...) {
    return 0;
  }
}
int main() {
  int sum = all(12);
  std::printf("%d %d %d %d\n", sum, opened, closed, never(9));
  return opened != closed;
}
