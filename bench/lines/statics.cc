// What runs before and after main: objects of a namespace, of a function, constants of the compiler.
#include <cstdio>
#include <cstring>

namespace log {
static char text[200];
static void say(const char *what) {
  if (std::strlen(text) + std::strlen(what) + 2 < sizeof text) {
    std::strcat(text, what);
    std::strcat(text, " ");
  }
}
} // namespace log

class Named {
public:
  explicit Named(const char *name) : name_(name) { log::say(name_); }
  ~Named() {
    log::say("~");
    if (*name_ == 'a')
      std::puts(log::text);
  }

private:
  const char *name_;
};
static Named a("a"), b("b");

constexpr int fibonacci(int n) {
  return n < 2 ? n : fibonacci(n - 1) + fibonacci(n - 2);
}
static_assert(fibonacci(10) == 55, "worked out by the compiler");

static int &shared() {
  static Named inside("inside");
  static int count = fibonacci(6);
  count++;
  return count;
}
template <typename T> struct Counted {
  Counted() { count++; }
  Counted(const Counted &) { count++; }
  ~Counted() { count--; }
  static int count;
};
template <typename T> int Counted<T>::count = 0;

struct First : Counted<First> {
  int value = 3;
};
struct Second : Counted<Second> {
  explicit Second(int v) : value(v) {}
  Second() : Second(7) { value++; }
  int value;
};
int main() {
  First firsts[3];
  Second one, other(1);
  int sum = 0;
  for (auto &it : firsts)
    sum += it.value;
  {
    First inner = firsts[0];
    sum += Counted<First>::count + inner.value;
  }
  shared();
  shared() += sum;
  std::printf("%d %d %d %d\n", shared(), Counted<First>::count, Counted<Second>::count, one.value + other.value);
  return 0;
}
