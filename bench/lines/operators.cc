// Operators of a class of fractions and of one of polynomials, friends, conversions, comparisons.
#include <cstdio>
#include <initializer_list>
#include <vector>

class Fraction {
public:
  Fraction(long top = 0, long bottom = 1) : top_(top), bottom_(bottom) { reduce(); }
  Fraction &operator+=(const Fraction &it) {
    top_ = top_ * it.bottom_ + it.top_ * bottom_;
    bottom_ *= it.bottom_;
    reduce();
    return *this;
  }
  Fraction &operator*=(const Fraction &it) {
    top_ *= it.top_;
    bottom_ *= it.bottom_;
    reduce();
    return *this;
  }
  friend Fraction operator+(Fraction a, const Fraction &b) { return a += b; }
  friend Fraction operator*(Fraction a, const Fraction &b) { return a *= b; }
  friend bool operator<(const Fraction &a, const Fraction &b) { return a.top_ * b.bottom_ < b.top_ * a.bottom_; }
  friend bool operator==(const Fraction &a, const Fraction &b) { return !(a < b) && !(b < a); }
  explicit operator bool() const { return top_ != 0; }
  long top() const { return top_; }
  long bottom() const { return bottom_; }

private:
  static long gcd(long a, long b) { return b ? gcd(b, a % b) : a; }
  void reduce() {
    if (bottom_ < 0) {
      top_ = -top_;
      bottom_ = -bottom_;
    }
    long by = gcd(top_ < 0 ? -top_ : top_, bottom_);
    if (by > 1) {
      top_ /= by;
      bottom_ /= by;
    }
  }
  long top_, bottom_;
};
class Polynomial {
public:
  Polynomial(std::initializer_list<Fraction> parts) : parts_(parts) {}
  Fraction operator()(const Fraction &at) const {
    Fraction it;
    for (auto part = parts_.rbegin(); part != parts_.rend(); ++part)
      it = it * at + *part;
    return it;
  }
  Fraction &operator[](unsigned degree) {
    if (degree >= parts_.size())
      parts_.resize(degree + 1);
    return parts_[degree];
  }

private:
  std::vector<Fraction> parts_;
};
int main() {
  Polynomial p{1, {1, 2}, {-1, 3}};
  p[4] = {1, -6};
  Fraction least = 100, sum;
  int zeros = 0;
  for (int i = -4; i <= 4; i++) {
    Fraction it = p({i, 2});
    if (it < least)
      least = it;
    if (!it)
      zeros++;
    sum += it;
  }
  std::printf("%ld/%ld %ld/%ld %d %d\n", least.top(), least.bottom(), sum.top(), sum.bottom(), zeros, Fraction(2, 4) == Fraction(1, 2));
  return 0;
}
