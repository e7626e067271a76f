// Classes with virtual functions, constructors in several forms, destructors, a copy that is counted.
#include <cstdio>
#include <memory>
#include <string>
#include <utility>
#include <vector>

class Shape {
public:
  explicit Shape(std::string name) : name_(std::move(name)) { alive++; }
  Shape(const Shape &other) : name_(other.name_) {
    alive++;
    copied++;
  }
  virtual ~Shape() { alive--; }
  virtual double area() const = 0;
  virtual int corners() const { return 0; }
  const std::string &name() const { return name_; }
  static int alive, copied;

private:
  std::string name_;
};
int Shape::alive = 0, Shape::copied = 0;

class Circle : public Shape {
public:
  explicit Circle(double radius) : Shape("circle"), radius_(radius) {}
  double area() const override { return 3 * radius_ * radius_; }

private:
  double radius_;
};
class Box : public Shape {
public:
  Box(double width, double height) : Shape("box"), width_(width), height_(height) {
    if (width_ < 0)
      width_ = -width_;
  }
  double area() const override { return width_ * height_; }
  int corners() const override { return 4; }

protected:
  double width_, height_;
};
class Square : public Box {
public:
  explicit Square(double side) : Box(side, side) {}
  double area() const override {
    return width_ == height_ ? Box::area() : 0;
  }
};
static double total(const std::vector<std::unique_ptr<Shape>> &all, int least) {
  double sum = 0;
  for (const auto &it : all) {
    if (it->corners() < least)
      continue;
    sum += it->area();
  }
  return sum;
}
int main() {
  std::vector<std::unique_ptr<Shape>> all;
  for (int i = 1; i < 8; i++) {
    if (i % 3 == 0)
      all.push_back(std::make_unique<Circle>(i));
    else if (i % 3 == 1)
      all.push_back(std::make_unique<Box>(i - 2, i));
    else
      all.push_back(std::make_unique<Square>(i));
  }
  Square one(2);
  Square other(one);
  std::size_t letters = 0;
  for (const auto &it : all)
    letters += it->name().size();
  std::printf("%.1f %.1f %zu %d %d\n", total(all, 0), total(all, 1) + other.area(), letters, Shape::alive, Shape::copied);
  return 0;
}
