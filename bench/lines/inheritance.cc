// Several bases, a virtual one, casts between them, private bases, functions that hide others.
#include <cstdio>
#include <vector>

struct Thing {
  explicit Thing(int id) : id(id) {}
  virtual ~Thing() = default;
  virtual int weight() const { return 1; }
  int id;
};
struct Moving : virtual Thing {
  Moving() : Thing(0) {}
  virtual int speed() const { return 10; }
  int weight() const override { return Thing::weight() + 1; }
};
struct Floating : virtual Thing {
  Floating() : Thing(0) {}
  virtual bool is_afloat() const { return weight() < 10; }
};
struct Boat final : Moving, Floating {
  explicit Boat(int load) : Thing(load + 1), load_(load) {}
  int speed() const override {
    int it = Moving::speed();
    for (int i = 0; i < load_; i++)
      it -= i;
    return it < 1 ? 1 : it;
  }
  int weight() const override { return 4 + load_; }
  int load_;
};
struct Cart : Moving {
  Cart() : Thing(100) {}
  int speed(int slope) const {
    if (slope > 3)
      return 0;
    return Moving::speed() - slope;
  }
};
class Counter {
protected:
  int counted(int by) { return count_ += by; }

private:
  int count_ = 0;
};
class Fleet : private Counter {
public:
  void add(Thing *it) {
    all_.push_back(it);
    if (dynamic_cast<Floating *>(it))
      counted(1);
    else if (auto *cart = dynamic_cast<Cart *>(it))
      counted(cart->speed(2));
  }
  int sum() {
    int it = 0;
    for (Thing *thing : all_) {
      auto *moving = dynamic_cast<Moving *>(thing);
      it += thing->weight() * (moving ? moving->speed() : 0);
    }
    return it + counted(0);
  }
  int afloat() const {
    int count = 0;
    for (const Thing *thing : all_)
      if (auto *it = dynamic_cast<const Floating *>(thing); it && it->is_afloat())
        count++;
    return count;
  }

private:
  std::vector<Thing *> all_;
};
int main() {
  Thing plain(7);
  Boat light(2), heavy(6);
  Cart cart;
  Fleet fleet;
  for (Thing *it : {&plain, static_cast<Thing *>(&light), static_cast<Thing *>(&heavy), static_cast<Thing *>(&cart)})
    fleet.add(it);
  std::printf("%d %d %d\n", fleet.sum(), fleet.afloat(), light.id + heavy.id + cart.speed(9));
  return 0;
}
