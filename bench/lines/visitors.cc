// A tree of expressions: variants that are visited, pointers that own, functions of an overloaded name.
#include <cstdio>
#include <memory>
#include <optional>
#include <string>
#include <variant>

struct Number { double value; };
struct Name { std::string text; };
struct Pair;
using Node = std::variant<Number, Name, std::unique_ptr<Pair>>;
struct Pair { char op; Node left, right; };

static Node pair(char op, Node left, Node right) {
  return std::make_unique<Pair>(Pair{op, std::move(left), std::move(right)});
}
struct Value {
  double x;
  std::optional<double> operator()(const Number &it) const { return it.value; }
  std::optional<double> operator()(const Name &it) const {
    if (it.text == "x")
      return x;
    return std::nullopt;
  }
  std::optional<double> operator()(const std::unique_ptr<Pair> &it) const {
    auto left = std::visit(*this, it->left), right = std::visit(*this, it->right);
    if (!left || !right)
      return std::nullopt;
    switch (it->op) {
    case '+': return *left + *right;
    case '*': return *left * *right;
    case '/':
      if (*right == 0)
        return std::nullopt;
      return *left / *right;
    default: return std::nullopt;
    }
  }
};
static int depth(const Node &it) {
  if (auto *pair = std::get_if<std::unique_ptr<Pair>>(&it)) {
    int left = depth((*pair)->left), right = depth((*pair)->right);
    return 1 + (left > right ? left : right);
  }
  return 1;
}
static std::string text(const Node &it) {
  if (auto *number = std::get_if<Number>(&it))
    return std::to_string(static_cast<int>(number->value));
  if (auto *name = std::get_if<Name>(&it))
    return name->text;
  const auto &pair = *std::get<std::unique_ptr<Pair>>(it);
  return "(" + text(pair.left) + pair.op + text(pair.right) + ")";
}
int main() {
  Node first = pair('+', pair('*', Name{"x"}, Name{"x"}), pair('/', Number{6}, Name{"x"}));
  Node other = pair('+', Name{"y"}, Number{1});
  int none = 0;
  double sum = 0;
  for (int x = -2; x <= 3; x++) {
    auto it = std::visit(Value{static_cast<double>(x)}, first);
    if (it)
      sum += *it;
    else
      none++;
  }
  none += !std::visit(Value{1}, other);
  std::printf("%s %s %.2f %d %d\n", text(first).c_str(), text(other).c_str(), sum, none, depth(first));
  return 0;
}
