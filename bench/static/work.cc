// Exceptions through several frames, virtual functions, templates of the library, and a locale's numbers.
#include <algorithm>
#include <iostream>
#include <map>
#include <memory>
#include <sstream>
#include <stdexcept>
#include <string>
#include <variant>
#include <vector>

struct Shape {
    virtual ~Shape() = default;
    virtual long area() const = 0;
    virtual std::string name() const { return "shape"; }
};

struct Square : Shape {
    long side;
    explicit Square(long side) : side(side) {
        if (side < 0)
            throw std::invalid_argument("a side is negative");
    }
    long area() const override { return side * side; }
    std::string name() const override { return "square"; }
};

struct Pair : Shape {
    std::unique_ptr<Shape> one, other;
    Pair(std::unique_ptr<Shape> one, std::unique_ptr<Shape> other) : one(std::move(one)), other(std::move(other)) {}
    long area() const override { return one->area() + other->area(); }
};

static std::unique_ptr<Shape> shape_of(long number) {
    if (number % 7 == 0)
        throw std::out_of_range("seven");
    if (number % 2)
        return std::make_unique<Square>(number - 5);
    return std::make_unique<Pair>(std::make_unique<Square>(number), shape_of(number + 1));
}

static long total(const std::vector<std::string> &words) {
    std::map<std::string, long> areas;
    for (const auto &word : words)
        try {
            auto shape = shape_of(std::stol(word));
            areas[shape->name()] += shape->area();
        } catch (const std::out_of_range &) {
            areas["out"]++;
        } catch (const std::exception &fault) {
            areas[fault.what()]++;
        }
    long sum = 0;
    for (const auto &[name, area] : areas) {
        std::cout << name << ' ' << area << '\n';
        sum += area;
    }
    return sum;
}

int main() {
    std::vector<std::string> words;
    for (std::string line; std::getline(std::cin, line);) {
        std::istringstream in(line);
        for (std::string word; in >> word;)
            words.push_back(word);
    }
    std::sort(words.begin(), words.end());
    std::variant<long, std::string> what = total(words);
    std::visit([](const auto &it) { std::cout << it << ' ' << 2.5 << '\n'; }, what);
    return static_cast<int>(words.size());
}
