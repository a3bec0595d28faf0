// CGAL's Min_circle_2 with exact numbers: the points as given, and shuffled by CGAL.
//
// The kernel is the fastest of CGAL's exact ones for this class; Simple_homogeneous<Exact_integer>, the one of CGAL's own example, and
// Simple_cartesian<Exact_rational> took 20 to 100 times as long. It works out exact values only when asked: asking for those of the
// answer is part of the time.
#include <CGAL/Exact_predicates_exact_constructions_kernel.h>
#include <CGAL/Fraction_traits.h>
#include <CGAL/Min_circle_2.h>
#include <CGAL/Min_circle_2_traits_2.h>
#include <CGAL/Random.h>

#include <numeric>
#include <sstream>
#include <string>

#include "../contestant.hpp"

namespace {
using namespace bench;
using Kernel = CGAL::Exact_predicates_exact_constructions_kernel;
using Rational = Kernel::Exact_kernel::FT;
using Fraction = CGAL::Fraction_traits<Rational>;
using MinCircle = CGAL::Min_circle_2<CGAL::Min_circle_2_traits_2<Kernel>>;

struct Parts {
    __int128 over, under;
};

template <class Z>
__int128 to_int128(const Z& z) {
    std::ostringstream out;
    out << z;
    std::string text = out.str();
    __int128 value = 0;
    for (char c : text) {
        if (c != '-') value = 10 * value + (c - '0');
    }
    return text[0] == '-' ? -value : value;
}

// A fraction in lowest terms whose parts fit 128 bits.
Parts parts_of(const Rational& q) {
    Fraction::Numerator_type over;
    Fraction::Denominator_type under;
    Fraction::Decompose()(q, over, under);
    return {to_int128(over), to_int128(under)};
}

struct Circle {
    Rational x, y, square;
};

Disk lowest_terms(const Circle& c) {
    Parts x = parts_of(c.x), y = parts_of(c.y), square = parts_of(c.square);
    int64_t e = std::lcm(int64_t(x.under), int64_t(y.under));
    return {int64_t(x.over * (e / x.under)), int64_t(y.over * (e / y.under)), e, Wide(square.over * (e * e / square.under))};
}

class CgalMinCircle : public Contestant {
  public:
    explicit CgalMinCircle(bool shuffled) : is_shuffled(shuffled) {}
    void prepare(const std::vector<List>& from) override {
        lists.clear();
        circles.clear();
        for (const List& list : from) {
            lists.emplace_back();
            for (Point p : list) lists.back().emplace_back(int(p.x), int(p.y));
        }
        circles.reserve(lists.size());
    }
    void run() override {
        CGAL::Random random(1);
        for (const auto& list : lists) {
            MinCircle found(list.begin(), list.end(), is_shuffled, random);
            auto center = found.circle().center();
            circles.push_back({CGAL::exact(center.x()), CGAL::exact(center.y()), CGAL::exact(found.circle().squared_radius())});
        }
    }
    Found found(size_t i) const override { return {lowest_terms(circles[i]), {}}; }

  private:
    bool is_shuffled;
    std::vector<std::vector<Kernel::Point_2>> lists;
    std::vector<Circle> circles;
};

Enter as_given(4, "CGAL Min_circle_2, exact, as given", true, std::make_unique<CgalMinCircle>(false));
Enter shuffled(5, "CGAL Min_circle_2, exact, shuffled", true, std::make_unique<CgalMinCircle>(true));
}  // namespace
