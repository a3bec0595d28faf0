// CGAL's convex_hull_2 with exact predicates. It gives the corners counterclockwise and leaves out points in a row.
#include <CGAL/Exact_predicates_inexact_constructions_kernel.h>
#include <CGAL/convex_hull_2.h>

#include <iterator>

#include "../contestant.hpp"
#include "hull_from_least.hpp"

namespace {
using namespace bench;
using Kernel = CGAL::Exact_predicates_inexact_constructions_kernel;

class CgalHull : public Contestant {
  public:
    void prepare(const std::vector<List>& from) override {
        copy_as<double>(from, lists);
        hulls.resize(lists.size());
        for (auto& hull : hulls) hull.clear();
    }
    void run() override {
        for (size_t i = 0; i < lists.size(); i++) CGAL::convex_hull_2(lists[i].begin(), lists[i].end(), std::back_inserter(hulls[i]));
    }
    Found found(size_t i) const override {
        List hull;
        for (const Kernel::Point_2& p : hulls[i]) hull.push_back({int16_t(p.x()), int16_t(p.y())});
        return {{}, {}, from_least(hull)};
    }

  private:
    std::vector<std::vector<Kernel::Point_2>> lists, hulls;
};

Enter enter(3, "CGAL convex_hull_2", true, std::make_unique<CgalHull>());
}  // namespace
