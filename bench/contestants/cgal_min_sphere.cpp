// CGAL's Min_sphere_of_spheres_d (Fischer and Gärtner's Miniball) in doubles.
#include <CGAL/Min_sphere_of_points_d_traits_2.h>
#include <CGAL/Min_sphere_of_spheres_d.h>
#include <CGAL/Simple_cartesian.h>

#include "../contestant.hpp"

namespace {
using namespace bench;
using Kernel = CGAL::Simple_cartesian<double>;
using Traits = CGAL::Min_sphere_of_points_d_traits_2<Kernel, double>;
using MinSphere = CGAL::Min_sphere_of_spheres_d<Traits>;

class CgalMinSphere : public Contestant {
  public:
    void prepare(const std::vector<List>& from) override {
        copy_as<double>(from, lists);
        drawn.resize(lists.size());
    }
    void run() override {
        for (size_t i = 0; i < lists.size(); i++) {
            MinSphere found(lists[i].begin(), lists[i].end());
            auto center = found.center_cartesian_begin();
            drawn[i] = {center[0], center[1], found.radius(), false};
        }
    }
    Found found(size_t i) const override { return {{}, drawn[i]}; }

  private:
    std::vector<std::vector<Kernel::Point_2>> lists;
    std::vector<Drawn> drawn;
};

Enter enter(6, "CGAL Min_sphere_of_spheres_d, doubles", false, std::make_unique<CgalMinSphere>());
}  // namespace
