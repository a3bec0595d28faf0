// OpenCV's convexHull on whole numbers.
#include <opencv2/imgproc.hpp>

#include "../contestant.hpp"
#include "hull_from_least.hpp"

namespace {
using namespace bench;

class OpenCvHull : public Contestant {
  public:
    void prepare(const std::vector<List>& from) override {
        copy_as<int>(from, lists);
        hulls.resize(lists.size());
        for (auto& hull : hulls) hull.clear();
    }
    void run() override {
        for (size_t i = 0; i < lists.size(); i++) cv::convexHull(lists[i], hulls[i], false);
    }
    Found found(size_t i) const override {
        List hull;
        for (cv::Point p : hulls[i]) hull.push_back({int16_t(p.x), int16_t(p.y)});
        return {{}, {}, from_least(hull)};
    }

  private:
    std::vector<std::vector<cv::Point>> lists, hulls;
};

Enter enter(4, "OpenCV convexHull", false, std::make_unique<OpenCvHull>());
}  // namespace
