// OpenCV's minEnclosingCircle, which works in floats.
#include <opencv2/imgproc.hpp>

#include "../contestant.hpp"

namespace {
using namespace bench;

class OpenCv : public Contestant {
  public:
    void prepare(const std::vector<List>& from) override {
        copy_as<float>(from, lists);
        drawn.resize(lists.size());
    }
    void run() override {
        for (size_t i = 0; i < lists.size(); i++) {
            cv::Point2f center;
            float radius;
            cv::minEnclosingCircle(lists[i], center, radius);
            drawn[i] = {center.x, center.y, radius, false};
        }
    }
    Found found(size_t i) const override { return {{}, drawn[i]}; }

  private:
    std::vector<std::vector<cv::Point2f>> lists;
    std::vector<Drawn> drawn;
};

Enter enter(8, "OpenCV minEnclosingCircle, floats", false, std::make_unique<OpenCv>());
}  // namespace
