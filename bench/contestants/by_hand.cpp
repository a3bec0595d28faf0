// The same procedure by hand, on 64-bit integers but for S: on the list as given, and on the corners of its hull.
#include "../by_hand.hpp"

#include "../hull_by_hand.hpp"

namespace {
using namespace bench;

class ByHand : public Contestant {
  public:
    void prepare(const std::vector<List>& from) override {
        lists = from;
        answers.resize(lists.size());
    }
    void run() override {
        for (size_t i = 0; i < lists.size(); i++) {
            answers[i] = by_hand::smallest_disk(lists[i].data(), lists[i].size(), scratch);
        }
    }
    Found found(size_t i) const override { return {answers[i].disk, {}}; }

  protected:
    std::vector<List> lists;
    std::vector<Point> scratch;
    std::vector<by_hand::Answer> answers;
};

class HullFirst : public ByHand {
    void run() override {
        for (size_t i = 0; i < lists.size(); i++) {
            Point* list = lists[i].data();
            size_t kept = by_hand::hull_by_columns(list, lists[i].size(), scratch).count;
            answers[i] = by_hand::smallest_disk(list, kept, scratch);
        }
    }
};

Enter enter(1, "C++ by hand, 64-bit", true, std::make_unique<ByHand>());
Enter hull_first(3, "C++ by hand, hull first", true, std::make_unique<HullFirst>());
}  // namespace
