// The engine through its C interface (include/volkhidar.h): on the list as given, and on the corners of its hull.
#include "../ours.hpp"

namespace {
using namespace bench;

class Engine : public Contestant {
  public:
    void prepare(const std::vector<List>& from) override {
        lists = from;
        answers.resize(lists.size());
    }
    void run() override {
        for (size_t i = 0; i < lists.size(); i++) {
            answers[i] = volkhidar_smallest_disk(&lists[i].data()->x, 2 * lists[i].size());
        }
    }
    Found found(size_t i) const override { return {disk_of(answers[i].disk), {}}; }

  protected:
    std::vector<List> lists;
    std::vector<volkhidar_disk_answer> answers;
};

// The disk and its support set are those of the whole list, the count and the order are not.
class HullFirst : public Engine {
    void run() override {
        for (size_t i = 0; i < lists.size(); i++) {
            int16_t* list = &lists[i].data()->x;
            size_t kept = volkhidar_reduce_to_hull(list, 2 * lists[i].size()).count;
            answers[i] = volkhidar_smallest_disk(list, 2 * kept);
        }
    }
};

Enter enter(0, "Volkhidar", true, std::make_unique<Engine>());
Enter hull_first(2, "Volkhidar, hull first: the disk alone", true, std::make_unique<HullFirst>());
}  // namespace
