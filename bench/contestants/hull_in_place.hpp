// A contestant that reduces a list in place: the corners of the hull to its front, zeros behind them.
#pragma once
#include "../contestant.hpp"

namespace bench {

class HullInPlace : public Contestant {
  public:
    void prepare(const std::vector<List>& from) override {
        lists = from;
        counts.resize(lists.size());
    }
    void run() override {
        for (size_t i = 0; i < lists.size(); i++) counts[i] = reduce(lists[i]);
    }
    // No hull where anything but zeros is behind the points that were kept.
    Found found(size_t i) const override {
        const List& list = lists[i];
        for (size_t k = counts[i]; k < list.size(); k++) {
            if (list[k].x != 0 || list[k].y != 0) return {};
        }
        return {{}, {}, {list.begin(), list.begin() + long(counts[i])}};
    }

  protected:
    // How many points are kept, or 0 for a list that is refused.
    virtual size_t reduce(List& list) = 0;

  private:
    std::vector<List> lists;
    std::vector<size_t> counts;
};

}  // namespace bench
