// An iterator that is kept while its vector grows: who grew it is named.
// ends: 129
// tells: Use After Free
#include <cstddef>
#include <vector>

struct Events {
    __attribute__((noinline)) std::size_t add(int event)
    {
        listed.push_back(event);
        return listed.size();
    }
    std::vector<int> listed;
};

__attribute__((noinline)) int sum(const std::vector<int> &numbers, std::vector<int>::iterator at)
{
    int sum = 0;
    for (; at != numbers.end(); ++at)
        sum += *at;
    return sum;
}

int main()
{
    Events events;
    for (int event = 0; event < 8; event++)
        events.add(event);
    auto kept = events.listed.begin();
    events.add(8);
    return sum(events.listed, kept);
}
