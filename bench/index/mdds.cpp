// Times the R-tree of mdds over the same ranges as the program beside it, with the same drawn numbers.
#include <mdds/rtree.hpp>

#include <algorithm>
#include <cstdint>
#include <cstdio>
#include <cstdlib>
#include <ctime>
#include <string>
#include <vector>

using tree_type = mdds::rtree<std::int64_t, std::size_t>;

struct Range {
    std::int64_t top, left, bottom, right;
};

static std::uint32_t next(std::uint32_t seed) { return (std::uint64_t(seed) * 1103515245 + 12345) % 2147483648u; }

struct Numbers {
    std::uint32_t last;
    std::uint32_t below(std::uint32_t bound) {
        std::uint32_t high = next(last);
        last = next(high);
        return bound ? (std::uint64_t(high / 32768) * 65536 + last / 32768) % bound : 0;
    }
    std::uint32_t up_to(std::uint32_t bound) { return below(bound) + 1; }
};

static Range range_at(std::int64_t row, std::int64_t col, std::int64_t rows, std::int64_t cols) {
    return {row, col, std::min<std::int64_t>(row + rows - 1, 1048576), std::min<std::int64_t>(col + cols - 1, 16384)};
}

static Range range_of_line(const std::string& line, Numbers& numbers, std::uint32_t number) {
    if (line == "cells") return range_at(number + 1, 1, 1, 1);
    if (line == "small") {
        auto rows = numbers.up_to(4);
        auto row = numbers.up_to(100000);
        return range_at(row, numbers.up_to(10), rows, 1);
    }
    if (line == "windows") return range_at(number + 1, 1, numbers.below(22) + 9, 1);
    if (line == "prefixes") return range_at(1, 1, numbers.up_to(20000), 1);
    if (line == "rectangles") {
        auto rows = numbers.up_to(100), cols = numbers.up_to(100);
        auto row = numbers.up_to(1000000);
        return range_at(row, numbers.up_to(16000), rows, cols);
    }
    if (line == "crossing") return number % 2 == 0 ? range_at(number / 2 + 1, 1, 1, 16384) : range_at(1, number / 2 + 1, 1048576, 1);
    return range_at(1, 1, 1000, 1);
}

static long long now() {
    timespec time;
    clock_gettime(CLOCK_PROCESS_CPUTIME_ID, &time);
    return time.tv_sec * 1000000000LL + time.tv_nsec;
}

// The rectangles of mdds end behind their last cell where they are searched by overlap.
static tree_type::extent_type extent_of(const Range& range) {
    return {{range.top * 2, range.left * 2}, {range.bottom * 2 + 1, range.right * 2 + 1}};
}

int main(int argc, char** argv) {
    if (argc < 5) return 2;
    std::string line = argv[1];
    std::uint32_t count = std::atoi(argv[2]), queries = std::atoi(argv[3]), removals = std::atoi(argv[4]);
    Numbers drawn{1};
    std::vector<Range> ranges;
    for (std::uint32_t number = 0; number < count; ++number) ranges.push_back(range_of_line(line, drawn, number));

    tree_type tree;
    auto start = now();
    for (std::size_t id = 0; id < ranges.size(); ++id) tree.insert(extent_of(ranges[id]), std::size_t(id));
    auto filled = now();
    Numbers asked{2};
    std::uint64_t answers = 0;
    for (std::uint32_t query = 0; query < queries; ++query) {
        const Range& range = ranges[asked.below(ranges.size())];
        auto found = tree.search({{range.top * 2, range.left * 2}, {range.top * 2 + 1, range.left * 2 + 1}}, tree_type::search_type::overlap);
        for (auto it = found.begin(); it != found.end(); ++it) ++answers;
    }
    auto queried = now();
    // A removal finds the id among those that have its range or a part of it.
    for (std::size_t id = 0; id < removals && id < ranges.size(); ++id) {
        auto found = tree.search(extent_of(ranges[id]), tree_type::search_type::match);
        for (auto it = found.begin(); it != found.end(); ++it) {
            if (*it == id) {
                tree.erase(it);
                break;
            }
        }
    }
    std::printf("%lld %lld %lld %llu\n", filled - start, queried - filled, now() - queried, (unsigned long long)answers);
}
