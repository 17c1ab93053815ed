// Four threads share one server, by lanes that are named by number: one of them starts it, and all find it.
#include "ext_lanes.h"

#include <atomic>
#include <cstdio>
#include <string>
#include <thread>
#include <vector>

static const uint8_t *bytes(const std::string &text) { return reinterpret_cast<const uint8_t *>(text.data()); }

int main() {
    static ext_lanes lanes;
    const std::string id = "[engine:x]", name = "server";
    uint32_t length = static_cast<uint32_t>(id.size());
    ext_limits limits{};
    limits.tries = 64;
    limits.numbers = 100;
    limits.keys = 32;
    limits.keep_faults = true;
    if (ext_lanes_open(&lanes, bytes(id), id.size(), &length, 1, &limits, 5) != EXT_DONE) return 1;
    std::size_t key = 0;
    length = static_cast<uint32_t>(name.size());
    if (ext_lanes_key(&lanes, 0, bytes(name), name.size(), &length, 1, &key) != EXT_DONE) return 1;

    std::atomic<int> started{0}, found{0};
    std::vector<std::thread> threads;
    for (uint32_t lane = 0; lane < 4; lane++) {
        threads.emplace_back([&, lane] {
            ext_value value{};
            ext_code code = EXT_BUSY;
            while (code == EXT_BUSY || code == EXT_CONTENDED) code = ext_lanes_begin(&lanes, lane, 0, key, &value);
            if (code == EXT_RUN) {
                started++;
                value.handle = 8080;
                code = ext_lanes_fill(&lanes, lane, value.handle, true, &value.number);
            }
            if (code == EXT_DONE && value.handle == 8080) found++;
        });
    }
    for (std::thread &thread : threads) thread.join();

    ext_value left[32] = {};
    std::size_t count = 0;
    ext_code code = ext_lanes_close(&lanes, 0, left, 32, &count);
    for (uint32_t lane = 0; lane < lanes.count; lane++) ext_lanes_leave(&lanes, lane);
    std::printf("started %d, found %d; %s, to be closed %zu\n", started.load(), found.load(), ext_code_name(code), count);
    return 0;
}
