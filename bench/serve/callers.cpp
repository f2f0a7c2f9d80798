// Calls of the C++ client: `callers N CALLS COMMAND..` prints the seconds that N behaviours at once need for CALLS calls in all.
// If it is compiled with IN_PROCESS, they are made in process, and `callers SECONDS 0` measures the library itself.
#include <array>
#include <atomic>
#include <chrono>
#include <cstdlib>
#include <iostream>
#include <mutex>
#include <string>
#include <thread>
#include <vector>

#include "filskeam.hpp"

namespace {

#ifdef IN_PROCESS

using Clock = std::chrono::steady_clock;

void must(bool is_so) {
    if (!is_so) std::abort();
}

struct Case {
    filskeam_case place = FILSKEAM_CLOSED;

    explicit Case(std::uint16_t behaviours) { must(filskeam_open(&place, behaviours) == FILSKEAM_DONE); }
    ~Case() { filskeam_close(&place); }
    void play(const std::string& move) {
        std::array<char, FILSKEAM_REPLY> room;
        std::size_t size = 0;
        must(filskeam_play(&place, move.data(), move.size(), room.data(), room.size(), &size) == FILSKEAM_DONE);
    }
};

// 32 components, each created, started, asked for and finished.
std::vector<std::string> moves() {
    std::vector<std::string> found;
    for (int it = 1; it <= 32; ++it) {
        const auto n = std::to_string(it);
        found.insert(found.end(), {"0 create alive", "0 start " + n + " " + n, "0 running " + n, n + " setverdict pass", n + " getverdict",
                                   n + " finish", "0 done " + n});
    }
    found.emplace_back("0 finish");
    return found;
}

// How often something is done in a second.
template <typename Do>
double rate(double seconds, std::size_t each, Do act) {
    const auto began = Clock::now();
    std::size_t count = 0;
    for (std::chrono::duration<double> past{}; past.count() < seconds; past = Clock::now() - began) {
        act();
        count += each;
    }
    return static_cast<double>(count) / std::chrono::duration<double>(Clock::now() - began).count();
}

double shared_rate(double seconds, int threads) {
    Case all(1);
    std::mutex lock;
    std::vector<std::thread> callers;
    std::atomic<double> sum{0};
    for (int it = 0; it < threads; ++it)
        callers.emplace_back([&, move = std::string(it % 2 ? "0 getverdict" : "0 running all")] {
            const double own = rate(seconds, 256, [&] {
                for (int call = 0; call < 256; ++call) {
                    std::lock_guard<std::mutex> hold(lock);
                    all.play(move);
                }
            });
            for (double was = sum; !sum.compare_exchange_weak(was, was + own);) {}
        });
    for (auto& it : callers) it.join();
    return sum;
}

// Prints the calls a second of the library itself: of one caller, and of one and of four under a lock on one test case. Last are the
// nanoseconds of an open and a close.
int bare(double seconds) {
    const auto script = moves();
    const double one = rate(seconds, script.size(), [&] {
        Case it(33);
        for (const auto& move : script) it.play(move);
    });
    std::cout << one << " " << shared_rate(seconds, 1) << " " << shared_rate(seconds, 4) << " " << 1e9 / rate(seconds / 2, 1, [] { Case it(3); }) << "\n";
    return 0;
}
#endif

}  // namespace

int main([[maybe_unused]] int count, char** words) {
    const int callers = std::stoi(words[1]), calls = std::stoi(words[2]) / callers;
#ifdef IN_PROCESS
    if (calls == 0) return bare(callers);
    filskeam::Server server{filskeam::InProcess{}};
#else
    filskeam::Server server(std::vector<std::string>(words + 3, words + count));
#endif
    server.run("warm", [](filskeam::Run&) {});
    const auto began = std::chrono::steady_clock::now();
    auto result = server.run("t_calls", [callers, calls](filskeam::Run& run) {
        auto busy = [calls](filskeam::Run& it) {
            for (int call = 0; call < calls; ++call) it.get_verdict();
        };
        for (int at = 0; at < callers; ++at) run.start(run.create(), "busy", busy);
        run.wait_done("all");
    });
    std::cout << std::chrono::duration<double>(std::chrono::steady_clock::now() - began).count() << "\n";
    return result.verdict == "none" ? server.close() : 3;
}
