// Benches in C++ for the tests: each case by its name, `bench CASE COMMAND..`; what is found is printed line by line.
#include <csignal>
#include <cstdlib>
#include <ctime>
#include <fstream>
#include <functional>
#include <iostream>
#include <map>
#include <random>
#include <string>
#include <vector>

#include "filskeam.hpp"

using filskeam::Ended;
using filskeam::Result;
using filskeam::Run;
using filskeam::Seconds;
using filskeam::Server;
using filskeam::Target;

namespace {

const Seconds grace(0.4);

void show(const Result& result) {
    std::cout << "verdict " << result.verdict << "\nwhy " << result.why << "\nfault " << result.fault << "\ntimed out " << result.is_timed_out << "\n";
    for (const auto& [component, verdict] : result.locals) std::cout << "local " << component << " " << result.names.at(component) << " " << verdict << "\n";
    for (const auto& it : result.raised) std::cout << "raised " << it << "\n";
    for (const auto& it : result.hung) std::cout << "hung " << it << "\n";
    std::cout << "evidence\n" << result.evidence << "done\n";
}

void hang(Run& run) {
    run.set_verdict("pass");
    std::this_thread::sleep_for(std::chrono::seconds(1000));
}

// A main behaviour that starts this one, and waits for it.
filskeam::Behaviour alone(filskeam::Behaviour behaviour) {
    return [behaviour](Run& run) {
        int worker = run.create("worker");
        run.start(worker, "worker", behaviour, {run.me()});
        run.wait_done(worker);
    };
}

void raises(Server& server) {
    show(server.run("t", alone([](Run&) { throw std::runtime_error("no answer\nof 10.0.0.7"); })));
    show(server.run("t", alone([](Run&) { throw 7; })));
    show(server.run("t", [](Run& run) { run.stop(7); }));
    show(server.run("t", alone([](Run& run) { run.stop_case("enough"); })));
}

void watchdog(Server& server) {
    show(server.run("t", [](Run& run) {
        int pump = run.create("pump"), dog = run.create("watchdog", true);
        run.start(pump, "stuck", hang);
        run.start(dog, "watch", [pump](Run& it) {
            it.sleep(Seconds(0.1));
            it.set_verdict("inconc", "the device is stuck");
            it.kill(pump);
        });
        run.wait_done("all");
    }));
}

void late(Server& server) {
    server.run("warm", [](Run&) {});
    const Result first = server.run("t", alone(hang), Seconds(0.5));
    show(first);
    std::cout << first.report();
    show(server.run("t", hang, Seconds(0.5)));
    show(server.run("t", [](Run& run) { while (true) run.sleep(Seconds(0.01)); }, Seconds(0.5)));
    show(server.run("t", [](Run& run) { run.set_verdict("pass"); }, Seconds(20)));
}

// The main behaviour hangs, and another one ends the test case.
void ends(Server& server) {
    const std::vector<filskeam::Behaviour> all = {
        [](Run& it) { it.stop(Target(0)); }, [](Run& it) { it.kill(Target(0)); }, [](Run& it) { it.stop_case(); }, [](Run& it) { it.stop(7); }};
    for (const auto& end : all)
        show(server.run("t", [end](Run& run) {
            run.start(run.create(), "ends", end);
            std::this_thread::sleep_for(std::chrono::seconds(10));
        }));
}

// A dynamic error ends the test case, and with it a behaviour that sleeps.
void errs(Server& server) {
    show(server.run("t", [](Run& run) {
        run.start(run.create(), "worker", [](Run& it) { it.sleep(Seconds(1000)); });
        run.stop(7);
    }));
}

// A second verdict that is no worse, and a remark that another call has had since.
void whys(Server& server) {
    show(server.run("t", [](Run& run) {
        run.set_verdict("fail", "first");
        run.set_verdict("fail", "second");
    }));
    show(server.run("t", [](Run& run) {
        run.log("early");
        run.get_verdict();
        run.set_verdict("fail");
    }));
}

// All calls, and each status of a component: not started, stopped, killed, running.
void models(Server& server) {
    Result result = server.run("t", alone([](Run& run) { run.set_verdict("fail"); }));
    std::cout << result.model();
    result.evidence.erase(result.evidence.rfind("end "));
    for (const char* program : {"", "/nowhere/ttrun"}) {
        try {
            std::cout << result.model(program);
        } catch (const std::runtime_error& error) {
            std::cout << error.what() << "\n";
        }
    }
}

void calls(Server& server) {
    show(server.run("t", [](Run& run) {
        const int pump = run.create("pump", true), other = run.create();
        const auto ask = [&run](int it) { run.running(it), run.alive(it), run.done(it), run.killed(it); };
        ask(pump);
        run.start(pump, "worker", [](Run&) {});
        run.wait_done(pump);
        ask(pump);
        run.kill(pump);
        ask(pump);
        run.start(other, "worker", [](Run& it) { it.sleep(Seconds(1000)); });
        ask(other);
        run.stop(other);
        ask(other);
        run.wait_killed(other);
        run.set_verdict("pass");
        run.get_verdict();
    }));
}

// How many thousandths of a second a sleep takes, and a wait in vain.
void seconds(Server& server) {
    show(server.run("t", [](Run& run) {
        const int it = run.create();
        for (bool is_wait : {false, true}) {
            const auto began = std::chrono::steady_clock::now();
            if (is_wait) run.wait_done(it, Seconds(1.5)); else run.sleep(Seconds(1.5));
            const Seconds took = std::chrono::steady_clock::now() - began;
            run.log(std::to_string(static_cast<int>(1000 * took.count())) + " thousandths");
        }
    }));
}

void waits(Server& server) {
    show(server.run("t", [](Run& run) {
        int it = run.create();
        std::string found = run.wait_done(it, Seconds(0.05)) ? "held" : "late";
        run.start(it, "worker", [](Run& worker) { worker.sleep(Seconds(0.3)); });
        found += run.wait_done("any", Seconds(0.02)) ? " held" : " late";
        found += run.wait_done(it, Seconds(20)) ? " held" : " late";
        run.log(found);
    }));
}

void stops(Server& server) {
    show(server.run("t", [](Run& run) {
        std::atomic<int> turns{0}, ended{0};
        for (int at = 0; at < 2; ++at) {
            run.start(run.create(), at == 0 ? "looping" : "stubborn", [&turns, &ended, at](Run& it) {
                try {
                    while (true) {
                        try {
                            at == 0 ? it.check() : void(it.get_verdict());
                            ++turns;
                            if (at == 1) throw std::runtime_error("caught");
                        } catch (const std::exception&) {
                        }
                    }
                } catch (const Ended&) {
                    ++ended;
                    throw;
                }
            });
        }
        while (turns < 300) std::this_thread::sleep_for(std::chrono::milliseconds(1));
        run.stop("all");
        while (ended < 2) std::this_thread::sleep_for(std::chrono::milliseconds(1));
        run.set_verdict("pass");
    }, Seconds(20)));
}

// A worker is asked for, and ends before the answer is looked at: the server holds the answer until it has the end.
void misses(Server& server) {
    show(server.run("t", [](Run& run) {
        run.start(run.create(), "worker", [](Run&) { std::this_thread::sleep_for(std::chrono::milliseconds(800)); });
        run.log(run.wait_done(1, Seconds(8)) ? "held" : "late");
    }));
}

// A worker checks whether it was stopped, and is stopped before the answer is looked at: the server holds the answer until it has the stop.
void checks(Server& server) {
    show(server.run("t", [](Run& run) {
        std::atomic<bool> is_ended{false};
        run.start(run.create(), "worker", [&is_ended](Run& it) {
            try {
                while (true) it.check();
            } catch (const Ended&) {
                is_ended = true;
            }
        });
        run.start(run.create(), "news", [](Run&) {});
        std::this_thread::sleep_for(std::chrono::milliseconds(800));
        run.stop(1);
        for (int at = 0; at < 4000 && !is_ended; ++at) std::this_thread::sleep_for(std::chrono::milliseconds(1));
        run.log(is_ended ? "ended" : "not ended");
    }));
}

// The server pauses beyond the limit of the test case, and then says that it passes.
void stalls(Server& server) {
    server.run("warm", [](Run&) {});
    show(server.run("t", [](Run& run) {
        run.set_verdict("pass");
        std::ifstream file(std::getenv("SERVER_PROCESS"));
        std::string process;
        file >> process;
        if (std::system(("kill -STOP " + process + "; (sleep 0.6; kill -CONT " + process + ") &").c_str()) != 0) run.stop_case();
    }, Seconds(0.5)));
}

// A remark with each byte, as many components as there may be, and as many entries as a report shows whole, and one more.
void limits(Server& server) {
    show(server.run("t", [](Run& run) { for (int byte = 0; byte < 256; ++byte) run.log(std::string("x") + static_cast<char>(byte) + "y"); }));
    show(server.run("t", [](Run& run) { for (int made = 1; made < 1000; ++made) run.create(); }));
    for (int calls : {16, 17})
        std::cout << server.run("t", [calls](Run& run) { for (int at = 0; at < calls; ++at) run.get_verdict(); }).report();
}

void words(Server& server) {
    int refused_names = 0;
    for (const char* name : {"self", "mtc", "any", "all"}) try { server.run(name, hang); } catch (const std::invalid_argument&) { ++refused_names; }
    std::cout << refused_names << " names\n";
    show(server.run("t", [](Run& run) {
        std::vector<std::function<void()>> wrong = {
            [&] { run.set_verdict("passed"); }, [&] { run.set_verdict("error"); }, [&] { run.create("9a"); }, [&] { run.create("a b"); },
            [&] { run.create("all"); }, [&] { run.create(std::string(33, 'a')); }, [&] { run.stop("any"); }, [&] { run.kill("every"); },
            [&] { run.running(-1); }, [&] { run.start(1, "a-b", hang); }, [&] { run.start(1, "five", hang, {0, 0, 0, 0, 0}); },
            [&] { run.start(1, "nothing", nullptr); },
        };
        for (const char* name : {"self", "mtc", "any"}) wrong.push_back([&run, name] { run.create(name); });
        for (const char* name : {"self", "mtc", "any", "all"}) wrong.push_back([&run, name] { run.start(0, name, hang); });
        int found = 0;
        for (const auto& call : wrong) try { call(); } catch (const std::invalid_argument&) { ++found; }
        run.log(std::to_string(found) + " of " + std::to_string(wrong.size()));
        run.log("");
        run.log(" \t");
        run.log("81 \xc2\xb0" "C\n" + std::string(300, 'x'));
        int refused = 0;
        std::thread([&] { try { run.get_verdict(); } catch (const std::logic_error&) { ++refused; } }).join();
        run.log(std::to_string(refused) + " call of another thread");
    }));
}

// The server ends in the middle, or writes nonsense; the next test case has a new one. Nothing here may be ended by SIGPIPE.
void loses(Server& server) {
    show(server.run("t", [](Run& run) {
        for (int at = 0; at < 5; ++at) run.start(run.create(), "worker", [](Run& it) { while (true) it.get_verdict(); });
        while (true) run.get_verdict();
    }, Seconds(1)));
    show(server.run("t", [](Run& run) { for (int at = 0; at < 2000; ++at) run.log(std::string(200, 'x')); run.set_verdict("pass"); }, Seconds(1)));
}

// Random calls; `left` is how many more behaviours there may be.
void random_behaviour(Run& run, std::shared_ptr<std::atomic<int>> left, unsigned seed) {
    std::mt19937 chance(seed * 1000 + static_cast<unsigned>(run.me()));
    for (int at = 0, most = run.me() == 0 ? 60 : 8; at < most; ++at) {
        unsigned what = chance() % 100;
        int target = static_cast<int>(chance() % 30);
        if (what < 40 && left->fetch_sub(1) > 0) {
            int made = run.create(what % 2 == 0 ? "pump" : "", what % 3 == 0);
            run.start(made, "worker", [left, seed](Run& it) { random_behaviour(it, left, seed); }, {run.me()});
            if (what < 5) run.wait_done(made);
        } else if (what < 60) run.set_verdict(what % 2 == 0 ? "pass" : "inconc", what % 3 == 0 ? "a reason" : "");
        else if (what < 70) run.log("remark " + std::to_string(what));
        else if (what == 71 && target < run.me()) run.set_verdict("fail", "drawn");
        else if (what == 72 && seed % 3 == 0) throw std::runtime_error("drawn");
        else if (what == 73 && seed % 3 == 0) run.alive(target);
        else run.get_verdict();
    }
    if (run.me() == 0) run.wait_done("all");
}

void random_cases(Server& server) {
    for (unsigned seed = 0; seed < 10; ++seed) {
        auto left = std::make_shared<std::atomic<int>>(39);
        show(server.run("t", [left, seed](Run& run) { random_behaviour(run, left, seed); }, Seconds(60)));
    }
}

// What a result says, and the file of the evidence: three test cases, of which the second loses its server.
void reports(Server& server) {
    auto result = server.run("t_report", [](Run& run) {
        for (const char* verdict : {"inconc", "fail", "pass"}) {
            run.start(run.create("pump"), "sets", [verdict](Run& it) { it.set_verdict(verdict, "a reason"); });
            run.wait_done("all");
        }
        run.create("spare");
        for (int at = 0; at < 50; ++at) run.get_verdict();
    });
    std::cout << result.report() << "== " << result.local("pump") << " " << result.local("spare") << " " << result.local("mtc") << " " << result.local(1) << "\n";
    try {
        result.local("valve");
    } catch (const std::out_of_range& error) {
        std::cout << error.what() << "\n";
    }
    result = server.run("t_lost", [](Run& run) {
        run.set_verdict("fail");
        pid_t server_process = 0;
        std::ifstream(std::getenv("SERVER_PROCESS")) >> server_process;
        kill(server_process, SIGKILL);
        run.sleep(Seconds(30));  // its end is noticed while nobody calls
    });
    std::cout << result.report(0) << "== " << result.evidence.substr(0, 20) << "\n";
    std::cout << server.run("t_next", [](Run& run) { run.set_verdict("pass"); }).report();
}

// Test cases one after the other, none of which may leave anything.
void leaves(Server& server) {
    for (int at = 0; at < 20; ++at) server.run("t", alone([](Run& run) { run.set_verdict("pass", "a reason"); }));
}

// Eight behaviours that make each call at the same time, and the next once all have their answers. At last each waits for the one before it.
void meets(Server& server) {
    const int callers = 8, rounds = 300;
    struct Meeting {
        std::mutex lock;
        std::condition_variable all;
        int there = 0;
    };
    const auto began = std::chrono::steady_clock::now();
    auto result = server.run("t", [](Run& run) {
        auto meeting = std::make_shared<Meeting>();
        for (int at = 0; at < callers; ++at) {
            run.start(run.create(), "meets", [meeting](Run& it) {
                for (int round = 1; round <= rounds; ++round) {
                    it.get_verdict();
                    std::unique_lock<std::mutex> hold(meeting->lock);
                    if (++meeting->there == round * callers) meeting->all.notify_all();
                    else meeting->all.wait(hold, [&] { return meeting->there >= round * callers; });
                }
                if (it.me() > 1) it.wait_done(it.me() - 1);
            });
        }
        run.wait_done("all");
    }, Seconds(15));
    const Seconds took = std::chrono::steady_clock::now() - began;
    std::cout << "rate " << callers << " " << static_cast<int>(callers * rounds / took.count()) << " " << result.verdict << "\n";
}

}  // namespace

int main([[maybe_unused]] int count, char** words_given) {
    const std::map<std::string, void (*)(Server&)> cases = {
        {"raises", raises}, {"watchdog", watchdog}, {"late", late}, {"ends", ends}, {"errs", errs}, {"whys", whys}, {"models", models}, {"calls", calls}, {"seconds", seconds}, {"waits", waits}, {"stops", stops},
        {"misses", misses}, {"checks", checks}, {"stalls", stalls}, {"limits", limits}, {"words", words}, {"loses", loses}, {"random", random_cases}, {"reports", reports}, {"leaves", leaves}, {"meets", meets},
    };
    int status = 0;
    {
        const char* file = std::getenv("EVIDENCE");
#ifdef IN_PROCESS
        Server server(filskeam::InProcess{}, file != nullptr ? file : "", grace);
#else
        Server server(filskeam::Pipe{{words_given + 2, words_given + count}}, file != nullptr ? file : "", grace);
#endif
        cases.at(words_given[1])(server);
        status = server.close();
    }
    std::cout << "status " << status << std::endl;
    if (words_given[1] == std::string("leaves")) return 0;
    std::_Exit(0);  // threads that hang are left behind
}
