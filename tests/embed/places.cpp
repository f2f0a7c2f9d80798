// Places for test cases, as `places WHAT`: used wrongly, by threads, many at once, many one after the other. It prints what it met.
// `places lines` is a server, `places replay` answers a list of moves by a place, and with other words it is the program in process.
#include <sys/resource.h>

#include <algorithm>
#include <atomic>
#include <cstdlib>
#include <cstring>
#include <functional>
#include <iostream>
#include <iterator>
#include <map>
#include <mutex>
#include <sstream>
#include <string>
#include <thread>
#include <vector>

#include "filskeam.hpp"

namespace {

// How often the library and the client have allocated while it is counted, from which allocation on how many are refused, and how many
// blocks the library has.
std::atomic<bool> is_counted{false}, is_all{false};
std::atomic<std::size_t> count{0}, refused{0}, in_a_row{1};
std::atomic<long> live{0};

void hold(bool is_so, const std::string& what) {
    if (is_so) return;
    std::cout << "not so: " << what << std::endl;
    std::exit(1);
}

// The answer to a move, and its reply.
std::pair<int, std::string> asked(filskeam_case& place, const std::string& move, decltype(filskeam_play) call = filskeam_play, std::size_t room = FILSKEAM_REPLY) {
    std::string reply(FILSKEAM_REPLY, '#');
    std::size_t size = 77;
    const int number = call(&place, move.data(), move.size(), reply.data(), room, &size);
    if (number == FILSKEAM_DONE) return {number, reply.substr(0, size)};
    hold(reply == std::string(FILSKEAM_REPLY, '#'), move + ": the room was written to");
    return {number, number == FILSKEAM_NO_ROOM ? std::to_string(size) : size == 77 ? "" : "the count was written to"};
}

void must(filskeam_case& place, const std::string& move, const std::string& reply) {
    hold(asked(place, move) == std::make_pair(int(FILSKEAM_DONE), reply), move + " -> " + reply);
}

std::string history(filskeam_case& place, const std::string& name) {
    std::size_t size = 0;
    char none = '#';
    hold(filskeam_history(&place, name.data(), name.size(), &none, 0, &size) == FILSKEAM_NO_ROOM && none == '#', "no room for a history");
    std::string text(size, '#');
    hold(filskeam_history(&place, name.data(), name.size(), text.data(), size - 1, &size) == FILSKEAM_NO_ROOM && text[0] == '#', "a byte too little");
    hold(filskeam_history(&place, name.data(), name.size(), text.data(), size, &size) == FILSKEAM_DONE && size == text.size(), "the history");
    return text;
}

// A place that is closed: each call is an answer.
void hold_closed(filskeam_case& place) {
    std::size_t size = 77;
    char room = '#';
    hold(filskeam_close(&place) == FILSKEAM_NOT_OPEN, "closed");
    hold(filskeam_overall(&place) == FILSKEAM_NONE && filskeam_is_over(&place) == FILSKEAM_NONE, "no verdict");
    for (auto call : {filskeam_play, filskeam_would}) hold(asked(place, "0 create", call) == std::make_pair(int(FILSKEAM_NOT_OPEN), std::string()), "no call");
    hold(filskeam_history(&place, "t", 1, &room, 1, &size) == FILSKEAM_NOT_OPEN && room == '#' && size == 77, "no history");
}

// Each number, when it should come.
void wrongly() {
    filskeam_case place = FILSKEAM_CLOSED;
    hold_closed(place);
    for (int number : {0, 257, 65535}) hold(filskeam_open(&place, static_cast<std::uint16_t>(number)) == FILSKEAM_NO_NUMBER, "a wrong number");
    hold_closed(place);
    hold(filskeam_open(&place, 2) == FILSKEAM_DONE && filskeam_open(&place, 3) == FILSKEAM_OPEN, "opened once");
    const std::string empty = history(place, "t_empty");
    hold(empty == "history 2 t_empty 2\nend none\n", empty);
    for (const char* text : {"", "0", "0 create ", "00 finish", "65536 finish", "0 setverdict error", "0 finish\n", "fly"})
        for (auto call : {filskeam_play, filskeam_would}) hold(asked(place, text, call) == std::make_pair(int(FILSKEAM_UNSPELLED), std::string()), text);
    for (const char* name : {"", "all", "9a", "a b", "a_name_that_is_much_longer_than_32_bytes"}) {
        std::size_t size = 77;
        char room = '#';
        hold(filskeam_history(&place, name, std::strlen(name), &room, 1, &size) == FILSKEAM_UNSPELLED && room == '#' && size == 77, name);
    }
    const std::map<std::string, std::string> replies = {{"0 create", "made 1"}, {"0 start 1 1", "ok"}, {"0 running 1", "true"}, {"0 done 1", "false"},
        {"1 getverdict", "none"}, {"0 wait done 1", "parked"}, {"9 finish", "ended"}};
    for (const char* move : {"0 create", "0 start 1 1", "0 running 1", "0 done 1", "1 getverdict", "0 wait done 1", "9 finish"}) {
        const std::string reply = replies.at(move);
        for (auto call : {filskeam_would, filskeam_play, filskeam_would})
            for (std::size_t room = 0; room < reply.size(); ++room)
                hold(asked(place, move, call, room) == std::make_pair(int(FILSKEAM_NO_ROOM), std::to_string(reply.size())), std::string(move) + " without room");
        hold(asked(place, move, filskeam_would, reply.size()) == std::make_pair(int(FILSKEAM_DONE), reply), move);
        hold(asked(place, move, filskeam_play, reply.size()) == std::make_pair(int(FILSKEAM_DONE), reply), move);
    }
    must(place, "0 stop 7", "error no-component");
    hold(filskeam_is_over(&place) == 1 && filskeam_overall(&place) == 4, "over with error");
    hold(filskeam_close(&place) == FILSKEAM_DONE, "closed");
    hold_closed(place);
    hold(filskeam_open(&place, 256) == FILSKEAM_DONE && filskeam_is_over(&place) == 0 && filskeam_overall(&place) == 0, "opened again");
    hold(filskeam_close(&place) == FILSKEAM_DONE, "closed again");
    std::cout << replies.size() << " replies in each room" << std::endl;
}

// A line that is none: what was made before it is read, and then the fault; nothing after it is made.
void nonsense() {
    filskeam::detail::Table table;
    std::string found, end;
    table.write("case t 2\n0 setverdict pass\n0 fly\n0 finish\n", std::nullopt);
    try {
        while (table.read(std::nullopt))
            for (std::optional<std::string_view> text; (text = table.line());) found += std::string(*text) + "|";
    } catch (const filskeam::ServerEnded& ended) {
        end = ended.what();
    }
    hold(found == "evidence 1 t 2|0 setverdict pass -> ok|" && end == "the table takes no line 0 fly" && table.finish() == 3, found + end);
}

// A test case of eight parallel components, each with its run.
void begin(filskeam_case& place) {
    hold(filskeam_open(&place, 9) == FILSKEAM_DONE, "open");
    for (const char* it : {"1", "2", "3", "4", "5", "6", "7", "8"}) {
        must(place, "0 create", std::string("made ") + it);
        must(place, std::string("0 start ") + it + " " + it, "ok");
    }
}

void call(filskeam_case& place, int run, int at) {
    must(place, std::to_string(run) + (at % 2 ? " getverdict" : " setverdict pass"), at % 2 ? "pass" : "ok");
}

// Ends the test case: it has passed, and its history has that many entries.
void end(filskeam_case& place, std::size_t entries) {
    must(place, "0 finish", "ok");
    const std::string text = history(place, "t");
    hold(static_cast<std::size_t>(std::count(text.begin(), text.end(), '\n')) == entries + 3, "each entry is in the history");
    hold(filskeam_is_over(&place) == 1 && filskeam_overall(&place) == 1 && filskeam_close(&place) == FILSKEAM_DONE, "over with pass");
}

void by_eight(const std::function<void(int)>& act) {
    std::vector<std::thread> all;
    for (int it = 1; it <= 8; ++it) all.emplace_back(act, it);
    for (auto& it : all) it.join();
}

// Eight threads on one test case, under a lock. Each entry is in the history.
void shared(int calls) {
    filskeam_case place = FILSKEAM_CLOSED;
    std::mutex lock;
    begin(place);
    by_eight([&](int run) {
        for (int at = 0; at < calls; ++at) {
            std::lock_guard<std::mutex> hold(lock);
            call(place, run, at);
        }
    });
    end(place, 16 + 8 * static_cast<std::size_t>(calls));
    std::cout << 8 * calls << " calls by eight threads" << std::endl;
}

// Eight test cases at once, without a lock. A place that one thread has opened is closed by another.
void at_once(int calls) {
    std::vector<filskeam_case> places(8, filskeam_case FILSKEAM_CLOSED);
    for (auto& it : places) std::thread([&it] { begin(it); }).join();
    by_eight([&](int run) {
        for (int at = 0; at < calls; ++at) call(places[static_cast<std::size_t>(run - 1)], run, at);
        end(places[static_cast<std::size_t>(run - 1)], 16 + static_cast<std::size_t>(calls));
    });
    std::cout << places.size() << " test cases at once, " << 8 * calls << " calls" << std::endl;
}

long peak() {
    rusage used{};
    getrusage(RUSAGE_SELF, &used);
    return used.ru_maxrss;
}

// One test case after the other: what they take of memory is given back.
void many(int cases) {
    long before = 0;
    for (int at = 0; at < cases; ++at) {
        filskeam_case place = FILSKEAM_CLOSED;
        begin(place);
        for (int run = 1; run <= 8; ++run) call(place, run, 0);
        if (at % 2) must(place, "0 finish", "ok");
        hold(filskeam_close(&place) == FILSKEAM_DONE, "close");
        if (at == cases / 10) before = peak();
    }
    hold(peak() <= before + 256, std::to_string(before) + " KiB have become " + std::to_string(peak()));
    std::cout << cases << " test cases in " << peak() << " KiB" << std::endl;
}

// Answers lines from standard input as the client in this process does.
int lines() {
    filskeam::detail::Table table;
    for (std::string line; std::getline(std::cin, line);) {
        table.write(line + "\n", std::nullopt);
        while (table.read(std::nullopt))
            for (std::optional<std::string_view> text; (text = table.line());) std::cout << *text << std::endl;
    }
    return table.finish();
}

// Each allocation of a test case is refused in turn, the client's too: its table says so, is closed, and leaves no block. All calls that
// were made before are in the evidence, and no other.
void memory() {
    const std::vector<std::string> sent = {"case t 3\n0 create\n", "0 start 1 1\n", "0 wait done 1\n", "1 # a remark\n", "1 finish\n", "0 finish\n", "end\n"};
    std::vector<std::string> whole(1);
    std::size_t most = 1, lost = 0;
    is_all = true;
    for (std::size_t it = 0; it <= 2 * most; ++it) {
        refused = (it + 1) / 2;
        in_a_row = it % 2 ? 1 : 1000;  // it alone, and all from it on
        std::string end, found;
        std::size_t at = 0;
        count = 0;
        {
            filskeam::detail::Table table;
            for (; at < sent.size() && end.empty(); ++at) {
                is_counted = true;
                table.write(sent[at], std::nullopt);
                is_counted = false;
                try {
                    while (table.read(std::nullopt))
                        for (std::optional<std::string_view> text; (text = table.line());) found += std::string(*text) + "|";
                } catch (const filskeam::ServerEnded& ended) {
                    end = ended.what();
                }
                if (refused == 0) whole.push_back(found);
            }
            hold(table.finish() == (refused == 0 ? 0 : 3), "the status");
        }
        hold(live == 0, std::to_string(live) + " blocks are left");
        if (refused == 0) most = count;
        if (refused == 0) continue;
        const bool is_of_table = end == "the table ran out of memory";
        lost += is_of_table;
        hold(is_of_table || end == "the client ran out of memory", std::to_string(refused) + ": " + end);
        hold(found.rfind(whole[at - 1], 0) == 0 && whole[at].rfind(found, 0) == 0 && !(is_of_table && found == whole[at]), found);
    }
    hold(lost >= 5 && most > lost, std::to_string(lost) + " of " + std::to_string(most) + " allocations are the table's");
    std::cout << most << " allocations, each refused" << std::endl;
}

// Each allocation of the library is refused in turn, while a behaviour waits and others call: the server says so, and runs the next test case.
void lost() {
    std::size_t most = 0, faults = 0;
    const auto main = [](filskeam::Run& run) {
        for (int at = 0; at < 4; ++at)
            run.start(run.create(), "worker", [](filskeam::Run& it) {
                for (int call = 0; call < 40; ++call) it.set_verdict("pass");
            });
        run.wait_done("all");
    };
    for (refused = 0; refused <= most; ++refused) {
        filskeam::Server server(filskeam::InProcess{});
        count = 0;
        is_counted = true;
        const auto result = server.run("t", main);
        is_counted = false;
        if (refused == 0) most = count;
        faults += !result.fault.empty();
        hold(result.fault == (result.verdict == "pass" ? "" : "the table ran out of memory") && result.hung.empty(), result.report());
        hold(server.run("t_next", main).verdict == "pass" && server.close() == (result.fault.empty() ? 0 : 3) && live == 0, result.report());
    }
    hold(faults >= 5, std::to_string(faults) + " faults");
    std::cout << faults << " test cases without memory" << std::endl;
}

// Eight servers at once, each with a table of its own in this process: none has what another is replied.
void servers(int cases) {
    by_eight([cases](int most) {
        filskeam::Server server(filskeam::InProcess{});
        for (int at = 0; at < cases; ++at) {
            const auto result = server.run("t", [most](filskeam::Run& run) {
                for (int made = 1; made <= 10 * most; ++made) hold(run.create() == made, "a component of another server");
                run.set_verdict(most % 2 ? "pass" : "fail");
            });
            hold(result.verdict == (most % 2 ? "pass" : "fail") && result.fault.empty(), result.report());
        }
    });
    std::cout << 8 * cases << " test cases of eight servers" << std::endl;
}

// What is waited for happens just then, with a limit and without: no wait is late. A killer makes no other news.
void meetings(int cases) {
    filskeam::Server server(filskeam::InProcess{});
    const filskeam::Seconds limit(60);
    const auto began = std::chrono::steady_clock::now();
    for (int at = 0; at < cases; ++at) {
        const auto result = server.run("t", [limit](filskeam::Run& run) {
            std::atomic<int> victim{0};
            run.start(run.create(), "killer", [&victim](filskeam::Run& it) {
                for (int killed = 0; killed < 900;) {
                    const int next = victim;
                    if (next <= killed) continue;
                    it.kill(next);
                    killed = next;
                }
            });
            for (int made = 0; made < 900;) {
                victim = made = run.create();
                if (made % 2) run.wait_killed(made);
                else hold(run.wait_killed(made, limit), "a wait that is late");
            }
            run.set_verdict("pass");
        }, limit);
        hold(result.verdict == "pass" && std::chrono::steady_clock::now() - began < limit, result.report());
    }
    std::cout << 900 * cases << " waits" << std::endl;
}

// A behaviour still writes remarks when its test case is closed: they end with it, and the next one has none of them.
void closed(int cases) {
    filskeam::Server server(filskeam::InProcess{}, "", filskeam::Seconds(0.2));
    for (int at = 0; at < cases; ++at) {
        const auto result = server.run("t", [](filskeam::Run& run) {
            std::atomic<bool> is_begun{false};
            run.start(run.create(), "writes", [&is_begun](filskeam::Run& it) {
                for (it.log("a remark"), is_begun = true; true; it.log("a remark")) {}
            });
            while (!is_begun) std::this_thread::yield();
        });
        const std::string begin = "evidence 1 t 256\nbehaviour 0 main\n0 create -> made 1\nbehaviour 1 writes\n0 start 1 1 -> ok\n", end = "end none\n";
        hold(result.fault.empty() && result.hung.size() == 1 && result.evidence.rfind(begin, 0) == 0, result.report());
        hold(result.evidence.find(end) == result.evidence.size() - end.size(), result.report());
    }
    std::cout << cases << " test cases" << std::endl;
}

// What the program answers to arguments, each ended by a zero byte, and to an input.
int program(const std::string& words, const std::string& input, std::string& output, std::string& errors) {
    std::size_t written = 0, told = 0;
    output.resize(1 << 23);
    errors.resize(1 << 16);
    const int status = filskeam_answer(words.data(), words.size(), input.data(), input.size(), output.data(), output.size(), &written, errors.data(), errors.size(), &told);
    output.resize(written);
    errors.resize(told);
    return status;
}

// Answers a list of moves as `ttrun replay` does, by a place. To the program the history is legal.
int replay(std::istringstream moves) {
    filskeam_case place = FILSKEAM_CLOSED;
    std::string move, output, errors;
    std::getline(moves, move);
    hold(filskeam_open(&place, static_cast<std::uint16_t>(std::atoi(move.substr(11).c_str()))) == FILSKEAM_DONE, "open");
    while (std::getline(moves, move)) {
        const auto [number, reply] = asked(place, move);
        hold(number == FILSKEAM_DONE, move);
        std::cout << reply << "\n";
    }
    const int verdict = filskeam_overall(&place);
    hold(program(std::string("check\0", 6), history(place, "t"), output, errors) == 0, output + errors);
    hold(filskeam_close(&place) == FILSKEAM_DONE, "close");
    std::cout << "verdict " << filskeam::detail::verdicts[static_cast<std::size_t>(verdict)] << std::endl;
    return verdict <= 1 ? 0 : verdict <= 3 ? 1 : 2;
}

}  // namespace

// The library's three functions of memory.
struct Tried {
    std::size_t is_there;
    void* at;
};

static bool is_refused() {
    if (!is_counted) return false;
    const std::size_t now = ++count;
    return refused != 0 && now >= refused && now - refused < in_a_row;
}
static Tried tried(void* at) { return {at != nullptr, at ? at : reinterpret_cast<void*>(16)}; }

extern "C" Tried rattle_alloc(std::size_t size, std::size_t align) {
    if (is_refused()) return tried(nullptr);
    ++live;
    return tried(std::malloc(size ? size : align));
}

extern "C" Tried rattle_realloc(void* old, std::size_t, std::size_t size, std::size_t align) {
    return tried(is_refused() ? nullptr : std::realloc(old, size ? size : align));
}

extern "C" void rattle_dealloc(void* at) {
    --live;
    std::free(at);
}

// Those of the client, which are refused where one thread has a table.
__attribute__((noinline)) void* operator new(std::size_t size) {
    if (is_all && is_refused()) throw std::bad_alloc();
    if (void* at = std::malloc(size ? size : 1)) return at;
    throw std::bad_alloc();
}
__attribute__((noinline)) void operator delete(void* at) noexcept { std::free(at); }
__attribute__((noinline)) void operator delete(void* at, std::size_t) noexcept { std::free(at); }

int main(int count, char** words) {
    const std::string what = count > 1 ? words[1] : "";
    const int number = count > 2 ? std::atoi(words[2]) : 0;
    const std::map<std::string, std::function<void()>> all = {{"wrongly", [] { wrongly(); nonsense(); }}, {"memory", memory}, {"lost", lost}, {"shared", [&] { shared(number); }}, {"at_once", [&] { at_once(number); }},
                                                              {"many", [&] { many(number); }}, {"servers", [&] { servers(number); }}, {"meetings", [&] { meetings(number); }}, {"closed", [&] { closed(number); }}};
    if (what == "lines") return lines();
    if (all.count(what)) return all.at(what)(), 0;
    const std::string input{std::istreambuf_iterator<char>(std::cin), {}};
    if (what == "replay") return replay(std::istringstream(input));
    std::string arguments, output, errors;
    for (int it = 1; it < count; ++it) arguments.append(words[it]).push_back('\0');
    const int status = program(arguments, input, output, errors);
    std::cout << output << std::flush;
    std::cerr << errors;
    return status;
}
