// Behaviours in C++, judged by the component table of `ttrun serve`. C++17 and POSIX; link with -pthread.
//
//     filskeam::Server server;
//     auto result = server.run("t_heater", [](filskeam::Run& run) {
//         int heater = run.create("heater");
//         run.start(heater, "probe", [](filskeam::Run& probe) { probe.set_verdict("fail", "too hot"); });
//         run.wait_done(heater);
//     }, std::chrono::seconds(30));
//
// A behaviour is a function of a `Run`, on which it makes its calls. Each runs on a thread of its own, and the table learns
// when it returns. A call of a run that was stopped throws `Ended`, which is no std::exception: let it pass. A thread that
// does not return keeps running; it may still use its `Run`, whose calls throw `Ended`.
#pragma once

// That of the program which it was tested with.
#define FILSKEAM_VERSION "1.0.0"

#include <fcntl.h>
#include <poll.h>
#include <spawn.h>
#include <sys/socket.h>
#include <sys/wait.h>
#include <unistd.h>

#include <algorithm>
#include <array>
#include <atomic>
#include <cerrno>
#include <chrono>
#include <condition_variable>
#include <csignal>
#include <cstdio>
#include <cstdlib>
#include <cstring>
#include <exception>
#include <fstream>
#include <functional>
#include <map>
#include <memory>
#include <mutex>
#include <optional>
#include <stdexcept>
#include <string>
#include <string_view>
#include <thread>
#include <type_traits>
#include <utility>
#include <vector>

#include "filskeam.h"

extern char** environ;

namespace filskeam {

using Seconds = std::chrono::duration<double>;

// The run was stopped or killed, or the test case is over.
class Ended {
public:
    explicit Ended(std::string text) : text_(std::move(text)) {}
    virtual ~Ended() = default;
    const char* what() const noexcept { return text_.c_str(); }

private:
    std::string text_;
};

// The call was a dynamic error, which has ended the test case.
class DynamicError : public Ended {
    using Ended::Ended;
};

// The server has ended, or wrote what it may not write.
class ServerEnded : public Ended {
    using Ended::Ended;
};

// The server refused a line of this run. It has changed nothing.
class Refused : public std::runtime_error {
    using std::runtime_error::runtime_error;
};

// There is no program to start.
class NoProgram : public std::runtime_error {
    using std::runtime_error::runtime_error;
};

// What is known of a test case: it is there whatever its behaviours did.
struct Result {
    std::string name;
    // The overall verdict; error if the test case took longer than it may, or the server ended before it wrote one.
    std::string verdict;
    // The maker of the verdict, its call, and the reason that was given.
    std::string why;
    // The local verdicts by component, and the names of the components, empty where one has none.
    std::map<int, std::string> locals;
    std::map<int, std::string> names;
    // The block of evidence that the server wrote. Its last line is missing where the server ended early.
    std::string evidence;
    // What behaviours threw, and which have not returned.
    std::vector<std::string> raised;
    std::vector<std::string> hung;
    bool is_timed_out = false;
    // Why the server ended inside the test case; empty where it did not.
    std::string fault;

    // The local verdict of a component, or the worst of those with this name. Throws std::out_of_range if there is none.
    std::string local(int component) const { return locals.at(component); }
    std::string local(const std::string& component) const;

    // The maker of the verdict and why, what was thrown, the local verdicts, and the last entries.
    std::string report(std::size_t most = 20) const;

    // The script of which this test case is a complete course, by `ttrun model` of this program, or of the one that a Server finds.
    // Throws std::runtime_error, with the line and why, if there is none.
    std::string model(const std::string& program = "") const;
};

namespace detail {

inline constexpr std::array<std::string_view, 5> verdicts{"none", "pass", "inconc", "fail", "error"};
inline constexpr int most_behaviours = 256;
inline constexpr std::size_t most_of_a_remark = 200;
inline constexpr std::size_t most_of_a_line = 1000;

inline std::size_t rank(std::string_view verdict) {
    return static_cast<std::size_t>(std::find(verdicts.begin(), verdicts.end(), verdict) - verdicts.begin());
}

inline bool is_letter(char it) { return (it >= 'a' && it <= 'z') || (it >= 'A' && it <= 'Z'); }
inline bool is_digit(char it) { return it >= '0' && it <= '9'; }

inline const std::string& checked_name(const std::string& word) {
    bool is_name = !word.empty() && word.size() <= 32 && is_letter(word[0]) && word != "all" && word != "any" && word != "mtc" && word != "self";
    for (char it : word) is_name = is_name && (is_letter(it) || is_digit(it) || it == '_');
    if (!is_name) throw std::invalid_argument("'" + word + "' is no name");
    return word;
}

// The text as a remark can hold it: other bytes as escapes, white space as one space, cut where it is too long.
inline std::string plain(std::string_view text) {
    std::string out;
    bool is_space = false;
    for (char it : text) {
        auto byte = static_cast<unsigned char>(it);
        if (byte == ' ' || (byte >= 9 && byte <= 13)) {
            is_space = !out.empty();
            continue;
        }
        if (is_space) out += ' ';
        is_space = false;
        std::array<char, 5> escape{it};
        if (byte < 33 || byte > 126) std::snprintf(escape.data(), escape.size(), "\\x%02x", static_cast<unsigned>(byte));
        out += escape.data();
    }
    return out.size() <= most_of_a_remark ? out : out.substr(0, most_of_a_remark - 2) + "..";
}

// A line inside evidence: a naming (b), an entry (e), a remark (#) or a refused line (!). It is a view of what was read.
struct Line {
    char kind;
    int run;
    std::string_view text;
    std::string_view reply;
};

inline std::optional<int> take_number(std::string_view& text) {
    std::size_t size = 0;
    int number = 0;
    for (; size < text.size() && size < 6 && is_digit(text[size]); ++size) number = 10 * number + (text[size] - '0');
    if (size == 0 || size == 6 || text.size() == size || text[size] != ' ') return std::nullopt;
    text.remove_prefix(size + 1);
    return number;
}

inline std::optional<Line> parsed(std::string_view text) {
    bool is_naming = text.substr(0, 10) == "behaviour ";
    if (is_naming) text.remove_prefix(10);
    auto run = take_number(text);
    if (!run || text.empty()) return std::nullopt;
    if (is_naming) return Line{'b', *run, text, ""};
    bool is_plain = std::all_of(text.begin(), text.end(), [](char it) { return it >= 32 && it < 127; });
    if (text.size() > 2 && text.size() <= 2 + most_of_a_remark && is_plain && (text[0] == '#' || text[0] == '!') && text[1] == ' ')
        return Line{text[0], *run, text.substr(2), ""};
    auto arrow = text.find(" -> ");
    if (arrow == std::string_view::npos) return std::nullopt;
    return Line{'e', *run, text.substr(0, arrow), text.substr(arrow + 4)};
}

inline std::string_view first_word(std::string_view text) { return text.substr(0, text.find(' ')); }
inline std::string_view last_word(std::string_view text) { return text.substr(text.rfind(' ') + 1); }

inline bool is_error(std::string_view reply) { return reply.substr(0, 6) == "error "; }

inline bool is_made(std::string_view reply) {
    return reply.size() > 5 && reply.size() < 10 && reply.substr(0, 5) == "made " && std::all_of(reply.begin() + 5, reply.end(), is_digit);
}

// Whether the table may reply so to this call.
inline bool suits(std::string_view call, std::string_view reply) {
    const auto verb = first_word(call);
    if (reply == "ended" || is_error(reply)) return true;
    if (verb == "create") return is_made(reply);
    if (verb == "getverdict") return rank(reply) < verdicts.size();
    if (verb == "wait") return reply == "matched" || reply == "parked";
    if (verb == "wake") return reply == "matched";
    if (verb == "running" || verb == "alive" || verb == "done" || verb == "killed") return reply == "true" || reply == "false";
    return reply == "ok";
}

inline bool ends_case(const Line& line) {
    bool is_end = line.text == "stopcase" || line.text == "stop 0" || line.text == "kill 0" || (line.run == 0 && line.text == "finish");
    return is_error(line.reply) || (is_end && line.reply == "ok");
}

// Whether somebody may have been stopped by this entry, or be done.
inline bool may_halt(const Line& line) {
    const auto verb = first_word(line.text);
    return is_error(line.reply) || (line.reply == "ok" && (verb == "finish" || verb == "stop" || verb == "kill" || verb == "stopcase"));
}

// What the lines of a test case say: names, local verdicts, and the entry that made the overall verdict.
class Findings {
public:
    void take(const Line& line) {
        if (line.kind == 'b') behaviours_[line.run] = line.text;
        if (line.kind == '#') said_[line.run] = line.text;
        if (line.kind != 'e') return;
        const auto verb = first_word(line.text);
        if (verb == "create" && is_made(line.reply)) {
            int made = std::atoi(line.reply.data() + 5);
            locals[made] = "none";
            names[made] = line.text.find(" named ") != std::string_view::npos ? last_word(line.text) : "";
        } else if (verb == "start" && line.reply == "ok") {
            char* rest = nullptr;
            const auto component = static_cast<int>(std::strtol(line.text.data() + 6, &rest, 10));
            component_of_.emplace(std::atoi(rest), component);
        }
        judge(line, verb);
        said_.erase(line.run);
    }

    std::string overall() const {
        std::string worst = "none";
        for (const auto& [component, verdict] : locals)
            if (rank(verdict) > rank(worst)) worst = verdict;
        return worst;
    }

    std::map<int, std::string> locals{{0, "none"}};
    std::map<int, std::string> names{{0, "mtc"}};
    std::string why = "no behaviour set a verdict";

private:
    void judge(const Line& line, std::string_view verb) {
        std::string_view given = "none";
        if (is_error(line.reply) || (verb == "stopcase" && line.reply == "ok")) given = "error";
        else if (verb == "setverdict" && line.reply == "ok") given = last_word(line.text);
        auto component = component_of_.find(line.run);
        if (given == "none" || component == component_of_.end()) return;
        if (rank(given) > rank(overall())) why = reason(line, component->second);
        auto& local = locals[component->second];
        if (rank(given) > rank(local)) local = given;
    }

    std::string reason(const Line& line, int component) {
        std::string place = "mtc";
        if (component != 0) place = "component " + std::to_string(component) + (names[component].empty() ? "" : " " + names[component]);
        auto said = said_.find(line.run);
        return "run " + std::to_string(line.run) + " " + behaviours_[line.run] + " on " + place + ": " + std::string(line.text) +
               (line.reply == "ok" ? "" : " -> " + std::string(line.reply)) + (said == said_.end() ? "" : ": " + said->second);
    }

    std::map<int, std::string> behaviours_;
    std::map<int, int> component_of_{{0, 0}};
    std::map<int, std::string> said_;
};

// A mutex for which a caller can wait that long. ThreadSanitizer does not know the call by which std::timed_mutex waits.
class TimedMutex {
public:
    void lock() {
        std::unique_lock<std::mutex> hold(mutex_);
        let_go_.wait(hold, [&] { return !is_held_; });
        is_held_ = true;
    }
    bool try_lock_for(Seconds limit) {
        std::unique_lock<std::mutex> hold(mutex_);
        const bool is_free = let_go_.wait_for(hold, limit, [&] { return !is_held_; });
        is_held_ = true;
        return is_free;
    }
    void unlock() {
        std::lock_guard<std::mutex> hold(mutex_);
        is_held_ = false;
        let_go_.notify_one();
    }

private:
    std::mutex mutex_;
    std::condition_variable let_go_;
    bool is_held_ = false;
};

// A server: lines go in, lines come out.
class Link {
public:
    Link() = default;
    Link(const Link&) = delete;
    Link& operator=(const Link&) = delete;
    virtual ~Link() = default;

    // Gives it lines, unless it takes none for so long. One that has ended is noticed by who reads.
    virtual void write(std::string_view text, std::optional<Seconds> limit = std::nullopt) = 0;

    // Reads more of what it writes; false if nothing came for so long. Throws ServerEnded at its end.
    virtual bool read(std::optional<Seconds> limit) = 0;

    virtual void kill() = 0;

    // Ends it; the status.
    virtual int finish() = 0;

    // The next line that was read, without its line feed, or what is too long for one. It is valid until more is read.
    std::optional<std::string_view> line() {
        const auto rest = std::string_view(kept_).substr(taken_);
        const auto size = std::min(rest.find('\n'), most_of_a_line);
        if (rest.size() <= size) return std::nullopt;
        taken_ += size + 1;
        return rest.substr(0, size);
    }

protected:
    void keep(std::string_view text) {
        kept_.erase(0, taken_);
        taken_ = 0;
        kept_.append(text);
    }

private:
    std::string kept_;
    std::size_t taken_ = 0;
};

// A server in a process of its own, over pipes.
class Program : public Link {
public:
    Program(const std::vector<std::string>& command, Seconds grace) : grace_(grace) {
        std::array<int, 2> in{}, out{};
        errors_ = std::tmpfile();
        // Lines go through a socket, since a write to a pipe that nobody reads is a signal to the whole process.
        if (errors_ == nullptr || socketpair(AF_UNIX, SOCK_STREAM | SOCK_CLOEXEC, 0, in.data()) != 0 || pipe2(out.data(), O_CLOEXEC) != 0)
            throw NoProgram("there are no pipes: " + std::string(std::strerror(errno)));
        int error = spawn(command, in[1], out[1]);
        close(in[1]);
        close(out[1]);
        in_ = in[0];
        out_ = out[0];
        if (error != 0) {
            release();
            throw NoProgram(command[0] + " cannot be started: " + std::strerror(error));
        }
    }

    ~Program() override { finish(); }

    void write(std::string_view text, std::optional<Seconds> limit) override {
        if (limit && !is_ready(in_, POLLOUT, *limit)) return;
        while (!text.empty()) {
            auto size = send(in_, text.data(), text.size(), MSG_NOSIGNAL);
            if (size < 0 && errno == EINTR) continue;
            if (size <= 0) return;
            text.remove_prefix(static_cast<std::size_t>(size));
        }
    }

    bool read(std::optional<Seconds> limit) override {
        if (limit && !is_ready(out_, POLLIN, *limit)) return false;
        std::array<char, 16384> chunk;
        ssize_t size = -1;
        do size = ::read(out_, chunk.data(), chunk.size());
        while (size < 0 && errno == EINTR);
        if (size <= 0) throw ServerEnded(how_it_ended());
        keep({chunk.data(), static_cast<std::size_t>(size)});
        return true;
    }

    // All that it writes, if it reads this first, to the end of its input.
    std::string answer(std::string_view text) {
        write(text, std::nullopt);
        shutdown(in_, SHUT_WR);
        std::string out;
        std::array<char, 16384> chunk;
        for (ssize_t size = 1; size > 0 || (size < 0 && errno == EINTR);)
            if ((size = ::read(out_, chunk.data(), chunk.size())) > 0) out.append(chunk.data(), static_cast<std::size_t>(size));
        return out;
    }

    // How it ended, by its own last line.
    std::string how_it_ended() {
        if (!wait_for(grace_)) return "the server has closed its output";
        const std::string told = last_error();
        std::string how = WIFSIGNALED(status_) ? "signal " + std::to_string(WTERMSIG(status_)) : "status " + std::to_string(WEXITSTATUS(status_));
        return "the server ended with " + how + (told.empty() ? "" : ": " + told);
    }

    // The last line of its standard error.
    std::string last_error() {
        std::string told, line;
        auto end_line = [&] {  // a program that does not know the word serve says so first, and how to get help last
            if (!line.empty() && told.rfind("error: ", 0) != 0) told = line;
            line.clear();
        };
        std::rewind(errors_);
        for (int it = std::fgetc(errors_); it != EOF; it = std::fgetc(errors_)) {
            if (it == '\n') end_line();
            else line += static_cast<char>(it);
        }
        end_line();
        return told;
    }

    void kill() override {
        std::lock_guard<std::mutex> hold(waiting_);
        if (!is_waited_) ::kill(pid_, SIGKILL);
    }

    // Ends its input, and waits for its end: its status, 3 where it was a signal.
    int finish() override {
        if (in_ >= 0) {
            shutdown(in_, SHUT_WR);
            if (!wait_for(grace_)) {
                kill();
                wait_for(Seconds(60));
            }
            release();
        }
        return WIFEXITED(status_) && WEXITSTATUS(status_) <= 3 ? WEXITSTATUS(status_) : 3;
    }

private:
    int spawn(const std::vector<std::string>& command, int in, int out) {
        std::vector<char*> words;
        for (const auto& it : command) words.push_back(const_cast<char*>(it.c_str()));
        words.push_back(nullptr);
        posix_spawn_file_actions_t actions;
        posix_spawnattr_t attributes;
        posix_spawn_file_actions_init(&actions);
        posix_spawnattr_init(&attributes);
        posix_spawn_file_actions_adddup2(&actions, in, 0);
        posix_spawn_file_actions_adddup2(&actions, out, 1);
        posix_spawn_file_actions_adddup2(&actions, fileno(errors_), 2);
        // In a group of its own: Ctrl-C at a terminal ends only the bench.
        posix_spawnattr_setflags(&attributes, POSIX_SPAWN_SETPGROUP);
        int error = posix_spawnp(&pid_, words[0], &actions, &attributes, words.data(), environ);
        posix_spawn_file_actions_destroy(&actions);
        posix_spawnattr_destroy(&attributes);
        return error;
    }

    static bool is_ready(int file, short event, Seconds limit) {
        pollfd asked{file, event, 0};
        return poll(&asked, 1, static_cast<int>(limit.count() * 1000)) > 0;
    }

    bool wait_for(Seconds limit) {
        const auto deadline = std::chrono::steady_clock::now() + limit;
        while (true) {
            {
                std::lock_guard<std::mutex> hold(waiting_);
                if (!is_waited_) is_waited_ = waitpid(pid_, &status_, WNOHANG) != 0;
                if (is_waited_) return true;
            }
            if (std::chrono::steady_clock::now() > deadline) return false;
            std::this_thread::sleep_for(std::chrono::milliseconds(2));
        }
    }

    void release() {
        close(in_);
        close(out_);
        std::fclose(errors_);
        in_ = out_ = -1;
    }

    Seconds grace_;
    std::FILE* errors_ = nullptr;
    int in_ = -1;
    int out_ = -1;
    pid_t pid_ = -1;
    int status_ = 0;
    bool is_waited_ = false;
    std::mutex waiting_;
};

// The component table in this process, which answers lines as `ttrun serve` does: also the wakes are the table's.
class Table : public Link {
public:
    Table() { fault_.reserve(most_of_a_line); }  // a fault needs no more memory
    ~Table() override { filskeam_close(&place_); }

    void write(std::string_view text, std::optional<Seconds>) override {
        std::lock_guard<std::mutex> hold(mutex_);
        try {
            for (std::size_t size = 0; fault_.empty() && (size = text.find('\n')) != std::string_view::npos; text.remove_prefix(size + 1))
                answer(text.substr(0, size));
        } catch (const ServerEnded& ended) {
            fault_ = ended.what();
        } catch (const std::bad_alloc&) {  // perhaps behind a call that was made: no other may follow it in the evidence
            fault_ = "the client ran out of memory";
        }
    }

    bool read(std::optional<Seconds>) override {
        std::lock_guard<std::mutex> hold(mutex_);
        if (!fault_.empty() && made_.empty()) throw ServerEnded(fault_);
        const bool is_more = !made_.empty();
        keep(made_);
        made_.clear();
        return is_more;
    }

    // A call that has begun is made.
    void kill() override {}

    int finish() override { return fault_.empty() ? status_ : 3; }

private:
    static void hold_done(std::uint8_t number, std::string_view line) {
        if (number == FILSKEAM_DONE) return;
        throw ServerEnded(number == FILSKEAM_NO_MEMORY ? "the table ran out of memory" : "the table takes no line " + plain(line));
    }

    void answer(std::string_view line) {
        if (line.substr(0, 5) == "case ") begin(line);
        else if (line == "end") end();
        else if (line.substr(0, 10) == "behaviour " || line.find(" # ") != std::string_view::npos) made_.append(line) += '\n';
        else make(line);
    }

    void begin(std::string_view line) {
        hold_done(filskeam_open(&place_, static_cast<std::uint16_t>(std::atoi(last_word(line).data()))), line);
        made_.append("evidence 1 ").append(line.substr(5)) += '\n';
    }

    void end() {
        const auto verdict = filskeam_overall(&place_), counted = filskeam_is_over(&place_) == 1 ? verdict : std::uint8_t{4};
        hold_done(filskeam_close(&place_), "end");
        status_ = std::max(status_, counted <= 1 ? 0 : counted <= 3 ? 1 : 2);
        waits_.clear();
        made_.append("end ").append(verdicts[verdict]) += '\n';
    }

    // What the table replies to a move, by `filskeam_play` or `filskeam_would`.
    std::string_view reply(std::string_view move, decltype(filskeam_play) call) {
        std::size_t size = 0;
        hold_done(call(&place_, move.data(), move.size(), room_.data(), room_.size(), &size), move);
        return {room_.data(), size};
    }

    std::string_view play(std::string_view move) {
        const auto found = reply(move, filskeam_play);
        made_.append(move).append(" -> ").append(found) += '\n';
        return found;
    }

    // Makes a call, and then the wake of each run that waits and can continue, in the order of their numbers.
    void make(std::string_view move) {
        const auto found = play(move);
        if (found == "parked") {
            std::string wake(move);
            waits_[std::atoi(wake.c_str())] = wake.replace(wake.find(' ') + 1, 4, "wake");
        } else if (!may_halt({'e', 0, move.substr(move.find(' ') + 1), found})) {
            return;  // nobody can continue who could not before
        }
        for (auto it = waits_.begin(); it != waits_.end();) {
            if (reply(it->second, filskeam_would) == "parked") {
                ++it;
                continue;
            }
            play(it->second);
            it = waits_.erase(it);
        }
    }

    // One call at a time on the place, and for what follows.
    std::mutex mutex_;
    filskeam_case place_ = FILSKEAM_CLOSED;
    std::array<char, FILSKEAM_REPLY> room_{};
    // The wakes of the runs that wait.
    std::map<int, std::string> waits_;
    std::string made_;
    std::string fault_;
    int status_ = 0;
};

// What TTRUN or FILSKEAM_TTRUN names, or `ttrun` on the path.
inline std::string found_program() {
    for (const char* variable : {"TTRUN", "FILSKEAM_TTRUN"}) {
        const char* named = std::getenv(variable);
        if (named != nullptr && *named != 0) return named;
    }
    return "ttrun";
}

class Case;

}  // namespace detail

inline std::string Result::model(const std::string& program) const {
    detail::Program modelling({program.empty() ? detail::found_program() : program, "model"}, Seconds(5));
    const std::string text = modelling.answer(evidence), told = modelling.last_error();
    if (text.empty()) throw std::runtime_error(told.empty() ? modelling.how_it_ended() : told);
    return text;
}

inline std::string Result::local(const std::string& component) const {
    std::optional<std::string> worst;
    for (const auto& [number, given] : locals)
        if (names.at(number) == component && (!worst || detail::rank(given) > detail::rank(*worst))) worst = given;
    if (!worst) throw std::out_of_range("test case " + name + " has no component '" + component + "'");
    return *worst;
}

inline std::string Result::report(std::size_t most) const {
    std::string text = "test case " + name + ": " + verdict + "\nwhy: " + why + "\n";
    if (is_timed_out) text += "the test case took longer than it may\n";
    for (const auto& it : hung) text += "has not returned: " + it + "\n";
    for (const auto& it : raised) text += "thrown by " + it + "\n";
    for (const auto& [number, verdict_of] : locals)
        text += "local " + std::to_string(number) + (names.at(number).empty() ? "" : " " + names.at(number)) + ": " + verdict_of + "\n";
    const auto lines = static_cast<std::size_t>(std::count(evidence.begin(), evidence.end(), '\n'));
    text += lines <= most ? "evidence:\n" : "evidence, the last " + std::to_string(most) + " of " + std::to_string(lines) + " lines:\n";
    std::size_t at = 0;
    for (std::size_t line = 0; line < lines; ++line) {
        const auto end = evidence.find('\n', at);
        if (line + most >= lines) text += "  " + evidence.substr(at, end + 1 - at);
        at = end + 1;
    }
    return text;
}

// A component by its number, or "all"; where a status is asked or waited for, also "any".
class Target {
public:
    Target(int component) : word_(std::to_string(component)) {
        if (component < 0) throw std::invalid_argument(word_ + " is no component");
    }
    Target(const char* group) : word_(group) {
        if (word_ != "all" && word_ != "any") throw std::invalid_argument("'" + word_ + "' is no group: there are all and any");
    }
    const std::string& word() const { return word_; }

private:
    std::string word_;
};

class Run;
using Behaviour = std::function<void(Run&)>;

// A run of a behaviour, which makes its calls on it: only the behaviour's own thread may. `log` is free to all.
class Run {
public:
    Run(const Run&) = delete;
    Run& operator=(const Run&) = delete;

    int me() const { return me_; }
    std::string text() const { return "run " + std::to_string(number_) + " " + behaviour_; }

    // Creates a component, and returns its number; an alive-type one may be started again after its behaviour.
    int create(const std::string& name = "", bool alive = false) {
        std::string words = alive ? "create alive" : "create";
        if (!name.empty()) words += " named " + detail::checked_name(name);
        return std::atoi(call(words).c_str() + 5);
    }

    // Starts a behaviour, by its name in the evidence. The arguments are components, which the table sees.
    void start(int component, const std::string& name, Behaviour behaviour, const std::vector<int>& arguments = {});

    void stop(const Target& group) { call("stop " + without_any(group)); }
    void kill(const Target& group) { call("kill " + without_any(group)); }

    // Ends the test case with the verdict error, and this behaviour.
    [[noreturn]] void stop_case(const std::string& reason = "") {
        call("stopcase", reason);
        throw Ended("the test case was stopped");
    }

    bool running(const Target& target) { return is("running", target); }
    bool alive(const Target& target) { return is("alive", target); }
    bool done(const Target& target) { return is("done", target); }
    bool killed(const Target& target) { return is("killed", target); }

    // Waits; with a limit, false if the time passed before.
    void wait_done(const Target& target) { call("wait done " + target.word()); }
    void wait_killed(const Target& target) { call("wait killed " + target.word()); }
    bool wait_done(const Target& target, Seconds limit) { return wait("done", target, limit); }
    bool wait_killed(const Target& target, Seconds limit) { return wait("killed", target, limit); }

    // Makes the local verdict this one, if it is worse than the old. The reason goes into the evidence.
    void set_verdict(const std::string& verdict, const std::string& reason = "") {
        if (detail::rank(verdict) >= 4) throw std::invalid_argument("'" + verdict + "' is no verdict to set: there are none, pass, inconc and fail");
        call("setverdict " + verdict, reason);
    }

    std::string get_verdict() { return call("getverdict"); }

    // Puts a remark into the evidence. Any thread may.
    void log(const std::string& text);

    // Throws Ended if this run was stopped: for long loops. It asks the table only after something was stopped.
    void check();

    // Sleeps, and throws Ended as soon as this run is stopped.
    void sleep(Seconds limit);

private:
    friend class detail::Case;

    Run(std::shared_ptr<detail::Case> bench, int number, std::string behaviour, int me)
        : case_(std::move(bench)), number_(number), me_(me), behaviour_(std::move(behaviour)) {}

    static const std::string& without_any(const Target& group) {
        if (group.word() == "any") throw std::invalid_argument("'any' is no group to stop or kill");
        return group.word();
    }

    bool is(const std::string& status, const Target& target) { return call(status + " " + target.word()) == "true"; }
    bool wait(const std::string& status, const Target& target, Seconds limit);
    std::string remark(const std::string& text) const {
        const std::string plain = detail::plain(text);
        return plain.empty() ? "" : std::to_string(number_) + " # " + plain + "\n";
    }

    void check_thread() const {
        if (std::this_thread::get_id() != thread_) throw std::logic_error("the calls of " + text() + " are its own thread's: another may only log");
    }

    std::string call(const std::string& words, const std::string& reason = "") {
        check_thread();
        return ask(words, remark(reason));
    }

    // Writes these lines and a call, and waits for its answer.
    std::string ask(const std::string& words, const std::string& before) {
        std::lock_guard<detail::TimedMutex> hold(calling_);
        return exchange(words, before, std::nullopt);
    }

    std::string exchange(const std::string& words, const std::string& before, std::optional<Seconds> limit);
    bool expects(const detail::Line& line) const;
    bool take(const detail::Line& line);
    void stop_case_from_outside(const std::string& reason, Seconds limit);

    std::shared_ptr<detail::Case> case_;
    const int number_;
    const int me_;
    const std::string behaviour_;
    std::thread::id thread_;
    bool is_started_ = false;
    std::atomic<bool> is_done_{false};
    std::atomic<bool> is_parked_{false};
    long seen_ = 0;
    detail::TimedMutex calling_;
    // What it has asked and what is answered, for who holds the news of the test case.
    std::condition_variable answered_;
    std::string asked_;
    std::optional<std::string> answer_;
};

namespace detail {

// How often is looked whether there is something to read that nobody waits for.
inline constexpr Seconds now_and_then(0.01);

// A test case while it runs. Each thread of it keeps it alive.
class Case : public std::enable_shared_from_this<Case> {
public:
    Case(std::string name, Link& program, Seconds grace) : name_(std::move(name)), program_(&program), grace_(grace) {}

    // Runs the main behaviour, and closes the test case once it is over or late.
    Result play(const std::string& behaviour, Behaviour main, std::optional<Seconds> timeout) {
        auto run = new_run(behaviour, 0);
        send("case " + name_ + " " + std::to_string(most_behaviours) + "\n" + naming(*run));
        begin(run, std::move(main));
        auto is_over = [&] { return is_over_ || run->is_done_ || !fault_.empty(); };
        bool is_timed_out = !await(is_over, timeout);
        if (is_timed_out) stop("the test case took longer than it may");
        await([&] { return going_on().empty(); }, grace_);
        for (const auto& it : locked([&] { return going_on(); })) hung_.push_back(it->text());
        close();
        Result found = result(is_timed_out);
        locked([&] { runs_.clear(); });  // each of them keeps the test case alive
        return found;
    }

    std::shared_ptr<Run> new_run(const std::string& behaviour, int component) {
        std::lock_guard<std::mutex> hold(news_);
        check_open();
        int number = static_cast<int>(runs_.size());
        runs_.push_back(std::shared_ptr<Run>(new Run(shared_from_this(), number, checked_name(behaviour), component)));
        return runs_.back();
    }

    // The line that names its behaviour. One more than there may be is named by nobody: the table says what is wrong.
    std::string naming(const Run& run) const {
        return run.number_ < most_behaviours ? "behaviour " + std::to_string(run.number_) + " " + run.behaviour_ + "\n" : "";
    }

    void begin(const std::shared_ptr<Run>& run, Behaviour behaviour) {
        std::lock_guard<std::mutex> hold(news_);
        std::thread([self = shared_from_this(), run, behaviour = std::move(behaviour)] { self->behave(*run, behaviour); }).detach();
        run->is_started_ = true;  // without a thread nobody waits for its return
    }

    // Writes lines, unless the test case is closed.
    void send(const std::string& lines, std::optional<Seconds> limit = std::nullopt) {
        std::unique_lock<TimedMutex> hold(sending_, std::defer_lock);
        if (limit && !hold.try_lock_for(*limit)) return;
        if (!limit) hold.lock();
        if (is_closed_) locked([&] { check_open(); });
        program_->write(lines, limit);
    }

    // Writes lines with a call of a run, and waits for its answer.
    std::string ask(Run& run, const std::string& words, const std::string& lines, std::optional<Seconds> limit) {
        locked([&] { run.asked_ = words; });
        send(lines, limit);
        std::unique_lock<std::mutex> hold(news_);
        auto is_there = [&] { return run.answer_ || is_ended_ || !fault_.empty(); };
        if (!read_until(hold, run.answered_, [&] { return is_there() || run.is_parked_; }, limit)) throw ServerEnded("the server does not answer");
        run.answered_.wait(hold, is_there);  // a run that is parked does not read: whose call lets it continue reads its wake too
        if (!run.answer_) check_open();
        std::string found = std::move(run.answer_.value());
        run.answer_.reset();
        return found;
    }

    // How many entries there are that may have stopped somebody.
    long changes() { return locked([&] { return changes_; }); }

    // Waits until there are more; false if the time passed before.
    bool await_change(long seen, std::chrono::steady_clock::time_point deadline) {
        std::unique_lock<std::mutex> hold(news_);
        return told_.wait_until(hold, deadline, [&] { return changes_ != seen; });
    }

private:
    template <typename Get>
    std::invoke_result_t<Get> locked(Get get) {
        std::lock_guard<std::mutex> hold(news_);
        return get();
    }

    // Throws if the server or the test case has ended; for who holds the news.
    void check_open() const {
        if (!fault_.empty()) throw ServerEnded(fault_);
        if (is_closed_) throw Ended("the test case is closed");
    }

    // Waits until it is so; false if the time passed before. What nobody else waits for is read here.
    template <typename Is>
    bool await(Is is_so, std::optional<Seconds> limit) {
        const auto began = std::chrono::steady_clock::now();
        std::unique_lock<std::mutex> hold(news_);
        while (!told_.wait_for(hold, now_and_then, is_so)) {
            if (limit && std::chrono::steady_clock::now() - began > *limit) return false;
            while (!is_read_ && !is_ended_ && fault_.empty() && read(hold, Seconds(0))) {}
            hand_on();
        }
        return true;
    }

    // Waits until it is so, and reads for all while nobody else does; false if the time passed before.
    template <typename Is>
    bool read_until(std::unique_lock<std::mutex>& hold, std::condition_variable& told, Is is_so, std::optional<Seconds> limit) {
        const auto began = std::chrono::steady_clock::now();
        while (!is_so() && !(limit && std::chrono::steady_clock::now() - began > *limit)) {
            if (is_read_) {
                waiting_.push_back(&told);
                if (limit) told.wait_for(hold, *limit);
                else told.wait(hold);
                waiting_.erase(std::find(waiting_.begin(), waiting_.end(), &told));
            } else read(hold, limit);
        }
        hand_on();
        return is_so();
    }

    // Wakes one who waits, if nobody reads: it reads, or it has its answer and does the same.
    void hand_on() {
        if (!is_read_ && !waiting_.empty()) waiting_.front()->notify_all();
    }

    // Runs a behaviour to its end, and reports that to the table.
    void behave(Run& run, const Behaviour& behaviour) {
        run.thread_ = std::this_thread::get_id();
        try {
            behaviour(run);
            run.call("finish");
        } catch (const DynamicError& error) {
            note(run, "DynamicError: " + std::string(error.what()), false);
        } catch (const Ended&) {
        } catch (const std::exception& error) {
            note(run, error.what(), true);
        } catch (...) {
            note(run, "what it threw is no std::exception", true);
        }
        std::lock_guard<std::mutex> hold(news_);
        run.is_done_ = true;
        told_.notify_all();
    }

    // Keeps what a behaviour threw, and ends the test case.
    void note(Run& run, const std::string& text, bool stops) {
        locked([&] { raised_.push_back(run.text() + ": " + text); });
        if (!stops) return;
        try {
            run.stop_case(text);
        } catch (const Ended&) {
        } catch (const std::exception&) {
        }
    }

    // The runs that were started and have not returned; for who holds the news.
    std::vector<std::shared_ptr<Run>> going_on() const {
        std::vector<std::shared_ptr<Run>> found;
        for (const auto& it : runs_)
            if (it->is_started_ && !it->is_done_) found.push_back(it);
        return found;
    }

    // Reads what comes, for who holds the news while nobody reads, and gives each line to its run; false if nothing came.
    bool read(std::unique_lock<std::mutex>& hold, std::optional<Seconds> limit) {
        bool is_more = false;
        std::string fault;
        is_read_ = true;
        hold.unlock();
        try {
            is_more = program_->read(limit);
            hold.lock();
            for (std::optional<std::string_view> text; !is_ended_ && fault_.empty() && (text = program_->line());) take(*text);
            hold.unlock();  // who wakes takes it at once
            for (auto* it : answered_) it->notify_all();
            answered_.clear();
        } catch (const Ended& ended) {
            fault = ended.what();
        } catch (const std::exception& error) {  // as no memory: nobody may wait for an answer that nobody reads
            fault = "the client cannot read on: " + std::string(error.what());
        }
        if (!hold.owns_lock()) hold.lock();
        is_read_ = false;
        if (!fault.empty()) lose(fault);
        return is_more;
    }

    void take(std::string_view text) {
        const auto line = parsed(text);
        Run* run = line && line->run < static_cast<int>(runs_.size()) ? runs_[static_cast<std::size_t>(line->run)].get() : nullptr;
        bool is_right = false;
        if (evidence_.empty()) is_right = text == "evidence 1 " + name_ + " " + std::to_string(most_behaviours);
        else if (!run) is_right = is_closed_ && text == "end " + findings_.overall();
        else is_right = line->kind == 'b' || line->kind == '#' || run->expects(*line);
        if (!is_right) throw ServerEnded("the server wrote what it may not write here: " + plain(text));
        evidence_.append(text) += '\n';
        is_ended_ = text.substr(0, 4) == "end ";
        if (line) findings_.take(*line);
        is_over_ = is_over_ || (line && ends_case(*line));
        if (is_ended_ || (line && may_halt(*line))) tell_change();
        if (run != nullptr && run->take(*line)) answered_.push_back(&run->answered_);
    }

    // Reports a change to all, and an end also to the runs that wait.
    void tell_change() {
        ++changes_;
        told_.notify_all();
        if (is_ended_ || !fault_.empty())
            for (const auto& run : runs_) run->answered_.notify_all();
    }

    // Ends the server, and reports to all that there is none any more; for who holds the news. The first reason counts.
    void lose(const std::string& fault) {
        program_->kill();
        if (fault_.empty()) fault_ = fault;
        is_closed_ = true;
        tell_change();
    }

    // Ends the test case through the table, with the verdict error, instead of a run that does not wait in it.
    void stop(const std::string& reason) {
        std::string hanging;
        for (const auto& it : locked([&] { return going_on(); }))
            if (!it->is_parked_) hanging += (hanging.empty() ? "" : ", ") + it->text();
        const auto deadline = std::chrono::steady_clock::now() + grace_;
        auto is_over = [&] { return is_over_ || !fault_.empty(); };
        while (!await(is_over, Seconds(0.01)) && std::chrono::steady_clock::now() < deadline)
            for (const auto& run : locked([&] { return going_on(); }))
                if (!locked(is_over)) run->stop_case_from_outside(reason + "; not returned: " + hanging, grace_);
    }

    // Asks for the last line. A server that does not write it is killed.
    void close() {
        if (sending_.try_lock_for(grace_)) {
            is_closed_ = true;
            program_->write("end\n", grace_);
            sending_.unlock();
        }
        std::unique_lock<std::mutex> hold(news_);
        if (!read_until(hold, told_, [&] { return is_ended_ || !fault_.empty(); }, grace_)) lose("the server does not answer");
        hold.unlock();
        std::lock_guard<TimedMutex> writing(sending_);  // who still writes or reads is done with the program now
        await([&] { return !is_read_; }, std::nullopt);
    }

    Result result(bool is_timed_out) {
        std::lock_guard<std::mutex> hold(news_);
        const std::string told = is_ended_ ? findings_.overall() : "error", late = "the test case took longer than it may";
        const std::string verdict = is_timed_out ? "error" : told;
        const std::string why = !fault_.empty() ? fault_ : told == verdict ? findings_.why : late;
        return Result{name_, verdict, why, findings_.locals, findings_.names, evidence_, raised_, hung_, is_timed_out, fault_};
    }

    const std::string name_;
    Link* program_;
    const Seconds grace_;
    TimedMutex sending_;
    // For what follows, and for what the runs have asked. Its holder writes nothing: the server may wait for its reader.
    std::mutex news_;
    // It reports an end, a fault and changes.
    std::condition_variable told_;
    // Whether somebody reads, who waits for its answer meanwhile, and who is woken next since it has one.
    bool is_read_ = false;
    std::vector<std::condition_variable*> waiting_;
    std::vector<std::condition_variable*> answered_;
    std::vector<std::shared_ptr<Run>> runs_;
    Findings findings_;
    std::string evidence_;
    std::vector<std::string> raised_;
    std::vector<std::string> hung_;
    bool is_over_ = false;
    bool is_ended_ = false;
    std::atomic<bool> is_closed_{false};
    long changes_ = 0;
    std::string fault_;
};

}  // namespace detail

inline void Run::start(int component, const std::string& name, Behaviour behaviour, const std::vector<int>& arguments) {
    check_thread();
    if (!behaviour) throw std::invalid_argument("a start needs a function");
    if (arguments.size() > 4) throw std::invalid_argument("a start has at most 4 arguments; let the function keep others");
    std::string rest;
    for (int it : arguments) rest += " " + Target(it).word();
    const std::string on = Target(component).word();
    auto run = case_->new_run(name, component);
    ask("start " + on + " " + std::to_string(run->number_) + rest, case_->naming(*run));
    case_->begin(run, std::move(behaviour));
}

inline void Run::log(const std::string& text) {
    const std::string line = remark(text);
    if (!line.empty()) case_->send(line);
}

inline void Run::check() {
    check_thread();
    const long changes = case_->changes();
    if (changes == seen_) return;
    call("getverdict");
    seen_ = changes;
}

inline void Run::sleep(Seconds limit) {
    const auto deadline = std::chrono::steady_clock::now() + std::chrono::duration_cast<std::chrono::steady_clock::duration>(limit);
    check();
    while (case_->await_change(seen_, deadline)) check();
}

// It asks whenever something may have changed: the table knows no time.
inline bool Run::wait(const std::string& status, const Target& target, Seconds limit) {
    const auto deadline = std::chrono::steady_clock::now() + std::chrono::duration_cast<std::chrono::steady_clock::duration>(limit);
    while (true) {
        const long changes = case_->changes();
        if (is(status, target)) return true;
        if (!case_->await_change(changes, deadline)) return false;
    }
}

// The same as `ask`, for who holds the lock of the calls, and may wait for so long.
inline std::string Run::exchange(const std::string& words, const std::string& before, std::optional<Seconds> limit) {
    const std::string found = case_->ask(*this, words, before + std::to_string(number_) + " " + words + "\n", limit);
    if (found.rfind("! ", 0) == 0) throw Refused("the server refused a line of " + text() + ": " + found.substr(2));
    if (found == "ended") throw Ended(text() + " has ended");
    if (detail::is_error(found)) throw DynamicError(words + " -> " + found);
    return found;
}

inline bool Run::expects(const detail::Line& line) const {
    return !asked_.empty() && (line.kind == '!' || (line.text == asked_ && detail::suits(asked_, line.reply)));
}

inline bool Run::take(const detail::Line& line) {
    if (line.kind != 'e' && line.kind != '!') return false;
    is_parked_ = line.reply == "parked";
    if (is_parked_) {
        asked_.replace(0, 4, "wake");
    } else {
        asked_.clear();
        answer_ = line.kind == '!' ? "! " + std::string(line.text) : std::string(line.reply);
    }
    return true;
}

// Stops the test case instead of the behaviour, unless it waits or is just making a call.
inline void Run::stop_case_from_outside(const std::string& reason, Seconds limit) {
    std::unique_lock<detail::TimedMutex> hold(calling_, std::defer_lock);
    if (is_done_ || is_parked_ || !hold.try_lock_for(Seconds(0.05))) return;
    try {
        exchange("stopcase", remark(reason), limit);
    } catch (const Ended&) {
    } catch (const Refused&) {
    }
}

// What judges: `ttrun serve` in a process of its own, by its command, or the table in this process. The second needs the
// library filskeam, which `./ttrun --library` builds.
struct Pipe {
    std::vector<std::string> command = {};
};
struct InProcess {};

// What judges test cases one after the other. If it has ended, the next test case starts it again.
class Server {
public:
    template <typename Way, typename = std::enable_if_t<std::is_same_v<Way, Pipe> || std::is_same_v<Way, InProcess>>>
    explicit Server(Way way, std::string evidence = "", Seconds grace = Seconds(5)) : Server(command_of(way), std::move(evidence), grace) {
        if constexpr (std::is_same_v<Way, InProcess>) start_ = [] { return std::make_unique<detail::Table>(); };
    }

    // The program is what TTRUN or FILSKEAM_TTRUN names, or `ttrun` on the path, unless a command is given. A behaviour that
    // does not return for so long after the end of its test case is abandoned. The evidence of each test case is appended to
    // the file, if one is named.
    explicit Server(std::vector<std::string> command = {}, std::string evidence = "", Seconds grace = Seconds(5))
        : command_(std::move(command)), evidence_(std::move(evidence)), grace_(grace) {
        if (command_.empty()) command_ = {detail::found_program(), "serve"};
        start_ = [this] { return std::make_unique<detail::Program>(command_, grace_); };
        if (!evidence_.empty()) append(evidence_, "");  // a file that cannot be written is reported before a test case is run
    }

    Server(const Server&) = delete;
    Server& operator=(const Server&) = delete;
    ~Server() { close(); }

    // Runs a test case. After the limit it is stopped, with the verdict error.
    Result run(const std::string& name, Behaviour main, std::optional<Seconds> limit = std::nullopt) {
        std::lock_guard<std::mutex> hold(judging_);
        detail::checked_name(name);
        if (!program_) program_ = start_();
        auto result = std::make_shared<detail::Case>(name, *program_, grace_)->play("main", std::move(main), limit);
        // A block without its end would spoil the file: it goes into another next to it.
        if (!evidence_.empty()) append(evidence_ + (result.fault.empty() ? "" : ".cut"), result.evidence);
        if (!result.fault.empty()) {
            close();
            status_ = 3;
        }
        if (result.verdict == "error") status_ = std::max(status_, 2);
        return result;
    }

    // Ends it. The status is 0, 1 or 2 by the worst verdict, and 3 where it ended early or refused a line.
    int close() {
        if (program_) status_ = std::max(status_, program_->finish());
        program_.reset();
        return status_;
    }

private:
    static std::vector<std::string> command_of(const Pipe& pipe) { return pipe.command; }
    static std::vector<std::string> command_of(InProcess) { return {"the table in this process"}; }

    static void append(const std::string& path, const std::string& text) {
        std::ofstream file(path, std::ios::app);
        if (!(file << text << std::flush)) throw std::runtime_error(path + " cannot be written");
    }

    std::vector<std::string> command_;
    std::string evidence_;
    Seconds grace_;
    std::function<std::unique_ptr<detail::Link>()> start_;
    std::unique_ptr<detail::Link> program_;
    int status_ = 0;
    std::mutex judging_;
};

}  // namespace filskeam
