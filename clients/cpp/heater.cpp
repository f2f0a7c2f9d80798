// A heater whose thermometer is a TCP server: the bench must find out that it gets too hot.
#include <arpa/inet.h>
#include <netinet/in.h>
#include <sys/socket.h>
#include <unistd.h>

#include <cstdlib>
#include <iostream>
#include <stdexcept>
#include <string>
#include <thread>

#include "filskeam.hpp"

// A socket that is closed at its end.
class Socket {
public:
    explicit Socket(int file) : file_(file) {
        if (file < 0) throw std::runtime_error("there is no socket");
    }
    ~Socket() { close(file_); }
    Socket(const Socket&) = delete;
    Socket& operator=(const Socket&) = delete;
    int file() const { return file_; }

    void write(const std::string& line) const {
        if (send(file_, line.data(), line.size(), MSG_NOSIGNAL) != static_cast<ssize_t>(line.size())) throw std::runtime_error("the device is gone");
    }

    std::string line() const {
        std::string text;
        for (char it = 0; it != '\n'; text += it)
            if (recv(file_, &it, 1, 0) != 1) throw std::runtime_error("no answer of the device");
        return text;
    }

private:
    int file_;
};

// Instead of your device: 20, 60, 85 degrees. Returns its port.
int start_thermometer() {
    int listener = socket(AF_INET, SOCK_STREAM, 0);
    sockaddr_in place{};
    place.sin_family = AF_INET;
    place.sin_addr.s_addr = htonl(INADDR_LOOPBACK);
    socklen_t size = sizeof place;
    auto* address = reinterpret_cast<sockaddr*>(&place);
    if (bind(listener, address, size) != 0 || listen(listener, 1) != 0 || getsockname(listener, address, &size) != 0)
        throw std::runtime_error("there is no port");
    std::thread([listener] {
        Socket client(accept(listener, nullptr, nullptr));
        for (int degrees : {20, 60, 85}) {
            client.line();
            client.write(std::to_string(degrees) + "\n");
        }
        close(listener);
    }).detach();
    return ntohs(place.sin_port);
}

void probe(filskeam::Run& run, int port) {
    Socket device(socket(AF_INET, SOCK_STREAM, 0));
    sockaddr_in place{};
    place.sin_family = AF_INET;
    place.sin_port = htons(static_cast<std::uint16_t>(port));
    place.sin_addr.s_addr = htonl(INADDR_LOOPBACK);
    if (connect(device.file(), reinterpret_cast<sockaddr*>(&place), sizeof place) != 0) throw std::runtime_error("no device at the port");
    for (int reading = 0; reading < 3; ++reading) {
        device.write("temperature?\n");
        int degrees = std::atoi(device.line().c_str());
        run.log(std::to_string(degrees) + " degrees");
        if (degrees > 80) run.set_verdict("fail", "too hot");
    }
    run.set_verdict("pass");
}

void heater_stays_cool(filskeam::Run& run) {
    int port = start_thermometer();
    int heater = run.create("heater");
    run.start(heater, "probe", [port](filskeam::Run& it) { probe(it, port); });
    run.wait_done(heater);
}

int main() {
    filskeam::Server server({}, "heater.evidence");
    auto result = server.run("t_heater", heater_stays_cool, std::chrono::seconds(30));
    std::cout << result.verdict << " " << result.local("heater") << "\n" << result.why << "\n";
    return server.close();
}
