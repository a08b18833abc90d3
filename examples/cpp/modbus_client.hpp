// SPDX-License-Identifier: MIT OR Apache-2.0
// A client of Modbus TCP for C++17: a connection that is closed with its object, and every byte of the protocol by the library for C.
#ifndef MODBUS_CLIENT_HPP
#define MODBUS_CLIENT_HPP

#include "modbus.h"

#include <algorithm>
#include <array>
#include <cerrno>
#include <cstddef>
#include <cstdint>
#include <cstring>
#include <netdb.h>
#include <netinet/in.h>
#include <netinet/tcp.h>
#include <stdexcept>
#include <string>
#include <sys/socket.h>
#include <sys/time.h>
#include <unistd.h>
#include <utility>
#include <vector>

namespace modbus {

// What goes wrong with a call: no connection, no answer in time, or one that the library refuses. A connection is of no more use then.
class Error : public std::runtime_error {
public:
    using std::runtime_error::runtime_error;
};

// The device answered by an exception (AP 7). The connection goes on.
class ExceptionAnswer : public std::runtime_error {
public:
    explicit ExceptionAnswer(std::uint8_t code)
        : std::runtime_error("exception " + std::to_string(code)), code_(code) {}

    [[nodiscard]] std::uint8_t code() const noexcept { return code_; }

private:
    std::uint8_t code_;
};

// A socket that is closed with its object.
class Socket {
public:
    explicit Socket(int descriptor) noexcept : descriptor_(descriptor) {}
    Socket(Socket &&other) noexcept : descriptor_(std::exchange(other.descriptor_, -1)) {}
    Socket &operator=(Socket &&other) noexcept {
        std::swap(descriptor_, other.descriptor_);
        return *this;
    }
    Socket(const Socket &) = delete;
    Socket &operator=(const Socket &) = delete;
    ~Socket() {
        if (descriptor_ >= 0) {
            ::close(descriptor_);
        }
    }

    [[nodiscard]] int get() const noexcept { return descriptor_; }

private:
    int descriptor_;
};

// A client of one unit over a connection of its own. Addresses are those of the PDU, from 0 on.
class Client {
public:
    // Connects to a host and a port. A call waits so many milliseconds for each piece of its answer.
    Client(const std::string &host, const std::string &port, std::uint8_t unit, int timeout_ms = 1000)
        : socket_(connected(host, port, timeout_ms)), unit_(unit) {}

    std::vector<bool> read_coils(std::uint16_t address, std::uint16_t quantity) {
        return bits(MODBUS_READ_COILS, address, quantity);
    }

    std::vector<bool> read_discrete_inputs(std::uint16_t address, std::uint16_t quantity) {
        return bits(MODBUS_READ_DISCRETE_INPUTS, address, quantity);
    }

    std::vector<std::uint16_t> read_holding_registers(std::uint16_t address, std::uint16_t quantity) {
        return registers(MODBUS_READ_HOLDING_REGISTERS, address, quantity);
    }

    std::vector<std::uint16_t> read_input_registers(std::uint16_t address, std::uint16_t quantity) {
        return registers(MODBUS_READ_INPUT_REGISTERS, address, quantity);
    }

    void write_single_coil(std::uint16_t address, bool coil) {
        modbus_request request = asks(MODBUS_WRITE_SINGLE_COIL, address);
        request.coil = coil;
        ask(request);
    }

    void write_single_register(std::uint16_t address, std::uint16_t word) {
        modbus_request request = asks(MODBUS_WRITE_SINGLE_REGISTER, address);
        request.word = word;
        ask(request);
    }

    void write_multiple_coils(std::uint16_t address, const std::vector<bool> &values) {
        modbus_request request = asks(MODBUS_WRITE_MULTIPLE_COILS, address);
        request.count = values.size();
        if (values.size() > coils_.size()) {
            throw Error("more coils than a request has");
        }
        for (std::size_t i = 0; i < values.size(); i++) {
            coils_[i] = values[i];
        }
        ask(request);
    }

    void write_multiple_registers(std::uint16_t address, const std::vector<std::uint16_t> &values) {
        modbus_request request = asks(MODBUS_WRITE_MULTIPLE_REGISTERS, address);
        request.count = put(values);
        ask(request);
    }

    void mask_write_register(std::uint16_t address, std::uint16_t and_mask, std::uint16_t or_mask) {
        modbus_request request = asks(MODBUS_MASK_WRITE_REGISTER, address);
        request.word = and_mask;
        request.or_mask = or_mask;
        ask(request);
    }

    std::vector<std::uint16_t> read_write_multiple_registers(std::uint16_t address, std::uint16_t quantity, std::uint16_t write_address,
                                                             const std::vector<std::uint16_t> &values) {
        modbus_request request = asks(MODBUS_READ_WRITE_MULTIPLE_REGISTERS, address);
        request.quantity = quantity;
        request.write_address = write_address;
        request.count = put(values);
        return taken(ask(request));
    }

private:
    static modbus_request asks(std::uint8_t function, std::uint16_t address) noexcept {
        modbus_request request{};
        request.function = function;
        request.address = address;
        return request;
    }

    static Socket connected(const std::string &host, const std::string &port, int timeout_ms) {
        addrinfo wanted{};
        wanted.ai_socktype = SOCK_STREAM;
        addrinfo *found = nullptr;
        const int fault = ::getaddrinfo(host.c_str(), port.c_str(), &wanted, &found);
        if (fault != 0) {
            throw Error(host + ": " + ::gai_strerror(fault));
        }
        const timeval most{timeout_ms / 1000, static_cast<suseconds_t>(timeout_ms % 1000) * 1000};
        const int one = 1;
        std::string why = "no address";
        for (const addrinfo *it = found; it != nullptr; it = it->ai_next) {
            Socket made(::socket(it->ai_family, it->ai_socktype, it->ai_protocol));
            ::setsockopt(made.get(), SOL_SOCKET, SO_RCVTIMEO, &most, sizeof most);
            ::setsockopt(made.get(), SOL_SOCKET, SO_SNDTIMEO, &most, sizeof most);
            ::setsockopt(made.get(), IPPROTO_TCP, TCP_NODELAY, &one, sizeof one);
            if (::connect(made.get(), it->ai_addr, it->ai_addrlen) == 0) {
                ::freeaddrinfo(found);
                return made;
            }
            why = std::strerror(errno);
        }
        ::freeaddrinfo(found);
        throw Error(host + ":" + port + ": " + why);
    }

    std::size_t put(const std::vector<std::uint16_t> &values) {
        if (values.size() > words_.size()) {
            throw Error("more registers than a request has");
        }
        std::copy(values.begin(), values.end(), words_.begin());
        return values.size();
    }

    std::vector<std::uint16_t> taken(const modbus_response &response) const {
        return std::vector<std::uint16_t>(words_.data(), words_.data() + response.count);
    }

    std::vector<std::uint16_t> registers(std::uint8_t function, std::uint16_t address, std::uint16_t quantity) {
        modbus_request request = asks(function, address);
        request.quantity = quantity;
        return taken(ask(request));
    }

    std::vector<bool> bits(std::uint8_t function, std::uint16_t address, std::uint16_t quantity) {
        modbus_request request = asks(function, address);
        request.quantity = quantity;
        const modbus_response response = ask(request);
        return std::vector<bool>(coils_.data(), coils_.data() + response.count);
    }

    // Sends a request, and gives the response that fits it.
    modbus_response ask(const modbus_request &request) {
        std::array<std::uint8_t, MODBUS_LONGEST_REPLY> bytes{};
        modbus_call call{};
        const modbus_done begun = modbus_call_tcp(&call, ++transaction_, unit_, &request, words_.data(), words_.size(), coils_.data(),
                                                  coils_.size(), bytes.data(), bytes.size());
        if (begun.status != MODBUS_DONE) {
            throw Error(modbus_status_text(begun.status));
        }
        if (::send(socket_.get(), bytes.data(), begun.written, MSG_NOSIGNAL) != static_cast<ssize_t>(begun.written)) {
            throw Error("the request was not sent");
        }
        for (;;) {
            const ssize_t got = ::recv(socket_.get(), bytes.data(), bytes.size(), 0);
            if (got <= 0) {
                throw Error(got == 0 ? "the device closed the connection" : "no answer");
            }
            for (std::size_t fed = 0; fed < static_cast<std::size_t>(got);) {
                modbus_response response{};
                fed += modbus_call_feed(&call, bytes.data() + fed, static_cast<std::size_t>(got) - fed);
                const modbus_done told = modbus_call_answer(&call, &response, words_.data(), words_.size(), coils_.data(), coils_.size());
                if (told.status == MODBUS_WAITING) {
                    continue;
                }
                if (told.status != MODBUS_DONE) {
                    throw Error(modbus_status_text(told.status));
                }
                if (response.exception) {
                    throw ExceptionAnswer(response.code);
                }
                return response;
            }
        }
    }

    Socket socket_;
    std::uint8_t unit_;
    std::uint16_t transaction_ = 0;
    // the lists of a request or a response: as many as a PDU has
    std::array<std::uint16_t, MODBUS_MOST_WORDS> words_{};
    std::array<bool, MODBUS_MOST_COILS> coils_{};
};

} // namespace modbus

#endif
