/* The servers of modbus.h as classes of C++17, and calls of a client by a PDU. A table is owned by its device, and a line lends the units that it
 * holds; nothing is to be closed by hand. */
#pragma once

#include "modbus.h"

#include <array>
#include <cstdint>
#include <memory>
#include <optional>
#include <stdexcept>
#include <vector>

namespace modbus {

using Bytes = std::vector<std::uint8_t>;

/* So many entries of one kind. */
template <typename T> class Table {
  public:
    explicit Table(std::size_t size) : entries_(std::make_unique<T[]>(size)), size_(size) {}
    std::size_t size() const { return size_; }
    T *data() const { return entries_.get(); }
    T &operator[](std::size_t place) const {
        if (place >= size_) {
            throw std::out_of_range("a table of Modbus");
        }
        return entries_[place];
    }

  private:
    std::unique_ptr<T[]> entries_;
    std::size_t size_;
};

/* A device: its four tables, of so many entries each. */
struct Device {
    Table<bool> coils, discrete_inputs;
    Table<std::uint16_t> holding_registers, input_registers;

    explicit Device(std::size_t size) : coils(size), discrete_inputs(size), holding_registers(size), input_registers(size) {}

    modbus_tables lent() const {
        return {coils.data(),
                coils.size(),
                discrete_inputs.data(),
                discrete_inputs.size(),
                holding_registers.data(),
                holding_registers.size(),
                input_registers.data(),
                input_registers.size()};
    }
};

/* What a server tells: a status, how many bytes it used, and the reply. */
struct Answer {
    std::uint32_t status;
    std::size_t used;
    Bytes reply;
};

inline Answer answer_of(const modbus_served &served, const std::array<std::uint8_t, MODBUS_LONGEST_REPLY> &output) {
    return {served.status, served.used, Bytes(output.begin(), output.begin() + static_cast<std::ptrdiff_t>(served.written))};
}

/* Answers what stands at the front of a connection of Modbus TCP. */
inline Answer answer(const Device &device, const Bytes &held) {
    std::array<std::uint8_t, MODBUS_LONGEST_REPLY> output{};
    modbus_tables tables = device.lent();
    return answer_of(modbus_stream_serve(&tables, held.data(), held.size(), output.data(), output.size()), output);
}

/* The devices of a serial line, each behind its address. They live as long as the line does. */
class Line {
  public:
    void add(std::uint8_t unit, const Device &device) { units_.push_back({unit, device.lent()}); }

    /* All that came between two silences. */
    Answer hear(const Bytes &burst) {
        std::array<std::uint8_t, MODBUS_LONGEST_REPLY> output{};
        return answer_of(modbus_line_serve(units_.data(), units_.size(), burst.data(), burst.size(), output.data(), output.size()), output);
    }

  private:
    std::vector<modbus_unit> units_;
};

/* The frame of a PDU. */
inline Bytes frame(std::uint8_t slave, const Bytes &pdu) {
    Bytes made(MODBUS_LONGEST_REPLY);
    modbus_done done = modbus_rtu_wrap(slave, pdu.data(), pdu.size(), made.data(), made.size());
    if (done.status != MODBUS_DONE) {
        throw std::runtime_error(modbus_status_text(done.status));
    }
    made.resize(done.written);
    return made;
}

/* The PDU of an answer, and the code of the exception that it is, or 0. */
struct Reply {
    Bytes pdu;
    std::uint32_t exception;
};

/* A call of a client with a PDU of any function: bytes out, and bytes in. */
class PduCall {
  public:
    /* Of a unit over Modbus TCP. */
    static PduCall tcp(std::uint16_t transaction_id, std::uint8_t unit_id, const Bytes &pdu) {
        PduCall made;
        made.begin(modbus_call_tcp_pdu(&made.call_, transaction_id, unit_id, pdu.data(), pdu.size(), made.message_.data(), made.message_.size()));
        return made;
    }

    /* Of a slave on a serial line. */
    static PduCall rtu(std::uint8_t slave, const Bytes &pdu) {
        PduCall made;
        made.begin(modbus_call_rtu_pdu(&made.call_, slave, pdu.data(), pdu.size(), made.message_.data(), made.message_.size()));
        return made;
    }

    /* What is to be sent. */
    const Bytes &message() const { return message_; }

    /* Takes the first of the bytes that came, as many as there is room for, and tells how many. */
    std::size_t feed(const Bytes &piece) { return modbus_call_feed(&call_, piece.data(), piece.size()); }

    /* The answer, once it has come. What is none of this call is an error with the text of its status. */
    std::optional<Reply> answer() {
        Bytes pdu(MODBUS_LONGEST_PDU);
        const modbus_done told = modbus_call_answer_pdu(&call_, pdu.data(), pdu.size());
        status_ = told.status;
        if (status_ == MODBUS_WAITING) {
            return std::nullopt;
        }
        if (status_ != MODBUS_DONE && status_ != MODBUS_EXCEPTION) {
            throw std::runtime_error(modbus_status_text(status_));
        }
        pdu.resize(told.written);
        return Reply{pdu, status_ == MODBUS_EXCEPTION ? told.detail : 0};
    }

    /* Whether the reply may still come where the call ends now. */
    bool owes() const { return modbus_call_owes(&call_, status_); }

  private:
    friend class ClientLine;

    PduCall() = default;

    void begin(const modbus_done &begun) {
        if (begun.status != MODBUS_DONE) {
            throw std::runtime_error(modbus_status_text(begun.status));
        }
        message_.resize(begun.written);
    }

    modbus_call call_{};
    Bytes message_ = Bytes(MODBUS_LONGEST_REPLY);
    std::uint32_t status_ = MODBUS_WAITING;
};

/* A serial line of a client: when the next request may be sent, so that no late reply is taken for its own. Times are in one unit of the
 * caller's. */
class ClientLine {
  public:
    /* The line has to be silent for `quiet` where a reply may still come, and so at first. */
    explicit ClientLine(std::uint32_t quiet) { modbus_line_open(&line_, quiet); }

    /* For how long it has to be silent yet; 0: a request may be sent. */
    std::uint32_t wait() const { return modbus_line_wait(&line_); }

    /* Bytes came for no call. */
    void heard() { modbus_line_heard(&line_); }

    /* No byte came for so long. */
    void silent(std::uint32_t time) { modbus_line_silent(&line_, time); }

    /* A call ended, by its answer or because it is given up. */
    void ended(const PduCall &call) { modbus_line_ended(&line_, &call.call_, call.status_); }

    /* All slaves were told something: no request before the turnaround delay is over. */
    void told(std::uint32_t turnaround) { modbus_line_told(&line_, turnaround); }

  private:
    modbus_line line_{};
};

} // namespace modbus
