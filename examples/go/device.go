// A device of Modbus TCP and a unit of a line in Go, by cgo over the library for C: bytes in, and bytes out. The tables lie in memory of C, as a
// struct that is handed to C may have no pointer into that of Go.
package main

/*
#include <stdlib.h>
#define MODBUS_UNCHECKED
#include "modbus.h"
*/
import "C"

import (
	"bytes"
	"fmt"
	"os"
	"unsafe"
)

const entries = 16

// Device is a unit of a line, with tables of its own.
type Device struct {
	unit *C.modbus_unit
}

// NewDevice makes a device of an address. Close gives its memory back.
func NewDevice(address uint8) Device {
	unit := (*C.modbus_unit)(C.calloc(1, C.sizeof_modbus_unit))
	unit.unit = C.uint8_t(address)
	t := &unit.tables
	t.coils, t.coils_len = (*C.bool)(C.calloc(entries, 1)), entries
	t.discrete_inputs, t.discrete_inputs_len = (*C.bool)(C.calloc(entries, 1)), entries
	t.holding_registers, t.holding_registers_len = (*C.uint16_t)(C.calloc(entries, 2)), entries
	t.input_registers, t.input_registers_len = (*C.uint16_t)(C.calloc(entries, 2)), entries
	return Device{unit}
}

// Close gives the memory back.
func (d Device) Close() {
	t := &d.unit.tables
	C.free(unsafe.Pointer(t.coils))
	C.free(unsafe.Pointer(t.discrete_inputs))
	C.free(unsafe.Pointer(t.holding_registers))
	C.free(unsafe.Pointer(t.input_registers))
	C.free(unsafe.Pointer(d.unit))
}

// Holding is the holding registers.
func (d Device) Holding() []uint16 {
	return unsafe.Slice((*uint16)(unsafe.Pointer(d.unit.tables.holding_registers)), entries)
}

// first points to the first byte, also of none.
func first(data []byte) *C.uint8_t {
	if len(data) == 0 {
		data = []byte{0}
	}
	return (*C.uint8_t)(unsafe.Pointer(&data[0]))
}

// Hear hears all that came between two silences: the status, and the reply.
func (d Device) Hear(burst []byte) (C.uint32_t, []byte) {
	output := make([]byte, C.MODBUS_LONGEST_REPLY)
	served := C.modbus_line_serve(d.unit, 1, first(burst), C.size_t(len(burst)), first(output), C.size_t(len(output)))
	return served.status, output[:served.written]
}

// Answer answers what stands at the front of a connection: the status, how many bytes were used, and the reply.
func (d Device) Answer(held []byte) (C.uint32_t, int, []byte) {
	output := make([]byte, C.MODBUS_LONGEST_REPLY)
	served := C.modbus_stream_serve(&d.unit.tables, first(held), C.size_t(len(held)), first(output), C.size_t(len(output)))
	return served.status, int(served.used), output[:served.written]
}

func frame(slave uint8, pdu ...byte) []byte {
	output := make([]byte, C.MODBUS_LONGEST_REPLY)
	done := C.modbus_rtu_wrap(C.uint8_t(slave), first(pdu), C.size_t(len(pdu)), first(output), C.size_t(len(output)))
	return output[:done.written]
}

func want(what string, holds bool) {
	if !holds {
		fmt.Println("FAILED:", what)
		os.Exit(1)
	}
}

func main() {
	device := NewDevice(17)
	defer device.Close()
	device.Holding()[2] = 0x1234
	status, reply := device.Hear(frame(17, 3, 0, 2, 0, 1))
	want("a register", status == C.MODBUS_DONE && bytes.Equal(reply, frame(17, 3, 2, 0x12, 0x34)))
	status, reply = device.Hear(frame(18, 6, 0, 2, 0, 7))
	want("a write for a neighbour", status == C.MODBUS_SILENT && len(reply) == 0 && device.Holding()[2] == 0x1234)
	status, used, reply := device.Answer([]byte{0, 1, 0, 0, 0, 6, 1, 6, 0, 3, 0, 7})
	want("a write over TCP", status == C.MODBUS_DONE && used == 12 && len(reply) == 12 && device.Holding()[3] == 7)
	status, _, _ = device.Answer([]byte("GET "))
	want("another protocol", status == C.MODBUS_FOREIGN)
	fmt.Println("each answer was the one wanted")
}
