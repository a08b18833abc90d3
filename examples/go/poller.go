// Asks a server of Modbus TCP on the loopback address from Go, over the library for C, as examples/c/poller.c does.
//
// usage: poller PORT. The status is 0 where each answer was the one wanted.
//
// It is built with CGO_CFLAGS=-I.. for modbus.h, and CGO_LDFLAGS with libmodbus_c.a and the three functions over malloc (docs/C.md).
package main

/*
#define MODBUS_UNCHECKED
#include "modbus.h"
*/
import "C"

import (
	"errors"
	"fmt"
	"net"
	"os"
	"time"
	"unsafe"
)

// Exception is the code by which a device refuses a request (AP 7).
type Exception uint8

func (code Exception) Error() string { return fmt.Sprintf("exception %d", uint8(code)) }

// Status is what the library tells where there is no response.
type Status uint32

func (status Status) Error() string { return C.GoString(C.modbus_status_text(C.uint32_t(status))) }

// Client asks unit 1 over a connection of its own.
type Client struct {
	connection  net.Conn
	transaction uint16
	words       [C.MODBUS_MOST_WORDS]C.uint16_t
	coils       [C.MODBUS_MOST_COILS]C.bool
}

// ask sends a request, whose lists stand at the fronts of words and coils; those of the response stand there afterwards.
func (client *Client) ask(request C.modbus_request) (C.modbus_response, error) {
	var call C.modbus_call
	var response C.modbus_response
	var bytes [C.MODBUS_LONGEST_REPLY]byte
	at := func(i int) *C.uint8_t { return (*C.uint8_t)(unsafe.Pointer(&bytes[i])) }
	words, coils := &client.words[0], &client.coils[0]
	wordsLen, coilsLen := C.size_t(len(client.words)), C.size_t(len(client.coils))
	client.transaction++
	told := C.modbus_call_tcp(&call, C.uint16_t(client.transaction), 1, &request, words, wordsLen, coils, coilsLen, at(0), C.size_t(len(bytes)))
	if told.status != C.MODBUS_DONE {
		return response, Status(told.status)
	}
	if err := client.connection.SetDeadline(time.Now().Add(5 * time.Second)); err != nil {
		return response, err
	}
	if _, err := client.connection.Write(bytes[:told.written]); err != nil {
		return response, err
	}
	for {
		got, err := client.connection.Read(bytes[:])
		if err != nil {
			return response, err
		}
		for fed := 0; fed < got; {
			fed += int(C.modbus_call_feed(&call, at(fed), C.size_t(got-fed)))
			told = C.modbus_call_answer(&call, &response, words, wordsLen, coils, coilsLen)
			switch {
			case told.status == C.MODBUS_WAITING:
			case told.status != C.MODBUS_DONE:
				return response, Status(told.status)
			case bool(response.exception):
				return response, Exception(response.code)
			default:
				return response, nil
			}
		}
	}
}

// ReadRegisters reads holding registers (function 3) or input registers (4).
func (client *Client) ReadRegisters(function C.uint8_t, address, quantity uint16) ([]uint16, error) {
	response, err := client.ask(C.modbus_request{function: function, address: C.uint16_t(address), quantity: C.uint16_t(quantity)})
	if err != nil {
		return nil, err
	}
	words := make([]uint16, response.count)
	for i := range words {
		words[i] = uint16(client.words[i])
	}
	return words, nil
}

// WriteRegisters writes holding registers.
func (client *Client) WriteRegisters(address uint16, words ...uint16) error {
	if len(words) > len(client.words) {
		return errors.New("more registers than a request has")
	}
	for i, word := range words {
		client.words[i] = C.uint16_t(word)
	}
	_, err := client.ask(C.modbus_request{function: C.MODBUS_WRITE_MULTIPLE_REGISTERS, address: C.uint16_t(address), count: C.size_t(len(words))})
	return err
}

// ReadBits reads coils (function 1) or discrete inputs (2).
func (client *Client) ReadBits(function C.uint8_t, address, quantity uint16) ([]bool, error) {
	response, err := client.ask(C.modbus_request{function: function, address: C.uint16_t(address), quantity: C.uint16_t(quantity)})
	if err != nil {
		return nil, err
	}
	bits := make([]bool, response.count)
	for i := range bits {
		bits[i] = bool(client.coils[i])
	}
	return bits, nil
}

// WriteCoils writes coils.
func (client *Client) WriteCoils(address uint16, coils ...bool) error {
	if len(coils) > len(client.coils) {
		return errors.New("more coils than a request has")
	}
	for i, coil := range coils {
		client.coils[i] = C.bool(coil)
	}
	_, err := client.ask(C.modbus_request{function: C.MODBUS_WRITE_MULTIPLE_COILS, address: C.uint16_t(address), count: C.size_t(len(coils))})
	return err
}

func equal[T comparable](got, wanted []T) bool {
	if len(got) != len(wanted) {
		return false
	}
	for i := range got {
		if got[i] != wanted[i] {
			return false
		}
	}
	return true
}

func run(port string) error {
	connection, err := net.Dial("tcp", net.JoinHostPort("127.0.0.1", port))
	if err != nil {
		return err
	}
	defer connection.Close()
	device := &Client{connection: connection}
	if err := device.WriteRegisters(4, 1000, 1001, 1002); err != nil {
		return err
	}
	if words, err := device.ReadRegisters(C.MODBUS_READ_HOLDING_REGISTERS, 4, 3); err != nil || !equal(words, []uint16{1000, 1001, 1002}) {
		return fmt.Errorf("registers read otherwise: %v, %v", words, err)
	}
	if err := device.WriteCoils(20, true, false, true); err != nil {
		return err
	}
	if bits, err := device.ReadBits(C.MODBUS_READ_COILS, 20, 3); err != nil || !equal(bits, []bool{true, false, true}) {
		return fmt.Errorf("coils read otherwise: %v, %v", bits, err)
	}
	if bits, err := device.ReadBits(C.MODBUS_READ_DISCRETE_INPUTS, 0, 4); err != nil || !equal(bits, []bool{false, true, false, true}) {
		return fmt.Errorf("discrete inputs read otherwise: %v, %v", bits, err)
	}
	if words, err := device.ReadRegisters(C.MODBUS_READ_INPUT_REGISTERS, 0, 2); err != nil || !equal(words, []uint16{65535, 65534}) {
		return fmt.Errorf("input registers read otherwise: %v, %v", words, err)
	}
	if _, err := device.ReadRegisters(C.MODBUS_READ_INPUT_REGISTERS, 65535, 1); err != Exception(C.MODBUS_ILLEGAL_DATA_ADDRESS) {
		return fmt.Errorf("an address past the end: %v", err)
	}
	if err := device.WriteRegisters(0); err != Status(C.MODBUS_REFUSED) {
		return fmt.Errorf("a write of nothing: %v", err)
	}
	return nil
}

func main() {
	if len(os.Args) != 2 {
		fmt.Fprintln(os.Stderr, "usage: poller PORT")
		os.Exit(2)
	}
	if err := run(os.Args[1]); err != nil {
		fmt.Fprintf(os.Stderr, "poller: %v\n", err)
		os.Exit(1)
	}
	fmt.Println("each answer was the one wanted")
}
