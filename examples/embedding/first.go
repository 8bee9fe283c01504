// A replica in Go by cgo: first FILE feeds a file of item frames, and asks for the row of table 1 at key 5 at time 1; without FILE it
// answers lines `open LOG STREAMS` and `call HEX`.
//
//	CGO_CFLAGS=-I$PWD/include CGO_LDFLAGS="-L$PWD/lib -l:libhekaton.a" go run examples/embedding/first.go FILE
package main

/*
#include "hekaton.h"
*/
import "C"

import (
	"bufio"
	"encoding/hex"
	"fmt"
	"os"
	"runtime"
	"unsafe"
)

// Replica points to its handle, so that a copy of the Replica is the same one. One call at a time.
type Replica struct{ handle *C.hk_handle }

// Refused is the number of a refusal.
type Refused uint8

func (r Refused) Error() string {
	words := make([]byte, 512)
	n := int(C.hk_words(C.uint8_t(r), at(words), C.size_t(len(words))))
	if n == 0 {
		return fmt.Sprintf("refused %d", uint8(r))
	}
	return string(words[:n-1])
}

func done(number C.uint8_t) error {
	if number == 0 {
		return nil
	}
	return Refused(number)
}

var none [1]byte

// at points to the bytes, also where there are none: the library wants a pointer that is not nil.
func at(bytes []byte) *C.uint8_t {
	if len(bytes) == 0 {
		return (*C.uint8_t)(unsafe.Pointer(&none[0]))
	}
	return (*C.uint8_t)(unsafe.Pointer(&bytes[0]))
}

// Open opens a replica of a log of 1 to 64 streams.
func Open(log uint64, streams uint16) (*Replica, error) {
	it := &Replica{new(C.hk_handle)}
	if err := done(C.hk_open(it.handle, C.uint64_t(log), C.uint16_t(streams))); err != nil {
		return nil, err
	}
	runtime.SetFinalizer(it, (*Replica).Close)
	return it, nil
}

// Close lets it go. A second time does nothing.
func (r *Replica) Close() { C.hk_close(r.handle) }

// Absorb takes the next piece of a stream of item frames.
func (r *Replica) Absorb(piece []byte) error {
	return done(C.hk_absorb(r.handle, at(piece), C.size_t(len(piece))))
}

// Call answers requests, whole frames.
func (r *Replica) Call(requests []byte) ([]byte, error) {
	replies, n := make([]byte, 4096), C.size_t(0)
	number := C.hk_call(r.handle, at(requests), C.size_t(len(requests)), at(replies), C.size_t(len(replies)), &n)
	if int(n) > len(replies) {
		replies = make([]byte, int(n))
		C.hk_reply(r.handle, 0, at(replies), n)
	}
	return replies[:int(n)], done(number)
}

// Get gives the row of a table at a key at a time, if there is one.
func (r *Replica) Get(time uint64, table uint16, key uint64) (tag uint32, body []byte, row bool, err error) {
	var found C.hk_found
	buffer := make([]byte, 4096)
	err = done(C.hk_get(r.handle, C.uint64_t(time), C.uint16_t(table), C.uint64_t(key), &found, at(buffer), C.size_t(len(buffer))))
	if err != nil || !bool(found.row) {
		return 0, nil, false, err
	}
	return uint32(found.tag), buffer[:int(found.len)], true, nil
}

func number(err error) uint8 {
	if why, is := err.(Refused); is {
		return uint8(why)
	}
	return 0
}

func play() {
	var replica *Replica
	lines := bufio.NewScanner(os.Stdin)
	lines.Buffer(make([]byte, 1<<20), 1<<20)
	for lines.Scan() {
		var log uint64
		var streams uint16
		var word string
		if n, _ := fmt.Sscanf(lines.Text(), "open %d %d", &log, &streams); n == 2 {
			it, err := Open(log, streams)
			replica = it
			fmt.Printf("%d \n", number(err))
			continue
		}
		fmt.Sscanf(lines.Text(), "call %s", &word)
		bytes, _ := hex.DecodeString(word)
		replies, err := replica.Call(bytes)
		fmt.Printf("%d %s\n", number(err), hex.EncodeToString(replies))
	}
}

func main() {
	if len(os.Args) < 2 {
		play()
		return
	}
	items, err := os.ReadFile(os.Args[1])
	if err != nil {
		panic(err)
	}
	replica, err := Open(7, 1)
	if err != nil {
		panic(err)
	}
	defer replica.Close()
	if err := replica.Absorb(items); err != nil {
		panic(err)
	}
	tag, body, row, err := replica.Get(1, 1, 5)
	if err != nil || !row {
		panic("no row")
	}
	fmt.Printf("tag %d body %s\n", tag, hex.EncodeToString(body))
}
