// A set as a Go type: main PAIR STRINGS plays the first pair and a call with strings.
//
// A set stays on the thread that made it, so the goroutine that has one is held to its thread.
package main

/*
#include "huxarte.h"
*/
import "C"

import (
	"encoding/binary"
	"fmt"
	"os"
	"runtime"
	"unicode/utf16"
	"unsafe"
)

// Refused says why a call did nothing.
type Refused struct{ Kind, Reason uint32 }

func (refused Refused) Error() string {
	return fmt.Sprintf("refused, kind %d, reason %d", refused.Kind, refused.Reason)
}

func fine(verdict C.HuxVerdict) {
	if verdict.kind != C.HUX_KIND_FINE {
		panic(Refused{uint32(verdict.kind), uint32(verdict.reason)})
	}
}

// Set is a set of linked components that runs. It is used by its pointer alone.
type Set struct{ handle C.HuxSet }

// NewSet makes a set of files, with so many pages of memory each. Close frees it.
func NewSet(files [][]byte, pages []uint32) *Set {
	runtime.LockOSThread()
	var bytes []byte
	var parts []C.HuxSpan
	for _, file := range files {
		parts = append(parts, C.HuxSpan{at: C.size_t(len(bytes)), length: C.size_t(len(file))})
		bytes = append(bytes, file...)
	}
	set := &Set{}
	fine(C.hux_set_new((*C.uint8_t)(&bytes[0]), C.size_t(len(bytes)), &parts[0],
		C.size_t(len(parts)), (*C.uint32_t)(&pages[0]), C.size_t(len(pages)), &set.handle))
	return set
}

// Close frees the set.
func (set *Set) Close() {
	C.hux_set_free(&set.handle)
	runtime.UnlockOSThread()
}

// Event is what a move led to.
type Event struct {
	Kind, Instance uint32
	Values         []uint32
}

func told(event *C.HuxEvent) Event {
	found := Event{Kind: uint32(event.kind), Instance: uint32(event.instance)}
	for _, value := range event.values[:event.count] {
		found.Values = append(found.Values, uint32(value.bits))
	}
	return found
}

// cores has one value more than there are, so that it has a place.
func cores(numbers []uint32) []C.HuxCore {
	values := make([]C.HuxCore, len(numbers)+1)
	for at, number := range numbers {
		values[at].bits = C.uint64_t(number)
	}
	return values
}

func (set *Set) Begin(instance uint32) Event {
	var event C.HuxEvent
	fine(C.hux_set_begin(&set.handle, C.uint32_t(instance), &event))
	return told(&event)
}

func (set *Set) Write(at uint32, bytes []byte) {
	var event C.HuxEvent
	fine(C.hux_set_write(&set.handle, C.uint32_t(at), (*C.uint8_t)(&bytes[0]),
		C.size_t(len(bytes)), &event))
}

func (set *Set) Call(function uint32, numbers ...uint32) Event {
	var event C.HuxEvent
	values := cores(numbers)
	fine(C.hux_set_call(&set.handle, C.uint32_t(function), &values[0], C.size_t(len(numbers)),
		&event))
	return told(&event)
}

func (set *Set) Give(numbers ...uint32) Event {
	var event C.HuxEvent
	values := cores(numbers)
	fine(C.hux_set_return(&set.handle, &values[0], C.size_t(len(numbers)), &event))
	return told(&event)
}

func (set *Set) Read(instance, at, count uint32) []byte {
	bytes := make([]byte, count+1)
	fine(C.hux_set_read(&set.handle, C.uint32_t(instance), C.size_t(at),
		(*C.uint8_t)(unsafe.Pointer(&bytes[0])), C.size_t(count)))
	return bytes[:count]
}

func pair(folder string, pages uint32) *Set {
	var files [][]byte
	for _, name := range []string{"provider", "user"} {
		bytes, err := os.ReadFile(folder + "/" + name + ".wasm")
		if err != nil {
			panic(err)
		}
		files = append(files, bytes)
	}
	return NewSet(files, []uint32{pages, pages})
}

func firstPair(folder string) {
	set := pair(folder, 0)
	defer set.Close()
	set.Begin(1)
	value := set.Call(0, 41).Values[0]
	fmt.Printf("inc(%d) = %d\n", value, set.Give(value + 1).Values[0])
	set.Give()
}

// allocate finds a place behind all that an instance has.
func allocate(set *Set, tops *[2]uint32, event Event) Event {
	old, oldSize, align, size := event.Values[0], event.Values[1], event.Values[2], event.Values[3]
	at := (tops[event.Instance] + align - 1) / align * align
	tops[event.Instance] = at + size
	if oldSize > size {
		oldSize = size
	}
	if oldSize != 0 {
		set.Write(at, set.Read(event.Instance, old, oldSize))
	}
	return set.Give(at)
}

// greet answers in UTF-16 at 64, and the place and the length at 0.
func greet(set *Set, event Event) Event {
	name := set.Read(event.Instance, event.Values[0], 2*event.Values[1])
	units := make([]uint16, len(name)/2)
	for at := range units {
		units[at] = binary.LittleEndian.Uint16(name[2*at:])
	}
	answer := utf16.Encode([]rune("Hello, " + string(utf16.Decode(units)) + "!"))
	bytes := make([]byte, 2*len(answer))
	for at, unit := range answer {
		binary.LittleEndian.PutUint16(bytes[2*at:], unit)
	}
	set.Write(64, bytes)
	place := make([]byte, 8)
	binary.LittleEndian.PutUint32(place, 64)
	binary.LittleEndian.PutUint32(place[4:], uint32(len(answer)))
	set.Write(0, place)
	return set.Give(0)
}

func strings(folder string) {
	set := pair(folder, 1)
	defer set.Close()
	name, tops := []byte("Zoë 🦀"), [2]uint32{1024, 1024}
	set.Begin(1)
	set.Write(0, name)
	event := set.Call(1, 0, uint32(len(name)), 256)
	for event.Kind != 4 {
		switch event.Kind {
		case 3:
			event = allocate(set, &tops, event)
		case 2:
			event = greet(set, event)
		default:
			event = set.Give()
		}
	}
	place := set.Read(1, 256, 8)
	at, size := binary.LittleEndian.Uint32(place), binary.LittleEndian.Uint32(place[4:])
	fmt.Println(string(set.Read(1, at, size)))
	set.Give()
}

func main() {
	firstPair(os.Args[1])
	strings(os.Args[2])
}
