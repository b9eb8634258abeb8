//go:build cgo && linux && amd64

package ruthvelka

/*
#include <ruthvelka.h>
#include <stdlib.h>
*/
import "C"

import (
	"errors"
	"runtime"
	"sync/atomic"
	"unsafe"
)

// ErrFailed says that the validator can't go on: a module that it refused for more than a body, or refused memory, has left it so.
var ErrFailed = errors.New("the validator can't go on")

// ErrClosed says that the validator, or the types, were closed before.
var ErrClosed = errors.New("closed")

// thread is the one on which a validator, and all types from it, stay: each call on them is made there, one at a time.
type thread struct {
	work  chan func()
	ended chan struct{}
	// handles is how many are open. Only the thread itself reads and writes it.
	handles int
	// call tells the ids of one validator from those of others.
	call uint64
}

func newThread() *thread {
	it := &thread{work: make(chan func()), ended: make(chan struct{}), call: atomic.AddUint64(&calls, 1)}
	go it.loop()
	return it
}

// loop makes calls, the first of which makes a validator, until no handle is open.
func (it *thread) loop() {
	runtime.LockOSThread()
	defer runtime.UnlockOSThread()
	defer close(it.ended)
	(<-it.work)()
	for it.handles > 0 {
		(<-it.work)()
	}
}

// run makes a call on the thread, unless it has ended.
func (it *thread) run(call func()) bool {
	done := make(chan struct{})
	select {
	case it.work <- func() { defer close(done); call() }:
		<-done
		return true
	case <-it.ended:
		return false
	}
}

// handle is what validators and types have alike. It is freed once.
type handle struct {
	thread *thread
	isOpen bool
	free   func()
}

// opened counts the handle, on its thread.
func (it *handle) opened() {
	it.isOpen = true
	it.thread.handles++
}

// run makes a call on an open handle, on its thread, and says whether it did.
func (it *handle) run(call func()) bool {
	isOpen := false
	return it.thread.run(func() {
		if isOpen = it.isOpen; isOpen {
			call()
		}
	}) && isOpen
}

func (it *handle) close() {
	it.run(func() {
		it.isOpen = false
		it.free()
		it.thread.handles--
	})
}

// Validator lives between calls: it is given one module after another, and its ids go on behind those of the modules before. Under Standard two types of
// its modules have equal ids exactly where they are equal. It may be used by any goroutine: its calls are made one after another, on a thread of its own.
//
// A module that isn't valid up to its bodies may leave it unable to go on, and then it says ErrFailed for good: where modules come from strangers, call
// Validate, the function, on each first, with the same features, which is by itself. One that has more types than ids are left fails it even so.
type Validator struct {
	held     *heldValidator
	features WasmFeatures
}

// heldValidator has its place in memory of C, where nothing moves or copies it.
type heldValidator struct {
	handle
	place *C.struct_ruthvelka_validator
}

// NewValidator makes a validator of modules under these features. Close gives back what it takes.
func NewValidator(features WasmFeatures) (*Validator, error) {
	if C.ruthvelka_version()/1000 != libraryVersion/1000 {
		return nil, ErrCall
	}
	held := &heldValidator{handle{thread: newThread()}, (*C.struct_ruthvelka_validator)(C.malloc(C.sizeof_struct_ruthvelka_validator))}
	*held.place = C.struct_ruthvelka_validator{}
	held.free = func() {
		C.ruthvelka_validator_free(held.place)
		C.free(unsafe.Pointer(held.place))
	}
	var status C.uint32_t
	held.thread.run(func() {
		if status = C.ruthvelka_validator_new(held.place, C.uint64_t(features), nil); status == C.RUTHVELKA_STATUS_DONE {
			held.opened()
		} else {
			held.free()
		}
	})
	if status != C.RUTHVELKA_STATUS_DONE {
		return nil, problemOf(status)
	}
	it := &Validator{held, features}
	runtime.SetFinalizer(it, func(it *Validator) { go it.Close() })
	return it, nil
}

// Close gives back what the validator has taken. Types from it live on. To close it again does nothing.
func (it *Validator) Close() {
	it.held.close()
}

// Reset makes it ready for its next module, as Validate does by itself. It is ErrFailed where the validator can't go on.
func (it *Validator) Reset() error {
	status := C.uint32_t(0)
	defer runtime.KeepAlive(it)
	if !it.held.run(func() { status = C.ruthvelka_validator_reset(it.held.place) }) {
		return ErrClosed
	}
	if status != C.RUTHVELKA_STATUS_DONE {
		return problemOf(status)
	}
	return nil
}

// Types are what a valid module has, and answer questions about its types. They live on when their validator is closed, until Close gives them back.
type Types struct {
	Module
	held *heldTypes
}

type heldTypes struct {
	handle
	place *C.struct_ruthvelka_types
}

func newHeldTypes(thread *thread) *heldTypes {
	held := &heldTypes{handle{thread: thread}, (*C.struct_ruthvelka_types)(C.malloc(C.sizeof_struct_ruthvelka_types))}
	*held.place = C.struct_ruthvelka_types{}
	held.free = func() {
		C.ruthvelka_types_release(held.place)
		C.free(unsafe.Pointer(held.place))
	}
	return held
}

func typesOf(module Module, held *heldTypes) *Types {
	it := &Types{module, held}
	runtime.SetFinalizer(it, func(it *Types) { go it.Close() })
	return it
}

func problemOf(status C.uint32_t) error {
	switch status {
	case C.RUTHVELKA_STATUS_NO_MEMORY:
		return ErrMemory
	case C.RUTHVELKA_STATUS_FAILED:
		return ErrFailed
	}
	return ErrCall
}

// unwrittenOutcome is one that says of no module that it is valid.
func unwrittenOutcome() C.struct_ruthvelka_outcome {
	return C.struct_ruthvelka_outcome{size: C.sizeof_struct_ruthvelka_outcome, function: C.RUTHVELKA_NO_FUNCTION}
}

// judge is nil where a call says twice that the module is valid.
func judge(status C.uint32_t, outcome *C.struct_ruthvelka_outcome, message string) error {
	switch status {
	case C.RUTHVELKA_STATUS_VALID:
		if outcome.status == C.RUTHVELKA_STATUS_VALID {
			return nil
		}
	case C.RUTHVELKA_STATUS_REFUSED:
		report := C.struct_ruthvelka_report{offset: outcome.offset, function: outcome.function, missing_features: outcome.missing_features}
		return refused(&report, message)
	}
	return problemOf(status)
}

// unwrittenStatuses is what is made of calls that give each status and write nothing.
func unwrittenStatuses() (errs []error) {
	for status := C.uint32_t(0); status < 32; status++ {
		outcome := unwrittenOutcome()
		errs = append(errs, judge(status, &outcome, ""))
	}
	return errs
}

// Validate gives the types of the valid module in these bytes.
func (it *Validator) Validate(data []byte) (types *Types, err error) {
	defer runtime.KeepAlive(it)
	isOpen := it.held.run(func() { types, err = it.validate(data) })
	if !isOpen {
		return nil, ErrClosed
	}
	return types, err
}

// validate is the same, on the thread.
func (it *Validator) validate(data []byte) (*Types, error) {
	text, outcome, held := make([]C.char, 512), unwrittenOutcome(), newHeldTypes(it.held.thread)
	status := C.ruthvelka_validator_validate(it.held.place, bytesOf(data), C.size_t(len(data)), &text[0], C.size_t(len(text)), &outcome, held.place)
	if err := judge(status, &outcome, it.message(data, &outcome, text)); err != nil {
		held.free()
		return nil, err
	}
	module, err := moduleHeld(held, &outcome)
	if err != nil {
		held.free()
		return nil, err
	}
	held.opened()
	return typesOf(*module, held), nil
}

// message is the whole one. Where it had no room it is asked for again, by a call that leaves the validator as it is.
func (it *Validator) message(data []byte, outcome *C.struct_ruthvelka_outcome, text []C.char) string {
	shown := outcome.message_length
	if int(shown) > len(text) {
		longer, again := make([]C.char, shown), unwrittenOutcome()
		status := C.ruthvelka_check(bytesOf(data), C.size_t(len(data)), C.uint64_t(it.features), &longer[0], C.size_t(shown), &again)
		if status == C.RUTHVELKA_STATUS_REFUSED && again.offset == outcome.offset && again.message_length == shown {
			text = longer
		} else {
			shown = C.uint64_t(len(text))
		}
	}
	return C.GoStringN(&text[0], C.int(shown))
}

// moduleHeld reads what the types are of, on their thread.
func moduleHeld(held *heldTypes, outcome *C.struct_ruthvelka_outcome) (*Module, error) {
	types, functions, told := make([]C.uint32_t, outcome.types+1), make([]C.uint32_t, outcome.functions+1), unwrittenOutcome()
	status := C.ruthvelka_types_ids(held.place, &told, &types[0], C.size_t(outcome.types), &functions[0], C.size_t(outcome.functions))
	if status != C.RUTHVELKA_STATUS_DONE || told.types != outcome.types || told.functions != outcome.functions {
		return nil, ErrCall
	}
	report := C.struct_ruthvelka_report{types: outcome.types, functions: outcome.functions, tables: outcome.tables, memories: outcome.memories,
		globals: outcome.globals, tags: outcome.tags, imports: outcome.imports, exports: outcome.exports}
	return moduleOf(&report, types[:outcome.types], functions[:outcome.functions], held.thread.call), nil
}

// Close gives the types back. To close them again does nothing.
func (it *Types) Close() {
	it.held.close()
}

// Retain gives the same types by another handle, which is closed by itself.
func (it *Types) Retain() (copied *Types, err error) {
	defer runtime.KeepAlive(it)
	isOpen := it.held.run(func() {
		held := newHeldTypes(it.held.thread)
		if status := C.ruthvelka_types_retain(it.held.place, held.place); status != C.RUTHVELKA_STATUS_DONE {
			held.free()
			err = problemOf(status)
			return
		}
		held.opened()
		copied = typesOf(it.Module, held)
	})
	if !isOpen {
		return nil, ErrClosed
	}
	return copied, err
}

func (it *Types) isOwn(id TypeID) bool {
	return id.call == it.held.thread.call
}

// ask asks a question on the thread. What is closed answers nothing with yes.
func (it *Types) ask(question func() C.uint32_t) bool {
	answer := C.uint32_t(C.RUTHVELKA_NO)
	defer runtime.KeepAlive(it)
	return it.held.run(func() { answer = question() }) && answer == C.RUTHVELKA_YES
}

// IsSubtype says whether the first type is the second one, or declared to be below it. These types know those of all modules before this one too. It is
// false where one of the two isn't known or is of another validator, or these types are closed.
func (it *Types) IsSubtype(first, second TypeID) bool {
	return it.isOwn(first) && it.isOwn(second) && it.ask(func() C.uint32_t {
		return C.ruthvelka_types_is_subtype(it.held.place, C.uint32_t(first.Number), C.uint32_t(second.Number))
	})
}

// MayBeGiven says whether the export of this module with that number may be given for an import of another one, of the same validator. Numbers are as
// Externs has them, and names aren't compared. It is false where one of the two isn't there, or is closed. It takes time that grows with the numbers: to link
// each import of a module takes the square of how many there are.
func (it *Types) MayBeGiven(exported uint32, importer *Types, imported uint32) bool {
	if it.held.thread != importer.held.thread {
		return false
	}
	defer runtime.KeepAlive(importer)
	return it.ask(func() C.uint32_t {
		wanted := importer.held.place
		if !importer.held.isOpen {
			return C.RUTHVELKA_NO
		}
		if importer.held == it.held {
			// the library wants two handles
			copied := newHeldTypes(it.held.thread)
			if C.ruthvelka_types_retain(it.held.place, copied.place) != C.RUTHVELKA_STATUS_DONE {
				return C.RUTHVELKA_NO
			}
			defer copied.free()
			wanted = copied.place
		}
		return C.ruthvelka_types_entity_may_be_given(it.held.place, C.uint32_t(exported), wanted, C.uint32_t(imported))
	})
}

// ValueKind is a kind of value types, by its number in the binary format.
type ValueKind uint32

// The kinds of value types. A Reference isn't null.
const (
	I32             = ValueKind(C.RUTHVELKA_I32)
	I64             = ValueKind(C.RUTHVELKA_I64)
	F32             = ValueKind(C.RUTHVELKA_F32)
	F64             = ValueKind(C.RUTHVELKA_F64)
	V128            = ValueKind(C.RUTHVELKA_V128)
	Reference       = ValueKind(C.RUTHVELKA_REFERENCE)
	NullOrReference = ValueKind(C.RUTHVELKA_NULL_OR_REFERENCE)
)

// HeapType is what a reference may be to: HeapID for the type with an id, or all of a kind.
type HeapType uint32

// The heap types, by their numbers in the binary format.
const (
	HeapID       = HeapType(C.RUTHVELKA_HEAP_ID)
	HeapFunc     = HeapType(C.RUTHVELKA_HEAP_FUNC)
	HeapExtern   = HeapType(C.RUTHVELKA_HEAP_EXTERN)
	HeapAny      = HeapType(C.RUTHVELKA_HEAP_ANY)
	HeapEq       = HeapType(C.RUTHVELKA_HEAP_EQ)
	HeapI31      = HeapType(C.RUTHVELKA_HEAP_I31)
	HeapStruct   = HeapType(C.RUTHVELKA_HEAP_STRUCT)
	HeapArray    = HeapType(C.RUTHVELKA_HEAP_ARRAY)
	HeapExn      = HeapType(C.RUTHVELKA_HEAP_EXN)
	HeapCont     = HeapType(C.RUTHVELKA_HEAP_CONT)
	HeapNone     = HeapType(C.RUTHVELKA_HEAP_NONE)
	HeapNoExtern = HeapType(C.RUTHVELKA_HEAP_NOEXTERN)
	HeapNoFunc   = HeapType(C.RUTHVELKA_HEAP_NOFUNC)
	HeapNoExn    = HeapType(C.RUTHVELKA_HEAP_NOEXN)
	HeapNoCont   = HeapType(C.RUTHVELKA_HEAP_NOCONT)
)

// ValueType is a value type. Of a reference Heap says to what, and ID to which type where that is HeapID.
type ValueType struct {
	Kind ValueKind
	Heap HeapType
	ID   TypeID
}

func (it *Types) isSendable(ty ValueType) bool {
	isReference := ty.Kind == Reference || ty.Kind == NullOrReference
	return !isReference || ty.Heap != HeapID || it.isOwn(ty.ID)
}

func sent(ty ValueType) C.struct_ruthvelka_value_type {
	return C.struct_ruthvelka_value_type{size: C.sizeof_struct_ruthvelka_value_type, kind: C.uint32_t(ty.Kind), heap: C.uint32_t(ty.Heap), id: C.uint32_t(ty.ID.Number)}
}

// Matches says whether a value of the first type may stand where one of the second is wanted. It is false where an id is of another validator.
func (it *Types) Matches(first, second ValueType) bool {
	return it.isSendable(first) && it.isSendable(second) && it.ask(func() C.uint32_t {
		a, b := sent(first), sent(second)
		return C.ruthvelka_types_matches(it.held.place, &a, &b)
	})
}
