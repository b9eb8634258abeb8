//go:build cgo && linux && amd64

// Package ruthvelka validates WebAssembly modules, by a validator that is proved, in a library that this module contains.
//
// Each call gives what a valid module has and no error, or nil and an error: a *Refused where the bytes are no valid module, ErrMemory where memory
// was refused and nothing is said of them, and ErrCall where the call is wrong.
package ruthvelka

/*
#cgo CFLAGS: -I${SRCDIR}
#cgo LDFLAGS: -L${SRCDIR} -lruthvelka
#include <ruthvelka.h>
#include <stdlib.h>
*/
import "C"

import (
	"errors"
	"fmt"
	"strings"
	"sync/atomic"
	"unicode"
	"unsafe"
)

// WasmFeatures is a set of proposals, which modules may use.
type WasmFeatures uint64

// Feature is the proposal with this name, in capitals.
func Feature(name string) (WasmFeatures, bool) {
	it, found := names[name]
	return it, found
}

// nameOf is the name of the proposal that the library has for this bit, or nothing.
func nameOf(feature WasmFeatures) string {
	var name [64]C.char
	length := C.ruthvelka_feature_name(C.uint64_t(feature), &name[0], C.size_t(len(name)))
	return C.GoStringN(&name[0], C.int(length))
}

// String has the names of the proposals, as Feature takes them, with | between them. Of a bit that no proposal has it has the number.
func (it WasmFeatures) String() string {
	names := []string{}
	for rest := it; rest != 0; rest &= rest - 1 {
		feature := rest & -rest
		if name := nameOf(feature); name != "" {
			names = append(names, name)
		} else {
			names = append(names, fmt.Sprintf("%#x", uint64(feature)))
		}
	}
	if len(names) == 0 {
		return "0"
	}
	return strings.Join(names, " | ")
}

// ErrMemory says that memory was refused, and nothing of the bytes.
var ErrMemory = errors.New("out of memory")

// ErrCall says that the call is wrong: a feature isn't known.
var ErrCall = errors.New("wrong call")

// ErrNotChecked says that the module stands in a list behind one that ended it.
var ErrNotChecked = errors.New("not checked")

// Refused is why bytes are no valid module.
type Refused struct {
	Offset  uint64
	Message string // raw: it may quote names of the module, with any characters in them
	// Function is the index of the function whose body is refused, or -1.
	Function        int64
	MissingFeatures WasmFeatures
}

// Error has the message with those characters escaped that a terminal doesn't print.
func (it *Refused) Error() string {
	var shown strings.Builder
	for _, letter := range it.Message {
		if unicode.IsPrint(letter) {
			shown.WriteRune(letter)
		} else {
			fmt.Fprintf(&shown, "\\u{%x}", letter)
		}
	}
	return fmt.Sprintf("refused at %d: %s", it.Offset, shown.String())
}

// TypeID is the id of a type. Ids compare within the call that gave them: those of two calls are never equal.
type TypeID struct {
	Number uint32
	call   uint64
}

var calls uint64

// Module is what a valid module has, imported ones counted.
type Module struct {
	Types, Functions, Tables, Memories, Globals, Tags uint32
	Imports, Exports                                  uint64
	// TypeIDs are those of its types, and FunctionIDs those of the types of its functions.
	TypeIDs, FunctionIDs []TypeID
}

func bytesOf(data []byte) *C.uint8_t {
	if len(data) == 0 {
		return nil
	}
	return (*C.uint8_t)(unsafe.Pointer(&data[0]))
}

// unwritten is a report that says of no module that it is valid.
func unwritten() C.struct_ruthvelka_report {
	return C.struct_ruthvelka_report{verdict: C.RUTHVELKA_BAD_CALL, function: C.RUTHVELKA_NO_FUNCTION}
}

func refused(report *C.struct_ruthvelka_report, message string) *Refused {
	it := &Refused{Offset: uint64(report.offset), Message: message, Function: -1, MissingFeatures: WasmFeatures(report.missing_features)}
	if report.function != C.RUTHVELKA_NO_FUNCTION {
		it.Function = int64(report.function)
	}
	return it
}

func problem(verdict C.uint32_t) error {
	switch verdict {
	case C.RUTHVELKA_NO_MEMORY:
		return ErrMemory
	case C.RUTHVELKA_NOT_CHECKED:
		return ErrNotChecked
	}
	return ErrCall
}

// call makes a call of the library on one module. A message that has no room is asked for again. The report is of a valid module.
func call(run func(text []C.char, report *C.struct_ruthvelka_report) C.uint32_t) (C.struct_ruthvelka_report, error) {
	text, report := make([]C.char, 512), unwritten()
	if C.ruthvelka_version()/1000 != libraryVersion/1000 {
		return report, ErrCall
	}
	verdict := run(text, &report)
	if verdict == C.RUTHVELKA_REFUSED && uint64(report.message_length) > uint64(len(text)) {
		text, report = make([]C.char, report.message_length), unwritten()
		verdict = run(text, &report)
	}
	if verdict == C.RUTHVELKA_VALID && report.verdict == C.RUTHVELKA_VALID {
		return report, nil
	}
	if verdict == C.RUTHVELKA_REFUSED {
		shown := uint64(report.message_length)
		if shown > uint64(len(text)) {
			shown = uint64(len(text))
		}
		return report, refused(&report, C.GoStringN(&text[0], C.int(shown)))
	}
	return report, problem(verdict)
}

// unwrittenCalls is what is made of calls that give each verdict and write nothing.
func unwrittenCalls() (errs []error) {
	for verdict := C.uint32_t(0); verdict < 9; verdict++ {
		_, err := call(func([]C.char, *C.struct_ruthvelka_report) C.uint32_t { return verdict })
		errs = append(errs, err)
	}
	return errs
}

func ids(numbers []C.uint32_t, call uint64) []TypeID {
	all := make([]TypeID, len(numbers))
	for i, it := range numbers {
		all[i] = TypeID{uint32(it), call}
	}
	return all
}

func moduleOf(report *C.struct_ruthvelka_report, types, functions []C.uint32_t, call uint64) *Module {
	return &Module{
		Types: uint32(report.types), Functions: uint32(report.functions), Tables: uint32(report.tables), Memories: uint32(report.memories),
		Globals: uint32(report.globals), Tags: uint32(report.tags), Imports: uint64(report.imports), Exports: uint64(report.exports),
		TypeIDs: ids(types, call), FunctionIDs: ids(functions, call),
	}
}

// Validate says what the valid module in these bytes has.
func Validate(data []byte, features WasmFeatures) (*Module, error) {
	// room for as many ids as bytes is always enough
	types, functions := make([]C.uint32_t, len(data)+1), make([]C.uint32_t, len(data)+1)
	room := C.size_t(len(data))
	report, err := call(func(text []C.char, report *C.struct_ruthvelka_report) C.uint32_t {
		return C.ruthvelka_validate_with_ids(bytesOf(data), room, C.uint64_t(features), &text[0], C.size_t(len(text)), report, &types[0], room,
			&functions[0], room)
	})
	if err != nil {
		return nil, err
	}
	return moduleOf(&report, types[:report.types], functions[:report.functions], atomic.AddUint64(&calls, 1)), nil
}

// Kind is a kind of what is imported and exported, by its number in the binary format.
type Kind uint32

// The kinds.
const (
	Function      = Kind(C.RUTHVELKA_FUNCTION)
	Table         = Kind(C.RUTHVELKA_TABLE)
	Memory        = Kind(C.RUTHVELKA_MEMORY)
	Global        = Kind(C.RUTHVELKA_GLOBAL)
	Tag           = Kind(C.RUTHVELKA_TAG)
	ExactFunction = Kind(C.RUTHVELKA_EXACT_FUNCTION)
)

// Extern is an import or an export. An export has no Module, and what is neither a function nor a tag has no TypeID.
type Extern struct {
	Module, Name string
	Kind         Kind
	TypeID       *TypeID
}

// Externs are the imports and the exports of a valid module, as questions number them.
func Externs(data []byte, features WasmFeatures) (imports, exports []Extern, err error) {
	names := make([]byte, len(data)+1)
	given, taken := make([]C.struct_ruthvelka_extern, 1), make([]C.struct_ruthvelka_extern, 1)
	for {
		report, err := call(func(text []C.char, report *C.struct_ruthvelka_report) C.uint32_t {
			return C.ruthvelka_validate_with_externs(bytesOf(data), C.size_t(len(data)), C.uint64_t(features), &text[0], C.size_t(len(text)), report,
				&taken[0], C.size_t(len(taken)-1), &given[0], C.size_t(len(given)-1), (*C.char)(unsafe.Pointer(&names[0])), C.size_t(len(data)))
		})
		if err != nil {
			return nil, nil, err
		}
		if uint64(report.imports) == uint64(len(taken)-1) && uint64(report.exports) == uint64(len(given)-1) {
			break
		}
		taken, given = make([]C.struct_ruthvelka_extern, report.imports+1), make([]C.struct_ruthvelka_extern, report.exports+1)
	}
	call := atomic.AddUint64(&calls, 1)
	return externsOf(taken[:len(taken)-1], names, call), externsOf(given[:len(given)-1], names, call), nil
}

func externsOf(externs []C.struct_ruthvelka_extern, names []byte, call uint64) []Extern {
	all := make([]Extern, len(externs))
	for i, it := range externs {
		module := names[it.module_start : it.module_start+it.module_length]
		name := names[it.name_start : it.name_start+it.name_length]
		all[i] = Extern{Module: string(module), Name: string(name), Kind: Kind(it.kind)}
		if it.type_id != C.RUTHVELKA_NO_ID {
			all[i].TypeID = &TypeID{uint32(it.type_id), call}
		}
	}
	return all
}
