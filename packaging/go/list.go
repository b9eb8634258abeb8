//go:build cgo && linux && amd64

package ruthvelka

/*
#include <ruthvelka.h>
#include <stdlib.h>
*/
import "C"

import (
	"sync/atomic"
	"unsafe"
)

// listed is a list of modules in memory of C: what Go hands over may have no pointers to memory of Go in it.
type listed struct {
	modules *C.struct_ruthvelka_bytes
	copies  []unsafe.Pointer
	bytes   int
}

func list(modules [][]byte) (*listed, error) {
	it := &listed{modules: (*C.struct_ruthvelka_bytes)(C.calloc(C.size_t(len(modules)+1), C.size_t(unsafe.Sizeof(C.struct_ruthvelka_bytes{}))))}
	if it.modules == nil {
		return nil, ErrMemory
	}
	all := unsafe.Slice(it.modules, len(modules)+1)
	for i, data := range modules {
		copied := C.CBytes(data)
		it.copies = append(it.copies, copied)
		it.bytes += len(data)
		all[i].bytes, all[i].length = (*C.uint8_t)(copied), C.size_t(len(data))
	}
	return it, nil
}

func (it *listed) free() {
	for _, copied := range it.copies {
		C.free(copied)
	}
	C.free(unsafe.Pointer(it.modules))
}

// Result is what is said of a module of a list: the Module, or an error.
type Result struct {
	Module *Module
	Err    error
}

// ValidateList says of each of these modules, which share one space of ids, what it has. Behind one that is refused for more than a body the rest
// aren't checked. The messages of refusals are empty.
func ValidateList(modules [][]byte, features WasmFeatures) ([]Result, error) {
	it, err := list(modules)
	if err != nil {
		return nil, err
	}
	defer it.free()
	reports := make([]C.struct_ruthvelka_report, len(modules)+1)
	for i := range reports {
		reports[i] = unwritten()
	}
	types, functions := make([]C.uint32_t, it.bytes+1), make([]C.uint32_t, it.bytes+1)
	result := C.ruthvelka_validate_list(it.modules, C.size_t(len(modules)), C.uint64_t(features), &reports[0], C.size_t(len(modules)), &types[0],
		C.size_t(it.bytes), &functions[0], C.size_t(it.bytes))
	if result != C.RUTHVELKA_VALID {
		return nil, problem(result)
	}
	results, call := make([]Result, len(modules)), atomic.AddUint64(&calls, 1)
	for i := range results {
		report := &reports[i]
		switch report.verdict {
		case C.RUTHVELKA_VALID:
			results[i].Module = moduleOf(report, types[:report.types], functions[:report.functions], call)
			types, functions = types[report.types:], functions[report.functions:]
		case C.RUTHVELKA_REFUSED:
			results[i].Err = refused(report, "")
		default:
			results[i].Err = problem(report.verdict)
		}
	}
	return results, nil
}

// QueryKind is what a question asks.
type QueryKind uint32

// IsSubtype asks whether the first type is the second one or below it, and MayBeGiven whether the first export may be given for the second import.
const (
	IsSubtype  = QueryKind(C.RUTHVELKA_IS_SUBTYPE)
	MayBeGiven = QueryKind(C.RUTHVELKA_MAY_BE_GIVEN)
)

// Query asks about two types, by index, or about an export and an import, by number, of two modules of a list, by their places.
type Query struct {
	Kind                 QueryKind
	FirstModule, First   uint32
	SecondModule, Second uint32
}

// Answer is what is said to a question. One that nobody answered is Unknown.
type Answer uint32

// The answers.
const (
	Unknown Answer = iota
	No
	Yes
)

// Ask answers questions about the valid modules of a list.
func Ask(modules [][]byte, features WasmFeatures, queries []Query) ([]Answer, error) {
	it, err := list(modules)
	if err != nil {
		return nil, err
	}
	defer it.free()
	asked := make([]C.struct_ruthvelka_query, len(queries)+1)
	for i, it := range queries {
		asked[i] = C.struct_ruthvelka_query{kind: C.uint32_t(it.Kind), first_module: C.uint32_t(it.FirstModule), first: C.uint32_t(it.First),
			second_module: C.uint32_t(it.SecondModule), second: C.uint32_t(it.Second), answer: C.RUTHVELKA_UNKNOWN}
	}
	result := C.ruthvelka_validate_list_with_queries(it.modules, C.size_t(len(modules)), C.uint64_t(features), nil, 0, &asked[0], C.size_t(len(queries)))
	if result != C.RUTHVELKA_VALID {
		return nil, problem(result)
	}
	answers := make([]Answer, len(queries))
	for i := range answers {
		switch asked[i].answer {
		case C.RUTHVELKA_YES:
			answers[i] = Yes
		case C.RUTHVELKA_NO:
			answers[i] = No
		}
	}
	return answers, nil
}
