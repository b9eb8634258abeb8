//go:build cgo && linux && amd64

package ruthvelka

/*
#include <ruthvelka.h>
*/
import "C"

import (
	"errors"
	"unsafe"
)

// ErrNoModule says that the bytes are not divided into sections as a module is. It says nothing else of them.
var ErrNoModule = errors.New("the bytes are not divided into sections as a module is")

// CustomSection is a custom section: its name, and where its contents, which begin with the length of its name, and its data lie in the module. What it
// holds is the module's own word.
type CustomSection struct {
	Name                  string
	Start, DataStart, End uint64
}

// Body is where the body of a function lies in the module: its locals and its instructions, from Start up to but not including End.
type Body struct {
	Start, End uint64
}

func notFound(status C.uint32_t) error {
	switch status {
	case C.RUTHVELKA_STATUS_REFUSED:
		return ErrNoModule
	case C.RUTHVELKA_STATUS_NO_MEMORY:
		return ErrMemory
	}
	return ErrCall
}

// CustomSections are the custom sections of a module, in their order; several may have one name. Nothing is said of whether the module is valid.
func CustomSections(data []byte) ([]CustomSection, error) {
	if C.ruthvelka_version()/1000 != libraryVersion/1000 {
		return nil, ErrCall
	}
	var count C.uint64_t
	found := make([]C.struct_ruthvelka_custom_section, 1)
	for {
		found[0].size = C.sizeof_struct_ruthvelka_custom_section
		status := C.ruthvelka_custom_sections(bytesOf(data), C.size_t(len(data)), &count, &found[0], C.size_t(len(found)-1))
		if status != C.RUTHVELKA_STATUS_DONE {
			return nil, notFound(status)
		}
		if uint64(count) == uint64(len(found)-1) {
			break
		}
		found = make([]C.struct_ruthvelka_custom_section, count+1)
	}
	all := make([]CustomSection, count)
	for i, it := range found[:count] {
		name := data[it.name_start : it.name_start+it.name_length]
		all[i] = CustomSection{string(name), uint64(it.start), uint64(it.data_start), uint64(it.end)}
	}
	return all, nil
}

// Bodies are where the bodies of a module's functions lie, in their order: that of the first function that isn't imported comes first. Nothing is said
// of whether they are valid.
func Bodies(data []byte) ([]Body, error) {
	if C.ruthvelka_version()/1000 != libraryVersion/1000 {
		return nil, ErrCall
	}
	var count C.uint64_t
	found := make([]C.struct_ruthvelka_body, 1)
	for {
		found[0].size = C.sizeof_struct_ruthvelka_body
		status := C.ruthvelka_bodies(bytesOf(data), C.size_t(len(data)), &count, &found[0], C.size_t(len(found)-1))
		if status != C.RUTHVELKA_STATUS_DONE {
			return nil, notFound(status)
		}
		if uint64(count) == uint64(len(found)-1) {
			break
		}
		found = make([]C.struct_ruthvelka_body, count+1)
	}
	all := make([]Body, count)
	for i, it := range found[:count] {
		all[i] = Body{uint64(it.start), uint64(it.end)}
	}
	return all, nil
}

// FunctionName is the name that a module gives the function of this index, imported ones counted, and whether it gives one. It is the module's own word:
// it may hold any characters, and may be the name of another function. Each call goes over the whole module, so it isn't for each function.
func FunctionName(data []byte, function uint32) (string, bool, error) {
	if C.ruthvelka_version()/1000 != libraryVersion/1000 {
		return "", false, ErrCall
	}
	name, length := make([]byte, 256), C.uint64_t(0)
	for {
		status := C.ruthvelka_function_name(bytesOf(data), C.size_t(len(data)), C.uint32_t(function), &length, (*C.char)(unsafe.Pointer(&name[0])),
			C.size_t(len(name)))
		if status == C.RUTHVELKA_STATUS_NONE {
			return "", false, nil
		}
		if status != C.RUTHVELKA_STATUS_DONE {
			return "", false, notFound(status)
		}
		if uint64(length) <= uint64(len(name)) {
			return string(name[:length]), true, nil
		}
		name = make([]byte, length)
	}
}
