package ruthvelka

import (
	"errors"
	"reflect"
	"testing"
)

// a custom section "a" with "xyz"; two functions of [] -> [] and their bodies; a name section with "f" for function 0 and "g\n" for 3
const parts = "\x00asm\x01\x00\x00\x00\x00\x05\x01axyz\x01\x04\x01\x60\x00\x00\x03\x03\x02\x00\x00\x0a\x08\x02\x02\x00\x0b\x03\x00\x01\x0b" +
	"\x00\x0f\x04name\x01\x08\x02\x00\x01f\x03\x02g\n"

func TestPartsAreWhereTheyAre(t *testing.T) {
	sections, err := CustomSections([]byte(parts))
	if want := []CustomSection{{"a", 10, 12, 15}, {"name", 38, 43, 53}}; err != nil || !reflect.DeepEqual(sections, want) {
		t.Errorf("%v, %v", sections, err)
	}
	bodies, err := Bodies([]byte(parts))
	if want := []Body{{30, 32}, {33, 36}}; err != nil || !reflect.DeepEqual(bodies, want) {
		t.Errorf("%v, %v", bodies, err)
	}
	for function, want := range map[uint32]string{0: "f", 1: "", 3: "g\n"} {
		if name, found, err := FunctionName([]byte(parts), function); err != nil || name != want || found != (want != "") {
			t.Errorf("%d: %q, %v, %v", function, name, found, err)
		}
	}
}

func TestWhatIsNoModuleHasNoParts(t *testing.T) {
	for _, length := range []int{0, 7, 9, len(parts) - 1} {
		data := []byte(parts[:length])
		_, sections := CustomSections(data)
		_, bodies := Bodies(data)
		_, _, name := FunctionName(data, 0)
		for _, err := range []error{sections, bodies, name} {
			if !errors.Is(err, ErrNoModule) {
				t.Errorf("%d bytes: %v", length, err)
			}
		}
	}
}
