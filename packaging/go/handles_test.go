package ruthvelka

import (
	"errors"
	"os"
	"os/exec"
	"path/filepath"
	"reflect"
	"regexp"
	"runtime"
	"strconv"
	"strings"
	"sync"
	"testing"
	"time"
)

const (
	subtypes = "\x01\x10\x02\x50\x00\x5f\x01\x7f\x00\x50\x01\x00\x5f\x02\x7f\x00\x7e\x00" // (sub (struct i32)) and below it (struct i32 i64)
	both     = head + functions + imported + "\x07\x05\x01\x01f\x00\x00"                  // m.f, imported and exported
)

// validators gives types of these modules by one validator.
func validated(t *testing.T, modules ...string) (*Validator, []*Types) {
	t.Helper()
	validator, err := NewValidator(Standard)
	if err != nil {
		t.Fatal(err)
	}
	kept := []*Types{}
	for _, it := range modules {
		types, err := validator.Validate([]byte(it))
		if err != nil {
			t.Fatal(err)
		}
		kept = append(kept, types)
	}
	return validator, kept
}

func TestHandlesCount(t *testing.T) {
	_, kept := validated(t, whole)
	want, _ := Validate([]byte(whole), Standard)
	it := kept[0]
	if it.Types != want.Types || it.Functions != 2 || it.Imports != 1 || it.Exports != 1 || it.Tables+it.Memories+it.Globals+it.Tags != 0 {
		t.Errorf("%+v", it)
	}
	if !reflect.DeepEqual(it.FunctionIDs, it.TypeIDs) || len(it.TypeIDs) != 2 {
		t.Errorf("%+v", it)
	}
}

func TestIDsCompareAcrossModules(t *testing.T) {
	validator, kept := validated(t, whole, head+structures, head+functions)
	validator.Close()
	if !reflect.DeepEqual(kept[0].TypeIDs, kept[2].TypeIDs) || kept[1].TypeIDs[0] != kept[1].TypeIDs[1] || kept[0].TypeIDs[0] == kept[1].TypeIDs[0] {
		t.Error(kept[0].TypeIDs, kept[1].TypeIDs, kept[2].TypeIDs)
	}
	_, others := validated(t, whole)
	alone, _ := Validate([]byte(whole), Standard)
	if kept[0].TypeIDs[0] == others[0].TypeIDs[0] || kept[0].TypeIDs[0] == alone.TypeIDs[0] {
		t.Error("ids of two validators are equal")
	}
}

func TestSubtypes(t *testing.T) {
	_, kept := validated(t, whole, head+subtypes, head+structures)
	early, types, late := kept[0], kept[1], kept[2]
	above, below := types.TypeIDs[0], types.TypeIDs[1]
	got := []bool{types.IsSubtype(below, above), types.IsSubtype(above, below), types.IsSubtype(above, above), types.IsSubtype(below, early.TypeIDs[0]),
		late.IsSubtype(below, above), early.IsSubtype(below, above)}
	if !reflect.DeepEqual(got, []bool{true, false, true, false, true, false}) {
		t.Error(got)
	}
}

func TestValueTypes(t *testing.T) {
	_, kept := validated(t, head+subtypes)
	above, below := kept[0].TypeIDs[0], kept[0].TypeIDs[1]
	for i, it := range []struct {
		first, second ValueType
		wanted        bool
	}{
		{ValueType{Kind: I32}, ValueType{Kind: I32}, true},
		{ValueType{Kind: I32}, ValueType{Kind: I64}, false},
		{ValueType{Kind: 1}, ValueType{Kind: 1}, false},
		{ValueType{Reference, HeapID, below}, ValueType{NullOrReference, HeapID, above}, true},
		{ValueType{NullOrReference, HeapID, below}, ValueType{Reference, HeapID, above}, false},
		{ValueType{Reference, HeapID, above}, ValueType{Reference, HeapID, below}, false},
		{ValueType{Reference, HeapID, above}, ValueType{Kind: NullOrReference, Heap: HeapStruct}, true},
		{ValueType{Reference, HeapID, above}, ValueType{Kind: NullOrReference, Heap: HeapFunc}, false},
		{ValueType{Kind: NullOrReference, Heap: HeapI31}, ValueType{Kind: NullOrReference, Heap: HeapEq}, true},
	} {
		if kept[0].Matches(it.first, it.second) != it.wanted {
			t.Error(i, it)
		}
	}
}

func TestEntities(t *testing.T) {
	_, kept := validated(t, head+functions+twoExports, head+functions+imported, both)
	got := []bool{kept[0].MayBeGiven(0, kept[1], 0), kept[0].MayBeGiven(1, kept[1], 0), kept[0].MayBeGiven(2, kept[1], 0), kept[0].MayBeGiven(0, kept[1], 1),
		kept[2].MayBeGiven(0, kept[2], 0)}
	if !reflect.DeepEqual(got, []bool{true, false, false, false, true}) {
		t.Error(got)
	}
}

func TestNothingOfAnotherValidatorIsAccepted(t *testing.T) {
	_, own := validated(t, head+subtypes, both)
	_, others := validated(t, head+subtypes, both)
	one, foreign := own[0].TypeIDs[0], others[0].TypeIDs[0]
	if one.Number != foreign.Number || !own[0].IsSubtype(one, one) || !own[1].MayBeGiven(0, own[1], 0) {
		t.Error("the ids of the validators aren't alike")
	}
	for _, it := range [][2]TypeID{{one, foreign}, {foreign, one}, {foreign, foreign}} {
		if own[0].IsSubtype(it[0], it[1]) || own[0].Matches(ValueType{Reference, HeapID, it[0]}, ValueType{Reference, HeapID, it[1]}) {
			t.Error(it)
		}
	}
	if own[1].MayBeGiven(0, others[1], 0) {
		t.Error("an export may be given to another validator's module")
	}
}

func TestValidatorsGoOnOrFail(t *testing.T) {
	validator, kept := validated(t, whole)
	var why *Refused
	if it, err := validator.Validate([]byte(head + functions + imported + one + wrongBody)); it != nil || !errors.As(err, &why) || why.Function != 1 {
		t.Error(it, err)
	}
	if err := validator.Reset(); err != nil {
		t.Error(err)
	}
	if again, err := validator.Validate([]byte(whole)); err != nil || again.TypeIDs[0] != kept[0].TypeIDs[0] {
		t.Error(again, err)
	}
	if it, err := validator.Validate([]byte(head + shrinking)); it != nil || !errors.As(err, &why) || why.Offset != 11 {
		t.Error(it, err)
	}
	if it, err := validator.Validate([]byte(whole)); it != nil || err != ErrFailed || validator.Reset() != ErrFailed {
		t.Error(it, err)
	}
	if !kept[0].IsSubtype(kept[0].TypeIDs[0], kept[0].TypeIDs[0]) {
		t.Error("types went with their validator")
	}
	if it, err := NewValidator(1 << 63); it != nil || err != ErrCall {
		t.Error(it, err)
	}
}

func TestLongMessagesOfHandles(t *testing.T) {
	name := strings.Repeat("n", 1000)
	item := "\xe8\x07" + name + "\x02\x00"
	length := 2*len(item) + 1
	module := []byte(head + "\x05\x03\x01\x00\x01\x07" + string([]byte{byte(length&127 | 128), byte(length >> 7), 2}) + item + item)
	validator, _ := validated(t)
	_, err := validator.Validate(module)
	if _, other := Validate(module, Standard); err == nil || err.Error() != other.Error() || !strings.Contains(err.Error(), name) {
		t.Error(err)
	}
}

func TestWhatIsClosed(t *testing.T) {
	validator, kept := validated(t, whole, both)
	copied, err := kept[0].Retain()
	if err != nil {
		t.Fatal(err)
	}
	ids, thread := kept[0].TypeIDs, validator.held.thread
	for i := 0; i < 2; i++ {
		validator.Close()
		kept[0].Close()
	}
	_, err = validator.Validate([]byte(whole))
	_, noCopy := kept[0].Retain()
	if err != ErrClosed || validator.Reset() != ErrClosed || noCopy != ErrClosed {
		t.Error(err, noCopy)
	}
	if kept[0].IsSubtype(ids[0], ids[0]) || kept[1].MayBeGiven(0, kept[0], 0) || !copied.IsSubtype(ids[0], ids[0]) {
		t.Error("what is closed answers, or what isn't doesn't")
	}
	kept[1].Close()
	copied.Close()
	select {
	case <-thread.ended:
	case <-time.After(10 * time.Second):
		t.Error("the thread stays when all is closed")
	}
	if copied.IsSubtype(ids[0], ids[0]) {
		t.Error("types answer when their thread has ended")
	}
	copied.Close()
}

func TestWhatNothingRefersToIsGivenBack(t *testing.T) {
	thread := func() *thread {
		validator, _ := validated(t, whole)
		return validator.held.thread
	}()
	for i := 0; i < 1000; i++ {
		runtime.GC()
		select {
		case <-thread.ended:
			return
		case <-time.After(10 * time.Millisecond):
		}
	}
	t.Error("the thread stays")
}

func TestGoroutines(t *testing.T) {
	validator, kept := validated(t, whole)
	var all sync.WaitGroup
	for i := 0; i < 8; i++ {
		all.Add(1)
		go func() {
			defer all.Done()
			for j := 0; j < 50; j++ {
				types, err := validator.Validate([]byte(whole))
				if err != nil || types.TypeIDs[1] != kept[0].TypeIDs[1] || kept[0].IsSubtype(types.TypeIDs[0], types.TypeIDs[1]) {
					t.Error(types, err)
					return
				}
				types.Close()
			}
		}()
	}
	all.Wait()
}

func TestHandlesFailClosed(t *testing.T) {
	for status, err := range unwrittenStatuses() {
		if err == nil {
			t.Errorf("status %d makes a module valid of which nothing was told", status)
		}
	}
}

// The second example of README is a program of its own.
func TestReadme(t *testing.T) {
	text, err := os.ReadFile("README.md")
	if err != nil {
		t.Skip("README isn't beside the tests")
	}
	examples := regexp.MustCompile("(?s)```go\n(.*?)```").FindAllSubmatch(text, -1)
	if len(examples) != 2 {
		t.Fatalf("%d examples", len(examples))
	}
	here, _ := os.Getwd()
	room := t.TempDir()
	files := map[string]string{
		"main.go": string(examples[1][1]), "a.wasm": whole, "b.wasm": head + shrinking, "c.wasm": head + functions,
		"go.mod": "module mine\n\ngo 1.19\n\nrequire ruthvelka.example/ruthvelka v0.0.0\n\nreplace ruthvelka.example/ruthvelka => " + strconv.Quote(here) + "\n",
	}
	for name, data := range files {
		if err := os.WriteFile(filepath.Join(room, name), []byte(data), 0o600); err != nil {
			t.Fatal(err)
		}
	}
	command := exec.Command("go", "run", ".", "a.wasm", "b.wasm", "c.wasm")
	command.Dir = room
	said, err := command.CombinedOutput()
	want := "a.wasm: loaded\nb.wasm: refused at 11: size minimum must not be greater than maximum\nc.wasm: loaded\na.wasm and c.wasm have 2 pairs of equal types\n"
	if err != nil || string(said) != want {
		t.Errorf("%v: %s", err, said)
	}
}
