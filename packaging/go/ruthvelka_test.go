package ruthvelka

import (
	"errors"
	"fmt"
	"reflect"
	"strings"
	"testing"
	"unicode"
)

// What is expected follows from the Core Specification.
const (
	head       = "\x00asm\x01\x00\x00\x00"
	functions  = "\x01\x09\x02\x60\x00\x00\x60\x01\x7f\x01\x7f" // (func) and (func (param i32) (result i32))
	imported   = "\x02\x07\x01\x01m\x01f\x00\x00"               // m.f, of the first type
	one        = "\x03\x02\x01\x01"                             // a function of the second type
	export     = "\x07\x05\x01\x01g\x00\x01"
	body       = "\x0a\x06\x01\x04\x00\x20\x00\x0b"             // local.get 0
	wrongBody  = "\x0a\x05\x01\x03\x00\x01\x0b"                 // the result is missing
	structures = "\x01\x09\x02\x5f\x01\x7f\x00\x5f\x01\x7f\x00" // one structure type twice
	shrinking  = "\x05\x04\x01\x01\x02\x01"                     // a memory with a minimum of 2 and a maximum of 1
	vectors    = "\x01\x06\x01\x60\x01\x7b\x01\x7b\x03\x02\x01\x00\x0a\x08\x01\x06\x00\x20\x00\xfd\x4d\x0b"
	twoExports = "\x03\x03\x02\x00\x01\x07\x09\x02\x01a\x00\x00\x01b\x00\x01\x0a\x09\x02\x02\x00\x0b\x04\x00\x20\x00\x0b"
	whole      = head + functions + imported + one + export + body
)

func refusal(t *testing.T, module string, features WasmFeatures) *Refused {
	t.Helper()
	it, err := Validate([]byte(module), features)
	var why *Refused
	if it != nil || !errors.As(err, &why) {
		t.Fatalf("%v, %v in place of a refusal", it, err)
	}
	return why
}

func TestFeaturesAreThoseOfTheLibrary(t *testing.T) {
	count := 0
	for bit := 0; bit < 64; bit++ {
		name := nameOf(1 << bit)
		if name == "" {
			continue
		}
		count++
		if it, found := Feature(name); !found || it != 1<<bit {
			t.Errorf("%s is %d in place of bit %d", name, it, bit)
		}
	}
	if count != len(names) || count == 0 {
		t.Errorf("%d features in place of %d", len(names), count)
	}
}

func TestFeaturesPrintTheirNames(t *testing.T) {
	for it, want := range map[WasmFeatures]string{0: "0", GC: "GC", SIMD | CrateLimits | 1<<63: "SIMD | CRATE_LIMITS | 0x8000000000000000"} {
		if shown := fmt.Sprint(it); shown != want {
			t.Errorf("%s in place of %s", shown, want)
		}
	}
	if why := refusal(t, head+vectors, Standard); why.MissingFeatures.String() != "VECTOR_OPERATORS" {
		t.Errorf("%+v", why)
	}
}

func TestCounts(t *testing.T) {
	it, err := Validate([]byte(whole), Standard)
	if err != nil {
		t.Fatal(err)
	}
	if it.Types != 2 || it.Functions != 2 || it.Imports != 1 || it.Exports != 1 || it.Tables+it.Memories+it.Globals+it.Tags != 0 {
		t.Errorf("%+v", it)
	}
	if !reflect.DeepEqual(it.FunctionIDs, it.TypeIDs) || it.TypeIDs[0] == it.TypeIDs[1] {
		t.Errorf("%+v", it)
	}
}

func TestRefusals(t *testing.T) {
	why := refusal(t, head+shrinking, Standard)
	if why.Offset != 11 || why.Function != -1 || why.MissingFeatures != 0 {
		t.Errorf("%+v", why)
	}
	if why.Error() != "refused at 11: size minimum must not be greater than maximum" {
		t.Error(why)
	}
	if why := refusal(t, head+functions+imported+one+wrongBody, Standard); why.Function != 1 {
		t.Errorf("%+v", why)
	}
	refusal(t, "", Standard)
}

func TestFeaturesDecide(t *testing.T) {
	if why := refusal(t, head+vectors, Standard); why.MissingFeatures != VectorOperators {
		t.Errorf("%+v", why)
	}
	if _, err := Validate([]byte(head+vectors), Standard|VectorOperators); err != nil {
		t.Error(err)
	}
	if it, err := Validate([]byte(head), 1<<63); it != nil || err != ErrCall {
		t.Errorf("%v, %v", it, err)
	}
	if _, err := ValidateList([][]byte{[]byte(head)}, 1<<63); err != ErrCall {
		t.Error(err)
	}
}

func TestLongAndHiddenMessages(t *testing.T) {
	name := "\x1b[2J\n" + strings.Repeat("n", 100)
	item := string(rune(len(name))) + name + "\x02\x00"
	length := 2*len(item) + 1
	why := refusal(t, head+"\x05\x03\x01\x00\x01\x07"+string([]byte{byte(length&127 | 128), byte(length >> 7), 2})+item+item, Standard)
	if !strings.Contains(why.Message, name) || strings.IndexFunc(why.Error(), unicode.IsControl) >= 0 {
		t.Errorf("%q", why.Message)
	}
}

func TestIDsOfTwoCallsDiffer(t *testing.T) {
	first, _ := Validate([]byte(head+structures), Standard)
	second, _ := Validate([]byte(head+structures), Standard)
	if first.TypeIDs[0] != first.TypeIDs[1] || first.TypeIDs[0] == second.TypeIDs[0] {
		t.Errorf("%v %v", first.TypeIDs, second.TypeIDs)
	}
}

func TestExterns(t *testing.T) {
	imports, exports, err := Externs([]byte(whole), Standard)
	if err != nil || len(imports) != 1 || len(exports) != 1 {
		t.Fatal(imports, exports, err)
	}
	if imports[0].Module != "m" || imports[0].Name != "f" || imports[0].Kind != Function || exports[0].Name != "g" || *imports[0].TypeID == *exports[0].TypeID {
		t.Errorf("%+v %+v", imports, exports)
	}
}

func TestLists(t *testing.T) {
	results, err := ValidateList([][]byte{[]byte(whole), []byte(head + structures), []byte(head + functions), []byte(head + shrinking), []byte(whole)}, Standard)
	if err != nil || len(results) != 5 {
		t.Fatal(results, err)
	}
	for i, it := range results {
		if (it.Module != nil) != (i < 3) || (it.Err == nil) != (i < 3) {
			t.Errorf("%d: %+v", i, it)
		}
	}
	var why *Refused
	if !errors.As(results[3].Err, &why) || why.Offset != 11 || results[4].Err != ErrNotChecked {
		t.Errorf("%+v", results)
	}
	if !reflect.DeepEqual(results[0].Module.TypeIDs, results[2].Module.TypeIDs) {
		t.Errorf("%+v", results)
	}
}

func TestQuestions(t *testing.T) {
	queries := []Query{}
	for _, it := range []uint32{0, 1, 2} {
		queries = append(queries, Query{MayBeGiven, 0, it, 1, 0}, Query{IsSubtype, 0, 1, 1, it})
	}
	answers, err := Ask([][]byte{[]byte(head + functions + twoExports), []byte(head + functions + imported)}, Standard, queries)
	if err != nil || !reflect.DeepEqual(answers, []Answer{Yes, No, No, Yes, Unknown, Unknown}) {
		t.Error(answers, err)
	}
}

func TestFailsClosed(t *testing.T) {
	for _, err := range unwrittenCalls() {
		if err == nil {
			t.Error("a report that nothing was written into is taken for that of a valid module")
		}
	}
	var answer Answer
	if answer != Unknown {
		t.Error("an answer that nobody gave isn't unknown")
	}
}
