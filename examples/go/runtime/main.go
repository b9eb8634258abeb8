// runtime MODULE..: loads modules one after another, as an engine does, and keeps the types of each. Each import is looked up by its own name among the
// exports of the modules before, the last one first, and linked where what is found may be given for it. A module that is refused isn't loaded.
package main

import (
	"errors"
	"fmt"
	"os"

	"ruthvelka.example/examples/names"
	"ruthvelka.example/ruthvelka"
)

// loaded is a module that was loaded.
type loaded struct {
	types   *ruthvelka.Types
	exports []ruthvelka.Extern
}

// link says what becomes of this import of the last module.
func link(modules []loaded, types *ruthvelka.Types, number int, name string) string {
	for i := len(modules) - 1; i >= 0; i-- {
		for place, it := range modules[i].exports {
			if it.Name != name {
				continue
			}
			if modules[i].types.MayBeGiven(uint32(place), types, uint32(number)) {
				return "linked"
			}
			return "not linked"
		}
	}
	return "not exported"
}

// load loads one module behind the others. The validator sees only what is valid by itself, so only one with more types than ids are left can make it fail.
func load(validator *ruthvelka.Validator, data []byte, modules []loaded) ([]loaded, error) {
	if _, err := ruthvelka.Validate(data, ruthvelka.Standard); err != nil {
		return modules, err
	}
	imports, exports, err := ruthvelka.Externs(data, ruthvelka.Standard)
	if err != nil {
		return modules, err
	}
	types, err := validator.Validate(data)
	if err != nil {
		return modules, err
	}
	for number, it := range imports {
		fmt.Printf("%s.%s: %s\n", names.Escaped(it.Module), names.Escaped(it.Name), link(modules, types, number, it.Name))
	}
	return append(modules, loaded{types, exports}), nil
}

func main() {
	validator, err := ruthvelka.NewValidator(ruthvelka.Standard)
	if err != nil {
		fmt.Fprintln(os.Stderr, "runtime:", err)
		os.Exit(2)
	}
	status, modules := 0, []loaded{}
	for _, name := range os.Args[1:] {
		data, err := os.ReadFile(name)
		if err == nil {
			modules, err = load(validator, data, modules)
		}
		var why *ruthvelka.Refused
		if errors.As(err, &why) {
			fmt.Printf("not loaded, for byte %d\n", why.Offset)
			status = 1
		} else if err != nil {
			fmt.Fprintln(os.Stderr, "runtime:", err)
			os.Exit(2)
		}
	}
	os.Exit(status)
}
