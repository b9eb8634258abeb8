// linker EXPORTER IMPORTER: each import of the second module is looked up among the exports of the first by its own name, and linked where what is
// found may be given for it.
package main

import (
	"fmt"
	"os"

	"ruthvelka.example/examples/names"
	"ruthvelka.example/ruthvelka"
)

func must[T any](it T, err error) T {
	if err != nil {
		fmt.Fprintln(os.Stderr, "linker:", err)
		os.Exit(2)
	}
	return it
}

func main() {
	if len(os.Args) != 3 {
		fmt.Fprintln(os.Stderr, "usage: linker EXPORTER IMPORTER")
		os.Exit(2)
	}
	modules := [][]byte{must(os.ReadFile(os.Args[1])), must(os.ReadFile(os.Args[2]))}
	_, exports, err := ruthvelka.Externs(modules[0], ruthvelka.Standard)
	must(exports, err)
	imports, _, err := ruthvelka.Externs(modules[1], ruthvelka.Standard)
	must(imports, err)
	places := map[string]uint32{}
	for place, it := range exports {
		places[it.Name] = uint32(place)
	}
	queries := []ruthvelka.Query{}
	for wanted, it := range imports {
		place, found := places[it.Name]
		if !found {
			place = uint32(len(exports))
		}
		queries = append(queries, ruthvelka.Query{Kind: ruthvelka.MayBeGiven, FirstModule: 0, First: place, SecondModule: 1, Second: uint32(wanted)})
	}
	words := map[ruthvelka.Answer]string{ruthvelka.No: "not linked", ruthvelka.Yes: "linked", ruthvelka.Unknown: "not exported"}
	for i, answer := range must(ruthvelka.Ask(modules, ruthvelka.Standard, queries)) {
		fmt.Printf("%s.%s: %s\n", names.Escaped(imports[i].Module), names.Escaped(imports[i].Name), words[answer])
	}
}
