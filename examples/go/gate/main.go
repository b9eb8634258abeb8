// gate FILE..: an admission gate. Each file is let in exactly where it is a valid module, within the limits for modules of strangers.
package main

import (
	"fmt"
	"os"

	"ruthvelka.example/ruthvelka"
)

func main() {
	status := 0
	for _, name := range os.Args[1:] {
		data, err := os.ReadFile(name)
		if err != nil {
			fmt.Fprintf(os.Stderr, "gate: cannot read %s\n", name)
			os.Exit(2)
		}
		it, err := ruthvelka.Validate(data, ruthvelka.Standard|ruthvelka.CrateLimits)
		if err != nil {
			fmt.Printf("%s: %v\n", name, err)
			status = 1
			continue
		}
		fmt.Printf("%s: ok types %d functions %d imports %d exports %d\n", name, it.Types, it.Functions, it.Imports, it.Exports)
	}
	os.Exit(status)
}
