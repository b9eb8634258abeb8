// Package names prints what a module calls something, for the examples.
package names

import "strings"

// Escaped is a text that may hold a module's own names: `?` in place of all but the printable characters of ASCII, so that no name ends the line.
func Escaped(text string) string {
	return strings.Map(func(it rune) rune {
		if it < ' ' || '~' < it {
			return '?'
		}
		return it
	}, text)
}
