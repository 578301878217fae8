// Reads all that debug/macho gives of a file: headers, load commands, sections, symbols, libraries. ../peers runs it.
package main

import (
	"debug/macho"
	"fmt"
	"os"
)

func check(err error) {
	if err != nil {
		fmt.Fprintln(os.Stderr, err)
		os.Exit(1)
	}
}

func read(file *macho.File) {
	for _, section := range file.Sections {
		if kind := section.Flags & 0xff; kind != 1 && kind != 0xc && kind != 0x12 {
			_, err := section.Data()
			check(err)
		}
	}
	_, err := file.ImportedLibraries()
	check(err)
}

func main() {
	fat, err := macho.OpenFat(os.Args[1])
	if err == macho.ErrNotFat {
		file, err := macho.Open(os.Args[1])
		check(err)
		read(file)
		return
	}
	check(err)
	for _, arch := range fat.Arches {
		read(arch.File)
	}
}
