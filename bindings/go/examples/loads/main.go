// Loads prints which files load a library:
//
//	loads LIBRARY FILE..
//
// LIBRARY is the name by which it is loaded, such as /usr/lib/libSystem.B.dylib. A file is printed if one of its images
// loads it. The status is 0 if all files were accepted, 1 if one was refused, or could not be read or judged, which
// standard error says, and 2 after wrong words.
//
//	cd bindings/go
//	PKG_CONFIG_PATH=.../lib/pkgconfig go run ./examples/loads /usr/lib/libSystem.B.dylib FILE..
package main

import (
	"fmt"
	"os"

	"kesvuot"
)

func loads(file *kesvuot.File, name string) bool {
	for _, image := range file.Images() {
		for _, library := range image.Libraries() {
			if string(library.Name) == name {
				return true
			}
		}
	}
	return false
}

// judge reads a file into memory, where nobody else can change it, and judges it.
func judge(path string) (*kesvuot.File, error) {
	bytes, err := os.ReadFile(path)
	if err != nil {
		return nil, err
	}
	file, err := kesvuot.Verify(bytes, kesvuot.Layout)
	if err != nil {
		return nil, fmt.Errorf("%s: %w", path, err)
	}
	return file, nil
}

func main() {
	if len(os.Args) < 3 {
		fmt.Fprintln(os.Stderr, "usage: loads LIBRARY FILE..")
		os.Exit(2)
	}
	status := 0
	for _, path := range os.Args[2:] {
		file, err := judge(path)
		if err != nil {
			fmt.Fprintln(os.Stderr, err)
			status = 1
		} else if loads(file, os.Args[1]) {
			fmt.Println(path)
		}
	}
	os.Exit(status)
}
