package kesvuot_test

import (
	"fmt"
	"os"

	"kesvuot"
)

func ExampleVerify() {
	bytes, err := os.ReadFile("../../tests/real/program")
	if err != nil {
		fmt.Println(err)
		return
	}
	file, err := kesvuot.Verify(bytes, kesvuot.Layout)
	if err != nil {
		fmt.Println(err)
		return
	}
	for _, image := range file.Images() {
		for _, segment := range image.Segments() {
			fmt.Printf("%s has %d bytes\n", segment.Name, len(segment.Bytes))
		}
	}
	// Output:
	// __PAGEZERO has 0 bytes
	// __TEXT has 4096 bytes
	// __DATA_CONST has 4096 bytes
	// __DATA has 4096 bytes
	// __LINKEDIT has 240 bytes
}

func ExampleImage_LibraryOf() {
	file, err := kesvuot.VerifyFile("../../tests/real/program", kesvuot.Linked)
	if err != nil {
		fmt.Println(err)
		return
	}
	for _, image := range file.Images() {
		for _, symbol := range image.UndefinedSymbols() {
			if library, ok := image.LibraryOf(symbol); ok && library >= 0 {
				fmt.Printf("%s is of %s\n", image.Name(symbol), image.Libraries()[library].Name)
			}
		}
	}
	// Output: _step is of /usr/lib/libdemo.dylib
}

func ExampleRefused() {
	_, err := kesvuot.Verify([]byte("no image"), kesvuot.Strict)
	fmt.Println(err)
	// Output: refused: magic at 0x0
}
