// Prints what debug/macho shows of the images of a file, a line for each image, segment and section. ../other_readers
// says what is in a line.
package main

import (
	"debug/macho"
	"fmt"
	"hash/crc32"
	"os"
)

func check(err error) {
	if err != nil {
		fmt.Fprintln(os.Stderr, err)
		os.Exit(1)
	}
}

// Sum returns the checksum of the bytes of a section, or a hyphen for zero-fill.
func sum(section *macho.Section) string {
	if kind := section.Flags & 0xff; kind == 1 || kind == 0xc || kind == 0x12 {
		return "-"
	}
	content, err := section.Data()
	check(err)
	return fmt.Sprint(crc32.ChecksumIEEE(content))
}

func show(file *macho.File) {
	fmt.Println("image", uint32(file.Cpu))
	for _, load := range file.Loads {
		if it, ok := load.(*macho.Segment); ok {
			fmt.Printf("segment =%x %d %d %d %d %d\n", it.Name, it.Addr, it.Memsz, it.Offset, it.Filesz, it.Prot)
		}
	}
	for _, it := range file.Sections {
		fmt.Printf("section =%x =%x %d %d %d %s\n", it.Seg, it.Name, it.Addr, it.Size, it.Offset, sum(it))
	}
}

func main() {
	fat, err := macho.OpenFat(os.Args[1])
	if err == macho.ErrNotFat {
		file, err := macho.Open(os.Args[1])
		check(err)
		show(file)
		return
	}
	check(err)
	for _, arch := range fat.Arches {
		show(arch.File)
	}
}
