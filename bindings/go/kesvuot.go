// Package kesvuot judges the layout of Mach-O files, and reads the parts of an accepted file.
//
//	file, err := kesvuot.Verify(bytes, kesvuot.Layout)
//	if err != nil {
//		return err // such as "refused: segment-file at 0x198"
//	}
//	for _, image := range file.Images() {
//		fmt.Println(image.Arch())
//		for _, segment := range image.Segments() {
//			fmt.Printf("%s has %d bytes\n", segment.Name, len(segment.Bytes))
//		}
//	}
//
// The plain values of an image are fields, and each table is a method that returns a slice of rows, whose values are
// fields. Methods of a row decode its bits, such as Kind of a Symbol, and methods of the image read the bytes of the file
// for a row, such as Name.
//
// The verdict and all parts come from libkesvuot, whose calls are proved. The bytes of each part of an accepted file
// lie in the bytes that were passed: test no part. Each part is a slice of the passed bytes, and nothing is copied.
// Numbers that rules/layout.md lists as not judged, and the fields of commands that it does not list, are whatever the
// file says. <mach-o/loader.h> and <mach-o/nlist.h> have the names and explain the fields. A name contains no zero
// byte.
//
// The bytes must not change while a call runs, or the process may crash: no goroutine may write to them, and a file may
// be mapped only if nobody else can write to it or truncate it. If they change after the verdict, every call is still
// safe, but the verdict says nothing about the new bytes. Any number of goroutines may call at once.
//
// The package is not published. A module that uses it has in its go.mod
//
//	require kesvuot v0.0.0
//	replace kesvuot => FOLDER
//
// with the folder bindings/go. It needs cgo, and finds libkesvuot by pkg-config. After `make lib` that is by
// PKG_CONFIG_PATH=.../build/lib, and the program finds the shared library by LD_LIBRARY_PATH=.../build/lib.
package kesvuot

import (
	"bytes"
	"errors"
	"fmt"
	"io"
	"os"
)

// ErrMemory says that memory ran out before a verdict. Nothing is claimed about the file.
var ErrMemory = errors.New("out of memory")

// ErrProfile says that no profile has the number that Verify got. The file is not judged.
var ErrProfile = errors.New("unknown profile")

// A Profile is a set of rules by which a file is judged. Its number never changes, and no profile has the number 0.
type Profile uint32

// The profiles. Each judges the rules of the profiles before it, and then its own. A file that a profile accepts is
// also accepted by each profile before it.
const (
	// registry: profiles
	// Layout: a loader that follows the headers and checks no bounds reads only bytes of the slice. rules/layout.md
	// explains the rules.
	Layout Profile = 1
	// Strict: every nonzero byte is accounted for, and no byte belongs to two elements, such as the headers, a section or
	// a table. rules/strict.md explains the rules.
	Strict Profile = 2
	// Linked: the rules judge where the linked data of an image lies; what the opcodes of LC_DYLD_INFO and
	// LC_DYLD_INFO_ONLY, the table of LC_DYLD_CHAINED_FIXUPS and the chains of pointers in the pages ask a dynamic loader
	// for; what the image exports; where functions start and data is in code; how a code signature is built; what symbols,
	// stubs and relocations refer to; where threads and initializers begin; and what all other commands of loader.h hold.
	// rules/linked.md explains the rules.
	Linked Profile = 3
	// Unambiguous: readers that choose slices, segments, sections, load commands and entry points in the ways that the
	// page of the rules lists choose the same ones, and a kernel that maps whole pages shows the bytes that the headers
	// describe. They find one meaning of a name that the image defines, one bind of a location, one library of an
	// undefined symbol, and one identity in a signature. rules/unambiguous.md explains the rules.
	Unambiguous Profile = 4
	// Sealed: each image has a code signature; each code directory has the hashes of all bytes before the signature and of
	// the blobs in special slots; no byte of the signature can be executed; and each nonzero byte from the signature on is
	// in the signature's header, its index or a blob. The profile does not say who signed, and it reads nothing outside of
	// the file. rules/sealed.md explains the rules.
	Sealed Profile = 5
	// registry: end
)

// A Rule is the name of a rule, such as "section-file". The pages of docs/rules explain each rule under its
// name.
type Rule string

// Refused says that a file breaks a rule.
type Refused struct {
	// Rule is the first broken rule.
	Rule Rule
	// Place is the least offset in the file at which the rule is broken.
	Place uint64
}

func (refused *Refused) Error() string {
	return fmt.Sprintf("refused: %s at %#x", refused.Rule, refused.Place)
}

// Verify judges a file by the rules of a profile. The error is a *Refused, ErrMemory, or ErrProfile if no profile has
// the number.
func Verify(file []byte, profile Profile) (*File, error) {
	return judge(file, profile)
}

// The most bytes of a file that is read. macho-check has the same limit.
const limit = 1 << 32

// VerifyFile reads a file into memory, and judges it as Verify does. Links are followed. A folder, a pipe, a socket or
// a device is not read, and neither is a file of more than 4 GiB. The error is one of Verify, or one of reading.
func VerifyFile(path string, profile Profile) (*File, error) {
	data, err := readFile(path, limit)
	if err != nil {
		return nil, err
	}
	return Verify(data, profile)
}

// readFile returns the bytes of a regular file that has at most limit bytes.
func readFile(path string, limit int64) ([]byte, error) {
	// To open a pipe would wait for its writer, and to open a device may do something.
	known, err := os.Stat(path)
	if err != nil {
		return nil, err
	}
	if !known.Mode().IsRegular() {
		return nil, &os.PathError{Op: "read", Path: path, Err: errors.New("not a regular file")}
	}
	file, err := os.Open(path)
	if err != nil {
		return nil, err
	}
	defer file.Close()
	// Room for the whole file, and for the read that finds its end. The file may grow while it is read.
	var data bytes.Buffer
	if known.Size() <= limit {
		data.Grow(int(known.Size()) + bytes.MinRead)
		_, err = data.ReadFrom(io.LimitReader(file, limit+1))
	}
	if known.Size() > limit || int64(data.Len()) > limit {
		err = &os.PathError{Op: "read", Path: path, Err: fmt.Errorf("more than %d bytes", limit)}
	}
	if err != nil {
		return nil, err
	}
	return data.Bytes(), nil
}

// A File was accepted.
type File struct {
	bytes      []byte
	sliceCount int
}

// Bytes returns the bytes of the file.
func (file *File) Bytes() []byte { return file.bytes }

// SliceCount returns how many slices the file has: 1 if it is not universal.
func (file *File) SliceCount() int { return file.sliceCount }

// A Slice is a part of a universal file, or a whole file that is not universal.
type Slice struct {
	// Bytes are all bytes of the slice.
	Bytes []byte
	// Place is where the slice begins in the file: 0 exactly if the file is not universal.
	Place uint64
	// CPUType and CPUSubtype are from the header of the image, or from the universal table if the slice is not read.
	// Either way the second is without the capability byte (CPU_SUBTYPE_MASK).
	CPUType, CPUSubtype uint32
	// Image is the image of the slice. It is nil if the slice is of 32 bits or big-endian: what is in it was not judged.
	Image *Image
}

// Arch returns the name of the architecture, such as "arm64e", as ArchName has it.
func (slice Slice) Arch() string { return ArchName(slice.CPUType, slice.CPUSubtype) }

// Slice returns the slice with this index, from 0 on, in the order of the universal table. The time does not depend on
// the number of slices. It panics if no slice has the index.
func (file *File) Slice(index int) Slice {
	if index < 0 || index >= file.sliceCount {
		panic(fmt.Sprintf("kesvuot: slice %d of %d", index, file.sliceCount))
	}
	return readSlice(file.bytes, uint64(index))
}

// Slices returns all slices, in the order of the universal table.
func (file *File) Slices() []Slice {
	slices := make([]Slice, file.sliceCount)
	for index := range slices {
		slices[index] = file.Slice(index)
	}
	return slices
}

// UnreadSlices returns the slices without an image, in which nothing was judged.
func (file *File) UnreadSlices() []Slice {
	var unread []Slice
	for _, slice := range file.Slices() {
		if slice.Image == nil {
			unread = append(unread, slice)
		}
	}
	return unread
}

// Images returns the images of all slices that are read. There is at least one.
func (file *File) Images() []*Image {
	var images []*Image
	for _, slice := range file.Slices() {
		if slice.Image != nil {
			images = append(images, slice.Image)
		}
	}
	return images
}

// Layout returns the layout of the file as text, as macho-check prints it. Each call judges the file again. The error
// is ErrMemory, or a *Refused if the bytes have changed.
func (file *File) Layout() (string, error) {
	return readLayout(file.bytes)
}
