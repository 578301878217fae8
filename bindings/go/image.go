package kesvuot

import (
	"fmt"
	"sync"
)

// An Image is a 64-bit image of an accepted file. Offsets count from the start of the image, but Place from the start
// of the file. Addresses are those before any slide.
//
// Each call for a table reads the whole table: keep what it returns. A Symbol is also found by its index.
type Image struct {
	// Bytes are all bytes of the image.
	Bytes []byte
	// Place is where the image begins in the file: 0 exactly if the file is not universal.
	Place uint64
	// CPUType and CPUSubtype are those of the header, the second without the capability byte (CPU_SUBTYPE_MASK).
	CPUType, CPUSubtype uint32
	// Capabilities is the capability byte, such as the version of the ABI of arm64e.
	Capabilities uint32
	// FileType and Flags are those of the header.
	FileType, Flags uint32

	file    []byte
	numbers numbers
	// The symbols by address, which the first look-up sorts.
	sorting sync.Once
	index   []indexEntry
}

func newImage(file []byte, slice Slice, numbers *numbers) *Image {
	return &Image{
		Bytes:        slice.Bytes,
		Place:        slice.Place,
		CPUType:      slice.CPUType,
		CPUSubtype:   slice.CPUSubtype,
		Capabilities: uint32(numbers.capabilities),
		FileType:     uint32(numbers.filetype),
		Flags:        uint32(numbers.flags),
		file:         file,
		numbers:      *numbers,
	}
}

func (image *Image) has(part uint32) bool { return uint32(image.numbers.has)&part != 0 }

// Arch returns the name of the architecture, such as "arm64e", as ArchName has it.
func (image *Image) Arch() string { return ArchName(image.CPUType, image.CPUSubtype) }

// A UUID is the uuid field of an LC_UUID.
type UUID [16]byte

// String returns the digits in groups, as in "4C4C4435-5555-3144-A1CE-E5F04E5E6C2C".
func (uuid UUID) String() string {
	return fmt.Sprintf("%X-%X-%X-%X-%X", uuid[:4], uuid[4:6], uuid[6:8], uuid[8:10], uuid[10:])
}

// UUID returns the UUID of LC_UUID, and whether there is one.
func (image *Image) UUID() (uuid UUID, ok bool) {
	for index, digits := range image.numbers.uuid {
		uuid[index] = byte(digits)
	}
	return uuid, image.has(hasUUID)
}

// ID returns what the image is as a library, by its LC_ID_DYLIB, or nil without one.
func (image *Image) ID() *Library {
	if !image.has(hasID) {
		return nil
	}
	library := image.newLibrary(&image.numbers.id)
	return &library
}

// Base returns the address of the header, and whether a mapped segment has the first byte of it. That all of the
// headers are mapped is header-segment, a strict rule.
func (image *Image) Base() (address uint64, ok bool) {
	return uint64(image.numbers.base), image.has(hasBase)
}

// Entry returns the address that LC_MAIN names, and whether there is an LC_MAIN. Without one a program can have a
// ThreadEntry.
func (image *Image) Entry() (address uint64, ok bool) {
	return uint64(image.numbers.entry), image.has(hasEntry)
}

// ThreadEntry returns the address at which the first LC_THREAD or LC_UNIXTHREAD begins, such as the entry of a program
// that Go links. It is not ok if the image has no such command, if the registers of the command are not known, or if
// the file has no byte that can be executed at the address. In a file that the linked profile accepts, each image with
// an LC_THREAD or LC_UNIXTHREAD has the address. Each call rescans the load commands.
func (image *Image) ThreadEntry() (address uint64, ok bool) {
	return readThreadEntry(image)
}

// A Symtab is an LC_SYMTAB: where the symbols and their names are. Symoff is any number if Nsyms is 0, and so is Stroff
// if Strsize is 0.
type Symtab struct {
	Symoff, Nsyms, Stroff, Strsize uint64
}

// Symtab returns the fields of LC_SYMTAB, or nil without one.
func (image *Image) Symtab() *Symtab {
	if !image.has(hasSymtab) {
		return nil
	}
	return &Symtab{
		Symoff:  uint64(image.numbers.symbols),
		Nsyms:   uint64(image.numbers.symbol_count),
		Stroff:  uint64(image.numbers.strings),
		Strsize: uint64(image.numbers.strings_size),
	}
}

// A Dysymtab is an LC_DYSYMTAB: the groups of symbols, and where the indirect entries are. An index or offset is any
// number if its count is 0.
type Dysymtab struct {
	Ilocalsym, Nlocalsym, Iextdefsym, Nextdefsym, Iundefsym, Nundefsym uint32
	Indirectsymoff, Nindirectsyms                                      uint64
}

// Dysymtab returns the fields of LC_DYSYMTAB, or nil without one.
func (image *Image) Dysymtab() *Dysymtab {
	if !image.has(hasDysymtab) {
		return nil
	}
	groups := image.numbers.groups
	return &Dysymtab{
		Ilocalsym:      uint32(groups[0]),
		Nlocalsym:      uint32(groups[1]),
		Iextdefsym:     uint32(groups[2]),
		Nextdefsym:     uint32(groups[3]),
		Iundefsym:      uint32(groups[4]),
		Nundefsym:      uint32(groups[5]),
		Indirectsymoff: uint64(image.numbers.indirects),
		Nindirectsyms:  uint64(image.numbers.indirect_count),
	}
}

// A SourceKind says what is at an address.
type SourceKind int

const (
	// Unmapped says that no segment has the address.
	Unmapped SourceKind = iota
	// Zero says that a segment has the address, but the file has no byte for it: a loader puts a zero there.
	Zero
	// FileBytes says that the file has a byte for the address.
	FileBytes
)

// String returns the word of `macho-check where`.
func (kind SourceKind) String() string {
	switch kind {
	case FileBytes:
		return "file"
	case Zero:
		return "zero"
	default:
		return "unmapped"
	}
}

// A Source is what is at an address. Bytes are the bytes from the address to the end of what its segment has in the
// file. They are empty unless Kind is FileBytes.
type Source struct {
	Kind  SourceKind
	Bytes []byte
}

// At returns what is at an address. Each call rescans the load commands: for many addresses, look them up in the
// segments.
func (image *Image) At(address uint64) Source {
	return readAt(image, address)
}

// Linkedit returns the data of the first linkedit_data_command with this cmd, such as LC_CODE_SIGNATURE (0x1d): all
// datasize bytes from dataoff on. It is not ok if the image has no such command, or rules/layout.md does not list cmd
// as a linkedit_data_command (for example LC_ATOM_INFO, 0x36). Each call rescans the load commands.
func (image *Image) Linkedit(cmd uint32) (data []byte, ok bool) {
	return readLinkedit(image, cmd)
}

// A Table is a table of an image, by the two fields of a command that bound it.
type Table uint32

// The tables, with their fields, and what their items are.
const (
	// registry: tables
	// SymbolTable has nlist_64 of 16 bytes: symoff and nsyms of LC_SYMTAB.
	SymbolTable Table = 1
	// StringTable has the strings of the symbols: stroff and strsize of LC_SYMTAB.
	StringTable Table = 2
	// ContentsTable has dylib_table_of_contents of 8 bytes: tocoff and ntoc of LC_DYSYMTAB.
	ContentsTable Table = 3
	// ModuleTable has dylib_module_64 of 56 bytes: modtaboff and nmodtab of LC_DYSYMTAB.
	ModuleTable Table = 4
	// ReferenceTable has dylib_reference of 4 bytes: extrefsymoff and nextrefsyms of LC_DYSYMTAB.
	ReferenceTable Table = 5
	// IndirectTable has indirect entries of 4 bytes: indirectsymoff and nindirectsyms of LC_DYSYMTAB.
	IndirectTable Table = 6
	// ExternalRelocationTable has relocation_info of 8 bytes: extreloff and nextrel of LC_DYSYMTAB.
	ExternalRelocationTable Table = 7
	// LocalRelocationTable has relocation_info of 8 bytes: locreloff and nlocrel of LC_DYSYMTAB.
	LocalRelocationTable Table = 8
	// RebaseTable has bytes: rebase_off and rebase_size of LC_DYLD_INFO or LC_DYLD_INFO_ONLY.
	RebaseTable Table = 9
	// BindTable has bytes: bind_off and bind_size of LC_DYLD_INFO or LC_DYLD_INFO_ONLY.
	BindTable Table = 10
	// WeakBindTable has bytes: weak_bind_off and weak_bind_size of LC_DYLD_INFO or LC_DYLD_INFO_ONLY.
	WeakBindTable Table = 11
	// LazyBindTable has bytes: lazy_bind_off and lazy_bind_size of LC_DYLD_INFO or LC_DYLD_INFO_ONLY.
	LazyBindTable Table = 12
	// ExportTable has bytes: export_off and export_size of LC_DYLD_INFO or LC_DYLD_INFO_ONLY.
	ExportTable Table = 13
	// EncryptedTable has bytes: cryptoff and cryptsize of LC_ENCRYPTION_INFO_64.
	EncryptedTable Table = 14
	// registry: end
)

// Table returns a table of the image. It is not ok if no command bounds it. With several such commands it is a table
// of the first. Each call rescans the load commands.
func (image *Image) Table(table Table) (bytes []byte, ok bool) {
	return readBounded(image, table)
}

// SourceVersion returns the version A.B.C.D.E of the sources, by the first LC_SOURCE_VERSION of at least 16 bytes. It
// is not ok without one.
func (image *Image) SourceVersion() (version [5]uint32, ok bool) {
	number, ok := readSourceVersion(image)
	version[0] = uint32(number >> 40)
	for index, shift := range [4]uint{30, 20, 10, 0} {
		version[index+1] = uint32(number >> shift & 0x3ff)
	}
	return version, ok
}

// RunPaths returns the path of each LC_RPATH, in command order.
func (image *Image) RunPaths() [][]byte {
	return image.namesOf(0x8000001c)
}

// DynamicLinker returns the path of the first LC_LOAD_DYLINKER. It is not ok without one.
func (image *Image) DynamicLinker() (path []byte, ok bool) {
	paths := image.namesOf(0xe)
	if len(paths) == 0 {
		return nil, false
	}
	return paths[0], true
}

// namesOf returns the names of the commands with this cmd.
func (image *Image) namesOf(cmd uint32) [][]byte {
	var names [][]byte
	for _, command := range image.Commands() {
		if command.Cmd == cmd {
			names = append(names, command.Name)
		}
	}
	return names
}

// PlaceOf returns the offset in the file at which a part of the image begins, such as a name. It is not ok if the bytes
// are from elsewhere, or part is empty.
func (image *Image) PlaceOf(part []byte) (place uint64, ok bool) {
	place, ok = placeIn(image.Bytes, part)
	return image.Place + place, ok
}
