package kesvuot

// A Segment is an LC_SEGMENT_64.
type Segment struct {
	// Name is the name, such as "__TEXT".
	Name []byte
	// Bytes are all Filesize bytes from Fileoff on.
	Bytes []byte
	// Vmaddr and Vmsize are not aligned to a page: two segments can share one. Fileoff is any number if Filesize is 0.
	Vmaddr, Vmsize, Fileoff, Filesize uint64
	// FirstSection is the index of its first section in Sections, and SectionCount its nsects.
	FirstSection                    uint64
	SectionCount, Maxprot, Initprot uint32
}

// LastAddress returns the last address of the segment: the sum Vmaddr + Vmsize can be 2^64. It is not ok if the segment
// is not mapped.
func (segment *Segment) LastAddress() (address uint64, ok bool) {
	return segment.Vmaddr + segment.Vmsize - 1, segment.Vmsize > 0
}

func (image *Image) part(span span) []byte { return partOf(image.file, span) }

// Segments returns the segments, in command order.
func (image *Image) Segments() []Segment {
	rows := readTable[segmentRow](image, segmentTable, image.numbers.segment_count)
	segments := make([]Segment, len(rows))
	for index, row := range rows {
		segments[index] = Segment{
			Name:         image.part(row.name),
			Bytes:        image.part(row.bytes),
			Vmaddr:       uint64(row.vmaddr),
			Vmsize:       uint64(row.vmsize),
			Fileoff:      uint64(row.fileoff),
			Filesize:     uint64(row.filesize),
			FirstSection: uint64(row.first_section),
			SectionCount: uint32(row.section_count),
			Maxprot:      uint32(row.maxprot),
			Initprot:     uint32(row.initprot),
		}
	}
	return segments
}

// A Section is a section_64.
type Section struct {
	// Name is the name of the section, such as "__text", and Segment the name of its segment.
	Name, Segment []byte
	// Bytes are all Size bytes from Offset on, or empty if the section is ZeroFill.
	Bytes      []byte
	Addr, Size uint64
	// Offset is any number if Size is 0 or it is ZeroFill.
	Offset uint32
	// Align is the exponent of a power of 2. It is not judged, and may be any number. Reloff is any number if Nreloc is 0.
	Align, Reloff, Nreloc, Flags, Reserved1, Reserved2 uint32
	// ZeroFill says that a loader fills the section with zeros.
	ZeroFill bool
}

// Sections returns the sections of all segments, in command order.
func (image *Image) Sections() []Section {
	rows := readTable[sectionRow](image, sectionTable, image.numbers.section_count)
	sections := make([]Section, len(rows))
	for index, row := range rows {
		sections[index] = Section{
			Name:      image.part(row.name),
			Segment:   image.part(row.segment),
			Bytes:     image.part(row.bytes),
			Addr:      uint64(row.addr),
			Size:      uint64(row.size),
			Offset:    uint32(row.offset),
			Align:     uint32(row.align),
			Reloff:    uint32(row.reloff),
			Nreloc:    uint32(row.nreloc),
			Flags:     uint32(row.flags),
			Reserved1: uint32(row.reserved1),
			Reserved2: uint32(row.reserved2),
			ZeroFill:  row.zero_fill != 0,
		}
	}
	return sections
}

// A Library is a dylib_command: a library that the image loads, or what it is as one.
type Library struct {
	// Name is the path of the library.
	Name []byte
	Cmd  uint32
	// Current and Compatible are versions X.Y.Z: X << 16 | Y << 8 | Z.
	Current, Compatible uint32
}

// Libraries returns the libraries that the image loads, in command order: each LC_LOAD_DYLIB, LC_LOAD_WEAK_DYLIB,
// LC_REEXPORT_DYLIB, LC_LAZY_LOAD_DYLIB and LC_LOAD_UPWARD_DYLIB. The image's own LC_ID_DYLIB is in ID.
func (image *Image) Libraries() []Library {
	rows := readTable[libraryRow](image, libraryTable, image.numbers.library_count)
	libraries := make([]Library, len(rows))
	for index := range rows {
		libraries[index] = image.newLibrary(&rows[index])
	}
	return libraries
}

func (image *Image) newLibrary(row *libraryRow) Library {
	return Library{image.part(row.name), uint32(row.cmd), uint32(row.current), uint32(row.compatible)}
}

// A Build is an LC_BUILD_VERSION, or a command that names the least version of a platform, by its Cmd:
// LC_VERSION_MIN_MACOSX (0x24), LC_VERSION_MIN_IPHONEOS (0x25), LC_VERSION_MIN_TVOS (0x2f) or LC_VERSION_MIN_WATCHOS
// (0x30). In the last three Platform names the device, also in an image for its simulator. Minos and SDK are versions
// X.Y.Z: X << 16 | Y << 8 | Z.
type Build struct {
	Platform, Minos, SDK, Cmd uint32
}

// Builds returns the platforms that the image was built for, in command order. A command that names the least version
// of a platform is among them if it has at least 16 bytes.
func (image *Image) Builds() []Build {
	rows := readTable[buildRow](image, buildTable, image.numbers.build_count)
	builds := make([]Build, len(rows))
	for index, row := range rows {
		builds[index] = Build{uint32(row.platform), uint32(row.minos), uint32(row.sdk), uint32(row.cmd)}
	}
	return builds
}

// A Command is a load_command.
type Command struct {
	// Bytes are all cmdsize bytes.
	Bytes []byte
	// Name is the name of a library, a run path or a dynamic linker. In all other commands it is empty.
	Name []byte
	// Place is where the command begins in the image.
	Place uint64
	Cmd   uint32
}

// Commands returns all load commands. In a command that rules/layout.md does not list, all fields past cmdsize are
// unchecked.
func (image *Image) Commands() []Command {
	rows := readTable[commandRow](image, commandTable, image.numbers.command_count)
	commands := make([]Command, len(rows))
	for index, row := range rows {
		place := uint64(row.bytes.offset) - image.Place
		commands[index] = Command{image.part(row.bytes), image.part(row.name), place, uint32(row.cmd)}
	}
	return commands
}

// A Relocation is a relocation_info of <mach-o/reloc.h>. No rule judges its fields.
type Relocation struct {
	Address uint32
	// Symbolnum, below 2^24, is the index of a symbol if it is External, and otherwise the number of a section.
	Symbolnum uint32
	Pcrel     bool
	// 1 << Length bytes are relocated. Length is from 0 to 3, and Type from 0 to 15.
	Length, Type uint8
	External     bool
	// Scattered is the highest bit of Address, R_SCATTERED. In an image that is not for x86_64 it means a
	// scattered_relocation_info, whose fields are other bits.
	Scattered bool
}

// Relocations returns the relocations of a section of this image.
func (image *Image) Relocations(section *Section) []Relocation {
	rows := readRelocations(image, section.Reloff, section.Nreloc)
	relocations := make([]Relocation, len(rows))
	for index, row := range rows {
		relocations[index] = Relocation{
			Address:   uint32(row.address),
			Symbolnum: uint32(row.symbolnum),
			Pcrel:     row.pcrel != 0,
			Length:    uint8(row.length),
			Type:      uint8(row._type),
			External:  row.external != 0,
			Scattered: row.scattered != 0,
		}
	}
	return relocations
}

// A DataInCode is a data_in_code_entry. The linked profile judges its fields.
type DataInCode struct {
	// Bytes are the data, or empty if it does not all lie in the image.
	Bytes []byte
	// Offset is where the data begins in the image, and Length its size.
	Offset uint32
	Length uint16
	// Kind is a DICE_KIND constant, such as DICE_KIND_DATA, or any other number.
	Kind uint16
}

// FunctionStarts returns the addresses of functions, before any slide, by the first LC_FUNCTION_STARTS. They ascend,
// and end before a number 0 of its data, a number that does not end in it, and an address of 2^64 or more. An image
// without a base has no starts. In a file that the linked profile accepts, each start is the address of a byte of the
// file. In any other file a start can be in no segment.
func (image *Image) FunctionStarts() []uint64 {
	rows := readUncounted[functionStartRow](image, functionStartTable)
	starts := make([]uint64, len(rows))
	for index, row := range rows {
		starts[index] = uint64(row)
	}
	return starts
}

// DataInCode returns the data in the code, by the whole entries of the first LC_DATA_IN_CODE, which can be in any order,
// and overlap. In a file that the linked profile accepts the bytes of each are in one executable segment. In any other
// they can be of no code.
func (image *Image) DataInCode() []DataInCode {
	rows := readUncounted[dataInCodeRow](image, dataInCodeTable)
	data := make([]DataInCode, len(rows))
	for index, row := range rows {
		data[index] = DataInCode{image.part(row.bytes), uint32(row.offset), uint16(row.length), uint16(row.kind)}
	}
	return data
}

// An Export is what an image offers to others under a name. Only the linked profile judges its fields.
type Export struct {
	// Flags are bits of EXPORT_SYMBOL_FLAGS_.., or any other number. With EXPORT_SYMBOL_FLAGS_KIND_MASK it is a regular
	// symbol, a thread-local one or an absolute one.
	Flags uint64
	// Address is before any slide, and can be in no segment. It is 0 in a re-export (EXPORT_SYMBOL_FLAGS_REEXPORT).
	Address uint64
	// Resolver is the address of the function that finds the one to call, if the flags have
	// EXPORT_SYMBOL_FLAGS_STUB_AND_RESOLVER. Address is then the address of a stub. Resolver is 0 in all other exports.
	Resolver uint64
	// Ordinal is which of the Libraries has the symbol of a re-export, counted from 1 on, or any other number. It is 0 in
	// all other exports.
	Ordinal uint64
	// Name is the name of a re-export in its library, empty if it is the same. It is empty in all other exports.
	Name []byte
}

// FindExport returns what the image exports under this name, as a dynamic loader looks it up in the export trie of
// LC_DYLD_EXPORTS_TRIE, LC_DYLD_INFO or LC_DYLD_INFO_ONLY. It is not ok if the image does not export the name, or if
// the bytes on the way to it are not a well-formed trie. Only the linked profile judges the trie. Each call rescans the
// load commands.
func (image *Image) FindExport(name string) (export Export, ok bool) {
	row, ok := findExport(image, name)
	if !ok {
		return Export{}, false
	}
	return newExport(image, &row), true
}

func newExport(image *Image, row *exportRow) Export {
	return Export{
		Flags:    uint64(row.flags),
		Address:  uint64(row.address),
		Resolver: uint64(row.resolver),
		Ordinal:  uint64(row.ordinal),
		Name:     image.part(row.name),
	}
}

// Indirects returns the indirect entries. Each is the index of a symbol, or INDIRECT_SYMBOL_LOCAL (0x80000000),
// INDIRECT_SYMBOL_ABS (0x40000000) or both.
func (image *Image) Indirects() []uint32 {
	rows := readTable[indirectRow](image, indirectTable, image.numbers.indirect_count)
	indirects := make([]uint32, len(rows))
	for index, row := range rows {
		indirects[index] = uint32(row)
	}
	return indirects
}
