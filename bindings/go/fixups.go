package kesvuot

// A Fixup is a pointer of 8 bytes that a dynamic loader writes. Only the linked profile judges it.
type Fixup struct {
	// Address is where the pointer is, before any slide.
	Address uint64
	// Segment is the index of its segment in Segments. Offset is how far the pointer is from the start of the segment,
	// and of the bytes of the segment, which have all of it.
	Segment uint32
	Offset  uint64
	// IsBind says that the address of an import is written. Otherwise it is an address of the image itself.
	IsBind bool
	// Target is that address of the image, before any slide. A bind has 0.
	Target uint64
	// Import is the index in Imports of what is bound, and Addend is all that is added to the address that is found, with
	// the addend of the import. Both are 0 unless IsBind. In a file that the linked profile refuses, Import can be past
	// the last of Imports: test it.
	Import uint64
	Addend int64
	// Authentication says how the pointer is signed. It is nil if it is not.
	Authentication *Authentication
}

// An Authentication is how a pointer is signed. (arm64e)
type Authentication struct {
	// Key is 0 to 3: IA, IB, DA, DB.
	Key uint8
	// Diversity is a number with which the pointer is signed.
	Diversity uint16
	// HasAddressDiversity says that it is signed with its own address too.
	HasAddressDiversity bool
}

// An Import is what pointers are bound to. Only the linked profile judges it.
type Import struct {
	// Name is the name of the symbol.
	Name []byte
	// Library is the one that has it, from 1 on in the order of Libraries. 0 is the image itself, -1 the program, -2
	// all images in their order, and -3 all images, whose weak definitions count as one.
	Library int64
	// Addend is added to the address that is found.
	Addend int64
	// IsWeak says that the name need not be found.
	IsWeak bool
}

// Fixups iterates over the pointers that a dynamic loader writes, in the order in which it writes them. The tables are
// slices, but opcodes can ask for far more pointers than the file has bytes. These are the names that are bound, in a
// file that the linked profile accepts:
//
//	imports := image.Imports()
//	for fixups := image.Fixups(); fixups.Next(); {
//		if fixup := fixups.Fixup(); fixup.IsBind {
//			name := imports[fixup.Import].Name
//		}
//	}
type Fixups struct {
	image  *Image
	cursor fixupCursor
	rows   []fixupRow
	fixup  Fixup
	isLast bool
}

// Fixups iterates over the pointers that a dynamic loader writes: by LC_DYLD_CHAINED_FIXUPS if the image has that
// command, otherwise by the opcodes of LC_DYLD_INFO or LC_DYLD_INFO_ONLY. In a file that the linked profile accepts, no
// pointer that these commands ask for is left out, each bind has its import, and there are fewer pointers than the file
// has bytes. In any other, kesvuot.h says at kesvuot_read_fixups where they end. There can be 2^64 of them, and the
// index of an import can be past the last.
func (image *Image) Fixups() *Fixups { return &Fixups{image: image} }

// Next goes on to the next pointer. It returns false past the last one.
func (fixups *Fixups) Next() bool {
	if len(fixups.rows) == 0 && !fixups.isLast {
		fixups.rows = readFixups(fixups.image, &fixups.cursor, batch)
		fixups.isLast = len(fixups.rows) < batch
	}
	if len(fixups.rows) == 0 {
		return false
	}
	fixups.fixup = newFixup(&fixups.rows[0])
	fixups.rows = fixups.rows[1:]
	return true
}

// Fixup returns the pointer to which Next went.
func (fixups *Fixups) Fixup() Fixup { return fixups.fixup }

func newFixup(row *fixupRow) Fixup {
	fixup := Fixup{
		Address: uint64(row.address),
		Segment: uint32(row.segment),
		Offset:  uint64(row.offset),
		IsBind:  row.kind == bindKind,
		Target:  uint64(row.target),
		Import:  uint64(row._import),
		Addend:  int64(row.addend),
	}
	if row.authenticated != 0 {
		fixup.Authentication = &Authentication{uint8(row.key), uint16(row.diversity), row.address_diversity != 0}
	}
	return fixup
}

// Imports returns what the binds among the Fixups are bound to. Chained fixups have a table of them. Each opcode that
// binds pointers has a row, so two rows can have the same name.
func (image *Image) Imports() []Import {
	rows := readImports(image)
	imports := make([]Import, len(rows))
	for index, row := range rows {
		imports[index] = Import{image.part(row.name), int64(row.library), int64(row.addend), row.weak != 0}
	}
	return imports
}
