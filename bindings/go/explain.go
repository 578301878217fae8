package kesvuot

import "fmt"

// A PartKind says what a Part is. kesvuot.h explains each kind by its number, and what its index counts.
type PartKind uint32

// The kinds of parts. NoPart is the kind of an empty Part: its Index is NoIndex, and its other fields are 0.
const (
	// registry: parts
	NoPart          PartKind = 0
	WholeFile       PartKind = 1
	Magic           PartKind = 2
	FatHeader       PartKind = 3
	FatTable        PartKind = 4
	FatArch         PartKind = 5
	SliceBytes      PartKind = 6
	Header          PartKind = 7
	Headers         PartKind = 8
	LoadCommand     PartKind = 9
	SegmentBytes    PartKind = 10
	SegmentMemory   PartKind = 11
	SectionHeader   PartKind = 12
	SectionBytes    PartKind = 13
	SectionMemory   PartKind = 14
	Relocations     PartKind = 15
	TableBytes      PartKind = 16
	SymbolGroup     PartKind = 17
	NameBytes       PartKind = 18
	SymbolEntry     PartKind = 19
	IndirectEntry   PartKind = 20
	Opcode          PartKind = 21
	OneByte         PartKind = 22
	ChainHeader     PartKind = 23
	ChainArray      PartKind = 24
	ChainEntry      PartKind = 25
	ChainStarts     PartKind = 26
	ChainImport     PartKind = 27
	PageStart       PartKind = 28
	ChainPointer    PartKind = 29
	FunctionStart   PartKind = 30
	DataEntry       PartKind = 31
	DataBytes       PartKind = 32
	ExportNode      PartKind = 33
	SignatureEntry  PartKind = 34
	SignatureBlob   PartKind = 35
	RelocationEntry PartKind = 36
	CodePage        PartKind = 37
	CodeHash        PartKind = 38
	// registry: end
)

// The names of the kinds, by their numbers.
var partNames = [...]string{
	// registry: names of parts
	"none", "file", "magic", "fat-header", "fat-table", "fat-arch", "slice", "header", "headers", "command", "segment",
	"segment-memory", "section", "section-bytes", "section-memory", "relocations", "table", "group", "name", "symbol",
	"indirect", "opcode", "byte", "chain-header", "chain-array", "chain-entry", "chain-starts", "chain-import",
	"page-start", "chain-pointer", "function-start", "data-in-code-entry", "data-in-code", "export-node",
	"signature-entry", "signature-blob", "relocation", "code-page", "code-hash",
	// registry: end
}

// String returns the name of the kind, as docs/reference/explain.md has it, such as "segment".
func (kind PartKind) String() string {
	if uint64(kind) < uint64(len(partNames)) {
		return partNames[kind]
	}
	return fmt.Sprintf("PartKind(%d)", uint32(kind))
}

// NoIndex stands for a missing index.
const NoIndex = 1<<32 - 1

// A Part is a structure, or what a structure describes. It lies where the file says, which can be past the file.
type Part struct {
	Kind PartKind
	// Index says which part of its kind it is, or is NoIndex.
	Index uint32
	// Start is its offset in the file; of memory its first address, and of a group its first index. Size is how many
	// bytes, addresses or indices it has.
	Start, Size uint64
	// Described is the offset in the file of the structure that describes it, which can be itself.
	Described uint64
}

// An Explanation says why a file is refused. docs/reference/explain.md has a table of what each rule gives.
type Explanation struct {
	// At is the structure that has the place, or the byte there. It lies in the file.
	At Part
	// First is what breaks the rule, and Second is what it conflicts with or should lie in.
	First, Second Part
	// Value and Limit are the numbers that the rule compares.
	Value, Limit uint64
	// Slice, Command, Section and Symbol are the indices of the slice, the load command, the section and the symbol that
	// have the place, or NoIndex.
	Slice, Command, Section, Symbol uint32
}

// Explain says why a profile refuses a file, which is not judged again. It returns false if it sees that other bytes
// were refused: no rule has the name, or nothing that the rule is about is at the place.
func Explain(file []byte, refused *Refused) (Explanation, bool) {
	return explain(file, refused)
}
