package kesvuot

// A Symbol is an nlist_64. The methods Name, OtherName and LibraryOf of its Image say more of it.
type Symbol struct {
	// Value is the address of a symbol that is defined in a section. In an indirect symbol it is an offset in the strings.
	Value uint64
	// Strx is 0 if the symbol has no name.
	Strx uint32
	// Desc is n_desc, and Type n_type. The methods of the symbol decode them.
	Desc uint16
	Type uint8
	// Sect is n_sect, the number of a section, from 1 on. Do not subtract 1 from it: it is 0 (NO_SECT) if the symbol is in
	// no section, and may be past the last section, such as in a debugging entry (N_STAB).
	Sect uint8
	// Section is the index in Sections of the section with the number Sect, whatever the Type is, or -1 without one.
	// The symbol is defined in that section only if its Kind is SectionSymbol: then this is always an index.
	Section int
}

// A SymbolKind is what a symbol is, by N_TYPE of its Type.
type SymbolKind uint8

const (
	// OtherSymbol has a type that <mach-o/nlist.h> does not name.
	OtherSymbol SymbolKind = iota
	// DebuggingSymbol is an entry for debuggers (N_STAB). Its Type says which, and no other bit of it means anything.
	DebuggingSymbol
	// UndefinedSymbol is defined in another image (N_UNDF), or in none.
	UndefinedSymbol
	// PreboundSymbol is undefined too, and was bound before (N_PBUD).
	PreboundSymbol
	// AbsoluteSymbol has a value that no slide changes (N_ABS).
	AbsoluteSymbol
	// SectionSymbol is defined in a section (N_SECT).
	SectionSymbol
	// IndirectSymbol stands for the symbol whose name is its OtherName (N_INDR).
	IndirectSymbol
)

// String returns a word for the kind, such as "undefined".
func (kind SymbolKind) String() string {
	switch kind {
	case DebuggingSymbol:
		return "debugging"
	case UndefinedSymbol:
		return "undefined"
	case PreboundSymbol:
		return "prebound"
	case AbsoluteSymbol:
		return "absolute"
	case SectionSymbol:
		return "section"
	case IndirectSymbol:
		return "indirect"
	default:
		return "other"
	}
}

// Kind returns what the symbol is.
func (symbol Symbol) Kind() SymbolKind {
	if symbol.Type&N_STAB != 0 {
		return DebuggingSymbol
	}
	switch symbol.Type & N_TYPE {
	case N_UNDF:
		return UndefinedSymbol
	case N_PBUD:
		return PreboundSymbol
	case N_ABS:
		return AbsoluteSymbol
	case N_SECT:
		return SectionSymbol
	case N_INDR:
		return IndirectSymbol
	default:
		return OtherSymbol
	}
}

// isDefined returns whether the image defines the symbol. Otherwise the upper byte of Desc is the ordinal of a library.
func (symbol Symbol) isDefined() bool {
	kind := symbol.Kind()
	return kind == AbsoluteSymbol || kind == SectionSymbol || kind == IndirectSymbol
}

// isUndefined returns whether another image defines the symbol.
func (symbol Symbol) isUndefined() bool {
	kind := symbol.Kind()
	return kind == UndefinedSymbol || kind == PreboundSymbol
}

// IsExternal returns whether other images see the symbol, or define it (N_EXT). No debugging entry is external.
func (symbol Symbol) IsExternal() bool {
	return symbol.Kind() != DebuggingSymbol && symbol.Type&N_EXT != 0
}

// IsPrivate returns whether the symbol was external, and a linker has made it private (N_PEXT).
func (symbol Symbol) IsPrivate() bool {
	return symbol.Kind() != DebuggingSymbol && symbol.Type&N_PEXT != 0
}

// IsWeakReference returns whether the symbol is undefined, and may be missing when the image is loaded (N_WEAK_REF).
func (symbol Symbol) IsWeakReference() bool {
	return symbol.isUndefined() && symbol.Desc&N_WEAK_REF != 0
}

// IsWeakDefinition returns whether the symbol is defined, and another definition can take its place (N_WEAK_DEF).
func (symbol Symbol) IsWeakDefinition() bool {
	return symbol.isDefined() && symbol.Desc&N_WEAK_DEF != 0
}

// IsAlternateEntry returns whether the symbol is an entry in the middle of what the symbol before it names
// (N_ALT_ENTRY).
func (symbol Symbol) IsAlternateEntry() bool {
	return symbol.Kind() == SectionSymbol && symbol.Desc&N_ALT_ENTRY != 0
}

// A SymbolLibrary says where a dynamic loader looks a symbol up: the index of a library in Libraries, or one of the
// negative numbers below.
type SymbolLibrary int

const (
	// ThisImage is the image itself (SELF_LIBRARY_ORDINAL).
	ThisImage SymbolLibrary = -1
	// DynamicLookup is any image (DYNAMIC_LOOKUP_ORDINAL).
	DynamicLookup SymbolLibrary = -2
	// Executable is the program that loads the image (EXECUTABLE_ORDINAL).
	Executable SymbolLibrary = -3
)

// LibraryOf returns where a symbol of this image is looked up. It is not ok if the symbol is not undefined, or if the
// image is not two-level (MH_TWOLEVEL): then each image may define the symbol. In a file that the linked profile
// accepts the library exists. In any other the index can be past the last.
func (image *Image) LibraryOf(symbol Symbol) (library SymbolLibrary, ok bool) {
	isCommon := symbol.Kind() == UndefinedSymbol && symbol.Value != 0
	if image.Flags&MH_TWOLEVEL == 0 || !symbol.isUndefined() || isCommon {
		return 0, false
	}
	switch ordinal := symbol.Desc >> 8; ordinal {
	case SELF_LIBRARY_ORDINAL:
		return ThisImage, true
	case DYNAMIC_LOOKUP_ORDINAL:
		return DynamicLookup, true
	case EXECUTABLE_ORDINAL:
		return Executable, true
	default:
		return SymbolLibrary(ordinal) - 1, true
	}
}

// Symbols returns all symbols, in the order of the table. Each takes 24 bytes.
func (image *Image) Symbols() []Symbol {
	return image.symbols(0, uint64(image.numbers.symbol_count))
}

// LocalSymbols returns the local symbols of LC_DYSYMTAB, none without it.
func (image *Image) LocalSymbols() []Symbol { return image.group(0) }

// DefinedSymbols returns the defined external symbols of LC_DYSYMTAB.
func (image *Image) DefinedSymbols() []Symbol { return image.group(2) }

// UndefinedSymbols returns the undefined symbols of LC_DYSYMTAB.
func (image *Image) UndefinedSymbols() []Symbol { return image.group(4) }

// group returns the group whose first index is here in the groups, and its count after it.
func (image *Image) group(at int) []Symbol {
	return image.symbols(uint64(image.numbers.groups[at]), uint64(image.numbers.groups[at+1]))
}

func (image *Image) symbols(first, count uint64) []Symbol {
	cursor := symbolCursor(first)
	rows := readRows[symbolRow](image, symbolTable, &cursor, count)
	symbols := make([]Symbol, len(rows))
	for index := range rows {
		symbols[index] = newSymbol(&rows[index])
	}
	return symbols
}

// Name returns the name of a symbol of this image. It is empty if Strx is 0. The call searches for the end of the name.
// In a hostile file many symbols can share a long name: to look up all of them takes time in proportion to
// Nsyms * Strsize. To list all in linear time, add up the lengths of the names, and stop when the sum is more than
// 4 * Strsize.
func (image *Image) Name(symbol Symbol) []byte { return readName(image, symbol.Strx) }

// Names returns the names of symbols, as Name returns each, in less time. Hostile files are as slow as with Name: pass
// few symbols at once.
func (image *Image) Names(symbols []Symbol) [][]byte {
	names := make([][]byte, 0, len(symbols))
	for len(symbols) > 0 {
		some := symbols
		if len(some) > batch {
			some = some[:batch]
		}
		for _, name := range readNames(image, some) {
			names = append(names, image.part(name))
		}
		symbols = symbols[len(some):]
	}
	return names
}

// OtherName returns the name of the symbol for which an IndirectSymbol of this image stands, by the offset in the
// strings that is its Value. All other symbols have none.
func (image *Image) OtherName(symbol Symbol) []byte {
	if symbol.Kind() != IndirectSymbol || symbol.Value >= 1<<32 {
		return nil
	}
	return readName(image, uint32(symbol.Value))
}

// Symbol returns the symbol with this index in the table. It is not ok past the last one.
func (image *Image) Symbol(index uint64) (symbol Symbol, ok bool) {
	cursor := symbolCursor(index)
	rows := readRows[symbolRow](image, symbolTable, &cursor, 1)
	if len(rows) == 0 {
		return Symbol{Section: -1}, false
	}
	return newSymbol(&rows[0]), true
}

// SymbolAt returns the nearest symbol of a section at or before an address, before any slide, that is not a debugging
// entry; of several at one address the last in the table. It is not ok if no symbol begins at or before the address.
// The symbol may be of another section than the address, or end before it: the format has no sizes of symbols. The
// first call sorts the symbols, and keeps 4 bytes for each.
func (image *Image) SymbolAt(address uint64) (symbol Symbol, ok bool) {
	image.sorting.Do(func() { image.index = readIndex(image) })
	row, ok := findSymbol(image, image.index, address)
	if !ok {
		return Symbol{Section: -1}, false
	}
	return newSymbol(&row), true
}

// SymbolNamed returns the first symbol in the table with this name that is not a debugging entry. It need not be defined
// in the image. It is not ok without one. Each call reads all symbols: for many names, read Symbols once.
func (image *Image) SymbolNamed(name string) (symbol Symbol, ok bool) {
	row, ok := findName(image, name)
	if !ok {
		return Symbol{Section: -1}, false
	}
	return newSymbol(&row), true
}

func newSymbol(row *symbolRow) Symbol {
	section := -1
	if row.section != noSection {
		section = int(row.section)
	}
	return Symbol{
		Value:   uint64(row.value),
		Strx:    uint32(row.strx),
		Desc:    uint16(row.desc),
		Type:    uint8(row._type),
		Sect:    uint8(row.sect),
		Section: section,
	}
}
