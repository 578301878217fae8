package kesvuot

// #cgo pkg-config: kesvuot
// #include <kesvuot.h>
//
// enum table {
//     SEGMENTS, SECTIONS, LIBRARIES, BUILDS, COMMANDS, SYMBOLS, INDIRECTS, FUNCTION_STARTS, DATA_IN_CODE, BLOBS
// };
//
// static size_t read_rows(enum table table, const void *file, size_t size, const struct kesvuot_image *image,
//                         struct kesvuot_cursor *cursor, void *rows, size_t max) {
//     switch (table) {
//     case SEGMENTS:
//         return kesvuot_read_segments(file, size, image, cursor, rows, max);
//     case SECTIONS:
//         return kesvuot_read_sections(file, size, image, cursor, rows, max);
//     case LIBRARIES:
//         return kesvuot_read_libraries(file, size, image, cursor, rows, max);
//     case BUILDS:
//         return kesvuot_read_builds(file, size, image, cursor, rows, max);
//     case COMMANDS:
//         return kesvuot_read_commands(file, size, image, cursor, rows, max);
//     case SYMBOLS:
//         return kesvuot_read_symbols(file, size, image, cursor, rows, max);
//     case FUNCTION_STARTS:
//         return kesvuot_read_function_starts(file, size, image, cursor, rows, max);
//     case DATA_IN_CODE:
//         return kesvuot_read_data_in_code(file, size, image, cursor, rows, max);
//     case BLOBS:
//         return kesvuot_read_blobs(file, size, image, cursor, rows, max);
//     default:
//         return kesvuot_read_indirects(file, size, image, cursor, rows, max);
//     }
// }
import "C"

import "unsafe"

// The major version of the library whose structures these are.
const major = 2

// LibraryVersion returns the version of the library that is linked.
func LibraryVersion() (major, minor, patch uint32) {
	version := uint32(C.kesvuot_version())
	return version >> 16, version >> 8 & 0xff, version & 0xff
}

// atLeastOne returns the bytes, or a byte that nobody reads if bytes is empty. Write an argument for C as &bytes[0] or
// &image.numbers in the call: then Go knows that C gets only this memory, and not what lies beside it.
func atLeastOne(bytes []byte) []byte {
	if len(bytes) == 0 {
		return make([]byte, 1)
	}
	return bytes
}

// checkVersion panics if the library has another major version, whose structures can differ from the ones here.
func checkVersion() {
	if found, _, _ := LibraryVersion(); found != major {
		panic("kesvuot: the library has another major version")
	}
}

func judge(file []byte, profile Profile) (*File, error) {
	checkVersion()
	bytes, size := atLeastOne(file), C.size_t(len(file))
	var verdict C.struct_kesvuot_verdict
	switch C.kesvuot_verify(unsafe.Pointer(&bytes[0]), size, C.uint32_t(profile), &verdict) {
	case C.KESVUOT_OK:
		return &File{bytes: file, sliceCount: int(verdict.slices)}, nil
	case C.KESVUOT_REFUSED:
		return nil, &Refused{Rule: ruleWith(verdict.rule), Place: uint64(verdict.place)}
	case C.KESVUOT_UNKNOWN_PROFILE:
		return nil, ErrProfile
	default:
		return nil, ErrMemory
	}
}

// String returns the name of the profile, such as "strict", or "" if no profile has the number.
func (profile Profile) String() string {
	var name C.struct_kesvuot_text
	C.kesvuot_find_profile(C.uint32_t(profile), &name)
	return C.GoStringN(name.at, C.int(name.size))
}

// Profile returns the profile that the rule belongs to, or 0 if the library has no such rule.
func (rule Rule) Profile() Profile {
	return Profile(C.kesvuot_rule_profile(rule.number()))
}

// ruleWith returns the rule with this number, whose name is a constant of the library, or "" if no rule has the number.
func ruleWith(number C.uint32_t) Rule {
	var name C.struct_kesvuot_text
	C.kesvuot_find_rule(number, &name)
	return Rule(C.GoStringN(name.at, C.int(name.size)))
}

// number returns the number of the rule, or 0 if the library has no such rule.
func (rule Rule) number() C.uint32_t {
	for number := C.uint32_t(1); ; number++ {
		switch ruleWith(number) {
		case "":
			return 0
		case rule:
			return number
		}
	}
}

func explain(file []byte, refused *Refused) (Explanation, bool) {
	checkVersion()
	bytes, size := atLeastOne(file), C.size_t(len(file))
	verdict := C.struct_kesvuot_verdict{place: C.uint64_t(refused.Place), rule: refused.Rule.number()}
	var found C.struct_kesvuot_explanation
	if C.kesvuot_explain(unsafe.Pointer(&bytes[0]), size, &verdict, &found) != C.KESVUOT_OK {
		return Explanation{}, false
	}
	return Explanation{
		At:      newPart(&found.at),
		First:   newPart(&found.first),
		Second:  newPart(&found.second),
		Value:   uint64(found.value),
		Limit:   uint64(found.limit),
		Slice:   uint32(found.slice),
		Command: uint32(found.command),
		Section: uint32(found.section),
		Symbol:  uint32(found.symbol),
	}, true
}

func newPart(part *C.struct_kesvuot_part) Part {
	return Part{
		Kind:      PartKind(part.kind),
		Index:     uint32(part.index),
		Start:     uint64(part.start),
		Size:      uint64(part.size),
		Described: uint64(part.described),
	}
}

// CommandName returns the name of the load commands with this cmd, such as "LC_SEGMENT_64", or "" if the library knows
// none.
func CommandName(cmd uint32) string {
	var name C.struct_kesvuot_text
	C.kesvuot_find_command(C.uint32_t(cmd), &name)
	return C.GoStringN(name.at, C.int(name.size))
}

// PlatformName returns the name of the platform of a build, such as "PLATFORM_MACOS", or "" if the library knows none.
func PlatformName(platform uint32) string {
	var name C.struct_kesvuot_text
	C.kesvuot_find_platform(C.uint32_t(platform), &name)
	return C.GoStringN(name.at, C.int(name.size))
}

// ArchName returns the name of an architecture, such as "arm64e", as LLVM's lipo prints it, or "" if the library knows
// none. The capability byte of the cpusubtype does not matter.
func ArchName(cpuType, cpuSubtype uint32) string {
	var name C.struct_kesvuot_text
	C.kesvuot_find_arch(C.uint32_t(cpuType), C.uint32_t(cpuSubtype), &name)
	return C.GoStringN(name.at, C.int(name.size))
}

// ArchNamed returns the numbers of the architecture with this name, for which ArchName has it. The subtype has no
// capability byte. It is not ok if the library knows no such architecture.
func ArchNamed(name string) (cpuType, cpuSubtype uint32, ok bool) {
	bytes := atLeastOne([]byte(name))
	var cputype, cpusubtype C.uint32_t
	status := C.kesvuot_arch_named(unsafe.Pointer(&bytes[0]), C.size_t(len(name)), &cputype, &cpusubtype)
	return uint32(cputype), uint32(cpusubtype), status == C.KESVUOT_OK
}

// Room for the layout of most files. A longer one takes a second call.
const layoutRoom = 1 << 14

func readLayout(file []byte) (string, error) {
	for room := C.size_t(layoutRoom); ; {
		text := make([]byte, room)
		var needed C.size_t
		status := C.kesvuot_layout(unsafe.Pointer(&file[0]), C.size_t(len(file)), (*C.char)(unsafe.Pointer(&text[0])),
			room, &needed)
		if status != C.KESVUOT_OK {
			_, err := judge(file, Layout)
			if err == nil {
				err = ErrMemory
			}
			return "", err
		}
		if needed <= room {
			return string(text[:needed]), nil
		}
		room = needed
	}
}

func readSlice(file []byte, index uint64) Slice {
	var numbers numbers
	status := C.kesvuot_read_image(unsafe.Pointer(&file[0]), C.size_t(len(file)), C.uint64_t(index), &numbers)
	slice := Slice{
		Bytes:      partOf(file, numbers.slice),
		Place:      uint64(numbers.slice.offset),
		CPUType:    uint32(numbers.cputype),
		CPUSubtype: uint32(numbers.cpusubtype),
	}
	if status == C.KESVUOT_OK {
		slice.Image = newImage(file, slice, &numbers)
	}
	return slice
}

// The structures of the library have no pointers.
type (
	numbers = C.struct_kesvuot_image
	cursor  = C.struct_kesvuot_cursor
	span    = C.struct_kesvuot_span

	segmentRow  = C.struct_kesvuot_segment
	sectionRow  = C.struct_kesvuot_section
	libraryRow  = C.struct_kesvuot_library
	buildRow    = C.struct_kesvuot_build
	commandRow  = C.struct_kesvuot_command
	symbolRow   = C.struct_kesvuot_symbol
	indirectRow = C.uint32_t

	relocationRow    = C.struct_kesvuot_relocation
	functionStartRow = C.uint64_t
	dataInCodeRow    = C.struct_kesvuot_data_in_code
	blobRow          = C.struct_kesvuot_blob
	directoryRow     = C.struct_kesvuot_code_directory

	exportRow     = C.struct_kesvuot_export
	exportNodeRow = C.struct_kesvuot_export_node
	exportEdgeRow = C.struct_kesvuot_export_edge

	fixupCursor = C.struct_kesvuot_fixup_cursor
	fixupRow    = C.struct_kesvuot_fixup
	importRow   = C.struct_kesvuot_import
)

const (
	hasUUID     = C.KESVUOT_HAS_UUID
	hasBase     = C.KESVUOT_HAS_BASE
	hasEntry    = C.KESVUOT_HAS_ENTRY
	hasSymtab   = C.KESVUOT_HAS_SYMTAB
	hasDysymtab = C.KESVUOT_HAS_DYSYMTAB
	hasID       = C.KESVUOT_HAS_ID
	noSection   = C.KESVUOT_NO_SECTION
	bindKind    = C.KESVUOT_BIND
)

// partOf returns the bytes of a span, without spare capacity: to append to them copies them.
func partOf(file []byte, span span) []byte {
	end := span.offset + span.size
	return file[span.offset:end:end]
}

// A table names the call that writes its rows.
type table = C.enum_table

const (
	segmentTable  = table(C.SEGMENTS)
	sectionTable  = table(C.SECTIONS)
	libraryTable  = table(C.LIBRARIES)
	buildTable    = table(C.BUILDS)
	commandTable  = table(C.COMMANDS)
	symbolTable   = table(C.SYMBOLS)
	indirectTable = table(C.INDIRECTS)

	functionStartTable = table(C.FUNCTION_STARTS)
	dataInCodeTable    = table(C.DATA_IN_CODE)
	blobTable          = table(C.BLOBS)
)

// readRows returns up to count of the next rows of a table. There are fewer if the bytes have changed.
func readRows[Row any](image *Image, table table, cursor *cursor, count uint64) []Row {
	if count == 0 {
		return nil
	}
	rows := make([]Row, count)
	written := C.read_rows(table, unsafe.Pointer(&image.file[0]), C.size_t(len(image.file)), &image.numbers, cursor,
		unsafe.Pointer(&rows[0]), C.size_t(count))
	return rows[:written]
}

// readTable returns all rows of a table that has count rows.
func readTable[Row any](image *Image, table table, count C.uint64_t) []Row {
	return readRows[Row](image, table, new(cursor), uint64(count))
}

// How many rows are read at once from a table whose length nothing says. Batches of any size cost the same.
const batch = 256

// readUncounted returns all rows of a table whose length nothing says.
func readUncounted[Row any](image *Image, table table) (all []Row) {
	var cursor cursor
	for {
		rows := readRows[Row](image, table, &cursor, batch)
		all = append(all, rows...)
		if len(rows) < batch {
			return all
		}
	}
}

// readFixups returns up to count of the next pointers that a loader writes.
func readFixups(image *Image, cursor *fixupCursor, count int) []fixupRow {
	rows := make([]fixupRow, count)
	written := C.kesvuot_read_fixups(unsafe.Pointer(&image.file[0]), C.size_t(len(image.file)), &image.numbers, cursor,
		&rows[0], C.size_t(count))
	return rows[:written]
}

// readImports returns all that the pointers are bound to.
func readImports(image *Image) (all []importRow) {
	var cursor fixupCursor
	for {
		rows := make([]importRow, batch)
		written := C.kesvuot_read_imports(unsafe.Pointer(&image.file[0]), C.size_t(len(image.file)), &image.numbers,
			&cursor, &rows[0], batch)
		all = append(all, rows[:written]...)
		if written < batch {
			return all
		}
	}
}

func symbolCursor(index uint64) cursor { return cursor{items: C.uint64_t(index)} }

func readName(image *Image, strx uint32) []byte {
	var name span
	C.kesvuot_symbol_name(unsafe.Pointer(&image.file[0]), C.size_t(len(image.file)), &image.numbers, C.uint32_t(strx),
		&name)
	return partOf(image.file, name)
}

// readNames returns where the names of symbols are. There is at least one symbol.
func readNames(image *Image, symbols []Symbol) []span {
	rows, names := make([]symbolRow, len(symbols)), make([]span, len(symbols))
	for index, symbol := range symbols {
		rows[index].strx = C.uint32_t(symbol.Strx)
	}
	C.kesvuot_read_names(unsafe.Pointer(&image.file[0]), C.size_t(len(image.file)), &image.numbers, &rows[0],
		C.size_t(len(rows)), &names[0], C.size_t(len(names)))
	return names
}

func readLinkedit(image *Image, cmd uint32) ([]byte, bool) {
	var data span
	status := C.kesvuot_find_data(unsafe.Pointer(&image.file[0]), C.size_t(len(image.file)), &image.numbers,
		C.uint32_t(cmd), &data)
	return partOf(image.file, data), status == C.KESVUOT_OK
}

// readRelocations returns the relocations from this place in the image on. There are fewer if they do not all lie in
// it.
func readRelocations(image *Image, reloff, nreloc uint32) []relocationRow {
	// No file has more.
	count := len(image.file) / 8
	if uint64(nreloc) < uint64(count) {
		count = int(nreloc)
	}
	if count == 0 {
		return nil
	}
	rows := make([]relocationRow, count)
	written := C.kesvuot_read_relocations(unsafe.Pointer(&image.file[0]), C.size_t(len(image.file)), &image.numbers,
		C.uint32_t(reloff), C.uint32_t(nreloc), new(cursor), &rows[0], C.size_t(count))
	return rows[:written]
}

func readBounded(image *Image, table Table) ([]byte, bool) {
	var found span
	status := C.kesvuot_find_table(unsafe.Pointer(&image.file[0]), C.size_t(len(image.file)), &image.numbers,
		C.uint32_t(table), &found)
	return partOf(image.file, found), status == C.KESVUOT_OK
}

func readSourceVersion(image *Image) (uint64, bool) {
	var version C.uint64_t
	status := C.kesvuot_find_source_version(unsafe.Pointer(&image.file[0]), C.size_t(len(image.file)), &image.numbers,
		&version)
	return uint64(version), status == C.KESVUOT_OK
}

func readThreadEntry(image *Image) (uint64, bool) {
	var entry C.uint64_t
	status := C.kesvuot_find_thread_entry(unsafe.Pointer(&image.file[0]), C.size_t(len(image.file)), &image.numbers,
		&entry)
	return uint64(entry), status == C.KESVUOT_OK
}

// readDirectory reads the bytes of a blob as a code directory. The spans of the row lie in the blob.
func readDirectory(blob []byte) (row directoryRow, ok bool) {
	bytes, size := atLeastOne(blob), C.size_t(len(blob))
	all := blobRow{bytes: span{size: C.uint64_t(len(blob))}}
	status := C.kesvuot_read_code_directory(unsafe.Pointer(&bytes[0]), size, &all, &row)
	return row, status == C.KESVUOT_OK
}

// readCDHash returns the hash of a blob that is a code directory.
func readCDHash(blob []byte) (hash CDHash, ok bool) {
	bytes, size := atLeastOne(blob), C.size_t(len(blob))
	all := blobRow{bytes: span{size: C.uint64_t(len(blob))}}
	var found C.struct_kesvuot_cdhash
	status := C.kesvuot_read_cdhash(unsafe.Pointer(&bytes[0]), size, &all, &found)
	for index, value := range found.digest {
		hash.digest[index] = byte(value)
	}
	hash.size = int(found.size)
	return hash, status == C.KESVUOT_OK
}

func readAt(image *Image, address uint64) Source {
	var found span
	status := C.kesvuot_find_address(unsafe.Pointer(&image.file[0]), C.size_t(len(image.file)), &image.numbers,
		C.uint64_t(address), &found)
	switch status {
	case C.KESVUOT_OK:
		return Source{Kind: FileBytes, Bytes: partOf(image.file, found)}
	case C.KESVUOT_ZERO:
		return Source{Kind: Zero}
	default:
		return Source{Kind: Unmapped}
	}
}

// An indexEntry is the index of a symbol.
type indexEntry = C.uint32_t

// readIndex returns the indices of the symbols whose value is an address, by ascending addresses. It returns nil if the
// index does not fit, because the bytes have changed since the verdict.
func readIndex(image *Image) []indexEntry {
	room := C.size_t(image.numbers.symbol_count)
	index := make([]indexEntry, room+1)
	count := C.kesvuot_index_symbols(unsafe.Pointer(&image.file[0]), C.size_t(len(image.file)), &image.numbers,
		&index[0], room)
	if count > room {
		return nil
	}
	return index[:count]
}

// findSymbol returns the nearest symbol at or before an address, by an index.
func findSymbol(image *Image, index []indexEntry, address uint64) (row symbolRow, ok bool) {
	if len(index) == 0 {
		return row, false
	}
	var at C.size_t
	status := C.kesvuot_find_symbol(unsafe.Pointer(&image.file[0]), C.size_t(len(image.file)), &image.numbers, &index[0],
		C.size_t(len(index)), C.uint64_t(address), &row, &at)
	return row, status == C.KESVUOT_OK
}

// findName returns the first symbol with a name.
func findName(image *Image, name string) (row symbolRow, ok bool) {
	bytes := atLeastOne([]byte(name))
	var number C.uint64_t
	status := C.kesvuot_find_name(unsafe.Pointer(&image.file[0]), C.size_t(len(image.file)), &image.numbers,
		unsafe.Pointer(&bytes[0]), C.size_t(len(name)), &row, &number)
	return row, status == C.KESVUOT_OK
}

// findExport returns what an image exports under a name.
func findExport(image *Image, name string) (row exportRow, ok bool) {
	bytes := atLeastOne([]byte(name))
	status := C.kesvuot_find_export(unsafe.Pointer(&image.file[0]), C.size_t(len(image.file)), &image.numbers,
		unsafe.Pointer(&bytes[0]), C.size_t(len(name)), &row)
	return row, status == C.KESVUOT_OK
}

// findExportTrie returns where the export trie of an image is.
func findExportTrie(image *Image) (trie span, ok bool) {
	status := C.kesvuot_find_export_trie(unsafe.Pointer(&image.file[0]), C.size_t(len(image.file)), &image.numbers, &trie)
	return trie, status == C.KESVUOT_OK
}

// readExportNode returns the node at an offset of an export trie.
func readExportNode(image *Image, trie span, offset uint64) (node exportNodeRow, ok bool) {
	status := C.kesvuot_read_export_node(unsafe.Pointer(&image.file[0]), C.size_t(len(image.file)), &image.numbers, &trie,
		C.uint64_t(offset), &node)
	return node, status == C.KESVUOT_OK
}

// readExportEdges returns the edges of a node of an export trie, and the offset past the last. It is not ok if one does
// not end in the trie.
func readExportEdges(image *Image, trie span, node *exportNodeRow) (edges []exportEdgeRow, end uint64, ok bool) {
	at, count := node.edges, int(node.edges.items)
	if count == 0 {
		return nil, uint64(at.place), true
	}
	edges = make([]exportEdgeRow, count)
	C.kesvuot_read_export_edges(unsafe.Pointer(&image.file[0]), C.size_t(len(image.file)), &trie, &at, &edges[0],
		C.size_t(count))
	return edges, uint64(at.place), at.items == 0
}

// placeIn returns where a part of the bytes begins in them, and whether it is a part of them. An empty part is never a
// part of them.
func placeIn(bytes, part []byte) (uint64, bool) {
	if len(part) == 0 || len(bytes) == 0 {
		return 0, false
	}
	place := uintptr(unsafe.Pointer(&part[0])) - uintptr(unsafe.Pointer(&bytes[0]))
	if place > uintptr(len(bytes)) || uintptr(len(bytes))-place < uintptr(len(part)) {
		return 0, false
	}
	return uint64(place), true
}
