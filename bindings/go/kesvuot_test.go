package kesvuot

import (
	"bytes"
	"debug/macho"
	"encoding/binary"
	"errors"
	"fmt"
	"os"
	"path/filepath"
	"reflect"
	"runtime"
	"strings"
	"sync"
	"syscall"
	"testing"
)

const real = "../../tests/real"

func readReal(t testing.TB, name string) []byte {
	t.Helper()
	file, err := os.ReadFile(filepath.Join(real, name))
	if err != nil {
		t.Fatal(err)
	}
	return file
}

func verified(t testing.TB, bytes []byte) *File {
	t.Helper()
	file, err := Verify(bytes, Layout)
	if err != nil {
		t.Fatal(err)
	}
	return file
}

// profiles returns all profiles.
func profiles() (all []Profile) {
	for profile := Layout; profile.String() != ""; profile++ {
		all = append(all, profile)
	}
	return all
}

// same compares what was found with what is wanted.
func same(t testing.TB, what string, found, wanted any) {
	t.Helper()
	if !reflect.DeepEqual(found, wanted) {
		t.Errorf("%s: found %v, wanted %v", what, found, wanted)
	}
}

func TestVersion(t *testing.T) {
	header, err := os.ReadFile("../c/kesvuot.h")
	if err != nil {
		t.Fatal(err)
	}
	major, minor, patch := LibraryVersion()
	wanted := fmt.Sprintf("#define KESVUOT_VERSION 0x%02x%02x%02x\n", major, minor, patch)
	if !bytes.Contains(header, []byte(wanted)) {
		t.Errorf("kesvuot.h does not have %q", wanted)
	}
}

func TestRefused(t *testing.T) {
	_, err := Verify(readReal(t, "program")[:12000], Layout)
	var refused *Refused
	if !errors.As(err, &refused) {
		t.Fatalf("found %v", err)
	}
	same(t, "a file that was cut", *refused, Refused{"segment-file", 0x198})
	same(t, "its text", err.Error(), "refused: segment-file at 0x198")
}

// changed returns a copy of a file, with another byte at a place.
func changed(file []byte, place int, value byte) []byte {
	file = append([]byte(nil), file...)
	file[place] = value
	return file
}

// Each file is accepted by the profiles before one, and refused by this one and those after it.
func TestProfiles(t *testing.T) {
	program, library := readReal(t, "program"), readReal(t, "library")
	// Of the two images of the library, which begin at no page, the first is not signed. The pages of the second have
	// 4096 bytes: the last begins at 0x4000, and ends where the signature begins, at 0x4060.
	images := verified(t, library).Images()
	unsigned, signed := images[0].Bytes, images[1].Bytes
	longer := append(readReal(t, "program"), "more"...)
	for _, trial := range []struct {
		what    string
		file    []byte
		profile Profile
		refused Refused
	}{
		{"nil", nil, Layout, Refused{"magic", 0}},
		{"no bytes", []byte{}, Layout, Refused{"magic", 0}},
		{"bytes after the end", longer, Strict, Refused{"stray-byte", 0x30f0}},
		// The bind stream begins at 0x3008. No opcode is 0xd0.
		{"an opcode that is not known", changed(program, 0x3008, 0xd0), Linked, Refused{"bind-opcode", 0x3008}},
		{"a program that is not signed", program, Sealed, Refused{"signature-missing", 0}},
		{"slices that begin at no page", library, Unambiguous, Refused{"fat-page", 8}},
		{"an image that is not signed", unsigned, Sealed, Refused{"signature-missing", 0}},
		// A constant in the first page, and a letter of a name in the last
		{"a changed first page", changed(signed, 0x2a8, signed[0x2a8]^2), Sealed, Refused{"signature-hash", 0}},
		{"a changed last page", changed(signed, 0x404a, signed[0x404a]^2), Sealed, Refused{"signature-hash", 0x4000}},
	} {
		for _, profile := range profiles() {
			var wanted error
			if profile >= trial.profile {
				wanted = &trial.refused
			}
			_, err := Verify(trial.file, profile)
			same(t, fmt.Sprintf("%s, %v", trial.what, profile), err, wanted)
		}
		same(t, "the profile of the rule, "+trial.what, trial.refused.Rule.Profile(), trial.profile)
	}
	_, err := Verify(signed, Sealed)
	same(t, "a signed image", err, nil)
}

func TestNoProfile(t *testing.T) {
	same(t, "all profiles", fmt.Sprint(profiles()), "[layout strict linked unambiguous sealed]")
	for _, none := range []Profile{0, Sealed + 1, 1<<32 - 1} {
		file, err := Verify(readReal(t, "program"), none)
		same(t, "a number of no profile", []any{file, err, none.String()}, []any{(*File)(nil), ErrProfile, ""})
	}
	for _, none := range []Rule{"", "no-rule"} {
		same(t, "the profile of no rule", none.Profile(), Profile(0))
	}
}

// The cells of the rows of a table that begin so, up to the last one.
func rowsOf(t *testing.T, page, start string) (rows [][]string) {
	t.Helper()
	text, err := os.ReadFile(page)
	if err != nil {
		t.Fatal(err)
	}
	for _, line := range strings.Split(string(text), "\n") {
		if cells := strings.Split(line, start); len(cells) > 1 {
			rows = append(rows, cells)
		}
	}
	return rows
}

func TestSentences(t *testing.T) {
	rows := rowsOf(t, "../../docs/rules/README.md", " | ")
	count := 0
	for _, cells := range rows {
		name := strings.Split(strings.TrimPrefix(cells[1], "["), "]")[0]
		if len(cells) == 4 && name != "Rule" {
			wanted := strings.ReplaceAll(strings.TrimSuffix(cells[3], " |"), "`", "")
			same(t, "the sentence of "+name, Rule(name).Sentence(), wanted)
			count++
		}
	}
	same(t, "the rules of docs/rules/README.md", count, len(sentences))
	same(t, "the sentence of no rule", Rule("no-rule").Sentence(), "")
}

func TestPartKinds(t *testing.T) {
	names := map[string]bool{}
	for kind, row := range rowsOf(t, "../../registry/parts.tsv", "\t")[1:] {
		same(t, "the number of a part", fmt.Sprint(kind), row[0])
		same(t, "the name of a part", PartKind(kind).String(), row[1])
		names[PartKind(kind).String()] = true
	}
	same(t, "the names of parts", len(names), int(CodeHash)+1)
	same(t, "a part of a newer library", fmt.Sprint(CodeHash+1), "PartKind(39)")
}

func TestExplain(t *testing.T) {
	// The LC_SEGMENT_64 of __DATA, whose bytes end past the file that was cut.
	cut := readReal(t, "program")[:12000]
	_, err := Verify(cut, Layout)
	var refused *Refused
	if !errors.As(err, &refused) {
		t.Fatalf("found %v", err)
	}
	found, ok := Explain(cut, refused)
	same(t, "whether it is explained", ok, true)
	segment := readSegment(cut, refused.Place)
	same(t, "the segment", found.First, Part{SegmentBytes, found.First.Index, segment.Offset, segment.Filesz, 0x198})
	same(t, "the command", found.At, Part{LoadCommand, found.Command, 0x198, uint64(segment.Len), 0x198})
	same(t, "the slice", found.Second, Part{SliceBytes, 0, 0, 12000, 0})
	same(t, "the end", []uint64{found.Value, found.Limit}, []uint64{segment.Offset + segment.Filesz, 12000})
	same(t, "the other indices", []uint32{found.Slice, found.Section, found.Symbol}, []uint32{0, NoIndex, NoIndex})
	for _, other := range []*Refused{{"section-file", 0x198}, {"no-rule", 0}, {"magic", 1}} {
		_, ok = Explain(cut, other)
		same(t, string(other.Rule), ok, false)
	}
	found, ok = Explain(nil, &Refused{"magic", 0})
	same(t, "no bytes", fmt.Sprint(found.At.Kind == Magic, found.At.Size, ok), "true 0 true")
}

// readSegment returns the fields of the segment at a place, as Go's own reader has them.
func readSegment(file []byte, place uint64) macho.Segment64 {
	var segment macho.Segment64
	if err := binary.Read(bytes.NewReader(file[place:]), binary.LittleEndian, &segment); err != nil {
		panic(err)
	}
	return segment
}

func TestLayout(t *testing.T) {
	for _, name := range []string{"program", "library"} {
		layout, err := verified(t, readReal(t, name)).Layout()
		same(t, name, layout, string(readReal(t, name+".layout")))
		same(t, name, err, nil)
	}
}

func TestLayoutOfChangedBytes(t *testing.T) {
	file := verified(t, readReal(t, "program"))
	file.Bytes()[0] = 0
	layout, err := file.Layout()
	same(t, "the layout", layout, "")
	same(t, "the error", err, error(&Refused{"magic", 0}))
}

// What Go's own reader says of the real files.

func TestParts(t *testing.T) {
	program := readReal(t, "program")
	plain, err := macho.NewFile(bytes.NewReader(program))
	if err != nil {
		t.Fatal(err)
	}
	images := verified(t, program).Images()
	same(t, "the images of the program", len(images), 1)
	compare(t, images[0], program, plain)

	library := readReal(t, "library")
	fat, err := macho.NewFatFile(bytes.NewReader(library))
	if err != nil {
		t.Fatal(err)
	}
	file := verified(t, library)
	same(t, "the slices of the library", file.SliceCount(), len(fat.Arches))
	for index, arch := range fat.Arches {
		slice := file.Slice(index)
		same(t, "its place", slice.Place, uint64(arch.Offset))
		same(t, "its bytes", slice.Bytes, library[arch.Offset:arch.Offset+arch.Size])
		compare(t, slice.Image, slice.Bytes, arch.File)
	}
}

func compare(t *testing.T, image *Image, file []byte, plain *macho.File) {
	t.Helper()
	same(t, "the bytes", image.Bytes, file)
	same(t, "the header", []uint32{image.CPUType, image.CPUSubtype, image.FileType, image.Flags},
		[]uint32{uint32(plain.Cpu), plain.SubCpu & 0xffffff, uint32(plain.Type), plain.Flags})
	compareCommands(t, image, plain)
	compareSegments(t, image, plain)
	compareSections(t, image, plain)
	compareSymbols(t, image, plain)
	compareTables(t, image)
}

func compareCommands(t *testing.T, image *Image, plain *macho.File) {
	t.Helper()
	commands := image.Commands()
	same(t, "how many commands", len(commands), len(plain.Loads))
	var imported []string
	for index, command := range commands {
		same(t, "the bytes of a command", command.Bytes, plain.Loads[index].Raw())
		same(t, "its cmd", command.Cmd, binary.LittleEndian.Uint32(command.Bytes))
		same(t, "its place", image.Bytes[command.Place:][:len(command.Bytes)], command.Bytes)
	}
	for _, library := range image.Libraries() {
		imported = append(imported, string(library.Name))
	}
	wanted, err := plain.ImportedLibraries()
	same(t, "the libraries", imported, wanted)
	same(t, "of them", err, nil)
	same(t, "whether it has a name as a library", image.ID() != nil, plain.Type == macho.TypeDylib)
	if id := image.ID(); id != nil {
		same(t, "its cmd", id.Cmd, uint32(0xd))
	}
}

func compareSegments(t *testing.T, image *Image, plain *macho.File) {
	t.Helper()
	var found, wanted []macho.SegmentHeader
	for _, segment := range image.Segments() {
		found = append(found, macho.SegmentHeader{
			Cmd: macho.LoadCmdSegment64, Len: 72 + 80*segment.SectionCount, Name: string(segment.Name),
			Addr: segment.Vmaddr, Memsz: segment.Vmsize, Offset: segment.Fileoff, Filesz: segment.Filesize,
			Maxprot: segment.Maxprot, Prot: segment.Initprot, Nsect: segment.SectionCount, Flag: 0,
		})
		same(t, "the bytes of a segment", segment.Bytes, image.Bytes[segment.Fileoff:segment.Fileoff+segment.Filesize])
		last, ok := segment.LastAddress()
		same(t, "its last address", last+1, segment.Vmaddr+segment.Vmsize)
		same(t, "whether it has one", ok, segment.Vmsize > 0)
	}
	for _, load := range plain.Loads {
		if segment, ok := load.(*macho.Segment); ok {
			header := segment.SegmentHeader
			header.Flag = 0
			wanted = append(wanted, header)
		}
	}
	same(t, "the segments", found, wanted)
}

func compareSections(t *testing.T, image *Image, plain *macho.File) {
	t.Helper()
	sections := image.Sections()
	same(t, "how many sections", len(sections), len(plain.Sections))
	for index, section := range sections {
		same(t, "a section", macho.SectionHeader{
			Name: string(section.Name), Seg: string(section.Segment), Addr: section.Addr, Size: section.Size,
			Offset: section.Offset, Align: section.Align, Reloff: section.Reloff, Nreloc: section.Nreloc, Flags: section.Flags,
		}, plain.Sections[index].SectionHeader)
		same(t, "whether it is zero-fill", section.ZeroFill, section.Flags&0xff == 1)
		if !section.ZeroFill {
			data, err := plain.Sections[index].Data()
			same(t, "its bytes", section.Bytes, data)
			same(t, "of them", err, nil)
		}
	}
}

func compareSymbols(t *testing.T, image *Image, plain *macho.File) {
	t.Helper()
	symbols := image.Symbols()
	found := []macho.Symbol{}
	for index, symbol := range symbols {
		found = append(found, macho.Symbol{
			Name: string(image.Name(symbol)), Type: symbol.Type, Sect: symbol.Sect, Desc: symbol.Desc, Value: symbol.Value})
		again, ok := image.Symbol(uint64(index))
		same(t, "a symbol by its index", again, symbol)
		same(t, "of it", ok, true)
	}
	same(t, "the symbols", found, plain.Symtab.Syms)
	for index, name := range image.Names(symbols) {
		same(t, "a name", string(name), found[index].Name)
	}
	dysymtab := plain.Dysymtab
	same(t, "the indirect entries",
		append([]uint32{}, image.Indirects()...), append([]uint32{}, dysymtab.IndirectSyms...))
	group := func(first, count uint32) []Symbol { return symbols[first:][:count] }
	same(t, "local symbols", image.LocalSymbols(), group(dysymtab.Ilocalsym, dysymtab.Nlocalsym))
	same(t, "defined symbols", image.DefinedSymbols(), group(dysymtab.Iextdefsym, dysymtab.Nextdefsym))
	same(t, "undefined symbols", image.UndefinedSymbols(), group(dysymtab.Iundefsym, dysymtab.Nundefsym))
}

// The header, by the texts beside the real program.

func TestHeader(t *testing.T) {
	image := verified(t, readReal(t, "program")).Images()[0]
	uuid, ok := image.UUID()
	same(t, "the UUID", fmt.Sprint(uuid, ok), "4C4C4435-5555-3144-A1CE-E5F04E5E6C2C true")
	base, ok := image.Base()
	same(t, "the base", fmt.Sprintf("%#x %v", base, ok), "0x100000000 true")
	entry, ok := image.Entry()
	same(t, "the entry", fmt.Sprintf("%#x %v", entry, ok), "0x100000440 true")
	same(t, "the builds", image.Builds(), []Build{{1, 11 << 16, 11 << 16, 0x32}})
	linker, ok := image.DynamicLinker()
	same(t, "the dynamic linker", fmt.Sprintf("%s %v", linker, ok), "/usr/lib/dyld true")
	same(t, "the run paths", image.RunPaths(), [][]byte(nil))
	same(t, "the libraries", image.Libraries(), []Library{{[]byte("/usr/lib/libdemo.dylib"), 0xc, 0x10203, 0x10200}})
	same(t, "how many symbols", image.Symtab().Nsyms, uint64(5))
}

func TestNames(t *testing.T) {
	same(t, "a command", CommandName(0x80000028), "LC_MAIN")
	same(t, "no command", CommandName(0x28), "")
	same(t, "a platform", PlatformName(1), "PLATFORM_MACOS")
	same(t, "no platform", PlatformName(0), "")
	same(t, "an architecture", ArchName(0x0100000c, 0x80000002), "arm64e")
	same(t, "no architecture", ArchName(0x0100000c, 7), "")
	cpuType, cpuSubtype, ok := ArchNamed("arm64e")
	same(t, "an architecture by its name", []any{cpuType, cpuSubtype, ok}, []any{uint32(0x0100000c), uint32(2), true})
	for _, name := range []string{"", "arm", "arm64e\x00"} {
		cpuType, cpuSubtype, ok = ArchNamed(name)
		same(t, "no architecture has the name", []any{cpuType, cpuSubtype, ok}, []any{uint32(0), uint32(0), false})
	}
	same(t, "constants", []string{CommandName(LC_MAIN), PlatformName(PLATFORM_MACOS), ArchName(CPU_TYPE_X86_64, 3)},
		[]string{"LC_MAIN", "PLATFORM_MACOS", "x86_64"})
}

func TestFilesByTheirPaths(t *testing.T) {
	path := filepath.Join(real, "program")
	file, err := VerifyFile(path, Strict)
	same(t, "a file", []any{file.Bytes(), err}, []any{readReal(t, "program"), error(nil)})
	folder := t.TempDir()
	none, text := filepath.Join(folder, "none"), filepath.Join(folder, "text")
	if err := os.WriteFile(text, []byte("no image"), 0o600); err != nil {
		t.Fatal(err)
	}
	_, err = VerifyFile(text, Strict)
	same(t, "no image", err, error(&Refused{"magic", 0}))
	_, err = VerifyFile(path, 0)
	same(t, "no profile", err, ErrProfile)
	_, err = VerifyFile(none, Layout)
	same(t, "no file", errors.Is(err, os.ErrNotExist), true)
	for _, limit := range []int64{8, 1 << 20} {
		data, err := readFile(text, limit)
		same(t, "a file of as many bytes", []any{string(data), err}, []any{"no image", error(nil)})
	}
	_, err = readFile(text, 7)
	same(t, "a long file", err.Error(), "read "+text+": more than 7 bytes")
	pipe := filepath.Join(folder, "pipe")
	if err := syscall.Mkfifo(pipe, 0o600); err != nil {
		t.Fatal(err)
	}
	for _, path := range []string{folder, pipe, os.DevNull} {
		_, err = VerifyFile(path, Layout)
		same(t, path, err.Error(), "read "+path+": not a regular file")
	}
}

// A file is read into memory that is made once.
func TestMemoryOfAFile(t *testing.T) {
	path := filepath.Join(t.TempDir(), "zeros")
	if err := os.WriteFile(path, make([]byte, 1<<24), 0o600); err != nil {
		t.Fatal(err)
	}
	var before, after runtime.MemStats
	runtime.ReadMemStats(&before)
	data, err := readFile(path, limit)
	runtime.ReadMemStats(&after)
	same(t, "a file of zeros", []any{len(data), err}, []any{1 << 24, error(nil)})
	if made := after.TotalAlloc - before.TotalAlloc; made > 1<<24+1<<16 {
		t.Errorf("%d bytes of memory for a file of %d", made, len(data))
	}
}

// nearest returns the nearest symbol at or before an address, by its definition in kesvuot.h.
func nearest(symbols []Symbol, address uint64) (found Symbol, ok bool) {
	found.Section = -1
	for _, symbol := range symbols {
		isAddress := symbol.Type&N_STAB == 0 && symbol.Type&N_TYPE == N_SECT
		if isAddress && symbol.Value <= address && (!ok || symbol.Value >= found.Value) {
			found, ok = symbol, true
		}
	}
	return found, ok
}

func compareLookups(t *testing.T, image *Image) {
	t.Helper()
	symbols := image.Symbols()
	for _, symbol := range symbols {
		for _, address := range []uint64{symbol.Value - 1, symbol.Value, symbol.Value + 1} {
			found, ok := image.SymbolAt(address)
			wanted, wantedOK := nearest(symbols, address)
			same(t, fmt.Sprintf("%#x", address), []any{found, ok}, []any{wanted, wantedOK})
		}
		name := string(image.Name(symbol))
		found, ok := image.SymbolNamed(name)
		same(t, name, []any{found, ok}, []any{symbol, true})
		_, ok = image.SymbolNamed(name + "?")
		same(t, "another name", ok, false)
	}
	_, ok := image.SymbolNamed("")
	same(t, "no name", ok, false)
}

// No two symbols of an image in the real files have one name, and no symbol there is a debugging entry.
func TestLookups(t *testing.T) {
	for _, name := range []string{"program", "library"} {
		for _, image := range verified(t, readReal(t, name)).Images() {
			compareLookups(t, image)
		}
	}
	image := verified(t, withSections([2]uint8{0x24, 1}, [2]uint8{1, 0}, [2]uint8{0xe, 2}, [2]uint8{0xf, 1})).Images()[0]
	found, ok := image.SymbolAt(1<<64 - 1)
	same(t, "the last of one address", []any{found.Type, ok}, []any{uint8(0xf), true})
	image = verified(t, withSections([2]uint8{0x24, 1})).Images()[0]
	_, ok = image.SymbolAt(1<<64 - 1)
	same(t, "a debugging entry alone", ok, false)
}

func TestAddresses(t *testing.T) {
	file := readReal(t, "program")
	image := verified(t, file).Images()[0]
	for _, wanted := range []struct {
		address uint64
		kind    SourceKind
		bytes   []byte
	}{
		{0x100000440, FileBytes, file[0x440:0x1000]},
		{0x100000fff, FileBytes, file[0xfff:0x1000]},
		{0x100002010, FileBytes, file[0x2010:0x3000]},
		{0, Zero, nil},
		{0xffffffff, Zero, nil},
		{0x1000030f0, Unmapped, nil},
		{1<<64 - 1, Unmapped, nil},
	} {
		same(t, fmt.Sprintf("%#x", wanted.address), image.At(wanted.address), Source{wanted.kind, wanted.bytes})
	}
	same(t, "the words", fmt.Sprint(FileBytes, Zero, Unmapped), "file zero unmapped")
}

func TestPlaces(t *testing.T) {
	library := readReal(t, "library")
	image := verified(t, library).Slice(1).Image
	for _, segment := range image.Segments() {
		place, ok := image.PlaceOf(segment.Name)
		same(t, "the place of a name", library[place:][:len(segment.Name)], segment.Name)
		same(t, "of it", ok, true)
	}
	place, ok := image.PlaceOf(image.Bytes[len(image.Bytes)-1:])
	same(t, "the last byte", fmt.Sprint(place, ok), fmt.Sprint(image.Place+uint64(len(image.Bytes))-1, true))
	for _, other := range [][]byte{nil, library[:1], library[image.Place-1:][:2], []byte("__TEXT"), image.Bytes[1:1]} {
		_, ok = image.PlaceOf(other)
		same(t, "other bytes", ok, false)
	}
}

func TestLinkedit(t *testing.T) {
	image := verified(t, readReal(t, "program")).Images()[0]
	for _, command := range image.Commands() {
		data, ok := image.Linkedit(command.Cmd)
		switch command.Cmd {
		case 0x1d, 0x26, 0x29, 0x80000033, 0x80000034:
			place := binary.LittleEndian.Uint32(command.Bytes[8:])
			size := binary.LittleEndian.Uint32(command.Bytes[12:])
			same(t, "the data of a command", append([]byte{}, data...), append([]byte{}, image.Bytes[place:][:size]...))
			same(t, "of it", ok, true)
		default:
			same(t, fmt.Sprintf("no data of %#x", command.Cmd), ok, false)
		}
	}
}

// The offsets of the fields of each table in its command, its cmds, and the size of an item, by <mach-o/loader.h>.
var bounded = []struct {
	table Table
	cmds  [2]uint32
	at    int
	size  uint32
}{
	{SymbolTable, [2]uint32{0x2, 0x2}, 8, 16}, {StringTable, [2]uint32{0x2, 0x2}, 16, 1},
	{ContentsTable, [2]uint32{0xb, 0xb}, 32, 8}, {ModuleTable, [2]uint32{0xb, 0xb}, 40, 56},
	{ReferenceTable, [2]uint32{0xb, 0xb}, 48, 4}, {IndirectTable, [2]uint32{0xb, 0xb}, 56, 4},
	{ExternalRelocationTable, [2]uint32{0xb, 0xb}, 64, 8}, {LocalRelocationTable, [2]uint32{0xb, 0xb}, 72, 8},
	{RebaseTable, [2]uint32{0x22, 0x80000022}, 8, 1}, {BindTable, [2]uint32{0x22, 0x80000022}, 16, 1},
	{WeakBindTable, [2]uint32{0x22, 0x80000022}, 24, 1}, {LazyBindTable, [2]uint32{0x22, 0x80000022}, 32, 1},
	{ExportTable, [2]uint32{0x22, 0x80000022}, 40, 1}, {EncryptedTable, [2]uint32{0x2c, 0x2c}, 8, 1},
}

// compareTables compares each table with the fields of the first command that has it. Other numbers name no table.
func compareTables(t *testing.T, image *Image) {
	t.Helper()
	for _, wanted := range bounded {
		var part []byte
		isThere := false
		for _, command := range image.Commands() {
			if !isThere && (command.Cmd == wanted.cmds[0] || command.Cmd == wanted.cmds[1]) {
				place := binary.LittleEndian.Uint32(command.Bytes[wanted.at:])
				count := binary.LittleEndian.Uint32(command.Bytes[wanted.at+4:])
				if count > 0 {
					part = image.Bytes[place:][:count*wanted.size]
				}
				isThere = true
			}
		}
		found, ok := image.Table(wanted.table)
		same(t, fmt.Sprint("table ", wanted.table), string(found), string(part))
		same(t, fmt.Sprint("whether there is a table ", wanted.table), ok, isThere)
	}
	for _, none := range []Table{0, 15, 1<<32 - 1} {
		_, ok := image.Table(none)
		same(t, "no table", ok, false)
	}
}

// words returns the bytes of 32-bit numbers.
func words(numbers ...uint32) []byte {
	var file bytes.Buffer
	_ = binary.Write(&file, binary.LittleEndian, numbers)
	return file.Bytes()
}

// An executable of LC_SEGMENT_64 with two empty sections, LC_SYMTAB, and symbols with the given types and sections.
func withSections(symbols ...[2]uint8) []byte {
	file := words(0xfeedfacf, 0x01000007, 3, 2, 2, 232+24, 0, 0, 0x19, 232)
	file = append(file, words(append(make([]uint32, 14), 2, 0)...)...)
	file = append(file, make([]byte, 160)...)
	file = append(file, words(2, 24, uint32(len(file))+24, uint32(len(symbols)), 0, 0)...)
	for _, symbol := range symbols {
		file = append(file, 0, 0, 0, 0, symbol[0], symbol[1])
		file = append(file, make([]byte, 10)...)
	}
	return file
}

func TestSectionsOfSymbols(t *testing.T) {
	// Types of <mach-o/nlist.h> and <mach-o/stab.h>.
	const nUndf, nAbs, nSect, nFun, nStsym = 0x0, 0x2, 0xe, 0x24, 0x26
	symbols := [][2]uint8{{nSect, 1}, {nSect, 2}, {nUndf, 0}, {nUndf, 2}, {nUndf, 3}, {nAbs, 255}, {nStsym, 0},
		{nStsym, 2}, {nFun, 3}, {nFun, 200}}
	wanted := []int{0, 1, -1, 1, -1, -1, -1, 1, -1, -1}
	image := verified(t, withSections(symbols...)).Images()[0]
	same(t, "how many sections", len(image.Sections()), 2)
	var found []int
	for index, symbol := range image.Symbols() {
		same(t, "a symbol", [2]uint8{symbol.Type, symbol.Sect}, symbols[index])
		found = append(found, symbol.Section)
	}
	same(t, "the sections", found, wanted)
}

// An executable with the given flags in its header, LC_SYMTAB, a symbol with the given type, description and value, and
// the strings "_a" at 1 and "_b" at 4.
func withSymbol(flags uint32, kind uint8, desc uint16, value uint64) []byte {
	file := words(0xfeedfacf, 0x01000007, 3, 2, 1, 24, flags, 0, 2, 24, 56, 1, 72, 7, 1)
	file = append(file, kind, 0, byte(desc), byte(desc>>8))
	return append(append(file, words(uint32(value), uint32(value>>32))...), "\x00_a\x00_b\x00"...)
}

func TestKindsOfSymbols(t *testing.T) {
	kinds := "undefined absolute other other other indirect prebound section"
	for kind := 0; kind < 256; kind++ {
		// Each bit that is not a part of a library's ordinal, and none of them.
		for _, desc := range []uint16{0, N_WEAK_REF, N_WEAK_DEF, N_ALT_ENTRY} {
			symbol := Symbol{Type: uint8(kind), Desc: desc}
			word, isDebugging := strings.Fields(kinds)[kind>>1&7], kind >= 0x20
			isUndefined := word == "undefined" || word == "prebound"
			isDefined := word == "absolute" || word == "section" || word == "indirect"
			if isDebugging {
				word, isUndefined, isDefined = "debugging", false, false
			}
			same(t, fmt.Sprintf("a symbol of the type %#x with %#x", kind, desc), fmt.Sprintln(
				symbol.Kind(), symbol.IsExternal(), symbol.IsPrivate(), symbol.IsWeakReference(),
				symbol.IsWeakDefinition(), symbol.IsAlternateEntry(),
			), fmt.Sprintln(
				word, kind&1 != 0 && !isDebugging, kind&16 != 0 && !isDebugging, isUndefined && desc == N_WEAK_REF,
				isDefined && desc == N_WEAK_DEF, word == "section" && desc == N_ALT_ENTRY))
		}
	}
}

func TestLibrariesOfSymbols(t *testing.T) {
	for _, trial := range []struct {
		flags   uint32
		kind    uint8
		desc    uint16
		value   uint64
		library SymbolLibrary
		ok      bool
	}{
		{MH_TWOLEVEL, N_UNDF | N_EXT, 0, 0, ThisImage, true},
		{MH_TWOLEVEL, N_UNDF | N_EXT, 1<<8 | N_WEAK_REF, 0, 0, true},
		{MH_TWOLEVEL, N_PBUD | N_EXT, 0xfd << 8, 5, 0xfc, true},
		{MH_TWOLEVEL, N_UNDF | N_EXT, 0xfe << 8, 0, DynamicLookup, true},
		{MH_TWOLEVEL, N_UNDF | N_EXT, 0xff << 8, 0, Executable, true},
		{MH_TWOLEVEL, N_UNDF | N_EXT, 1 << 8, 5, 0, false},
		{MH_TWOLEVEL, N_ABS | N_EXT, 1 << 8, 0, 0, false},
		{MH_TWOLEVEL, 0x20, 1 << 8, 0, 0, false},
		{0, N_UNDF | N_EXT, 1 << 8, 0, 0, false},
	} {
		image := verified(t, withSymbol(trial.flags, trial.kind, trial.desc, trial.value)).Images()[0]
		library, ok := image.LibraryOf(image.Symbols()[0])
		same(t, fmt.Sprintf("the library of %v", trial), []any{library, ok}, []any{trial.library, trial.ok})
	}
}

func TestOtherNames(t *testing.T) {
	for _, trial := range []struct {
		kind  uint8
		value uint64
		name  string
	}{
		{N_INDR | N_EXT, 4, "_b"}, {N_INDR, 5, "b"}, {N_INDR, 0, ""}, {N_INDR, 7, ""}, {N_INDR, 1<<32 + 4, ""}, {N_ABS, 4, ""},
	} {
		image := verified(t, withSymbol(0, trial.kind, 0, trial.value)).Images()[0]
		symbol := image.Symbols()[0]
		same(t, fmt.Sprintf("the names of %v", trial), []string{string(image.Name(symbol)), string(image.OtherName(symbol))},
			[]string{"_a", trial.name})
	}
}

// An executable of commands that rules/layout.md does not list, and one of them is too short.
func TestVersions(t *testing.T) {
	image := verified(t, words(0xfeedfacf, 0x01000007, 3, 2, 6, 16+16+8+16+16+8, 0, 0,
		0x24, 16, 0xa0e00, 0xa0f00, 0x30, 16, 0x20100, 0x30000, 0x25, 8, 0x2f, 16, 9<<16, 10<<16,
		0x2a, 16, 5|4<<10|3<<20|2<<30, 1<<8, 0x2a, 8)).Images()[0]
	same(t, "the builds", image.Builds(),
		[]Build{{1, 0xa0e00, 0xa0f00, 0x24}, {4, 0x20100, 0x30000, 0x30}, {3, 9 << 16, 10 << 16, 0x2f}})
	version, ok := image.SourceVersion()
	same(t, "the version of the sources", fmt.Sprint(version, ok), "[1 2 3 4 5] true")
	image = verified(t, words(0xfeedfacf, 0x01000007, 3, 2, 1, 8, 0, 0, 0x2a, 8)).Images()[0]
	version, ok = image.SourceVersion()
	same(t, "a short command", fmt.Sprint(version, ok), "[0 0 0 0 0] false")
}

// The relocations of a section, and what Go's own reader says of them.
func TestRelocations(t *testing.T) {
	file := words(0xfeedfacf, 0x01000007, 3, 2, 1, 152, 0, 0, 0x19, 152)
	file = append(file, words(append(make([]uint32, 14), 1, 0)...)...)
	file = append(file, make([]byte, 56)...)
	file = append(file, words(184, 3, 0, 0, 0, 0)...)
	file = append(file, words(0x1234, 0x5<<28|1<<27|2<<25|1<<24|0x654321, 8, 0xf<<28|3<<25, 0xfffffff0, 1<<27)...)
	image := verified(t, file).Images()[0]
	plain, err := macho.NewFile(bytes.NewReader(file))
	if err != nil {
		t.Fatal(err)
	}
	section := image.Sections()[0]
	found := []macho.Reloc{}
	for _, it := range image.Relocations(&section)[:2] {
		same(t, "it is not scattered", it.Scattered, false)
		found = append(found, macho.Reloc{Addr: it.Address, Value: it.Symbolnum, Type: it.Type, Len: it.Length,
			Pcrel: it.Pcrel, Extern: it.External})
	}
	same(t, "the relocations", found, plain.Sections[0].Relocs[:2])
	same(t, "the last", image.Relocations(&section)[2], Relocation{Address: 0xfffffff0, External: true, Scattered: true})
	section.Nreloc = 4
	same(t, "relocations past the image", len(image.Relocations(&section)), 0)
	section.Nreloc = 0
	same(t, "no relocations", len(image.Relocations(&section)), 0)
}

// An executable with the given numbers in LC_FUNCTION_STARTS (0x26), and the given entries in LC_DATA_IN_CODE (0x29).
func withCode(numbers []byte, entries []byte) []byte {
	const place = 136
	file := words(0xfeedfacf, 0x01000007, 3, 2, 3, 104, 0, 0,
		0x19, 72, 0, 0, 0, 0, 0, 1, 0x1000, 0, 0, 0, 0x88, 0, 5, 5, 0, 0,
		0x26, 16, place, uint32(len(numbers)), 0x29, 16, place+uint32(len(numbers)), uint32(len(entries)))
	return append(append(file, numbers...), entries...)
}

func TestCode(t *testing.T) {
	// 0x440, 0x10, 0x3fff, and a 0 before another number.
	numbers := []byte{0xc0, 0x08, 0x10, 0xff, 0x7f, 0, 5}
	entries := append(words(136, 7|5<<16, 8, 0xffff|1<<16), 1, 2, 3)
	image := verified(t, withCode(numbers, entries)).Images()[0]
	same(t, "the functions", image.FunctionStarts(), []uint64{0x100000440, 0x100000450, 0x10000444f})
	data := image.DataInCode()
	same(t, "how many entries", len(data), 2)
	same(t, "the data", string(data[0].Bytes), string(numbers))
	same(t, "its fields", []uint32{data[0].Offset, uint32(data[0].Length), uint32(data[0].Kind)},
		[]uint32{136, 7, DICE_KIND_ABS_JUMP_TABLE32})
	same(t, "data past the image", []uint32{uint32(len(data[1].Bytes)), uint32(data[1].Length)}, []uint32{0, 0xffff})
	for _, count := range []int{0, batch - 1, batch, batch + 1, 2 * batch} {
		image = verified(t, withCode(bytes.Repeat([]byte{1}, count), make([]byte, 8*count))).Images()[0]
		starts := image.FunctionStarts()
		same(t, "how many functions and entries", []int{len(starts), len(image.DataInCode())}, []int{count, count})
		for index, start := range starts {
			same(t, "a function", start, uint64(0x100000001+index))
		}
	}
}

// An executable with LC_DYLD_EXPORTS_TRIE (0x80000033) of this trie.
func withTrie(trie string) []byte {
	const place = 120
	size := uint32(len(trie))
	file := words(0xfeedfacf, 0x01000007, 3, 2, 2, 88, 0, 0,
		0x19, 72, 0, 0, 0, 0, 0, 1, 0x1000, 0, 0, 0, place+size, 0, 5, 5, 0, 0, 0x80000033, 16, place, size)
	return append(file, trie...)
}

func TestExports(t *testing.T) {
	// Each string is a node.
	image := verified(t, withTrie("\x00\x01_\x00\x05"+
		"\x00\x05a\x00\x16k\x00\x1aq\x00\x1er\x00\x23s\x00\x2a"+
		"\x02\x05\x10\x00"+"\x02\x02\x30\x00"+"\x03\x08\x01\x00\x00"+"\x05\x08\x02_x\x00\x00"+"\x03\x10\x40\x50\x00",
	)).Images()[0]
	const base = 0x100000000
	for name, wanted := range map[string]Export{
		"_a": {Flags: EXPORT_SYMBOL_FLAGS_KIND_THREAD_LOCAL | EXPORT_SYMBOL_FLAGS_WEAK_DEFINITION, Address: base + 0x10},
		"_k": {Flags: EXPORT_SYMBOL_FLAGS_KIND_ABSOLUTE, Address: 0x30},
		"_q": {Flags: EXPORT_SYMBOL_FLAGS_REEXPORT, Ordinal: 1},
		"_r": {Flags: EXPORT_SYMBOL_FLAGS_REEXPORT, Ordinal: 2, Name: []byte("_x")},
		"_s": {Flags: EXPORT_SYMBOL_FLAGS_STUB_AND_RESOLVER, Address: base + 0x40, Resolver: base + 0x50},
	} {
		found, ok := image.FindExport(name)
		same(t, "whether there is "+name, ok, true)
		same(t, "the name of "+name, string(found.Name), string(wanted.Name))
		found.Name, wanted.Name = nil, nil
		same(t, name, found, wanted)
	}
	for _, name := range []string{"", "_", "a", "_aa", "_a\x00", "_x"} {
		_, ok := image.FindExport(name)
		same(t, fmt.Sprintf("whether there is %q", name), ok, false)
	}
	for _, image := range verified(t, readReal(t, "library")).Images() {
		found, ok := image.FindExport("_twice")
		symbol, _ := image.SymbolNamed("_twice")
		same(t, "an export of the library", []any{found.Address, ok}, []any{symbol.Value, true})
	}
}

// exportsOf returns the names of a walk, and their addresses from the base.
func exportsOf(t *testing.T, trie string) (names []string, addresses []uint64) {
	t.Helper()
	for exports := verified(t, withTrie(trie)).Images()[0].Exports(); exports.Next(); {
		names = append(names, exports.Name())
		addresses = append(addresses, exports.Export().Address-0x100000000)
	}
	return names, addresses
}

func TestWalksOfExports(t *testing.T) {
	for _, walk := range []struct {
		trie      string
		names     []string
		addresses []uint64
	}{
		{"\x00\x01_\x00\x05" + "\x00\x02a\x00\x0db\x00\x11" + "\x02\x00\x10\x00" + "\x02\x00\x20\x00",
			[]string{"_a", "_b"}, []uint64{0x10, 0x20}},
		// The root, which is the whole trie, exports the empty name, and leads to itself.
		{"\x02\x00\x07\x01a\x00\x00", []string{""}, []uint64{7}},
		// Two edges lead to one node of 4 bytes: the visited nodes have 16 bytes, and the trie has 13.
		{"\x00\x02a\x00\x09b\x00\x09\x00" + "\x02\x00\x07\x00", []string{"a"}, []uint64{7}},
		// The first edge is whole, and the second does not end in the trie.
		{"\x00\x02a\x00\x05b", nil, nil},
		// The flags of the first export do not end in its terminal part.
		{"\x00\x02a\x00\x08b\x00\x0b" + "\x01\x80\x00" + "\x02\x00\x07\x00", []string{"b"}, []uint64{7}},
		{"", nil, nil},
	} {
		names, addresses := exportsOf(t, walk.trie)
		same(t, fmt.Sprintf("the names in %q", walk.trie), names, walk.names)
		same(t, fmt.Sprintf("the addresses in %q", walk.trie), addresses, walk.addresses)
	}
	for _, image := range verified(t, readReal(t, "library")).Images() {
		count := 0
		for exports := image.Exports(); exports.Next(); count++ {
			found, ok := image.FindExport(exports.Name())
			same(t, "an export of the library", []any{exports.Export().Address, true}, []any{found.Address, ok})
		}
		same(t, "whether the library has exports", count > 0, true)
	}
}

func TestBatches(t *testing.T) {
	for _, count := range []int{0, 1, batch - 1, batch, batch + 1, 3*batch + 5} {
		var symbols [][2]uint8
		for index := 0; index < count; index++ {
			symbols = append(symbols, [2]uint8{0, uint8(index)})
		}
		image := verified(t, withSections(symbols...)).Images()[0]
		found := image.Symbols()
		same(t, "how many symbols and names", []int{len(found), len(image.Names(found))}, []int{count, count})
		for index, symbol := range found {
			same(t, "a symbol", symbol.Sect, uint8(index))
		}
		_, ok := image.Symbol(uint64(count))
		same(t, "a symbol past the last", ok, false)
	}
}

func TestBareImage(t *testing.T) {
	image := verified(t, words(0xfeedfacf, 0x01000007, 3, 2, 0, 0, 0, 0)).Images()[0]
	_, hasUUID := image.UUID()
	_, hasBase := image.Base()
	_, hasEntry := image.Entry()
	same(t, "what it has not",
		[]bool{hasUUID, hasBase, hasEntry, image.Symtab() != nil, image.Dysymtab() != nil}, make([]bool, 5))
	same(t, "its rows", len(image.Commands())+len(image.Segments())+len(image.Sections())+len(image.Libraries())+
		len(image.Builds())+len(image.Indirects())+len(image.Symbols())+len(image.LocalSymbols())+len(image.FunctionStarts())+
		len(image.DataInCode())+len(image.Blobs())+len(image.Names(nil)), 0)
}

// A universal file of a 32-bit image, which is not read, and of a header for x86_64.
func TestUnreadSlice(t *testing.T) {
	var file bytes.Buffer
	_ = binary.Write(&file, binary.BigEndian, []uint32{0xcafebabe, 2, 7, 3, 64, 4, 0, 0x01000007, 3, 96, 32, 0})
	file.Write(make([]byte, 16))
	file.Write(words(0xfeedface, 0, 0, 0, 0, 0, 0, 0))
	file.Write(words(0xfeedfacf, 0x01000007, 3, 2, 0, 0, 0, 0))
	universal := verified(t, file.Bytes())
	same(t, "the slices", universal.SliceCount(), 2)
	same(t, "the images", len(universal.Images()), 1)
	unread := universal.Slice(0)
	same(t, "the image that is not read", unread.Image, (*Image)(nil))
	same(t, "what it has", []any{unread.Place, unread.Bytes, unread.CPUType, unread.CPUSubtype, unread.Arch()},
		[]any{uint64(64), words(0xfeedface), uint32(7), uint32(3), "i386"})
	same(t, "the slices that are not read", universal.UnreadSlices(), []Slice{unread})
	same(t, "the architectures", []string{universal.Images()[0].Arch(), universal.Slices()[1].Arch()},
		[]string{"x86_64", "x86_64"})
	for _, index := range []int{-1, 2} {
		func() {
			defer func() { same(t, "no slice", recover() != nil, true) }()
			universal.Slice(index)
		}()
	}
}

// Bytes that lie beside pointers of Go: C gets the bytes alone.
func TestBytesBesidePointers(t *testing.T) {
	type beside struct {
		before *int
		bytes  [12528]byte
		after  *int
	}
	it := &beside{before: new(int), after: new(int)}
	copy(it.bytes[:], readReal(t, "program"))
	file := verified(t, it.bytes[:])
	layout, err := file.Layout()
	same(t, "the layout", layout, string(readReal(t, "program.layout")))
	same(t, "of it", err, nil)
	image := file.Images()[0]
	same(t, "the rows", len(image.Commands())+len(image.Symbols()), 15+5)
	same(t, "an address", image.At(0x100000440).Kind, FileBytes)
}

// Bytes that change after the verdict: each call ends, and reads nothing past them.
func TestChangedBytes(t *testing.T) {
	program := readReal(t, "program")
	for place := 0; place < 0x420; place += 4 {
		file := append([]byte{}, program...)
		image := verified(t, file).Images()[0]
		copy(file[place:], "\xff\xff\xff\xff")
		image.Segments()
		image.Sections()
		image.Libraries()
		image.Builds()
		image.Commands()
		image.Indirects()
		image.At(0x100000440)
		image.Linkedit(0x26)
		image.Table(StringTable)
		image.SourceVersion()
		image.Relocations(&Section{Reloff: 8, Nreloc: 1 << 31})
		image.DataInCode()
		image.ThreadEntry()
		image.FindExport("_start")
		image.FunctionStarts()
		image.Names(image.Symbols())
	}
}

func TestGoroutines(t *testing.T) {
	program := readReal(t, "program")
	wanted := string(readReal(t, "program.layout"))
	var group sync.WaitGroup
	for number := 0; number < 8; number++ {
		group.Add(1)
		go func() {
			defer group.Done()
			for round := 0; round < 50; round++ {
				file, err := Verify(program, Layout)
				if err != nil {
					t.Error(err)
					return
				}
				layout, _ := file.Layout()
				same(t, "the layout", layout, wanted)
				same(t, "the symbols", len(file.Images()[0].Symbols()), 5)
			}
		}()
	}
	group.Wait()
}

// The files of the vectors, with their verdicts. tests/go makes them, and a list for each profile, with a line for each
// file: a verdict, a tab and a path.
func TestVectors(t *testing.T) {
	list := os.Getenv("KESVUOT_TRIALS")
	if list == "" {
		t.Skip("it needs KESVUOT_TRIALS")
	}
	for _, profile := range profiles() {
		lines, err := os.ReadFile(filepath.Join(list, profile.String()))
		if err != nil {
			t.Fatal(err)
		}
		accepted := 0
		trials := strings.Split(strings.TrimSuffix(string(lines), "\n"), "\n")
		for _, line := range trials {
			wanted, path, _ := strings.Cut(line, "\t")
			bytes, err := os.ReadFile(path)
			if err != nil {
				t.Fatal(err)
			}
			file, err := Verify(bytes, profile)
			if err == nil {
				accepted++
				same(t, path, "accepted", wanted)
				readAll(t, file)
			} else {
				same(t, path, err.Error(), wanted)
			}
		}
		if accepted == 0 || accepted == len(trials) {
			t.Errorf("%d of %d are accepted", accepted, len(trials))
		}
	}
}

// readAll reads all parts of a file. There are as many rows as the image says.
func readAll(t *testing.T, file *File) {
	t.Helper()
	for _, image := range file.Images() {
		symbols := image.Symbols()
		same(t, "how many symbols", len(symbols), int(image.numbers.symbol_count))
		compareTables(t, image)
		segments, sections := image.Segments(), image.Sections()
		imports, fixups := len(image.Imports()), image.Fixups()
		// There can be many.
		for count := 0; count < 3*batch && fixups.Next(); count++ {
			fixup := fixups.Fixup()
			same(t, "whether a fixup has an import", fixup.IsBind && fixup.Import < uint64(imports), fixup.IsBind)
			same(t, "the bytes of a pointer", len(segments[fixup.Segment].Bytes[fixup.Offset:fixup.Offset+8]), 8)
		}
		for index := range sections {
			same(t, "how many relocations", len(image.Relocations(&sections[index])), int(sections[index].Nreloc))
		}
		for _, symbol := range symbols {
			if symbol.Section >= 0 {
				same(t, "the section of a symbol", symbol.Section, int(symbol.Sect)-1)
				_ = sections[symbol.Section]
			} else {
				same(t, "no section", symbol.Sect == 0 || int(symbol.Sect) > len(sections), true)
			}
		}
		same(t, "how many rows", []int{
			len(image.Commands()), len(segments), len(sections), len(image.Libraries()), len(image.Builds()),
			len(image.Indirects()),
		}, []int{
			int(image.numbers.command_count), int(image.numbers.segment_count), int(image.numbers.section_count),
			int(image.numbers.library_count), int(image.numbers.build_count), int(image.numbers.indirect_count),
		})
	}
}
