package kesvuot

import (
	"bytes"
	"encoding/binary"
	"fmt"
	"strings"
	"testing"
)

const (
	pointersBase    = 0x100000000
	pointersAddress = pointersBase + 0x1000
)

// longs returns the bytes of 64-bit numbers.
func longs(numbers ...uint64) []byte {
	var file bytes.Buffer
	_ = binary.Write(&file, binary.LittleEndian, numbers)
	return file.Bytes()
}

// segmentOf returns an LC_SEGMENT_64 of a segment with one section, with these bytes of the file at an address.
func segmentOf(name string, vmaddr, fileoff, size uint64) []byte {
	padded := append([]byte(name), make([]byte, 16-len(name))...)
	command := append(words(0x19, 152), padded...)
	command = append(append(command, longs(vmaddr, 0x1000, fileoff, size)...), words(3, 3, 1, 0)...)
	command = append(append(command, "__bytes\x00\x00\x00\x00\x00\x00\x00\x00\x00"...), padded...)
	return append(append(command, longs(vmaddr, size)...), words(uint32(fileoff), 0, 0, 0, 0, 0, 0, 0)...)
}

// withTable returns an executable with these pointers, and a table that its last command names. The command has these
// numbers after cmd and cmdsize, by the place of the table.
func withTable(pointers []uint64, cmd uint32, command func(place uint32) []uint32, table string) []byte {
	cmdsize := uint32(8 + 4*len(command(0)))
	start := 32 + 2*152 + cmdsize
	size := uint64(8 * len(pointers))
	file := words(0xfeedfacf, 0x0100000c, 0, 2, 3, start-32, 0, 0)
	file = append(file, segmentOf("__TEXT", pointersBase, 0, uint64(start))...)
	file = append(file, segmentOf("__DATA", pointersAddress, uint64(start), size)...)
	file = append(append(file, words(cmd, cmdsize)...), words(command(start+uint32(size))...)...)
	return append(append(file, longs(pointers...)...), table...)
}

// withChain returns one with LC_DYLD_CHAINED_FIXUPS (0x80000034), a chain of this format from the first pointer on, and
// two imports: _a of all images, and _b, which is weak, of all images with their weak definitions.
func withChain(form uint32, pointers ...uint64) []byte {
	table := words(0, 28, 64, 72, 2, 1, 0, 2, 0, 12, 24, 0x1000|form<<16, 0x1000, 0, 0, 1, 0xfe, 0xfd|1<<8|3<<9)
	table = append(table, "_a\x00_b\x00"...)
	return withTable(pointers, 0x80000034, func(place uint32) []uint32 {
		return []uint32{place, uint32(len(table))}
	}, string(table))
}

// withStreams returns an image with LC_DYLD_INFO_ONLY (0x80000022) and streams of rebases, binds, weak and lazy binds.
func withStreams(pointers []uint64, streams ...string) []byte {
	return withTable(pointers, 0x80000022, func(place uint32) []uint32 {
		numbers := make([]uint32, 0, 10)
		for _, stream := range streams {
			numbers = append(numbers, place, uint32(len(stream)))
			place += uint32(len(stream))
		}
		return numbers[:10]
	}, strings.Join(streams, ""))
}

// fixupsOf returns what the fixups say, in short. They are in the second segment, up to this many.
func fixupsOf(t *testing.T, file []byte, most int) (short []string) {
	t.Helper()
	for fixups := verified(t, file).Images()[0].Fixups(); len(short) < most && fixups.Next(); {
		fixup := fixups.Fixup()
		same(t, "the segment of a fixup", fixup.Segment, uint32(1))
		same(t, "the address of a fixup", fixup.Address, pointersAddress+fixup.Offset)
		line := fmt.Sprintf("%d: %#x", fixup.Offset, fixup.Target)
		if fixup.IsBind {
			same(t, "the target of a bind", fixup.Target, uint64(0))
			line = fmt.Sprintf("%d: import %d %+d", fixup.Offset, fixup.Import, fixup.Addend)
		} else {
			same(t, "the import of a rebase", []any{fixup.Import, fixup.Addend}, []any{uint64(0), int64(0)})
		}
		if how := fixup.Authentication; how != nil {
			line += fmt.Sprintf(", key %d, %#x, %v", how.Key, how.Diversity, how.HasAddressDiversity)
		}
		short = append(short, line)
	}
	return short
}

func importsOf(t *testing.T, file []byte) (short []string) {
	t.Helper()
	for _, it := range verified(t, file).Images()[0].Imports() {
		short = append(short, fmt.Sprintf("%s %d %+d %v", it.Name, it.Library, it.Addend, it.IsWeak))
	}
	return short
}

// As llvm-objdump --macho --bind shows them.
func TestFixupsOfAProgram(t *testing.T) {
	file, err := Verify(readReal(t, "program"), Linked)
	same(t, "the verdict", err, nil)
	image := file.Images()[0]
	fixups := image.Fixups()
	same(t, "whether there is a fixup", fixups.Next(), true)
	same(t, "the fixup", fixups.Fixup(), Fixup{Address: 0x100001000, Segment: 2, IsBind: true})
	same(t, "whether there is another", []bool{fixups.Next(), fixups.Next()}, []bool{false, false})
	same(t, "the imports", image.Imports(), []Import{{Name: []byte("_step"), Library: 1}})
	same(t, "the library", string(image.Libraries()[0].Name), "/usr/lib/libdemo.dylib")
	same(t, "an image without", importsOf(t, withTable(nil, 0x26, func(uint32) []uint32 { return []uint32{0, 0} }, "")),
		[]string(nil))
}

func TestFixupsOfOpcodes(t *testing.T) {
	file := withStreams([]uint64{0, pointersBase + 0x10, 1<<64 - 1, 0, 0, 0},
		// Two rebases from the second pointer on, and one past the end
		"\x11\x21\x08\x52\x30\x80\x10\x51\x00",
		// A bind of the first library, and an addend
		"\x11\x40_a\x00\x60\x7e\x71\x20\x90\x00",
		"\x41_w\x00\x71\x18\x90\x00",
		// Two entries: the end of one clears what was set
		"\x71\x28\x11\x40_l\x00\x90\x00\x71\x00\x40_m\x00\x90\x00", "")
	same(t, "the pointers", fixupsOf(t, file, 100), []string{
		"8: 0x100000010", "16: 0xffffffffffffffff", "32: import 0 -2", "24: import 1 +0", "40: import 2 +0",
		"0: import 3 +0"})
	same(t, "the imports", importsOf(t, file), []string{
		"_a 1 -2 false", "_w -3 +0 true", "_l 1 +0 false", "_m 0 +0 false"})
	// An opcode asks for the first pointer 2^64 - 1 times. No more rows are read than are taken.
	most, back := strings.Repeat("\xff", 9)+"\x01", "\xf8"+strings.Repeat("\xff", 8)+"\x01"
	endless := withStreams([]uint64{7}, "\x21\x00\x80"+most+back, "", "", "", "")
	for _, count := range []int{1, batch - 1, batch, batch + 1, 3000} {
		same(t, "the first of many pointers", strings.Join(fixupsOf(t, endless, count), "\n")+"\n",
			strings.Repeat("0: 0x7\n", count))
	}
}

// As llvm-objdump --macho --dyld-info shows these bytes. It reads no chains of arm64e.
func TestFixupsOfChains(t *testing.T) {
	pointers := []uint64{0x0010001100000010, 0x8010000005000000, 0x8020000000000001, 0, 0x20}
	same(t, "chains with addresses", fixupsOf(t, withChain(2, pointers...), 100), []string{
		"0: 0x100000100000010", "8: import 0 +5", "16: import 1 +0", "32: 0x20"})
	same(t, "chains with offsets", fixupsOf(t, withChain(6, pointers...), 100), []string{
		"0: 0x100000200000010", "8: import 0 +5", "16: import 1 +0", "32: 0x100000020"})
	same(t, "the imports", importsOf(t, withChain(2, pointers...)), []string{"_a -2 +0 false", "_b -3 +0 true"})
}

// The bits of dyld_chained_ptr_arm64e_rebase, _bind, _auth_rebase and _auth_bind. Their `next` counts pointers.
func TestSignedPointers(t *testing.T) {
	const next = 1 << 51
	pointers := []uint64{
		0x200000010 | 0x80<<43 | next, 1<<62 | 1 | 0x7fffe<<32 | next,
		1<<63 | 0x1010 | 0xbeef<<32 | 1<<48 | 2<<49 | next, 3<<62 | 0x0102<<32 | 3<<49}
	const plain, fromBase = "0x8000000200000010", "0x8000000300000010"
	for form, target := range map[uint32]string{1: plain, 9: fromBase, 12: fromBase} {
		same(t, fmt.Sprintf("chains of format %d", form), fixupsOf(t, withChain(form, pointers...), 100), []string{
			"0: " + target, "8: import 1 -2", "16: 0x100001010, key 2, 0xbeef, true",
			"24: import 0 +0, key 3, 0x102, false"})
	}
}
