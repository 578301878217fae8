package kesvuot

import (
	"bytes"
	"crypto/sha1"
	"crypto/sha256"
	"crypto/sha512"
	"encoding/binary"
	"encoding/hex"
	"testing"
)

// bigWords returns the bytes of big-endian words.
func bigWords(numbers ...uint32) []byte {
	var all bytes.Buffer
	_ = binary.Write(&all, binary.BigEndian, numbers)
	return all.Bytes()
}

// A code directory of 117 bytes: its fields; an identifier at 52, and a team at 55; two special hashes at 57, and one
// of the code at 97.
func madeDirectory() []byte {
	return bytes.Join([][]byte{
		bigWords(0xfade0c02, 117, 0x20200, 2, 97, 52, 2, 1, 48), {20, CS_HASHTYPE_SHA1, 0, 12}, bigWords(0, 0, 55),
		[]byte("ab\x00T\x00"), bytes.Repeat([]byte{1}, 20), bytes.Repeat([]byte{2}, 20), bytes.Repeat([]byte{3}, 20),
	}, nil)
}

// A signature of a directory, entitlements and a CMS, of 173 bytes. Its blobs are at 36, 153 and 165.
func madeSignature() []byte {
	return bytes.Join([][]byte{
		bigWords(0xfade0cc0, 173, 3, CSSLOT_CODEDIRECTORY, 36, 5, 153, 0x10000, 165), madeDirectory(),
		bigWords(0xfade7171, 12), []byte("<a/>"), bigWords(0xfade0b01, 8),
	}, nil)
}

// An executable with LC_CODE_SIGNATURE (0x1d), whose data is the signature.
func withSignature(signature []byte) []byte {
	const place = 48
	file := words(0xfeedfacf, 0x01000007, 3, 2, 1, 16, 0, 0, 0x1d, 16, place, uint32(len(signature)))
	return append(file, signature...)
}

func blobsOf(t *testing.T, signature []byte) []Blob {
	t.Helper()
	return verified(t, withSignature(signature)).Images()[0].Blobs()
}

func TestBlobs(t *testing.T) {
	signature := madeSignature()
	blobs := blobsOf(t, signature)
	same(t, "the blobs", blobs, []Blob{
		{signature[36:153:153], CSSLOT_CODEDIRECTORY, 0xfade0c02},
		{signature[153:165:165], 5, 0xfade7171},
		{signature[165:173:173], 0x10000, 0xfade0b01},
	})
	found, ok := blobs[0].CodeDirectory()
	same(t, "whether there is a directory", ok, true)
	same(t, "the directory", found, CodeDirectory{
		Bytes: signature[36:153:153], Identifier: []byte("ab"), Team: []byte("T"), Hashes: bytes.Repeat([]byte{3}, 20),
		SpecialHashes: append(bytes.Repeat([]byte{1}, 20), bytes.Repeat([]byte{2}, 20)...),
		Limit:         48, Version: 0x20200, Flags: 2, CodeSlots: 1, SpecialSlots: 2,
		HashSize: 20, HashType: CS_HASHTYPE_SHA1, PageSize: 12,
	})
	for _, blob := range append(blobs[1:], Blob{}) {
		_, ok = blob.CodeDirectory()
		same(t, "whether other blobs are directories", ok, false)
	}
	for _, image := range verified(t, readReal(t, "library")).Images() {
		for _, blob := range image.Blobs() {
			directory, ok := blob.CodeDirectory()
			same(t, "the identifier of the library", []any{string(directory.Identifier), ok}, []any{"library-arm64", true})
		}
	}
}

// hashOf returns the hash of a blob by a type of hashes, or nil for an unknown type.
func hashOf(blob []byte, kind byte) []byte {
	switch kind {
	case CS_HASHTYPE_SHA1:
		sum := sha1.Sum(blob)
		return sum[:]
	case CS_HASHTYPE_SHA256:
		sum := sha256.Sum256(blob)
		return sum[:]
	case CS_HASHTYPE_SHA256_TRUNCATED:
		sum := sha256.Sum256(blob)
		return sum[:20]
	case CS_HASHTYPE_SHA384:
		sum := sha512.Sum384(blob)
		return sum[:]
	default:
		return nil
	}
}

func TestCDHash(t *testing.T) {
	for kind := byte(0); kind < 6; kind++ {
		blob := madeDirectory()
		blob[37] = kind
		directory, ok := (&Blob{Bytes: blob}).CodeDirectory()
		same(t, "whether there is a directory", ok, true)
		hash, ok := directory.CDHash()
		wanted := hashOf(blob, kind)
		same(t, "whether there is a hash", ok, wanted != nil)
		if ok {
			same(t, "the digest", hash.Digest(), wanted)
			same(t, "the cdhash", hash.Bytes(), wanted[:20])
			same(t, "how it is shown", hash.String(), hex.EncodeToString(wanted[:20]))
		}
	}
	_, ok := (&CodeDirectory{}).CDHash()
	same(t, "whether no bytes have a hash", ok, false)
	for _, image := range verified(t, readReal(t, "library")).Images() {
		for _, blob := range image.Blobs() {
			directory, _ := blob.CodeDirectory()
			hash, ok := directory.CDHash()
			wanted := sha256.Sum256(blob.Bytes)
			same(t, "the hash of the library", []any{hash.Digest(), ok}, []any{wanted[:], true})
		}
	}
}

func TestBlobsOutOfPlace(t *testing.T) {
	for _, change := range []struct {
		at                 int
		value              byte
		blobs, directories int
	}{
		// The magic number of the superblob, its length, and the count of its index
		{3, 0xc1, 0, 0}, {7, 172, 2, 1}, {7, 174, 0, 0}, {11, 2, 2, 1}, {11, 4, 0, 0},
		// The first blob begins in the index, and the second in the first.
		{19, 35, 0, 0}, {27, 152, 1, 1},
		// The directory has another magic number, an older version, fewer bytes than its fields, and a scatter vector.
		{39, 3, 3, 0}, {45, 1, 3, 0}, {43, 51, 3, 0}, {43, 52, 3, 1}, {36 + 47, 1, 3, 0},
	} {
		signature, directories := madeSignature(), 0
		signature[change.at] = change.value
		blobs := blobsOf(t, signature)
		for _, blob := range blobs {
			if _, ok := blob.CodeDirectory(); ok {
				directories++
			}
		}
		same(t, "how many blobs and directories", []int{len(blobs), directories}, []int{change.blobs, change.directories})
	}
	same(t, "blobs of no bytes", len(blobsOf(t, nil)), 0)
}

func TestPartsPastTheBlob(t *testing.T) {
	for length, wanted := range map[byte][]int{
		117: {2, 1, 20, 40}, 116: {2, 1, 0, 40}, 96: {2, 1, 0, 0}, 56: {2, 0, 0, 0}, 54: {0, 0, 0, 0},
	} {
		signature := madeSignature()
		signature[43] = length
		found, _ := blobsOf(t, signature)[0].CodeDirectory()
		same(t, "how long the parts are",
			[]int{len(found.Identifier), len(found.Team), len(found.Hashes), len(found.SpecialHashes)}, wanted)
	}
}

// An executable with a segment at 0x100000000, and an LC_UNIXTHREAD (5) of an x86_THREAD_STATE64 (4) with this rip.
func withThread(rip uint64) []byte {
	registers := make([]uint32, 42)
	registers[32], registers[33] = uint32(rip), uint32(rip>>32)
	file := words(0xfeedfacf, 0x01000007, 3, 2, 2, 72+184, 0, 0,
		0x19, 72, 0, 0, 0, 0, 0, 1, 0x1000, 0, 0, 0, 288, 0, 5, 5, 0, 0, 5, 184, 4, 42)
	return append(file, words(registers...)...)
}

func TestThreadEntry(t *testing.T) {
	const base = uint64(0x100000000)
	for entry, wanted := range map[uint64]bool{
		base: true, base + 0x20: true, base + 287: true, 0: false, base - 1: false, base + 288: false, ^uint64(0): false,
	} {
		image := verified(t, withThread(entry)).Images()[0]
		found, ok := image.ThreadEntry()
		if !wanted {
			entry = 0
		}
		same(t, "the entry of the thread", []any{found, ok}, []any{entry, wanted})
		_, ok = image.Entry()
		same(t, "whether there is an LC_MAIN", ok, false)
	}
	_, ok := verified(t, readReal(t, "program")).Images()[0].ThreadEntry()
	same(t, "whether the program has a thread", ok, false)
}
