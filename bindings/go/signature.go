package kesvuot

import "encoding/hex"

// A Blob is a blob of a code signature: a CS_BlobIndex and a CS_GenericBlob of <kern/cs_blobs.h>.
type Blob struct {
	// Bytes are the whole blob, with its magic and its length. What it holds begins after these 8 bytes.
	Bytes []byte
	// Slot is the type of its entry: a CSSLOT constant, such as CSSLOT_CODEDIRECTORY, or any other number.
	Slot uint32
	// Magic is a CSMAGIC constant, such as CSMAGIC_CODEDIRECTORY (0xfade0c02), or any other number.
	Magic uint32
}

// Blobs returns the blobs of the code signature, by the first LC_CODE_SIGNATURE, in the order of its index. Each lies
// past the blob before it, and the list ends before the first blob that does not. It is empty if the data is not a
// superblob. In a file that the linked profile accepts, the list has every blob of the index.
//
// The entitlements are the blobs of the slots 5 (a property list) and 7 (DER), past their first 8 bytes:
//
//	for _, blob := range image.Blobs() {
//		if blob.Slot == 5 {
//			entitlements := blob.Bytes[8:]
//		}
//	}
func (image *Image) Blobs() []Blob {
	rows := readUncounted[blobRow](image, blobTable)
	blobs := make([]Blob, len(rows))
	for index, row := range rows {
		blobs[index] = Blob{image.part(row.bytes), uint32(row.slot), uint32(row.magic)}
	}
	return blobs
}

// A CodeDirectory is a CS_CodeDirectory of <kern/cs_blobs.h>: what was signed, and the hashes of its pages. In a file
// that the linked profile accepts, the names and the hashes lie in the blob, the type of the hashes is known, and Limit
// is where the signature begins in the image. So there is a hash for each page before that. The sealed profile judges
// whether the pages have these hashes.
type CodeDirectory struct {
	// Bytes are the whole blob, with its magic and its length.
	Bytes []byte
	// Identifier is the name of what was signed, and Team is the team that signed it, both without the zero byte that ends
	// them. Each is empty if its offset is 0, or no zero byte ends it. Only versions from 0x20200 on have a Team.
	Identifier, Team []byte
	// Hashes are the hashes of the code, one for each page, each of HashSize bytes. They are empty if they do not all lie
	// in the blob.
	Hashes []byte
	// SpecialHashes are of HashSize bytes too. The hash of special slot 1 is the last. They are empty if they do not all
	// lie in the blob.
	SpecialHashes []byte
	// Limit is how many bytes of the image are hashed, from its start on: codeLimit64, or codeLimit if that is 0 or not
	// there.
	Limit uint64
	// Version is 0x20000 or more. Flags are CS_ADHOC (2) and others.
	Version, Flags uint32
	// CodeSlots is how many hashes of the code there are, and SpecialSlots how many special ones.
	CodeSlots, SpecialSlots uint32
	// HashSize is in bytes, and any number. HashType is a CS_HASHTYPE constant, such as CS_HASHTYPE_SHA256, or any other
	// number.
	HashSize, HashType uint8
	// PageSize is the log2 of the size of a page in bytes. With 0 one page has all bytes.
	PageSize uint8
}

// CodeDirectory returns what the blob says, if it is a code directory. Its slot does not matter. It is not ok if the
// blob has another magic, a version below 0x20000, fewer bytes than the fields of its version, or a scatter vector. In
// a file that the linked profile accepts, each blob in a slot of code directories (0, 0x1000 to 0x1004) is a code
// directory.
func (blob *Blob) CodeDirectory() (directory CodeDirectory, ok bool) {
	row, ok := readDirectory(blob.Bytes)
	if !ok {
		return CodeDirectory{}, false
	}
	return CodeDirectory{
		Bytes:         blob.Bytes,
		Identifier:    partOf(blob.Bytes, row.identifier),
		Team:          partOf(blob.Bytes, row.team),
		Hashes:        partOf(blob.Bytes, row.hashes),
		SpecialHashes: partOf(blob.Bytes, row.special_hashes),
		Limit:         uint64(row.limit),
		Version:       uint32(row.version),
		Flags:         uint32(row.flags),
		CodeSlots:     uint32(row.code_slots),
		SpecialSlots:  uint32(row.special_slots),
		HashSize:      uint8(row.hash_size),
		HashType:      uint8(row.hash_type),
		PageSize:      uint8(row.page_size),
	}, true
}

// CDHash returns the hash of the whole blob, by the directory's own type of hashes. It is not ok if the type is not
// known, which it is in a file that the linked profile accepts. It takes time in proportion to the blob.
func (directory *CodeDirectory) CDHash() (hash CDHash, ok bool) {
	return readCDHash(directory.Bytes)
}

// A CDHash is the hash of a code directory, by which systems know what was signed. It names the bytes of the directory
// alone: the sealed profile judges whether the pages have the hashes in it. It can be compared, and be a key of a map.
type CDHash struct {
	// The bytes past the size are 0.
	digest [48]byte
	size   int
}

// Bytes returns what servers look up: the first CS_CDHASH_LEN (20) bytes of the digest.
func (hash CDHash) Bytes() []byte { return hash.digest[:CS_CDHASH_LEN] }

// Digest returns the whole hash: 20 bytes of SHA-1 and of SHA-256 that is cut, 32 of SHA-256, and 48 of SHA-384.
func (hash CDHash) Digest() []byte { return hash.digest[:hash.size] }

// String returns the bytes in hexadecimal, as codesign prints them.
func (hash CDHash) String() string { return hex.EncodeToString(hash.Bytes()) }
