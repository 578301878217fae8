package kesvuot

// Exports iterates over what an image exports, in the order in which a walk over the export trie visits it. The tables
// are slices, but the names of exports can be together far longer than the file.
//
//	for exports := image.Exports(); exports.Next(); {
//		name, export := exports.Name(), exports.Export()
//	}
type Exports struct {
	image *Image
	trie  span
	// How many bytes the nodes that are left to visit may have.
	left uint64
	// The last one is next.
	waiting []waitingNode
	name    []byte
	export  Export
}

// A waitingNode is a node that is left to visit: its offset in the trie, how many bytes of the name of the node before
// it lead to it, and the label that follows them.
type waitingNode struct {
	offset uint64
	shared int
	label  span
}

// Exports iterates over what the image exports, by a walk over the export trie. In a file that the linked profile
// accepts, the walk finds all exports. In any other file, it ends before a node that does not end in the trie, or with
// which the visited nodes have more bytes than the trie. There it leaves out a name whose export does not end in its
// part of the node. Its names can be far longer together than the trie: a program that keeps them adds up their sizes.
func (image *Image) Exports() *Exports {
	trie, ok := findExportTrie(image)
	exports := &Exports{image: image, trie: trie, left: uint64(trie.size)}
	if ok {
		exports.waiting = []waitingNode{{}}
	}
	return exports
}

// Next goes on to the next export. It returns false past the last one.
func (exports *Exports) Next() bool {
	for len(exports.waiting) > 0 {
		last := len(exports.waiting) - 1
		next := exports.waiting[last]
		exports.waiting = exports.waiting[:last]
		exports.name = append(exports.name[:next.shared], exports.image.part(next.label)...)
		node, ok := exports.meet(next.offset)
		if !ok {
			exports.waiting = nil
			return false
		}
		if node.has_export != 0 {
			exports.export = newExport(exports.image, &node.exported)
			return true
		}
	}
	return false
}

// meet reads a node, and puts its children before those that wait. It is not ok if the node does not end in the trie,
// or if the visited nodes have more bytes than the trie.
func (exports *Exports) meet(offset uint64) (node exportNodeRow, ok bool) {
	node, ok = readExportNode(exports.image, exports.trie, offset)
	if !ok {
		return node, false
	}
	edges, end, ok := readExportEdges(exports.image, exports.trie, &node)
	if !ok || end-offset > exports.left {
		return node, false
	}
	exports.left -= end - offset
	for index := len(edges) - 1; index >= 0; index-- {
		exports.waiting = append(exports.waiting,
			waitingNode{uint64(edges[index].child), len(exports.name), edges[index].label})
	}
	return node, true
}

// Name returns the name of the export that Next has gone on to.
func (exports *Exports) Name() string { return string(exports.name) }

// Export returns the export that Next has gone on to.
func (exports *Exports) Export() Export { return exports.export }
