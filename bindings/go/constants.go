package kesvuot

// Constants of the headers of the system, by their own names. Made by registry/generate.
const (
	// registry: constants
	// The load commands. (mach-o/loader.h)
	LC_SEGMENT                  = 0x1
	LC_SYMTAB                   = 0x2
	LC_SYMSEG                   = 0x3
	LC_THREAD                   = 0x4
	LC_UNIXTHREAD               = 0x5
	LC_LOADFVMLIB               = 0x6
	LC_IDFVMLIB                 = 0x7
	LC_IDENT                    = 0x8
	LC_FVMFILE                  = 0x9
	LC_PREPAGE                  = 0xa
	LC_DYSYMTAB                 = 0xb
	LC_LOAD_DYLIB               = 0xc
	LC_ID_DYLIB                 = 0xd
	LC_LOAD_DYLINKER            = 0xe
	LC_ID_DYLINKER              = 0xf
	LC_PREBOUND_DYLIB           = 0x10
	LC_ROUTINES                 = 0x11
	LC_SUB_FRAMEWORK            = 0x12
	LC_SUB_UMBRELLA             = 0x13
	LC_SUB_CLIENT               = 0x14
	LC_SUB_LIBRARY              = 0x15
	LC_TWOLEVEL_HINTS           = 0x16
	LC_PREBIND_CKSUM            = 0x17
	LC_SEGMENT_64               = 0x19
	LC_ROUTINES_64              = 0x1a
	LC_UUID                     = 0x1b
	LC_CODE_SIGNATURE           = 0x1d
	LC_SEGMENT_SPLIT_INFO       = 0x1e
	LC_LAZY_LOAD_DYLIB          = 0x20
	LC_ENCRYPTION_INFO          = 0x21
	LC_DYLD_INFO                = 0x22
	LC_VERSION_MIN_MACOSX       = 0x24
	LC_VERSION_MIN_IPHONEOS     = 0x25
	LC_FUNCTION_STARTS          = 0x26
	LC_DYLD_ENVIRONMENT         = 0x27
	LC_DATA_IN_CODE             = 0x29
	LC_SOURCE_VERSION           = 0x2a
	LC_DYLIB_CODE_SIGN_DRS      = 0x2b
	LC_ENCRYPTION_INFO_64       = 0x2c
	LC_LINKER_OPTION            = 0x2d
	LC_LINKER_OPTIMIZATION_HINT = 0x2e
	LC_VERSION_MIN_TVOS         = 0x2f
	LC_VERSION_MIN_WATCHOS      = 0x30
	LC_NOTE                     = 0x31
	LC_BUILD_VERSION            = 0x32
	LC_ATOM_INFO                = 0x36
	LC_FUNCTION_VARIANTS        = 0x37
	LC_FUNCTION_VARIANT_FIXUPS  = 0x38
	LC_TARGET_TRIPLE            = 0x39
	LC_LOAD_WEAK_DYLIB          = 0x80000018
	LC_RPATH                    = 0x8000001c
	LC_REEXPORT_DYLIB           = 0x8000001f
	LC_DYLD_INFO_ONLY           = 0x80000022
	LC_LOAD_UPWARD_DYLIB        = 0x80000023
	LC_MAIN                     = 0x80000028
	LC_DYLD_EXPORTS_TRIE        = 0x80000033
	LC_DYLD_CHAINED_FIXUPS      = 0x80000034
	LC_FILESET_ENTRY            = 0x80000035

	// The platforms of a build. (mach-o/loader.h)
	PLATFORM_MACOS             = 1
	PLATFORM_IOS               = 2
	PLATFORM_TVOS              = 3
	PLATFORM_WATCHOS           = 4
	PLATFORM_BRIDGEOS          = 5
	PLATFORM_MACCATALYST       = 6
	PLATFORM_IOSSIMULATOR      = 7
	PLATFORM_TVOSSIMULATOR     = 8
	PLATFORM_WATCHOSSIMULATOR  = 9
	PLATFORM_DRIVERKIT         = 10
	PLATFORM_VISIONOS          = 11
	PLATFORM_VISIONOSSIMULATOR = 12

	// The filetypes that are judged. (mach-o/loader.h)
	MH_EXECUTE = 2
	MH_DYLIB   = 6
	MH_BUNDLE  = 8

	// The attributes in the flags of a section. (mach-o/loader.h)
	S_ATTR_PURE_INSTRUCTIONS   = 0x80000000
	S_ATTR_NO_TOC              = 0x40000000
	S_ATTR_STRIP_STATIC_SYMS   = 0x20000000
	S_ATTR_NO_DEAD_STRIP       = 0x10000000
	S_ATTR_LIVE_SUPPORT        = 0x8000000
	S_ATTR_SELF_MODIFYING_CODE = 0x4000000
	S_ATTR_DEBUG               = 0x2000000
	S_ATTR_SOME_INSTRUCTIONS   = 0x400
	S_ATTR_EXT_RELOC           = 0x200
	S_ATTR_LOC_RELOC           = 0x100

	// The type in the flags of a section, and the types of zero-fill sections. (mach-o/loader.h)
	SECTION_TYPE            = 0xff
	S_ZEROFILL              = 0x1
	S_GB_ZEROFILL           = 0xc
	S_THREAD_LOCAL_ZEROFILL = 0x12

	// The types of sections whose items have indirect entries. (mach-o/loader.h)
	S_NON_LAZY_SYMBOL_POINTERS       = 0x6
	S_LAZY_SYMBOL_POINTERS           = 0x7
	S_SYMBOL_STUBS                   = 0x8
	S_LAZY_DYLIB_SYMBOL_POINTERS     = 0x10
	S_THREAD_LOCAL_VARIABLE_POINTERS = 0x14

	// The type of a section of offsets of initializers. (mach-o/loader.h)
	S_INIT_FUNC_OFFSETS = 0x16

	// The other types of sections. (mach-o/loader.h)
	S_REGULAR                             = 0x0
	S_CSTRING_LITERALS                    = 0x2
	S_4BYTE_LITERALS                      = 0x3
	S_8BYTE_LITERALS                      = 0x4
	S_LITERAL_POINTERS                    = 0x5
	S_MOD_INIT_FUNC_POINTERS              = 0x9
	S_MOD_TERM_FUNC_POINTERS              = 0xa
	S_COALESCED                           = 0xb
	S_INTERPOSING                         = 0xd
	S_16BYTE_LITERALS                     = 0xe
	S_DTRACE_DOF                          = 0xf
	S_THREAD_LOCAL_REGULAR                = 0x11
	S_THREAD_LOCAL_VARIABLES              = 0x13
	S_THREAD_LOCAL_INIT_FUNCTION_POINTERS = 0x15

	// The marks of an indirect entry. (mach-o/loader.h)
	INDIRECT_SYMBOL_LOCAL = 0x80000000
	INDIRECT_SYMBOL_ABS   = 0x40000000

	// The flags of an image. (mach-o/loader.h)
	MH_NOUNDEFS                = 0x1
	MH_DYLDLINK                = 0x4
	MH_BINDATLOAD              = 0x8
	MH_PREBOUND                = 0x10
	MH_TWOLEVEL                = 0x80
	MH_FORCE_FLAT              = 0x100
	MH_SUBSECTIONS_VIA_SYMBOLS = 0x2000
	MH_WEAK_DEFINES            = 0x8000
	MH_BINDS_TO_WEAK           = 0x10000
	MH_ALLOW_STACK_EXECUTION   = 0x20000
	MH_NO_REEXPORTED_DYLIBS    = 0x100000
	MH_PIE                     = 0x200000
	MH_DEAD_STRIPPABLE_DYLIB   = 0x400000
	MH_HAS_TLV_DESCRIPTORS     = 0x800000
	MH_NO_HEAP_EXECUTION       = 0x1000000
	MH_APP_EXTENSION_SAFE      = 0x2000000
	MH_SIM_SUPPORT             = 0x8000000
	MH_DYLIB_IN_CACHE          = 0x80000000

	// The flags of an export: a mask, its values, and bits. (mach-o/loader.h)
	EXPORT_SYMBOL_FLAGS_KIND_MASK         = 0x3
	EXPORT_SYMBOL_FLAGS_KIND_REGULAR      = 0x0
	EXPORT_SYMBOL_FLAGS_KIND_THREAD_LOCAL = 0x1
	EXPORT_SYMBOL_FLAGS_KIND_ABSOLUTE     = 0x2
	EXPORT_SYMBOL_FLAGS_WEAK_DEFINITION   = 0x4
	EXPORT_SYMBOL_FLAGS_REEXPORT          = 0x8
	EXPORT_SYMBOL_FLAGS_STUB_AND_RESOLVER = 0x10
	EXPORT_SYMBOL_FLAGS_STATIC_RESOLVER   = 0x20

	// The kinds of data in code. (mach-o/loader.h)
	DICE_KIND_DATA             = 1
	DICE_KIND_JUMP_TABLE8      = 2
	DICE_KIND_JUMP_TABLE16     = 3
	DICE_KIND_JUMP_TABLE32     = 4
	DICE_KIND_ABS_JUMP_TABLE32 = 5

	// The processors of the 64-bit architectures. (mach/machine.h)
	CPU_ARCH_ABI64         = 0x1000000
	CPU_TYPE_X86_64        = 0x1000007
	CPU_TYPE_ARM64         = 0x100000c
	CPU_SUBTYPE_MASK       = 0xff000000
	CPU_SUBTYPE_X86_64_ALL = 3
	CPU_SUBTYPE_X86_64_H   = 8
	CPU_SUBTYPE_ARM64_ALL  = 0
	CPU_SUBTYPE_ARM64E     = 2

	// The type of a symbol: masks, two bits, and the values of `N_TYPE`. (mach-o/nlist.h)
	N_STAB = 0xe0
	N_PEXT = 0x10
	N_TYPE = 0xe
	N_EXT  = 0x1
	N_UNDF = 0x0
	N_ABS  = 0x2
	N_INDR = 0xa
	N_PBUD = 0xc
	N_SECT = 0xe

	// The description of a symbol: bits of `n_desc`. Its upper 8 bits are the ordinal of a library, if the symbol is undefined. (mach-o/nlist.h)
	N_ARM_THUMB_DEF        = 0x8
	REFERENCED_DYNAMICALLY = 0x10
	N_NO_DEAD_STRIP        = 0x20
	N_WEAK_REF             = 0x40
	N_WEAK_DEF             = 0x80
	N_SYMBOL_RESOLVER      = 0x100
	N_ALT_ENTRY            = 0x200
	N_COLD_FUNC            = 0x400

	// The ordinals that stand for the image itself, for all images, and for the program. (mach-o/nlist.h)
	SELF_LIBRARY_ORDINAL   = 0x0
	DYNAMIC_LOOKUP_ORDINAL = 0xfe
	EXECUTABLE_ORDINAL     = 0xff

	// The bits of a protection. (mach/vm_prot.h)
	VM_PROT_READ    = 1
	VM_PROT_WRITE   = 2
	VM_PROT_EXECUTE = 4

	// Code signatures: magic numbers of blobs. (kern/cs_blobs.h)
	CSMAGIC_EMBEDDED_SIGNATURE         = 0xfade0cc0
	CSMAGIC_CODEDIRECTORY              = 0xfade0c02
	CSMAGIC_REQUIREMENTS               = 0xfade0c01
	CSMAGIC_EMBEDDED_ENTITLEMENTS      = 0xfade7171
	CSMAGIC_EMBEDDED_DER_ENTITLEMENTS  = 0xfade7172
	CSMAGIC_EMBEDDED_LAUNCH_CONSTRAINT = 0xfade8181
	CSMAGIC_BLOBWRAPPER                = 0xfade0b01

	// Code signatures: slots of code directories, and types of hashes. (kern/cs_blobs.h)
	CSSLOT_CODEDIRECTORY             = 0
	CSSLOT_ALTERNATE_CODEDIRECTORIES = 0x1000
	CSSLOT_REQUIREMENTS              = 2
	CSSLOT_ENTITLEMENTS              = 5
	CSSLOT_DER_ENTITLEMENTS          = 7
	CSSLOT_LAUNCH_CONSTRAINT_SELF    = 8
	CSSLOT_LIBRARY_CONSTRAINT        = 11
	CSSLOT_SIGNATURESLOT             = 0x10000
	CSSLOT_TICKETSLOT                = 0x10002
	CS_HASHTYPE_SHA1                 = 1
	CS_HASHTYPE_SHA256               = 2
	CS_HASHTYPE_SHA256_TRUNCATED     = 3
	CS_HASHTYPE_SHA384               = 4

	// Code signatures: flags of a code directory. (kern/cs_blobs.h)
	CS_ADHOC            = 0x2
	CS_HARD             = 0x100
	CS_KILL             = 0x200
	CS_CHECK_EXPIRATION = 0x400
	CS_RESTRICT         = 0x800
	CS_ENFORCEMENT      = 0x1000
	CS_REQUIRE_LV       = 0x2000
	CS_RUNTIME          = 0x10000
	CS_LINKER_SIGNED    = 0x20000

	// The size in bytes of a cdhash. (kern/cs_blobs.h)
	CS_CDHASH_LEN = 20
	// registry: end
)
