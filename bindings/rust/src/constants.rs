//! Constants of the headers of the system, by their own names. Made by `registry/generate`.

#![allow(missing_docs)]

// registry: constants
// The load commands. (mach-o/loader.h)
pub const LC_SEGMENT: u32 = 0x1;
pub const LC_SYMTAB: u32 = 0x2;
pub const LC_SYMSEG: u32 = 0x3;
pub const LC_THREAD: u32 = 0x4;
pub const LC_UNIXTHREAD: u32 = 0x5;
pub const LC_LOADFVMLIB: u32 = 0x6;
pub const LC_IDFVMLIB: u32 = 0x7;
pub const LC_IDENT: u32 = 0x8;
pub const LC_FVMFILE: u32 = 0x9;
pub const LC_PREPAGE: u32 = 0xa;
pub const LC_DYSYMTAB: u32 = 0xb;
pub const LC_LOAD_DYLIB: u32 = 0xc;
pub const LC_ID_DYLIB: u32 = 0xd;
pub const LC_LOAD_DYLINKER: u32 = 0xe;
pub const LC_ID_DYLINKER: u32 = 0xf;
pub const LC_PREBOUND_DYLIB: u32 = 0x10;
pub const LC_ROUTINES: u32 = 0x11;
pub const LC_SUB_FRAMEWORK: u32 = 0x12;
pub const LC_SUB_UMBRELLA: u32 = 0x13;
pub const LC_SUB_CLIENT: u32 = 0x14;
pub const LC_SUB_LIBRARY: u32 = 0x15;
pub const LC_TWOLEVEL_HINTS: u32 = 0x16;
pub const LC_PREBIND_CKSUM: u32 = 0x17;
pub const LC_SEGMENT_64: u32 = 0x19;
pub const LC_ROUTINES_64: u32 = 0x1a;
pub const LC_UUID: u32 = 0x1b;
pub const LC_CODE_SIGNATURE: u32 = 0x1d;
pub const LC_SEGMENT_SPLIT_INFO: u32 = 0x1e;
pub const LC_LAZY_LOAD_DYLIB: u32 = 0x20;
pub const LC_ENCRYPTION_INFO: u32 = 0x21;
pub const LC_DYLD_INFO: u32 = 0x22;
pub const LC_VERSION_MIN_MACOSX: u32 = 0x24;
pub const LC_VERSION_MIN_IPHONEOS: u32 = 0x25;
pub const LC_FUNCTION_STARTS: u32 = 0x26;
pub const LC_DYLD_ENVIRONMENT: u32 = 0x27;
pub const LC_DATA_IN_CODE: u32 = 0x29;
pub const LC_SOURCE_VERSION: u32 = 0x2a;
pub const LC_DYLIB_CODE_SIGN_DRS: u32 = 0x2b;
pub const LC_ENCRYPTION_INFO_64: u32 = 0x2c;
pub const LC_LINKER_OPTION: u32 = 0x2d;
pub const LC_LINKER_OPTIMIZATION_HINT: u32 = 0x2e;
pub const LC_VERSION_MIN_TVOS: u32 = 0x2f;
pub const LC_VERSION_MIN_WATCHOS: u32 = 0x30;
pub const LC_NOTE: u32 = 0x31;
pub const LC_BUILD_VERSION: u32 = 0x32;
pub const LC_ATOM_INFO: u32 = 0x36;
pub const LC_FUNCTION_VARIANTS: u32 = 0x37;
pub const LC_FUNCTION_VARIANT_FIXUPS: u32 = 0x38;
pub const LC_TARGET_TRIPLE: u32 = 0x39;
pub const LC_LOAD_WEAK_DYLIB: u32 = 0x8000_0018;
pub const LC_RPATH: u32 = 0x8000_001c;
pub const LC_REEXPORT_DYLIB: u32 = 0x8000_001f;
pub const LC_DYLD_INFO_ONLY: u32 = 0x8000_0022;
pub const LC_LOAD_UPWARD_DYLIB: u32 = 0x8000_0023;
pub const LC_MAIN: u32 = 0x8000_0028;
pub const LC_DYLD_EXPORTS_TRIE: u32 = 0x8000_0033;
pub const LC_DYLD_CHAINED_FIXUPS: u32 = 0x8000_0034;
pub const LC_FILESET_ENTRY: u32 = 0x8000_0035;

// The platforms of a build. (mach-o/loader.h)
pub const PLATFORM_MACOS: u32 = 1;
pub const PLATFORM_IOS: u32 = 2;
pub const PLATFORM_TVOS: u32 = 3;
pub const PLATFORM_WATCHOS: u32 = 4;
pub const PLATFORM_BRIDGEOS: u32 = 5;
pub const PLATFORM_MACCATALYST: u32 = 6;
pub const PLATFORM_IOSSIMULATOR: u32 = 7;
pub const PLATFORM_TVOSSIMULATOR: u32 = 8;
pub const PLATFORM_WATCHOSSIMULATOR: u32 = 9;
pub const PLATFORM_DRIVERKIT: u32 = 10;
pub const PLATFORM_VISIONOS: u32 = 11;
pub const PLATFORM_VISIONOSSIMULATOR: u32 = 12;

// The filetypes that are judged. (mach-o/loader.h)
pub const MH_EXECUTE: u32 = 2;
pub const MH_DYLIB: u32 = 6;
pub const MH_BUNDLE: u32 = 8;

// The attributes in the flags of a section. (mach-o/loader.h)
pub const S_ATTR_PURE_INSTRUCTIONS: u32 = 0x8000_0000;
pub const S_ATTR_NO_TOC: u32 = 0x4000_0000;
pub const S_ATTR_STRIP_STATIC_SYMS: u32 = 0x2000_0000;
pub const S_ATTR_NO_DEAD_STRIP: u32 = 0x1000_0000;
pub const S_ATTR_LIVE_SUPPORT: u32 = 0x800_0000;
pub const S_ATTR_SELF_MODIFYING_CODE: u32 = 0x400_0000;
pub const S_ATTR_DEBUG: u64 = 0x200_0000;
pub const S_ATTR_SOME_INSTRUCTIONS: u32 = 0x400;
pub const S_ATTR_EXT_RELOC: u32 = 0x200;
pub const S_ATTR_LOC_RELOC: u32 = 0x100;

// The type in the flags of a section, and the types of zero-fill sections. (mach-o/loader.h)
pub const SECTION_TYPE: u32 = 0xff;
pub const S_ZEROFILL: u32 = 0x1;
pub const S_GB_ZEROFILL: u32 = 0xc;
pub const S_THREAD_LOCAL_ZEROFILL: u32 = 0x12;

// The types of sections whose items have indirect entries. (mach-o/loader.h)
pub const S_NON_LAZY_SYMBOL_POINTERS: u32 = 0x6;
pub const S_LAZY_SYMBOL_POINTERS: u32 = 0x7;
pub const S_SYMBOL_STUBS: u32 = 0x8;
pub const S_LAZY_DYLIB_SYMBOL_POINTERS: u32 = 0x10;
pub const S_THREAD_LOCAL_VARIABLE_POINTERS: u32 = 0x14;

// The type of a section of offsets of initializers. (mach-o/loader.h)
pub const S_INIT_FUNC_OFFSETS: u32 = 0x16;

// The other types of sections. (mach-o/loader.h)
pub const S_REGULAR: u32 = 0x0;
pub const S_CSTRING_LITERALS: u32 = 0x2;
pub const S_4BYTE_LITERALS: u32 = 0x3;
pub const S_8BYTE_LITERALS: u32 = 0x4;
pub const S_LITERAL_POINTERS: u32 = 0x5;
pub const S_MOD_INIT_FUNC_POINTERS: u32 = 0x9;
pub const S_MOD_TERM_FUNC_POINTERS: u32 = 0xa;
pub const S_COALESCED: u32 = 0xb;
pub const S_INTERPOSING: u32 = 0xd;
pub const S_16BYTE_LITERALS: u32 = 0xe;
pub const S_DTRACE_DOF: u32 = 0xf;
pub const S_THREAD_LOCAL_REGULAR: u32 = 0x11;
pub const S_THREAD_LOCAL_VARIABLES: u32 = 0x13;
pub const S_THREAD_LOCAL_INIT_FUNCTION_POINTERS: u32 = 0x15;

// The marks of an indirect entry. (mach-o/loader.h)
pub const INDIRECT_SYMBOL_LOCAL: u32 = 0x8000_0000;
pub const INDIRECT_SYMBOL_ABS: u32 = 0x4000_0000;

// The flags of an image. (mach-o/loader.h)
pub const MH_NOUNDEFS: u32 = 0x1;
pub const MH_DYLDLINK: u32 = 0x4;
pub const MH_BINDATLOAD: u32 = 0x8;
pub const MH_PREBOUND: u32 = 0x10;
pub const MH_TWOLEVEL: u32 = 0x80;
pub const MH_FORCE_FLAT: u32 = 0x100;
pub const MH_SUBSECTIONS_VIA_SYMBOLS: u32 = 0x2000;
pub const MH_WEAK_DEFINES: u32 = 0x8000;
pub const MH_BINDS_TO_WEAK: u32 = 0x1_0000;
pub const MH_ALLOW_STACK_EXECUTION: u32 = 0x2_0000;
pub const MH_NO_REEXPORTED_DYLIBS: u32 = 0x10_0000;
pub const MH_PIE: u32 = 0x20_0000;
pub const MH_DEAD_STRIPPABLE_DYLIB: u32 = 0x40_0000;
pub const MH_HAS_TLV_DESCRIPTORS: u32 = 0x80_0000;
pub const MH_NO_HEAP_EXECUTION: u32 = 0x100_0000;
pub const MH_APP_EXTENSION_SAFE: u32 = 0x200_0000;
pub const MH_SIM_SUPPORT: u32 = 0x800_0000;
pub const MH_DYLIB_IN_CACHE: u32 = 0x8000_0000;

// The flags of an export: a mask, its values, and bits. (mach-o/loader.h)
pub const EXPORT_SYMBOL_FLAGS_KIND_MASK: u64 = 0x3;
pub const EXPORT_SYMBOL_FLAGS_KIND_REGULAR: u64 = 0x0;
pub const EXPORT_SYMBOL_FLAGS_KIND_THREAD_LOCAL: u64 = 0x1;
pub const EXPORT_SYMBOL_FLAGS_KIND_ABSOLUTE: u64 = 0x2;
pub const EXPORT_SYMBOL_FLAGS_WEAK_DEFINITION: u64 = 0x4;
pub const EXPORT_SYMBOL_FLAGS_REEXPORT: u64 = 0x8;
pub const EXPORT_SYMBOL_FLAGS_STUB_AND_RESOLVER: u64 = 0x10;
pub const EXPORT_SYMBOL_FLAGS_STATIC_RESOLVER: u64 = 0x20;

// The kinds of data in code. (mach-o/loader.h)
pub const DICE_KIND_DATA: u16 = 1;
pub const DICE_KIND_JUMP_TABLE8: u16 = 2;
pub const DICE_KIND_JUMP_TABLE16: u16 = 3;
pub const DICE_KIND_JUMP_TABLE32: u16 = 4;
pub const DICE_KIND_ABS_JUMP_TABLE32: u16 = 5;

// The processors of the 64-bit architectures. (mach/machine.h)
pub const CPU_ARCH_ABI64: u32 = 0x100_0000;
pub const CPU_TYPE_X86_64: u32 = 0x100_0007;
pub const CPU_TYPE_ARM64: u32 = 0x100_000c;
pub const CPU_SUBTYPE_MASK: u32 = 0xff00_0000;
pub const CPU_SUBTYPE_X86_64_ALL: u32 = 3;
pub const CPU_SUBTYPE_X86_64_H: u32 = 8;
pub const CPU_SUBTYPE_ARM64_ALL: u32 = 0;
pub const CPU_SUBTYPE_ARM64E: u32 = 2;

// The type of a symbol: masks, two bits, and the values of `N_TYPE`. (mach-o/nlist.h)
pub const N_STAB: u8 = 0xe0;
pub const N_PEXT: u8 = 0x10;
pub const N_TYPE: u8 = 0xe;
pub const N_EXT: u8 = 0x1;
pub const N_UNDF: u8 = 0x0;
pub const N_ABS: u8 = 0x2;
pub const N_INDR: u8 = 0xa;
pub const N_PBUD: u8 = 0xc;
pub const N_SECT: u8 = 0xe;

// The description of a symbol: bits of `n_desc`. Its upper 8 bits are the ordinal of a library, if the symbol is undefined. (mach-o/nlist.h)
pub const N_ARM_THUMB_DEF: u16 = 0x8;
pub const REFERENCED_DYNAMICALLY: u16 = 0x10;
pub const N_NO_DEAD_STRIP: u16 = 0x20;
pub const N_WEAK_REF: u16 = 0x40;
pub const N_WEAK_DEF: u16 = 0x80;
pub const N_SYMBOL_RESOLVER: u16 = 0x100;
pub const N_ALT_ENTRY: u16 = 0x200;
pub const N_COLD_FUNC: u16 = 0x400;

// The ordinals that stand for the image itself, for all images, and for the program. (mach-o/nlist.h)
pub const SELF_LIBRARY_ORDINAL: u16 = 0x0;
pub const DYNAMIC_LOOKUP_ORDINAL: u16 = 0xfe;
pub const EXECUTABLE_ORDINAL: u16 = 0xff;

// The bits of a protection. (mach/vm_prot.h)
pub const VM_PROT_READ: u32 = 1;
pub const VM_PROT_WRITE: u32 = 2;
pub const VM_PROT_EXECUTE: u32 = 4;

// Code signatures: magic numbers of blobs. (kern/cs_blobs.h)
pub const CSMAGIC_EMBEDDED_SIGNATURE: u32 = 0xfade_0cc0;
pub const CSMAGIC_CODEDIRECTORY: u32 = 0xfade_0c02;
pub const CSMAGIC_REQUIREMENTS: u32 = 0xfade_0c01;
pub const CSMAGIC_EMBEDDED_ENTITLEMENTS: u32 = 0xfade_7171;
pub const CSMAGIC_EMBEDDED_DER_ENTITLEMENTS: u32 = 0xfade_7172;
pub const CSMAGIC_EMBEDDED_LAUNCH_CONSTRAINT: u32 = 0xfade_8181;
pub const CSMAGIC_BLOBWRAPPER: u32 = 0xfade_0b01;

// Code signatures: slots of code directories, and types of hashes. (kern/cs_blobs.h)
pub const CSSLOT_CODEDIRECTORY: u32 = 0;
pub const CSSLOT_ALTERNATE_CODEDIRECTORIES: u32 = 0x1000;
pub const CSSLOT_REQUIREMENTS: u32 = 2;
pub const CSSLOT_ENTITLEMENTS: u32 = 5;
pub const CSSLOT_DER_ENTITLEMENTS: u32 = 7;
pub const CSSLOT_LAUNCH_CONSTRAINT_SELF: u32 = 8;
pub const CSSLOT_LIBRARY_CONSTRAINT: u32 = 11;
pub const CSSLOT_SIGNATURESLOT: u32 = 0x1_0000;
pub const CSSLOT_TICKETSLOT: u32 = 0x1_0002;
pub const CS_HASHTYPE_SHA1: u8 = 1;
pub const CS_HASHTYPE_SHA256: u8 = 2;
pub const CS_HASHTYPE_SHA256_TRUNCATED: u8 = 3;
pub const CS_HASHTYPE_SHA384: u8 = 4;

// Code signatures: flags of a code directory. (kern/cs_blobs.h)
pub const CS_ADHOC: u32 = 0x2;
pub const CS_HARD: u32 = 0x100;
pub const CS_KILL: u32 = 0x200;
pub const CS_CHECK_EXPIRATION: u32 = 0x400;
pub const CS_RESTRICT: u32 = 0x800;
pub const CS_ENFORCEMENT: u32 = 0x1000;
pub const CS_REQUIRE_LV: u32 = 0x2000;
pub const CS_RUNTIME: u32 = 0x1_0000;
pub const CS_LINKER_SIGNED: u32 = 0x2_0000;

// The size in bytes of a cdhash. (kern/cs_blobs.h)
pub const CS_CDHASH_LEN: u64 = 20;
// registry: end
