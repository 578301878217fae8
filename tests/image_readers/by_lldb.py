"""Prints what lldb shows of files: the line `file` for each, and a line for each of its images, segments, sections and
entries. ../other_readers says what is in a line. lldb imports it, and finds the paths in IMAGE_FILES, a line each."""

import os

import lldb  # pylint: disable=import-error

CPUTYPES = {"x86_64": 0x01000007, "x86_64h": 0x01000007, "arm64": 0x0100000C, "arm64e": 0x0100000C}


def digits(name):
    return "=" + (name or "").encode("utf-8", "surrogateescape").hex()


def show(module):
    for segment in module.sections:
        print("segment", digits(segment.name), segment.GetFileAddress(), segment.GetByteSize(), "-", "-", "-")
    for segment in module.sections:
        for section in map(segment.GetSubSectionAtIndex, range(segment.GetNumSubSections())):
            print("section", digits(segment.name), digits(section.name), section.GetFileAddress(),
                  section.GetByteSize(), "-", "-")
    entry = module.GetObjectFileEntryPointAddress()
    if entry.IsValid():
        print("entry", entry.GetFileAddress())


def show_file(debugger, path):
    shown = set()
    images = lldb.SBModuleSpecList.GetModuleSpecifications(path)
    for triple in (images.GetSpecAtIndex(k).GetTriple() for k in range(images.GetSize())):
        architecture = triple.split("-")[0]
        # An image for two platforms is listed twice.
        if architecture in CPUTYPES and architecture not in shown:
            shown.add(architecture)
            target = debugger.CreateTarget(path, triple, None, False, lldb.SBError())
            print("image", CPUTYPES[architecture])
            show(target.GetModuleAtIndex(0))


def __lldb_init_module(debugger, _):
    for path in os.environ["IMAGE_FILES"].split("\n"):
        print("file", flush=True)
        show_file(debugger, path)
