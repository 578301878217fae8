"""The keys of a policy, in the order in which they are judged and told."""

from __future__ import annotations

from glob import escape
from typing import Any, Callable, Dict, Iterable, List, NamedTuple, Optional, Set

from . import _policy_values as values
from ._entitlements import Unreadable
from ._files import File, Slice
from ._names import HASH_TYPES, PLATFORMS, count_text, hash_type_name, platform_name, version_text
from ._policy_facts import MOST_NAMES, MOST_SYMBOLS, Facts, TooMany, architecture, listed, quoted, text_of
from ._policy_values import Patterns, any_of
from ._rows import Build, CodeDirectory
from .constants import CS_RUNTIME, MH_DYLIB, MH_EXECUTE, MH_PIE

# The value of a policy that a file meets, by the file and the facts of its images. None if there is not any.
Meets = Callable[[File, List[Facts]], Any]
# An entitlement with which others can read and change a process.
DEBUGGED = "com.apple.security.get-task-allow"


class Key(NamedTuple):
    """A key of a policy.

    `name`: of a key in a table with the name of the table, such as signature.team
    `asks`: what it asks of a file
    `read`: makes the value to judge by of that in the policy. Raises Malformed
    `wants`: what is told of this value
    `finds`: what is found instead in the facts of an image; of a key of the file in the File; of a key of slices in a
    slice that is not judged. Nothing if it is as it should be
    `meets`: the value that a file meets
    `of`: what it looks at
    `is_flag`: whether it is true, or asks nothing"""

    name: str
    asks: str
    read: Callable[[Any], Any]
    wants: Callable[[Any], str]
    finds: Callable[[Any, Any], str]
    meets: Meets
    of: str = "image"
    is_flag: bool = False


def _say(wanted: str) -> Callable[[Any], str]:
    return lambda _value: wanted


def _true_if_met(finds: Callable[[Any, Any], str]) -> Meets:
    """The value of a key that is true or not there."""
    return lambda _file, facts: None if any(finds(True, each) for each in facts) else True


def _flag(name: str, asks: str, wanted: str, finds: Callable[[Any, Any], str]) -> Key:
    """A key that is true, or asks nothing."""
    return Key(name, asks, values.flag, _say(wanted), finds, _true_if_met(finds), is_flag=True)


def _want_none(wanted: Patterns) -> str:
    return f"none of {wanted.told(', ')}"


def exact(name: str) -> str:
    """The pattern of one name. A byte that is not UTF-8, which no policy can have, is any letter."""
    return "".join("?" if 0xDC80 <= ord(letter) <= 0xDCFF else letter for letter in escape(name))


def _exact(names: Iterable[str]) -> List[str]:
    return sorted({exact(name) for name in names})


# Architectures and platforms


def _architectures_of(file: File, _facts: Any = None) -> List[str]:
    return [architecture(part.cputype, part.cpusubtype) for part in file.slices]


def _find_architectures(wanted: values.Architectures, file: File) -> str:
    found = {(part.cputype, part.cpusubtype) for part in file.slices}
    is_met = found == wanted.numbers.keys() if wanted.is_exact else found >= wanted.numbers.keys()
    return "" if is_met else ", ".join(_architectures_of(file))


def _find_platform(wanted: List[int], facts: Facts) -> str:
    if not len(facts.image.builds):
        return "no platform"
    return ", ".join(platform_name(it.platform) for it in facts.image.builds if it.platform not in wanted)


def _find_versions(field: str, is_met: Callable[[int, int], bool]) -> Callable[[values.Versions, Facts], str]:
    def find(wanted: values.Versions, facts: Facts) -> str:
        if not len(facts.image.builds):
            return "no platform"
        limits = ((it, getattr(it, field), wanted.of(it.platform)) for it in facts.image.builds)
        return ", ".join(f"{platform_name(it.platform)} {version_text(found)}" for it, found, limit in limits
                         if limit is not None and not is_met(found, limit))
    return find


def _want_versions(word: str) -> Callable[[values.Versions], str]:
    def want(wanted: values.Versions) -> str:
        each = [f"{word} {version_text(limit)} for {platform_name(it)}" for it, limit in wanted.of_each.items()]
        return ", ".join(each) if wanted.of_all is None else f"{word} {version_text(wanted.of_all)}"
    return want


def _meet_versions(field: str, choose: Callable[[List[int]], int]) -> Meets:
    def meet(_file: File, facts: List[Facts]) -> Any:
        found: Dict[int, List[int]] = {}
        for build in _builds(facts):
            found.setdefault(build.platform, []).append(getattr(build, field))
        limits = {platform_name(it): version_text(choose(numbers)) for it, numbers in found.items()}
        return limits if len(limits) > 1 else next(iter(limits.values()), None)
    return meet


def _meet_platforms(_file: File, facts: List[Facts]) -> Optional[List[str]]:
    return sorted({platform_name(it.platform) for it in _builds(facts)}) or None


def _builds(facts: List[Facts]) -> List[Build]:
    """The platforms of all images, or none if an image has none, or one without a name."""
    found = [list(each.image.builds) for each in facts]
    is_named = all(it.platform in PLATFORMS for builds in found for it in builds)
    return [it for builds in found for it in builds] if all(found) and is_named else []


# Libraries and paths


def _find_libraries(wanted: values.PathPatterns, facts: Facts) -> str:
    return listed(it.name for it in facts.image.libraries if not wanted.allows(text_of(it.name)))


def _find_run_paths(wanted: values.RelativePatterns, facts: Facts) -> str:
    return listed(path for path in facts.image.run_paths if not wanted.allows(text_of(path)))


def _find_install_name(wanted: values.RelativePatterns, facts: Facts) -> str:
    name = facts.image.id and facts.image.id.name
    if facts.image.filetype != MH_DYLIB or (name is not None and wanted.allows(text_of(name))):
        return ""
    return "no install name" if name is None else quoted(name)


def _meet_libraries(_file: File, facts: List[Facts]) -> List[str]:
    return _exact(text_of(it.name) for each in facts for it in each.image.libraries)


def _meet_run_paths(_file: File, facts: List[Facts]) -> List[str]:
    return _exact(text_of(path) for each in facts for path in each.image.run_paths)


def _meet_install_name(_file: File, facts: List[Facts]) -> Optional[List[str]]:
    return _exact(text_of(each.image.id.name) for each in facts if each.image.id) or None


# What an image is


def _find_pie(_value: Any, facts: Facts) -> str:
    image = facts.image
    return "" if image.filetype != MH_EXECUTE or image.flags & MH_PIE else f"flags {image.flags:#x}"


def _find_uuid(_value: Any, facts: Facts) -> str:
    return "" if facts.image.uuid else "no UUID"


def _find_debug_paths(_value: Any, facts: Facts) -> str:
    return listed(facts.debug_paths, lambda symbol: quoted(symbol.name), MOST_SYMBOLS)


def _find_unstripped(_value: Any, facts: Facts) -> str:
    count, names = 0, []
    for symbol in facts.unstripped:
        count += 1
        # A name that is not there can take a search through all strings.
        if count <= MOST_NAMES and len(names) < MOST_SYMBOLS and len(symbol.name):
            names.append(quoted(symbol.name))
    examples = f", such as {', '.join(names)}" if names else ""
    return f"{count_text(count, 'symbol')}{examples}" if count else ""


# Signatures


def _of_directories(found: Callable[[CodeDirectory], str], is_met: Callable[[Any, CodeDirectory], bool]
                    ) -> Callable[[Any, Facts], str]:
    """What those code directories have that do not have what is wanted. All count: readers choose one by its type."""
    def find(wanted: Any, facts: Facts) -> str:
        others = [found(it) for it in facts.directories if not is_met(wanted, it)]
        return facts.no_signature or ", ".join(dict.fromkeys(others))
    return find


def _find_entitlements(wanted: Patterns, facts: Facts) -> str:
    try:
        return listed(name for name, value in facts.entitlements.items() if value is not False and name in wanted)
    except Unreadable as error:
        return f"entitlements that cannot be read: {error}"


def _named(name: memoryview, kind: str) -> str:
    return quoted(name) if len(name) else f"no {kind}"


def _of_all_directories(facts: List[Facts], value: Callable[[CodeDirectory], str]) -> Set[str]:
    """What all code directories have, or nothing if an image has none, or one has nothing of the kind."""
    found = {value(it) for each in facts for it in each.directories}
    return found if all(each.directories for each in facts) and all(found) else set()


def _meet_names(value: Callable[[CodeDirectory], memoryview]) -> Meets:
    return lambda _file, facts: _exact(_of_all_directories(facts, lambda it: text_of(value(it)))) or None


def _meet_hash_types(_file: File, facts: List[Facts]) -> Optional[List[str]]:
    found = _of_all_directories(facts, lambda it: hash_type_name(it.hash_type))
    return sorted(found) if found and found <= set(HASH_TYPES.values()) else None


def _meet_entitlements(_file: File, facts: List[Facts]) -> Optional[List[str]]:
    is_debugged = any(_find_entitlements(Patterns([DEBUGGED]), each) for each in facts)
    return [DEBUGGED] if all(each.directories for each in facts) and not is_debugged else None


# Exports


def _of_exports(find: Callable[[Any, List[str]], str]) -> Callable[[Any, Facts], str]:
    def find_in(wanted: Any, facts: Facts) -> str:
        try:
            return find(wanted, facts.exports)
        except TooMany as error:
            return str(error)
    return find_in


def _find_missing(wanted: Patterns, exports: List[str]) -> str:
    missing = listed(wanted.without(exports))
    return f"no export {missing}" if missing else ""


def _interfaces(facts: List[Facts]) -> List[Set[str]]:
    """The exports of each image, if these are all libraries, whose names are an interface."""
    try:
        return [] if any(it.image.filetype == MH_EXECUTE for it in facts) else [set(it.exports) for it in facts]
    except TooMany:
        return []


def _meet_must(_file: File, facts: List[Facts]) -> Optional[List[str]]:
    found = _interfaces(facts)
    return _exact(set.intersection(*found)) if found else None


def _meet_may(_file: File, facts: List[Facts]) -> Optional[List[str]]:
    found = _interfaces(facts)
    return _exact(set.union(*found) - set.intersection(*found)) if found else None


# The file


def _find_unsupported(_value: Any, _part: Slice) -> str:
    return "nothing in it is judged"


def _find_size(wanted: int, file: File) -> str:
    return "" if len(file.data) <= wanted else f"{len(file.data)} bytes"


def _meet_unsupported(file: File, _facts: Any) -> Optional[str]:
    return None if file.unread_slices else "none"


def _meet_size(file: File, _facts: Any) -> str:
    """The size, rounded up to a whole unit."""
    number = min(max(len(file.data).bit_length() - 1, 0) // 10, 3)
    return f"{-(-len(file.data) >> 10 * number)} {('B', 'KiB', 'MiB', 'GiB')[number]}"


KEYS: Dict[str, Key] = {key.name: key for key in (
    Key("architectures", "The file has exactly, or at least, these architectures.", values.architectures, str,
        _find_architectures, _architectures_of, "file"),
    Key("platform", "Each image is built for these platforms alone.", values.platforms,
        lambda wanted: any_of(map(platform_name, wanted)), _find_platform, _meet_platforms),
    Key("minimum-os", "Each image runs on this version of its platform, and may run on earlier ones.",
        values.versions, _want_versions("at most"), _find_versions("minos", int.__le__), _meet_versions("minos", max)),
    Key("sdk", "Each image is built with this SDK, or with a later one.",
        values.versions, _want_versions("at least"), _find_versions("sdk", int.__ge__), _meet_versions("sdk", min)),
    Key("libraries", "Each image loads libraries with such paths alone.",
        values.paths, Patterns.told, _find_libraries, _meet_libraries),
    Key("run-paths", "Each image has such run paths alone.",
        values.relative_paths, Patterns.told, _find_run_paths, _meet_run_paths),
    Key("install-name", "Each dynamic library has such an install name.",
        values.relative_paths, Patterns.told, _find_install_name, _meet_install_name),
    _flag("position-independent", "Each program is position-independent.", "MH_PIE (0x200000)", _find_pie),
    _flag("no-writable-executable", "In no image are a segment or the stack both writable and executable.",
          "nothing that is writable and executable", lambda _value, facts: listed(facts.writable_code, str)),
    _flag("uuid", "Each image has a UUID.", "a UUID", _find_uuid),
    _flag("no-environment", "No image sets variables of the dynamic linker.", "no LC_DYLD_ENVIRONMENT",
          lambda _value, facts: listed(facts.environment)),
    _flag("no-debug-paths", "No debugging entry has a path of the machine that built the image.",
          "no N_SO or N_OSO with a path from the root", _find_debug_paths),
    _flag("signature.required", "Each image has a code signature.", "a code signature",
          lambda _value, facts: facts.no_signature),
    _flag("signature.hardened-runtime", "Each image is signed for the hardened runtime.", "CS_RUNTIME (0x10000)",
          _of_directories(lambda it: f"flags {it.flags:#x}", lambda _value, it: it.flags & CS_RUNTIME != 0)),
    Key("signature.team", "Each image is signed by such a team.", values.patterns, Patterns.told,
        _of_directories(lambda it: _named(it.team, "team"), lambda wanted, it: text_of(it.team) in wanted),
        _meet_names(lambda it: it.team)),
    Key("signature.identifier", "Each image is signed with such an identifier.", values.patterns, Patterns.told,
        _of_directories(lambda it: _named(it.identifier, "identifier"),
                        lambda wanted, it: text_of(it.identifier) in wanted),
        _meet_names(lambda it: it.identifier)),
    Key("signature.page-hashes", "Each image is signed with hashes of these types alone.", values.hash_types, any_of,
        _of_directories(lambda it: hash_type_name(it.hash_type),
                        lambda wanted, it: hash_type_name(it.hash_type) in wanted), _meet_hash_types),
    Key("signature.no-entitlements", "No image has such an entitlement.", values.patterns, _want_none,
        _find_entitlements, _meet_entitlements),
    Key("exports.must", "Each image exports such names.", values.patterns, lambda wanted: wanted.told(", "),
        _of_exports(_find_missing), _meet_must),
    Key("exports.may", "Each image exports no other names than these and those of exports.must.",
        values.patterns, Patterns.told,
        _of_exports(lambda wanted, exports: listed(name for name in exports if name not in wanted)), _meet_may),
    Key("exports.must-not", "No image exports such names.", values.patterns, _want_none,
        _of_exports(lambda wanted, exports: listed(name for name in exports if name in wanted)),
        lambda _file, _facts: None),
    _flag("symbols-stripped", "No image has local symbols or entries for debuggers.",
          "no local symbol and no debugging entry", _find_unstripped),
    Key("unsupported-slices", "The file has no slice that is 32-bit or big-endian.", values.none, _say("no such slice"),
        _find_unsupported, _meet_unsupported, "slice"),
    Key("size", "The file has at most this size.", values.size, lambda wanted: f"at most {wanted} bytes", _find_size,
        _meet_size, "file"))}
