//! Where the thread of an image begins, by its registers. (`<mach-o/loader.h>`, `<mach/thread_status.h>`)

use kesvuot::Image;

const LC_THREAD: u32 = 0x4;
const LC_UNIXTHREAD: u32 = 0x5;
const VM_PROT_EXECUTE: u32 = 4;
/// For a state with registers: the `cputype` and the flavor, its count, and where the address of the next instruction
/// is among its words of 4 bytes.
const REGISTERS: [([u32; 2], usize, usize); 3] = [
    ([0x0100_0007, 4], 42, 32),
    ([0x0100_0007, 7], 44, 34),
    ([0x0100_000c, 6], 68, 64),
];
/// `x86_THREAD_STATE` has an `x86_THREAD_STATE64` in it, after its flavor and count.
const WITH_HEADER: u32 = 7;
const HEADER: [u32; 2] = [4, 42];

/// The words of 4 bytes of a command past its first 8 bytes.
fn words_of(command: &[u8]) -> Vec<u32> {
    let words = command[8..].chunks_exact(4);
    words
        .map(|word| u32::from_le_bytes(word.try_into().unwrap()))
        .collect()
}

/// The states of a thread: the flavor of each, and its words. `None` if they do not end where the thread ends.
fn states_of(mut words: &[u32]) -> Option<Vec<(u32, &[u32])>> {
    let mut states = Vec::new();
    while !words.is_empty() {
        let (flavor, count) = (words[0], *words.get(1)? as usize);
        states.push((flavor, words.get(2..2 + count)?));
        words = &words[2 + count..];
    }
    Some(states)
}

/// The address that the registers of a thread name.
fn entry_of(cputype: u32, words: &[u32]) -> Option<u64> {
    let known = |flavor: u32| REGISTERS.iter().find(|it| it.0 == [cputype, flavor]);
    let states = states_of(words)?;
    let mut with_registers = states
        .iter()
        .filter_map(|(flavor, words)| Some((*flavor, words, known(*flavor)?)));
    let (flavor, words, (_, count, at)) = with_registers.next()?;
    let is_other = words.len() != *count || flavor == WITH_HEADER && words[..2] != HEADER;
    if with_registers.next().is_some() || is_other {
        return None;
    }
    Some(u64::from(words[*at]) | u64::from(words[at + 1]) << 32)
}

/// Compares the entry of the first thread command. An entry counts only if its byte is in the file and executable.
pub fn compare<'a>(image: &Image, mut commands: impl Iterator<Item = (u32, &'a [u8])>) {
    let thread = commands.find(|(cmd, _)| [LC_THREAD, LC_UNIXTHREAD].contains(cmd));
    let entry = thread
        .and_then(|(_, bytes)| entry_of(image.cputype(), &words_of(bytes)))
        .filter(|entry| {
            image.segments().any(|segment| {
                let past = entry.checked_sub(segment.vmaddr);
                let is_code = segment.vmsize > 0 && segment.initprot & VM_PROT_EXECUTE != 0;
                is_code && past.map_or(false, |past| past < segment.filesize)
            })
        });
    assert_eq!(image.thread_entry(), entry);
}
