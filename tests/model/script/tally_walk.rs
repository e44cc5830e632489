//! Walks over the tally: numbers near their largest and chunks of several lines, the last places there are, chunks
//! without a line, and what clears no tally.

use super::Script;
use crate::calls::hex;
use crate::chunks::cut_at;
use crate::faults::{broken, message, spoil, wrong_frame, BREAKS};
use crate::tallies::{told, SORTS};
use crate::telegram::{No, END, LONGEST_TELEGRAM, START};

/// A number that takes no more lines.
const FULL: u32 = u32::MAX;

/// Sets the tally.
fn set(script: &mut Script, [read, refused, dropped]: [u32; 3]) {
    script.call(format!("tally.set {read} {refused} {dropped}"));
}

/// Asks for the tally.
fn get(script: &mut Script) {
    script.call("tally.get");
}

/// Adds a chunk, and tells the number it was refused with and how many of its bytes were taken.
fn feed(script: &mut Script, chunk: &[u8]) -> (Option<No>, usize) {
    let chunk = hex(chunk);
    let answer = script.answer(format!("rx.feed {chunk}"));
    told(&chunk, &answer).map_or((None, 0), |told| (told.number, told.taken))
}

/// Adds a chunk. Where it is refused 76 the tally is asked for, the rest is tried again now and then, and with other
/// numbers what is left is taken, at first up to the next line but one.
fn feed_on(script: &mut Script, chunk: &[u8]) {
    let (mut left, mut numbers) = (chunk, [FULL - 1; 3]);
    while let (Some(76), taken) = feed(script, left) {
        left = &left[taken..];
        get(script);
        if script.random.one_in(2) {
            feed(script, left);
        }
        set(script, numbers);
        numbers = numbers.map(|_| script.random.pick(&[0, 7, FULL - 2]));
    }
}

/// Frames of which each gives one line of this sort: read, refused with any number, or dropped, where another start
/// must come next.
fn frame_of(script: &mut Script, sort: usize) -> Vec<u8> {
    let random = &mut script.random;
    let message = message(random);
    match sort {
        0 => message.telegram(),
        1 if random.one_in(3) => broken(random, &message, BREAKS[0])[0].clone(),
        1 if random.one_in(8) => wrong_frame(LONGEST_TELEGRAM + 1),
        1 => {
            let row = random.pick(&[3, 4, 7, 8, 9]);
            spoil(random, &message, row)
        }
        _ => vec![START, 65, START, END],
    }
}

/// A few bytes, then frames of these sorts and a few bytes between them. A dropped frame has a refused one behind it.
fn chunk_of(script: &mut Script, sorts: &[usize]) -> Vec<u8> {
    let mut chunk = Vec::new();
    for sort in sorts {
        chunk.extend(vec![65; script.random.below(3)]);
        chunk.extend(frame_of(script, *sort));
    }
    chunk
}

/// For each of the numbers: it is full and meets lines of its own sort; it is one short and meets them in one chunk; it
/// is short by more, the others full or anywhere, and meets lines of all sorts in chunks.
pub fn near_full(script: &mut Script) {
    for (sort, below) in (0..SORTS.len()).flat_map(|sort| (0..4).map(move |below| (sort, below))) {
        let place = script.random.bits() / 2;
        script.call(format!("rx.new {place}"));
        let offered = if below == 3 { [FULL; 4] } else { [0, FULL, FULL - 1, FULL / 2] };
        let mut numbers = [(); 3].map(|()| script.random.pick(&offered));
        numbers[sort] = FULL - below;
        set(script, numbers);
        let any = [(); 4].map(|()| script.random.below(3));
        let capture = chunk_of(script, &if below < 2 { [sort; 4] } else { [sort, any[1], any[2], any[3]] });
        let mut places: Vec<usize> = (0..below).map(|_| script.random.between(0, capture.len())).collect();
        places.sort_unstable();
        for chunk in cut_at(&capture, if below == 1 { &[] } else { &places }) {
            feed_on(script, chunk);
        }
        get(script);
        script.call("rx.end");
    }
    set(script, [0; 3]);
}

/// A frame of each sort at the last places there are, in a chunk that is too long for them: 76 where its own number is
/// full, also where the end of its line has no place; 60 where another number is, that of a later line too, and where
/// no line ends. Neither takes anything, and a shorter chunk is taken then.
pub fn last_places(script: &mut Script) {
    for (sort, is_short) in (0..SORTS.len()).flat_map(|sort| [(sort, false), (sort, true)]) {
        let frame = frame_of(script, sort);
        let line = if sort == 2 { frame.len() - 1 } else { frame.len() };
        let room = if is_short { script.random.below(line) } else { line };
        script.call(format!("rx.new {}", u64::MAX - room as u64));
        let other = (sort + 1) % 3;
        let long = [frame.clone(), frame_of(script, other), vec![65]].concat();
        for full in [[sort; 3], [0, 1, 2], [other; 3]] {
            let numbers = [0, 1, 2].map(|number| if full.contains(&number) { FULL } else { 3 });
            set(script, numbers);
            feed(script, &long);
            get(script);
        }
        set(script, [FULL; 3]);
        feed(script, &vec![65; room + 1]);
        get(script);
        feed(script, &frame[..room]);
        script.call("rx.end");
        set(script, [0; 3]);
        feed(script, &frame[..room]);
        get(script);
    }
    set(script, [0; 3]);
}

/// All three numbers are full: chunks without a line are taken, a frame is opened and goes on, and the byte that ends it
/// is not taken until the tally is cleared; so for each sort, and for a frame over 494 bytes.
pub fn no_line(script: &mut Script) {
    for sort in 0..=SORTS.len() {
        let frame = match sort {
            3 => wrong_frame(LONGEST_TELEGRAM + 1 + script.random.below(9)),
            sort => frame_of(script, sort),
        };
        let last = if sort == 2 { frame.len() - 2 } else { frame.len() - 1 };
        script.call("rx.new 4294967000");
        set(script, [FULL; 3]);
        for chunk in [&[][..], &[65, END, 94], &frame[..1], &[], &frame[1..last]] {
            feed(script, chunk);
        }
        get(script);
        feed(script, &frame[last..]);
        script.call("rx.end");
        set(script, [0; 3]);
        feed(script, &frame[last..]);
        get(script);
        script.call("rx.end");
    }
}

/// Frames of each number that the listing may tell, all counted alike; then what clears no tally: a fresh receiver, a
/// fresh desk, the end of a capture, and a set that is no call. The numbers go on from where they were set to.
pub fn anew(script: &mut Script) {
    script.call("rx.new 0");
    set(script, [0; 3]);
    for row in [3, 4, 5, 7, 8, 9] {
        let message = message(&mut script.random);
        let frame = spoil(&mut script.random, &message, row);
        feed(script, &frame);
    }
    get(script);
    for line in ["rx.new 0", "desk.new", "rx.end", "tally.set 0 0", "tally.set 0 0 -", "bench.new 15", "scan.new 5"] {
        let sort = script.random.below(3);
        let chunk = chunk_of(script, &[sort, 1, 0]);
        feed(script, &chunk);
        script.call(line);
        get(script);
    }
    let numbers = [(); 3].map(|()| script.random.word() / 2);
    set(script, numbers);
    let chunk = chunk_of(script, &[2, 1, 0]);
    feed(script, &chunk);
    feed(script, &[START]);
    get(script);
    script.call("rx.end");
    get(script);
    set(script, [0; 3]);
    get(script);
    feed(script, &[END]);
    get(script);
    set(script, [0; 3]);
}
