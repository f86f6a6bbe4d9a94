// SPDX-License-Identifier: Apache-2.0
//! Times calls of libhll at lg_k 12 compared with the Rust crate `datasketches`, pair by pair, by bytes in and bytes out. Prints a row
//! for each call, and for each kind of image the median of the ratios, and the nanoseconds of the call. bench/compare.py
//! builds and runs it.
use datasketches::hll::{HllSketch, HllType, HllUnion};
use std::hint::black_box;

const LG_K: u8 = 12;
const IMAGES: usize = 200;
const TURNS: usize = 31;
const SET_VALUES: usize = 20;
const SET_HEADER: usize = 12;
const BUCKETS: usize = 32;

#[link(name = "hll", kind = "static")]
#[link(name = "m")]
unsafe extern "C" {
    fn hll_image_new(lg_k: u8, width: u8, out: *mut u8, room: usize, size: *mut usize) -> u8;
    #[rustfmt::skip]
    fn hll_image_add(image: *const u8, len: usize, values: *const u8, values_len: usize, ends: *const usize, count: usize, out: *mut u8, room: usize, size: *mut usize) -> u8;
    #[rustfmt::skip]
    fn hll_image_merge(lg_max_k: u8, width: u8, left: *const u8, left_len: usize, right: *const u8, right_len: usize, out: *mut u8, room: usize, size: *mut usize, failed: *mut usize) -> u8;
    #[rustfmt::skip]
    fn hll_image_convert(image: *const u8, len: usize, width: u8, out: *mut u8, room: usize, size: *mut usize) -> u8;
    #[rustfmt::skip]
    fn hll_images_agree(left: *const u8, left_len: usize, right: *const u8, right_len: usize, same: *mut u8, failed: *mut usize) -> u8;
    fn hll_state_new(lg_k: u32, state: *mut u8, room: usize) -> u8;
    #[rustfmt::skip]
    fn hll_state_add_value(state: *mut u8, room: usize, size: *mut usize, value: *const u8, len: usize) -> u8;
    #[rustfmt::skip]
    fn hll_state_add(state: *mut u8, room: usize, size: *mut usize, values: *const u8, values_len: usize, ends: *const usize, count: usize) -> u8;
    #[rustfmt::skip]
    fn hll_state_join(lg_max_k: u32, state: *mut u8, room: usize, size: *mut usize, image: *const u8, len: usize) -> u8;
    #[rustfmt::skip]
    fn hll_state_image(state: *mut u8, room: usize, width: u32, out: *mut u8, out_room: usize, size: *mut usize) -> u8;
    fn clock_gettime(clock: i32, time: *mut [i64; 2]) -> i32;
}

/// The nanoseconds of this thread.
fn now() -> f64 {
    let mut time = [0; 2];
    unsafe { clock_gettime(3, &mut time) };
    time[0] as f64 * 1e9 + time[1] as f64
}

// ---- calls

/// Numbers from one on, eight bytes each, and where each ends.
struct Values {
    numbers: Vec<u64>,
    bytes: Vec<u8>,
    ends: Vec<usize>,
}

impl Values {
    fn new(from: u64, count: usize) -> Values {
        let numbers: Vec<u64> = (from..from + count as u64).collect();
        let bytes = numbers.iter().flat_map(|number| number.to_le_bytes()).collect();
        let ends = (1..=count).map(|end| 8 * end).collect();
        Values { numbers, bytes, ends }
    }
}

fn add(image: &[u8], values: &Values, out: &mut [u8]) -> usize {
    let mut size = 0;
    let (bytes, ends) = (&values.bytes, &values.ends);
    let code = unsafe {
        hll_image_add(image.as_ptr(), image.len(), bytes.as_ptr(), bytes.len(), ends.as_ptr(), ends.len(), out.as_mut_ptr(), out.len(), &mut size)
    };
    assert_eq!(code, 0);
    size
}

fn add_by_crate(image: &[u8], values: &Values) -> Vec<u8> {
    let mut sketch = HllSketch::deserialize(image).unwrap();
    for number in &values.numbers {
        sketch.update(number);
    }
    sketch.serialize()
}

fn merge(width: u8, left: &[u8], right: &[u8], out: &mut [u8]) -> usize {
    let (mut size, mut failed) = (0, 0);
    let code = unsafe {
        hll_image_merge(LG_K, width, left.as_ptr(), left.len(), right.as_ptr(), right.len(), out.as_mut_ptr(), out.len(), &mut size, &mut failed)
    };
    assert_eq!(code, 0);
    size
}

fn merge_by_crate(width: u8, left: &[u8], right: &[u8]) -> Vec<u8> {
    let hll_type = [HllType::Hll4, HllType::Hll6, HllType::Hll8][usize::from(width) / 2 - 2];
    let mut union = HllUnion::new(LG_K).unwrap();
    union.update(&HllSketch::deserialize(left).unwrap());
    union.update(&HllSketch::deserialize(right).unwrap());
    union.to_sketch(hll_type).serialize()
}

fn convert(image: &[u8], width: u8, out: &mut [u8]) -> usize {
    let mut size = 0;
    let code = unsafe { hll_image_convert(image.as_ptr(), image.len(), width, out.as_mut_ptr(), out.len(), &mut size) };
    assert_eq!(code, 0);
    size
}

fn convert_by_crate(image: &[u8]) -> Vec<u8> {
    HllSketch::deserialize(image).unwrap().serialize()
}

fn agree(left: &[u8], right: &[u8]) -> bool {
    let (mut same, mut failed) = (0, 0);
    assert_eq!(unsafe { hll_images_agree(left.as_ptr(), left.len(), right.as_ptr(), right.len(), &mut same, &mut failed) }, 0);
    same == 1
}

fn agree_by_crate(left: &[u8], right: &[u8]) -> bool {
    HllSketch::deserialize(left).unwrap() == HllSketch::deserialize(right).unwrap()
}

// ---- images

/// The image of so many values from a number on.
fn image(width: u8, from: u64, count: usize) -> Vec<u8> {
    let (mut empty, mut out, mut len) = ([0; 64], vec![0; 30000], 0);
    assert_eq!(unsafe { hll_image_new(LG_K, width, empty.as_mut_ptr(), 64, &mut len) }, 0);
    let size = add(&empty[..len], &Values::new(from, count), &mut out);
    out.truncate(size);
    out
}

fn word(bytes: &[u8]) -> u32 {
    u32::from_le_bytes(bytes[..4].try_into().unwrap())
}

/// The buckets of a table with these coupons, where searches find them.
fn buckets_of(coupons: &[u8]) -> Vec<u32> {
    let mut buckets = vec![0; BUCKETS];
    for coupon in coupons.chunks(4).map(word) {
        let (mut at, stride) = (coupon as usize % BUCKETS, (coupon & 0x3ff_ffff) as usize / BUCKETS | 1);
        while buckets[at] != 0 {
            at = (at + stride) % BUCKETS;
        }
        buckets[at] = coupon;
    }
    buckets
}

/// A set whose coupons lie in the order of the buckets of their table, or in these.
fn placed(mut set: Vec<u8>, updatable: bool) -> Vec<u8> {
    let buckets = buckets_of(&set[SET_HEADER..]);
    set.truncate(SET_HEADER);
    if updatable {
        set[5] &= !8;
    }
    let kept = buckets.iter().filter(|bucket| updatable || **bucket != 0);
    set.extend(kept.flat_map(|bucket| bucket.to_le_bytes()));
    set
}

/// Images of one kind.
struct Kind {
    name: &'static str,
    width: u8,
    images: Vec<Vec<u8>>,
}

fn registers(name: &'static str, width: u8) -> Kind {
    let images = (0..=IMAGES as u64).map(|i| image(width, 20000 * i, 20000)).collect();
    Kind { name, width, images }
}

fn sets(name: &'static str, order: impl Fn(Vec<u8>) -> Vec<u8>) -> Kind {
    let images = (0..=IMAGES as u64).map(|i| order(image(8, 1000 * i, SET_VALUES))).collect();
    Kind { name, width: 8, images }
}

// ---- times

fn median(mut of: Vec<f64>) -> f64 {
    of.sort_by(f64::total_cmp);
    of[of.len() / 2]
}

/// Times a call and the crate's in turn, each over all images; the median of their ratios, and of the call's nanoseconds.
fn timed(mut call: impl FnMut(usize), mut other: impl FnMut(usize)) -> String {
    let all = |call: &mut dyn FnMut(usize)| {
        let start = now();
        (0..IMAGES).for_each(&mut *call);
        (now() - start) / IMAGES as f64
    };
    let pairs: Vec<_> = (0..TURNS).map(|_| (all(&mut call), all(&mut other))).collect();
    let ratios = pairs.iter().map(|(one, two)| one / two).collect();
    format!("{:.2} ({:.0} ns)", median(ratios), median(pairs.iter().map(|(one, _)| *one).collect()))
}

/// Values from a number on, the first of which changes an image.
fn changing(image: &[u8], from: u64, count: usize) -> Values {
    let mut out = vec![0; 30000];
    let changes = |from: &u64| {
        let size = add(image, &Values::new(*from, 1), &mut out);
        out[..size] != *image
    };
    Values::new((from..).find(changes).unwrap(), count)
}

fn time_add(kind: &Kind, count: usize) -> String {
    let mut out = vec![0; 30000];
    let images = &kind.images;
    let values: Vec<_> = (0..IMAGES).map(|i| changing(&images[i], 50_000_000 + 1000 * i as u64, count)).collect();
    timed(
        |i| _ = black_box(add(&images[i], &values[i], &mut out)),
        |i| _ = black_box(add_by_crate(&images[i], &values[i])),
    )
}

fn time_merge(kind: &Kind) -> String {
    let mut out = vec![0; 30000];
    let (images, width) = (&kind.images, kind.width);
    assert_eq!(merge(width, &images[0], &images[1], &mut out), merge_by_crate(width, &images[0], &images[1]).len());
    timed(
        |i| _ = black_box(merge(width, &images[i], &images[i + 1], &mut out)),
        |i| _ = black_box(merge_by_crate(width, &images[i], &images[i + 1])),
    )
}

fn time_convert(kind: &Kind) -> String {
    let mut out = vec![0; 30000];
    let images = &kind.images;
    timed(
        |i| _ = black_box(convert(&images[i], kind.width, &mut out)),
        |i| _ = black_box(convert_by_crate(&images[i])),
    )
}

/// Compared with images of the same bytes, or of the same registers without estimator fields.
fn time_agree(kind: &Kind, without_fields: bool) -> String {
    let images = &kind.images;
    let mut copies = images.clone();
    assert!(agree(&images[0], &copies[0]) && agree_by_crate(&images[0], &copies[0]));
    if without_fields {
        copies.iter_mut().for_each(|copy| copy[8..32].fill(0));
        assert!(images[0] != copies[0] && agree(&images[0], &copies[0]));
    }
    timed(
        |i| _ = black_box(agree(&images[i], &copies[i])),
        |i| _ = black_box(agree_by_crate(&images[i], &copies[i])),
    )
}

// ---- states

/// A state at lg_k 12, with room for its registers.
struct State {
    bytes: Vec<u8>,
    size: usize,
}

impl State {
    fn new() -> State {
        let mut state = State { bytes: vec![0; 40 + 4096 + 2048], size: 0 };
        state.clear();
        state
    }

    fn clear(&mut self) {
        assert_eq!(unsafe { hll_state_new(LG_K.into(), self.bytes.as_mut_ptr(), self.bytes.len()) }, 0);
    }

    fn add_value(&mut self, number: u64) {
        let value = number.to_le_bytes();
        assert_eq!(unsafe { hll_state_add_value(self.bytes.as_mut_ptr(), self.bytes.len(), &mut self.size, value.as_ptr(), 8) }, 0);
    }

    fn add(&mut self, values: &[u8], ends: &[usize]) {
        let (bytes, size) = (&mut self.bytes, &mut self.size);
        assert_eq!(unsafe { hll_state_add(bytes.as_mut_ptr(), bytes.len(), size, values.as_ptr(), values.len(), ends.as_ptr(), ends.len()) }, 0);
    }

    fn join(&mut self, image: &[u8]) {
        assert_eq!(unsafe { hll_state_join(0, self.bytes.as_mut_ptr(), self.bytes.len(), &mut self.size, image.as_ptr(), image.len()) }, 0);
    }

    fn image(&mut self, out: &mut [u8]) -> usize {
        let mut size = 0;
        assert_eq!(unsafe { hll_state_image(self.bytes.as_mut_ptr(), self.bytes.len(), 8, out.as_mut_ptr(), out.len(), &mut size) }, 0);
        size
    }
}

/// So many values in a new state, for each of the images that other rows have.
fn time_values(count: usize, in_hundreds: bool) -> String {
    let values = Values::new(1, count);
    let (mut state, ends) = (State::new(), &values.ends);
    let mut add = |_| {
        state.clear();
        if in_hundreds {
            let calls = values.bytes.chunks(800).zip(values.ends.chunks(100));
            calls.for_each(|(bytes, part)| state.add(bytes, &ends[..part.len()]));
        } else {
            values.numbers.iter().for_each(|number| state.add_value(*number));
        }
        black_box(state.bytes[40]);
    };
    timed(&mut add, |_| {
        let mut sketch = HllSketch::new(LG_K, HllType::Hll8).unwrap();
        values.numbers.iter().for_each(|number| sketch.update(number));
        black_box(&sketch);
    })
}

/// All images of a kind, joined to a state and its image at the end, and read and merged by a union of the crate.
fn time_joins(kind: &Kind) -> String {
    let (mut out, mut state, mut union) = (vec![0; 30000], State::new(), HllUnion::new(LG_K).unwrap());
    let images = &kind.images;
    timed(
        |i| {
            if i == 0 {
                state.clear();
            }
            state.join(&images[i]);
            if i + 1 == IMAGES {
                black_box(state.image(&mut out));
            }
        },
        |i| {
            if i == 0 {
                union = HllUnion::new(LG_K).unwrap();
            }
            union.update(&HllSketch::deserialize(&images[i]).unwrap());
            if i + 1 == IMAGES {
                black_box(union.to_sketch(HllType::Hll8).serialize());
            }
        },
    )
}

fn time_image(kind: &Kind) -> String {
    let (mut out, mut state) = (vec![0; 30000], State::new());
    state.join(&kind.images[0]);
    let sketch = HllSketch::deserialize(&kind.images[0]).unwrap();
    timed(|_| _ = black_box(state.image(&mut out)), |_| _ = black_box(sketch.serialize()))
}

/// A table of states: times of whole sketches, and for each kind those of a join and of an image.
fn table_of_states(kinds: &[Kind]) {
    println!("| a state | one by one | a hundred in a call |\n|---|---|---|");
    for count in [0, 1, 7, 20, 300, 100_000] {
        println!("| of {count} values | {} | {} |", time_values(count, false), time_values(count, true));
    }
    let names: Vec<_> = kinds.iter().map(|kind| kind.name).collect();
    println!("\n| of states | {} |\n|---|{}", names.join(" | "), "---|".repeat(kinds.len()));
    row("`hll_state_join`, and the image at the end", kinds, time_joins);
    row("`hll_state_image`", kinds, time_image);
    println!();
}

/// A row of a table: a call, and what it took for each kind.
fn row(call: &str, kinds: &[Kind], time: impl Fn(&Kind) -> String) {
    let cells: Vec<_> = kinds.iter().map(time).collect();
    println!("| {call} | {} |", cells.join(" | "));
}

fn table(first: &str, kinds: &[Kind], has_fields: bool, counts: &[usize]) {
    let names: Vec<_> = kinds.iter().map(|kind| kind.name).collect();
    println!("| {first} | {} |\n|---|{}", names.join(" | "), "---|".repeat(kinds.len()));
    row("`hll_image_merge` of two", kinds, time_merge);
    row("`hll_image_convert` to the same width", kinds, time_convert);
    row("`hll_images_agree`, of the same bytes", kinds, |kind| time_agree(kind, false));
    if has_fields {
        row("the same, where one has no fields", kinds, |kind| time_agree(kind, true));
    }
    for count in counts {
        row(&format!("`hll_image_add` of {count}"), kinds, |kind| time_add(kind, *count));
    }
    println!();
}

fn main() {
    let widths = [registers("8 bits", 8), registers("6 bits", 6), registers("4 bits", 4)];
    table("registers", &widths, true, &[1, 100, 1000]);
    let orders = [
        sets("ascending", |set| set),
        sets("placed", |set| placed(set, false)),
        sets("updatable", |set| placed(set, true)),
    ];
    table("sets of 20", &orders, false, &[1, 100, 1000]);
    let [eight, six, four] = widths;
    let [ascending, ..] = orders;
    table_of_states(&[eight, six, four, ascending]);
}
