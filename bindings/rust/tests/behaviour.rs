// SPDX-License-Identifier: Apache-2.0
//! Answers the cases of tests/behaviour, the table that every binding runs.
use hll_sketches::error::Error;
use hll_sketches::hash::value::canonical_float;
use hll_sketches::hll::{check, merge_images, union_of, Coupon, HllSketch, HllType, HllUnion};
use std::io::Write;
use std::process::{Command, Stdio};

fn decoded(digits: &str) -> Vec<u8> {
    (0..digits.len()).step_by(2).map(|at| u8::from_str_radix(&digits[at..at + 2], 16).unwrap()).collect()
}

fn hex(bytes: &[u8]) -> String {
    bytes.iter().map(|byte| format!("{byte:02x}")).collect()
}

/// The coupon that a sketch keeps of one value.
fn kept(update: impl Fn(&mut HllSketch)) -> String {
    let mut sketch = HllSketch::new(12, HllType::Hll8).unwrap();
    update(&mut sketch);
    format!("{:08x}", u32::from_le_bytes(sketch.serialize()[8..].try_into().unwrap()))
}

/// What each of several ways in makes, or why it makes nothing: only the reason of one image, which all have to share.
fn made_by(ways: impl IntoIterator<Item = Result<Vec<u8>, Error>>, is_image: bool) -> Vec<String> {
    let said = |error: Error| format!("rejected: {}", if is_image { error.reason().into() } else { error.to_string() });
    ways.into_iter().map(|made| made.map_or_else(said, |image| hex(&image))).collect()
}

fn type_of(width: u32) -> HllType {
    HllType::try_from(u8::try_from(width).unwrap()).unwrap()
}

fn union(lg_max_k: u8, width: u32, images: &[Vec<u8>]) -> Vec<String> {
    if lg_max_k == 0 {
        let joined = union_of(images).map(|it| (HllUnion::new(it.lg_config_k()).unwrap(), it));
        let wide = joined.map(|(mut union, it)| {
            union.update(&it);
            union.to_sketch(if width == 0 { it.target_type() } else { type_of(width) }).serialize()
        });
        return made_by([wide], false);
    }
    let one_by_one = HllUnion::new(lg_max_k).and_then(|mut union| {
        images
            .iter()
            .try_for_each(|image| union.update_image(image))
            .map(|()| union.to_sketch(type_of(width)).serialize())
    });
    let at_once = merge_images(lg_max_k, type_of(width), images);
    made_by(at_once.is_ok().then_some(one_by_one).into_iter().chain([at_once]), false)
}

/// The answers of each way in to a case, which have to be the same.
fn answers(call: &str, given: &str) -> Vec<String> {
    let fields: Vec<&str> = given.split(' ').filter(|it| !it.is_empty()).collect();
    let number = |at: usize| fields[at].parse::<u32>().unwrap();
    match call {
        "text" => {
            let text = String::from_utf8(decoded(given)).unwrap();
            vec![
                kept(|sketch| sketch.update(&text)),
                kept(|sketch| sketch.update_many([&text])),
                kept(|sketch| sketch.extend([&text])),
                format!("{:08x}", Coupon::from_value(&text).raw()),
            ]
        }
        "bytes" => vec![
            kept(|sketch| sketch.update_bytes(decoded(given))),
            format!("{:08x}", Coupon::from_bytes(decoded(given)).raw()),
        ],
        "integer" => {
            let signed = given.parse::<i64>().ok().map(|number| kept(|sketch| sketch.update(number)));
            signed
                .into_iter()
                .chain(given.parse::<u64>().ok().map(|number| kept(|sketch| sketch.update(number))))
                .collect()
        }
        "real" => vec![kept(|sketch| sketch.update(canonical_float::from_f64(given.parse().unwrap())))],
        "single" => vec![kept(|sketch| sketch.update(canonical_float::from_f32(given.parse().unwrap())))],
        "boolean" => vec![kept(|sketch| sketch.update(given == "true"))],
        "whole" => {
            let image = decoded(given);
            let joined = union_of([&image]).map(|it| it.serialize());
            let read = [HllSketch::deserialize_exact(&image), HllSketch::try_from(&image[..])];
            made_by(read.map(|it| it.map(|it| it.serialize())).into_iter().chain([joined]), true)
        }
        "first" => {
            let image = decoded(given);
            let read = HllSketch::deserialize(&image).map(|it| it.serialize());
            assert_eq!(check(&image).err(), read.as_ref().err().cloned());
            made_by([read], true)
        }
        "union" => union(number(0) as u8, number(1), &fields[2..].iter().map(|it| decoded(it)).collect::<Vec<_>>()),
        "new" => made_by([HllSketch::new(number(0) as u8, type_of(number(1))).map(|it| it.serialize())], false),
        "coupons" => {
            let mut sketch = HllSketch::new(12, HllType::Hll8).unwrap();
            let mut read = fields.iter().map(|it| Coupon::from_raw(u32::from_str_radix(it, 16).unwrap()));
            let added = read.try_for_each(|it| it.map(|coupon| sketch.update_with_coupon(coupon)));
            made_by([added.map(|()| sketch.serialize())], false)
        }
        _ => panic!("the call {call} is not known"),
    }
}

fn table(words: &[&str], given: &str) -> String {
    let script = concat!(env!("CARGO_MANIFEST_DIR"), "/../../tests/behaviour/cases.py");
    let mut run = Command::new("python3")
        .args(["-B", script])
        .args(words)
        .stdin(Stdio::piped())
        .stdout(Stdio::piped())
        .spawn()
        .unwrap();
    run.stdin.take().unwrap().write_all(given.as_bytes()).unwrap();
    let done = run.wait_with_output().unwrap();
    let said = String::from_utf8(done.stdout).unwrap();
    assert!(done.status.success() && !said.is_empty(), "{said}");
    said
}

#[test]
fn each_case_has_the_result_of_the_table() {
    let mut said = String::new();
    for case in table(&["rust"], "").lines() {
        let (call, given) = case.split_once('\t').unwrap();
        let mut found = answers(call, given);
        found.dedup();
        said += &(found.join(" or ") + "\n");
    }
    table(&["rust", "-"], &said);
}
