// SPDX-License-Identifier: Apache-2.0
//! A program in the names of the crate `datasketches` 0.6.0. The tests build it with this crate under that name, by the line of the
//! README in Cargo.toml and no other change, and again with the name of this crate in its lines `use`.
use std::collections::HashMap;
use std::sync::{mpsc, Arc, RwLock};
use std::{env, fs, thread};

use datasketches::common::NumStdDev;
use datasketches::error::{Error, ErrorKind};
use datasketches::hash::value::{canonical_float, raw_bytes, sign_extend};
use datasketches::hll::{Coupon, HllSketch, HllType, HllUnion};

const LG_K: u8 = 12;

/// A line of a log: a page, a user, an address and a time.
#[derive(Debug, Clone)]
struct Line {
    page: String,
    user: String,
    address: u32,
    seconds: f64,
}

fn lines(from: u32, to: u32) -> Vec<Line> {
    let line = |i: u32| Line {
        page: format!("page{}", i % 5),
        user: format!("user{}", i % 3000),
        address: 0xc0a8_0000 + i % 9000,
        seconds: f64::from(i % 500) / 4.0,
    };
    (from..to).map(line).collect()
}

#[derive(Debug, Clone)]
struct Visits {
    users: HllSketch,
    addresses: HllSketch,
    times: HllSketch,
}

impl Visits {
    fn new() -> Result<Self, Error> {
        Ok(Self {
            users: HllSketch::new(LG_K, HllType::Hll4)?,
            addresses: HllSketch::new(LG_K, HllType::Hll6)?,
            times: HllSketch::new(10, HllType::Hll8)?,
        })
    }

    fn add(&mut self, line: &Line) {
        self.users.update(raw_bytes::from_str(&line.user));
        self.addresses.update(sign_extend::from_u32(line.address));
        self.times.update(canonical_float::from_f64(line.seconds));
    }
}

type Pages = HashMap<String, Visits>;

fn count(lines: &[Line]) -> Result<Pages, Error> {
    let mut pages = Pages::new();
    for line in lines {
        if !pages.contains_key(&line.page) {
            pages.insert(line.page.clone(), Visits::new()?);
        }
        pages.get_mut(&line.page).expect("it was inserted").add(line);
    }
    Ok(pages)
}

/// Counts four shards in threads, which send what they counted.
fn shards() -> Vec<Pages> {
    let (sender, receiver) = mpsc::channel();
    for shard in 0..4 {
        let sender = sender.clone();
        thread::spawn(move || sender.send(count(&lines(4000 * shard, 4000 * shard + 5000)).unwrap()).unwrap());
    }
    drop(sender);
    receiver.iter().collect()
}

fn is_near(estimate: f64, wanted: f64) -> bool {
    (estimate / wanted - 1.0).abs() < 0.06
}

fn main() -> Result<(), Box<dyn std::error::Error>> {
    let shards = shards();
    let mut users: HashMap<&str, HllUnion> = HashMap::new();
    for (page, visits) in shards.iter().flatten() {
        if !users.contains_key(page.as_str()) {
            users.insert(page, HllUnion::new(LG_K)?);
        }
        users.get_mut(page.as_str()).expect("it was inserted").update(&visits.users);
    }
    assert_eq!(users.len(), 5);
    assert!(users.values().all(|union| is_near(union.estimate(), 600.0)));
    let mut names: Vec<_> = users.keys().collect();
    names.sort();
    for page in names {
        println!("{page}: {:.3}, at most {:.3}", users[page].estimate(), users[page].upper_bound(NumStdDev::Two));
    }

    // files, read again by another thread while this one reads, too
    let folder = env::temp_dir().join(format!("switch-{}", std::process::id()));
    fs::create_dir(&folder)?;
    let shared = Arc::new(RwLock::new(HllUnion::new(LG_K)?));
    for (page, union) in &users {
        fs::write(folder.join(page), union.to_sketch(HllType::Hll4).serialize())?;
    }
    let reader = Arc::clone(&shared);
    let place = folder.clone();
    thread::spawn(move || {
        for entry in fs::read_dir(place).unwrap() {
            let image = fs::read(entry.unwrap().path()).unwrap();
            reader.write().unwrap().update(&HllSketch::deserialize(&image).unwrap());
        }
    })
    .join()
    .expect("the thread panicked");
    fs::remove_dir_all(&folder)?;

    let all = shared.read().unwrap();
    assert!(is_near(all.estimate(), 3000.0) && !all.is_empty() && all.lg_max_k() == LG_K);
    assert!(all.lower_bound(NumStdDev::Two) < all.estimate() && all.estimate() < all.upper_bound(NumStdDev::One));
    let sketch = all.to_sketch(HllType::Hll8);
    assert_eq!(HllSketch::deserialize(&sketch.serialize())?, sketch);

    // coupons are computed once, and added to several sketches
    let coupon = Coupon::from_value("ann");
    let (mut one, mut other) = (HllSketch::new(4, HllType::Hll8)?, HllSketch::new(21, HllType::Hll4)?);
    one.update_with_coupon(coupon);
    other.update("ann");
    assert_eq!((one.estimate(), other.target_type(), one.lg_config_k()), (other.estimate(), HllType::Hll4, 4));

    assert_eq!(HllSketch::deserialize(b"no sketch").unwrap_err().kind(), ErrorKind::InvalidData);
    assert_eq!(HllUnion::new(3).unwrap_err().kind(), ErrorKind::InvalidArgument);
    println!("{} pages, {:?}", users.len(), sketch.target_type());
    Ok(())
}
