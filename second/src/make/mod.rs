// make/mod.rs: the kinds of random feed.

mod arrivals;
#[cfg(test)]
mod arrivals_tests;
mod broken;
mod containers;
mod contents;
mod counts;
mod cuts;
mod datagrams;
mod faults;
#[cfg(test)]
mod faults_tests;
mod fields;
mod floats;
mod instants;
mod largest;
mod lines;
mod packets;
mod picture;
mod random;
mod recordings;
mod rules;
mod script;
mod sessions;
mod sound;
mod strays;
mod streams;
mod sums;
mod truck;

use random::Random;

pub struct Kind {
    pub name: &'static str,
    says: &'static str,
    make: fn(Random, u64) -> Vec<u8>,
}

const fn kind(name: &'static str, make: fn(Random, u64) -> Vec<u8>, says: &'static str) -> Kind {
    Kind { name, says, make }
}

pub const KINDS: [Kind; 23] = [
    kind("setup", sessions::setup, "setups listed and not, calls on empty sessions"),
    kind("session", sessions::session, "sessions of every format and rate: all calls, in and out of order"),
    kind("picture", sessions::picture, "sessions of every format and rate: mostly lines and packs"),
    kind("sound", sessions::sound, "sessions with much sound, full bit stores, every rate"),
    kind("instants", instants::instants, "sound in floating point: every class of value and kind, aimed bits"),
    kind(
        "rules",
        rules::rules,
        "both mixing rules in turn on the same sound, sums at the edges of rounding, aimed bits",
    ),
    kind("long", sessions::long, "some 280 packs: the counter goes from 255 to 0, the cadence round and round"),
    kind("mixed", sessions::mixed, "a session with calls between that must not touch it"),
    kind("largest", largest::largest, "interlaced sessions and contents of 254 bytes and near it"),
    kind("sample", lines::sample, "line sampling by itself"),
    kind("container", containers::container, "containers whole and damaged, read and written again"),
    kind("packet", packets::packet, "packets whole and damaged, containers wrapped"),
    kind("transport", streams::transport, "transport packets whole and damaged, containers wrapped"),
    kind("write", contents::write, "flat contents whole and damaged"),
    kind("counts", counts::counts, "byte counts that each rate has and has not, equal and unequal, at every call"),
    kind("mending", recordings::mending, "recordings whole, cut and overwritten, mended"),
    kind("broken", broken::broken, "feeds with a malformed record"),
    kind("bytes", containers::bytes, "no feed: the bytes of one container, for `inspect`"),
    kind("recording", recordings::recording, "no feed: the bytes of one recording, for `mend`"),
    kind("arrivals", arrivals::arrivals, "for `receive`: containers that come early, late, twice, damaged or never"),
    kind("strays", strays::strays, "for `receive`: records of which one is malformed"),
    kind("truck", faults::truck, "for `judge`: packets of a visiting truck, with every fault and with none"),
    kind("cut", cuts::cut, "for `judge`: files cut, with another tag or with more than 500 packets"),
];

pub fn feed(name: &str, seed: u64) -> Option<Vec<u8>> {
    let kind = KINDS.iter().find(|kind| kind.name == name)?;
    Some((kind.make)(Random::new(name, seed), seed))
}

pub fn help() -> String {
    KINDS.iter().map(|kind| format!("  {:<11}{}\n", kind.name, kind.says)).collect()
}

#[cfg(test)]
mod tests {
    use super::*;

    #[test]
    fn equal_seeds_make_equal_feeds() {
        for kind in KINDS.iter().filter(|kind| kind.name != "long") {
            assert_eq!(feed(kind.name, 7), feed(kind.name, 7));
            assert_ne!(feed(kind.name, 7), feed(kind.name, 8));
        }
        assert!(feed("nothing", 1).is_none());
    }
}
