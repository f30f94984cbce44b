// make/cuts.rs: files that `judge` refuses: empty, cut, with another tag, with more than 500 packets; and some that it
// does not, next to these (02, A13).

use super::fields::tagged;
use super::random::Random;
use super::truck::{field, Truck};
use crate::judging::{MOST_PACKETS, TAG};

/// Tags that are not 02h: those of recordings and of other programs' records, those next to it, those with one bit more
/// or less.
const TAGS: [u8; 18] =
    [0x00, 0x01, 0x03, 0x06, 0x0A, 0x10, 0x12, 0x20, 0x21, 0x22, 0x24, 0x31, 0x42, 0x82, 0xFD, 0xFE, 0xFF, 0x40];

fn other_tag(random: &mut Random) -> u8 {
    random.pick(&TAGS)
}

/// So many whole fields, of packets or of nothing.
fn whole(truck: &mut Truck, number: usize) -> Vec<Vec<u8>> {
    if truck.random.chance(40) {
        return vec![field(&[]); number];
    }
    truck.fields.clear();
    truck.run(number);
    truck.fields.clone()
}

/// How many of a field's bytes are left: its tag alone, half of its length, all of it but the packet, one byte of the
/// packet, some, all but the last byte; and all of them.
fn kept(random: &mut Random, size: usize, way: usize) -> usize {
    [1, 2, 3, 4, 1 + random.below(size - 1), size - 1, size][way]
}

/// A field cut in one of these ways but the last.
fn cut_field(random: &mut Random, mut field: Vec<u8>, way: usize) -> Vec<u8> {
    let size = kept(random, field.len(), way % 6).min(field.len() - 1);
    field.truncate(size);
    field
}

/// A whole field of some bytes.
fn one(truck: &mut Truck) -> Vec<u8> {
    truck.fields.clear();
    truck.run(1);
    truck.fields.concat()
}

fn with_tag(mut field: Vec<u8>, tag: u8) -> Vec<u8> {
    field[0] = tag;
    field
}

/// No byte, or one field cut before it is whole.
fn few_bytes(truck: &mut Truck, turn: usize) -> Vec<u8> {
    let any = truck.random.byte();
    match turn % 6 {
        0 => Vec::new(),
        1 => vec![TAG],
        2 => vec![TAG, truck.random.pick(&[0, 0, 1, any])],
        3 => vec![TAG, 0, truck.random.pick(&[1, 2, 24, 255])],
        4 => vec![other_tag(&mut truck.random)],
        _ => {
            let (field, way) = (one(truck), truck.random.pick(&[3, 4, 5]));
            cut_field(&mut truck.random, field, way)
        }
    }
}

/// A few fields, the last one cut.
fn cut_short(truck: &mut Truck, turn: usize) -> Vec<u8> {
    let number = 1 + truck.random.below(6);
    let (before, last) = (whole(truck, number), one(truck));
    [before.concat(), cut_field(&mut truck.random, last, turn)].concat()
}

/// A few fields, the last one cut and of another tag.
fn other_tag_cut_short(truck: &mut Truck, turn: usize) -> Vec<u8> {
    let (number, tag) = (truck.random.pick(&[0, 1, 2, 3, 4, 5]), other_tag(&mut truck.random));
    let (before, last) = (whole(truck, number), with_tag(one(truck), tag));
    [before.concat(), cut_field(&mut truck.random, last, turn)].concat()
}

/// A whole field of another tag; behind it nothing, whole fields, or a cut one.
fn other_tag_between(truck: &mut Truck, turn: usize) -> Vec<u8> {
    let (before, behind) = (truck.random.below(5), truck.random.below(4));
    let tag = other_tag(&mut truck.random);
    let fields = [whole(truck, before), vec![with_tag(one(truck), tag)], whole(truck, behind)].concat().concat();
    if turn % 3 < 2 {
        return fields;
    }
    let last = one(truck);
    [fields, cut_field(&mut truck.random, last, turn / 3)].concat()
}

/// 500 whole fields, in one file of five one less, and behind them a field of this tag or another, whole or cut in each
/// way; whole ones now and then three times.
fn at_the_limit(truck: &mut Truck, turn: usize) -> Vec<u8> {
    let fields = whole(truck, if turn % 5 == 4 { MOST_PACKETS - 1 } else { MOST_PACKETS });
    let (tag, whole_one) = (other_tag(&mut truck.random), one(truck));
    let field = if turn % 2 == 0 { whole_one } else { with_tag(whole_one, tag) };
    let size = kept(&mut truck.random, field.len(), turn / 2 % 7);
    let times = if size == field.len() { truck.random.pick(&[1, 1, 3]) } else { 1 };
    [fields.concat(), field[..size].repeat(times)].concat()
}

/// More than 500 fields, of which one has another tag or the last is cut: the fault that comes first counts.
fn two_faults(truck: &mut Truck) -> Vec<u8> {
    let more = truck.random.pick(&[1, 1, 2, 20]);
    let mut fields = whole(truck, MOST_PACKETS + more);
    let (place, tag) = (truck.random.below(fields.len()), other_tag(&mut truck.random));
    let place = truck.random.pick(&[place, 0, MOST_PACKETS - 1, MOST_PACKETS, MOST_PACKETS]);
    fields[place] = with_tag(fields[place].clone(), tag);
    if truck.random.chance(30) {
        let (last, way) = (fields.pop().unwrap_or_default(), truck.random.below(6));
        fields.push(cut_field(&mut truck.random, last, way));
    }
    fields.concat()
}

/// A field whose length is more than is there, less, or low byte first: what follows is read out of step.
fn wrong_length(truck: &mut Truck) -> Vec<u8> {
    let (before, behind) = (truck.random.below(3), truck.random.below(4));
    let whole_one = one(truck);
    let right = (whole_one.len() - 3) as u16;
    let lengths = truck.random.lengths_near(right, &[1, 2, 3, 256], &[1, 2, 3]);
    let length = truck.random.pick(&lengths);
    let fields = [whole(truck, before), vec![tagged(TAG, length, &whole_one[3..])], whole(truck, behind)];
    fields.concat().concat()
}

/// A length that ends with the file, or one byte behind its end.
fn long_field(truck: &mut Truck) -> Vec<u8> {
    let size = truck.random.pick(&[255, 256, 257, 511, 4096, 65_535, 65_534]);
    let there = size - truck.random.pick(&[0, 1, 1, 2, 255, 255]);
    let before = whole(truck, 2);
    [before.concat(), tagged(TAG, size as u16, &vec![TAG; there])].concat()
}

/// Each way in turn.
pub fn cut(random: Random, seed: u64) -> Vec<u8> {
    let turn = (seed / 8) as usize;
    let mut truck = Truck::new(random, turn);
    match seed % 8 {
        0 => few_bytes(&mut truck, turn),
        1 | 2 => cut_short(&mut truck, turn),
        3 => other_tag_cut_short(&mut truck, turn),
        4 => other_tag_between(&mut truck, turn),
        5 => at_the_limit(&mut truck, turn),
        6 => two_faults(&mut truck),
        _ if turn % 3 == 0 => long_field(&mut truck),
        _ => wrong_length(&mut truck),
    }
}
