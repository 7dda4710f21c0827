//! Changes of a case that keep most of its form: points that meet others, vertices more and fewer, other calls with the
//! same bytes. Changes of bytes are libFuzzer's own.

use crate::input::Input;
use spargolutta_tests::calls::{CALLS, WORDS};
use spargolutta_tests::guard::Edge;
use spargolutta_tests::imports::text;
use spargolutta_tests::random::Random;
use spargolutta_tests::sheet::point_bytes;
use spargolutta_tests::Point;
use std::ops::Range;

pub fn mutate(random: &mut Random, input: &mut Input) {
    for _ in 0..=random.below(3) {
        match random.below(12) {
            0 => input.edge = random.pick(&[Edge::Start, Edge::End]),
            1 => change_room(random, input),
            2 => aim_words(random, input),
            3 => change_name(random, input),
            4 if CALLS[input.call].name == "import" => input.case.first = any_ring(random),
            _ if CALLS[input.call].name == "import" => change_digit(random, input),
            4..=6 => move_point(random, input),
            7 => insert_vertex(random, input),
            8 => remove_vertex(random, input),
            9 => change_second(random, input),
            10 => append_second_point(random, input),
            _ => input.call = random.below(CALLS.len()),
        }
    }
}

/// About as long as the second bytes, or as a sheet of a few vertices.
fn change_room(random: &mut Random, input: &mut Input) {
    let about = random.pick(&[input.case.second.len(), 69, 81, 129]);
    let room = (about + random.below(20)).saturating_sub(random.below(3));
    input.case.buffer = vec![0xc3; room.min(65_535)];
}

/// A name that is handed over, or a sheet's with its length.
fn change_name(random: &mut Random, input: &mut Input) {
    let name = vec![b'n'; random.pick(&[0, 1, 2, 20, 119, 120, 121])];
    let first = &mut input.case.first;
    if ["import", "write"].contains(&CALLS[input.call].name) {
        input.case.second = name;
    } else if first.len() > 14 {
        let end = 14 + usize::from(first[13]);
        first[13] = name.len() as u8;
        first.splice(14..end.min(first.len()), name);
    }
}

/// A closed ring near an axis or elsewhere, some of it past the range or too far apart.
fn any_ring(random: &mut Random) -> Vec<u8> {
    const DEGREE: i32 = 10_000_000;
    let centre = [random.pick(&[0, 90, 180, -180, 17]), random.pick(&[0, 90, -90, 59])];
    let spread = random.pick(&[3, 200, DEGREE / 2, DEGREE / 2 + 1]);
    let beside =
        |k: i32, random: &mut Random| i64::from(k * DEGREE) + i64::from(random.between(-spread, spread));
    let positions = 3 + random.below(6);
    let mut ring: Vec<[i64; 2]> = (0..positions).map(|_| centre.map(|k| beside(k, random))).collect();
    ring.push(ring[0]);
    text(&ring).into_bytes()
}

/// Of a position in a text.
fn change_digit(random: &mut Random, input: &mut Input) {
    let text = &mut input.case.first;
    let digits: Vec<usize> = (0..text.len()).filter(|&at| text[at].is_ascii_digit()).collect();
    if !digits.is_empty() {
        text[digits[random.below(digits.len())]] = b'0' + random.below(10) as u8;
    }
}

/// Where the vertices stand: all bytes of a list, or the body of a sheet's fifth field.
fn vertices(input: &Input) -> Range<usize> {
    let first = &input.case.first;
    if ["basin", "write"].contains(&CALLS[input.call].name) || first.len() < 32 {
        return 0..first.len() / 12 * 12;
    }
    let start = (32 + usize::from(first[13])).min(first.len());
    let length = 256 * usize::from(first[start - 2]) + usize::from(first[start - 1]);
    start..start + (length.min(first.len() - start) / 12 * 12)
}

fn point_at(bytes: &[u8], at: usize) -> Point {
    [0, 1, 2].map(|k| i32::from_be_bytes(bytes[at + 4 * k..][..4].try_into().expect("four bytes")))
}

/// A vertex, the known point before them, or a small point.
fn any_point(random: &mut Random, input: &Input) -> Point {
    let Range { start, end } = vertices(input);
    let (first, n) = (&input.case.first, (end - start) / 12);
    if random.once_in(6) || n == 0 {
        return random.point(2);
    }
    if random.once_in(6) && start >= 15 {
        return point_at(first, start - 15);
    }
    point_at(first, start + 12 * random.below(n))
}

/// A sum of two such points, each a few times or not at all: on a side, on its great circle, opposite, a step beside.
fn combined(random: &mut Random, input: &Input) -> Point {
    let (p, q) = (any_point(random, input), any_point(random, input));
    let (a, b) = (random.between(-2, 3), random.between(-1, 2));
    let step = if random.once_in(4) { random.point(1) } else { [0; 3] };
    [0, 1, 2].map(|k| a.wrapping_mul(p[k]).wrapping_add(b.wrapping_mul(q[k])).wrapping_add(step[k]))
}

/// A vertex or the known point becomes another, or one of the second bytes' points.
fn move_point(random: &mut Random, input: &mut Input) {
    let point = point_bytes(combined(random, input));
    let Range { start, end } = vertices(input);
    let n = (end - start) / 12;
    let (bytes, at) = if random.once_in(3) {
        let points = input.case.second.len() / 12;
        (&mut input.case.second, 12 * random.below(points.max(1)))
    } else if random.once_in(5) && start >= 15 {
        (&mut input.case.first, start - 15)
    } else {
        (&mut input.case.first, start + 12 * random.below(n.max(1)))
    };
    if let Some(place) = bytes.get_mut(at..at + 12) {
        place.copy_from_slice(&point);
    }
}

/// Corrects the length before the vertices, if they are those of a sheet.
fn put_length(input: &mut Input, start: usize, length: usize) {
    if start >= 2 {
        input.case.first[start - 2..start].copy_from_slice(&(length as u16).to_be_bytes());
    }
}

fn insert_vertex(random: &mut Random, input: &mut Input) {
    let point = point_bytes(combined(random, input));
    let Range { start, end } = vertices(input);
    let at = start + 12 * random.below((end - start) / 12 + 1);
    input.case.first.splice(at..at, point);
    put_length(input, start, end + 12 - start);
}

fn remove_vertex(random: &mut Random, input: &mut Input) {
    let Range { start, end } = vertices(input);
    if start < end {
        let at = start + 12 * random.below((end - start) / 12);
        input.case.first.drain(at..at + 12);
        put_length(input, start, end - 12 - start);
    }
}

/// Three of the words become a point, or one a small number or a length.
fn aim_words(random: &mut Random, input: &mut Input) {
    if random.once_in(3) {
        let length = input.case.first.len() as u32;
        input.case.words[random.below(WORDS)] = random.pick(&[0, 1, 2, 3, length, length.wrapping_sub(1)]);
        return;
    }
    let (at, point) = (random.below(WORDS - 2), combined(random, input));
    input.case.words[at..at + 3].copy_from_slice(&point.map(|k| k as u32));
}

/// The second bytes: the first ones, those with the vertices begun elsewhere or run backwards, or a point more.
fn change_second(random: &mut Random, input: &mut Input) {
    let point = point_bytes(combined(random, input));
    let range = vertices(input);
    let case = &mut input.case;
    match random.below(4) {
        0 => std::mem::swap(&mut case.first, &mut case.second),
        1 if case.second.len() < 60_000 => case.second.extend(point),
        k => {
            case.second.clone_from(&case.first);
            let body = &mut case.second[range];
            let turn = 12 * random.below(body.len() / 12 + 1);
            body.rotate_left(turn);
            if k == 3 {
                let backwards: Vec<u8> = body.chunks(12).rev().flatten().copied().collect();
                body.copy_from_slice(&backwards);
            }
        }
    }
}

fn append_second_point(random: &mut Random, input: &mut Input) {
    let point = point_bytes(combined(random, input));
    let end = vertices(input).end;
    input.case.first.truncate(end);
    input.case.first.extend([6, 0, 12]);
    input.case.first.extend(point);
}
