//! The text check by itself, beside `core::str::from_utf8`, the reference's check and, where one was named, the check of another checkout.

use crate::timing::{best, ratio, Task};
use crate::{before, Target};
use reference::generate::Random;
use reference::text::is_text;
use std::hint::black_box;
use std::str::from_utf8;

/// Scripts, each with the lowest and the highest of its letters, and how many of ten are of it; the others are plain.
const SCRIPTS: [(&str, u32, u32, usize); 5] = [
    ("plain", 0x61, 0x7a, 10),
    ("Latin", 0xe0, 0xff, 2),
    ("Greek", 0x3b1, 0x3c9, 10),
    ("CJK", 0x4e00, 0x9fff, 10),
    ("emoji", 0x1f600, 0x1f64f, 10),
];

/// Words of a script. Plain, Latin and Greek ones have spaces between them.
fn text(random: &mut Random, (script, low, high, share): (&str, u32, u32, usize), size: usize) -> String {
    let mut text = String::new();
    while text.len() < size {
        for _ in 0..2 + random.below(8) {
            let of_script = random.below(10) < share;
            let (low, high) = if of_script { (low, high) } else { (0x61, 0x7a) };
            text.extend(char::from_u32(low + random.below((high + 1 - low) as usize) as u32));
        }
        text.extend((!matches!(script, "CJK" | "emoji")).then_some(' '));
    }
    text
}

pub fn texts(targets: &mut Vec<Target>) {
    println!("\nTexts: the check by itself, nanoseconds per byte\n");
    println!(
        "{:6} {:>7} {:>7} | {:>6} {:>9} {:>6} {:>6} | {:>10} {:>5} {:>7}",
        "script", "texts", "bytes", "ours", "from_utf8", "ref", "before", "/from_utf8", "/ref", "/before"
    );
    for (count, size) in [(400, 24), (1, 16_384)] {
        for script in SCRIPTS {
            let random = &mut Random::new(7);
            let texts: Vec<String> = (0..count).map(|_| text(random, script, size)).collect();
            let bytes: usize = texts.iter().map(String::len).sum();
            let each = |judge: fn(&[u8]) -> bool| {
                texts.iter().for_each(|text| assert!(judge(black_box(text.as_bytes()))));
            };
            let mut tasks: Vec<Task> = vec![
                Box::new(|| each(|text| text::up_to(text) == text.len())),
                Box::new(|| each(|text| from_utf8(text).is_ok())),
                Box::new(|| each(is_text)),
            ];
            if before::IS_NAMED {
                tasks.push(Box::new(|| each(|text| before::text(text) == text.len())));
            }
            let times: Vec<f64> = best(&mut tasks).iter().map(|time| time * 1e9 / bytes as f64).collect();
            let (ours, std, reference) = (times[0], times[1], times[2]);
            let before = times.get(3).copied().unwrap_or(f64::NAN);
            println!(
                "{:6} {count:7} {bytes:7} | {ours:6.3} {std:9.3} {reference:6.3} {:>6} | {:>10} {:>5} {:>7}",
                script.0,
                if before.is_nan() { "-".to_string() } else { format!("{before:.3}") },
                ratio(ours / std),
                ratio(ours / reference),
                ratio(ours / before),
            );
            let what =
                format!("{}, {}: the text check", script.0, if count > 1 { "short texts" } else { "a long text" });
            if script.0 != "plain" {
                targets.push(Target { what: format!("{what} / from_utf8"), most: 1.0, was: ours / std });
            } else if !before.is_nan() {
                targets.push(Target {
                    what: format!("{what} / that of the other checkout"),
                    most: 1.1,
                    was: ours / before,
                });
            }
        }
    }
}
