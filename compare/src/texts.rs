//! The table of crates/run_cluster_texts: texts for the cluster program, and what document 01 says it prints for each. The reading and the
//! printing are written anew from 01's sentences; only the order and the chunks are asked of the original.

use crate::cluster::HIGHEST;
use crate::original::{chunk_lengths, DepGraph, FeeFrac};
use std::collections::HashSet;
use std::path::Path;

// ---- what the program prints

pub const MALFORMED: u64 = 13;

struct Member {
    fee: i64,
    size: u64,
    parents: Vec<u64>,
}

/// What the program prints for a text.
pub fn respond(text: &[u8]) -> Vec<u8> {
    answer(text)
        .unwrap_or_else(|refusal| format!("answer={}\n", refusal))
        .into_bytes()
}

// "13 goes before 3 and 4", and a cluster call tests 3 before 4.
fn answer(text: &[u8]) -> Result<String, u64> {
    let members = read(text)?;
    if members.iter().any(|m| m.fee < -HIGHEST || m.fee > HIGHEST) {
        return Err(3);
    }
    let links = links(&members);
    if has_cycle(&links) {
        return Err(4);
    }
    Ok(show(&members, &links))
}

fn read(text: &[u8]) -> Result<Vec<Member>, u64> {
    let mut rest = text;
    let n = number(field(&mut rest, "n=")?)?;
    // "An n above 64 gives 2 without reading on."
    if n > 64 {
        return Err(2);
    }
    let mut members = Vec::new();
    for _ in 0..n {
        let fee = fee(field(&mut rest, "fee=")?)?;
        let size = number(field(&mut rest, "size=")?)?;
        let parents = positions(field(&mut rest, "parents=")?)?;
        members.push(Member { fee, size, parents });
    }
    // "anything after the last line is 13"
    if rest.is_empty() {
        Ok(members)
    } else {
        Err(MALFORMED)
    }
}

// "each line ended by a newline and at most 1,024 bytes before it": the value of the next one, which has this key.
fn field<'a>(rest: &mut &'a [u8], key: &str) -> Result<&'a [u8], u64> {
    let all: &'a [u8] = rest;
    let end = all.iter().position(|b| *b == b'\n').ok_or(MALFORMED)?;
    if end > 1024 {
        return Err(MALFORMED);
    }
    *rest = &all[end + 1..];
    all[..end].strip_prefix(key.as_bytes()).ok_or(MALFORMED)
}

// "Plain decimals without extra zeros", and in the range of a u64.
pub fn number(digits: &[u8]) -> Result<u64, u64> {
    let plain = !digits.is_empty()
        && digits.iter().all(|b| b.is_ascii_digit())
        && (digits[0] != b'0' || digits.len() == 1);
    if !plain {
        return Err(MALFORMED);
    }
    // only digits are left, so that `parse` sees no sign
    std::str::from_utf8(digits)
        .unwrap()
        .parse()
        .map_err(|_| MALFORMED)
}

// "`-` only on a non-zero fee; fee i64"
pub fn fee(value: &[u8]) -> Result<i64, u64> {
    let fee = match value.strip_prefix(b"-") {
        None => i128::from(number(value)?),
        Some(digits) => match number(digits)? {
            0 => return Err(MALFORMED),
            amount => -i128::from(amount),
        },
    };
    if fee == i128::from(fee as i64) {
        Ok(fee as i64)
    } else {
        Err(MALFORMED)
    }
}

// "commas, may be empty"
fn positions(value: &[u8]) -> Result<Vec<u64>, u64> {
    if value.is_empty() {
        return Ok(Vec::new());
    }
    value.split(|b| *b == b',').map(number).collect()
}

// "repeats count once"; a member's own position and one outside the cluster link nothing.
fn links(members: &[Member]) -> Vec<Vec<usize>> {
    let of = |i: usize| {
        (0..members.len())
            .filter(|p| *p != i && members[i].parents.contains(&(*p as u64)))
            .collect()
    };
    (0..members.len()).map(of).collect()
}

// "a member is an ancestor of itself through another": what is left when no member without parents is.
fn has_cycle(links: &[Vec<usize>]) -> bool {
    let mut left: Vec<usize> = (0..links.len()).collect();
    loop {
        let kept: Vec<usize> = left
            .iter()
            .copied()
            .filter(|i| links[*i].iter().any(|p| left.contains(p)))
            .collect();
        if kept.len() == left.len() {
            return !left.is_empty();
        }
        left = kept;
    }
}

// "the answer, the order (bare `order=` for n 0), and per chunk its member count and its rate"
fn show(members: &[Member], links: &[Vec<usize>]) -> String {
    let rates: Vec<FeeFrac> = members
        .iter()
        .map(|m| FeeFrac::new(m.fee, m.size))
        .collect();
    let order = DepGraph::new(rates.clone(), links).linearize();
    let sorted: Vec<FeeFrac> = order.iter().map(|i| rates[*i]).collect();
    let names: Vec<String> = order.iter().map(|i| i.to_string()).collect();
    let mut out = format!("answer=0\norder={}\n", names.join(","));
    let mut rest = &sorted[..];
    for count in chunk_lengths(&sorted) {
        out += &format!("chunk={}\nrate={}\n", count, rate(&rest[..count]));
        rest = &rest[count..];
    }
    out
}

// "fee × 4,000 / size rounded towards zero, 0 for size 0, held to the i64 range"; sums of sizes are held at 2^64 - 1.
fn rate(chunk: &[FeeFrac]) -> i128 {
    let fee: i128 = chunk.iter().map(|f| f.fee).sum();
    let size = chunk.iter().fold(0u64, |sum, f| sum.saturating_add(f.size));
    if size == 0 {
        return 0;
    }
    (fee * 4000 / i128::from(size))
        .max(i128::from(i64::MIN))
        .min(i128::from(i64::MAX))
}

// ---- the table

/// A text as a line of the table: `/` for a newline, `%` and two hex digits for what would not stand for itself.
pub fn encode(text: &[u8]) -> Vec<u8> {
    let mut line = Vec::new();
    for b in text {
        match *b {
            b'\n' => line.push(b'/'),
            b'/' | b'%' | 0..=31 | 127..=255 => line.extend(format!("%{:02x}", b).bytes()),
            _ => line.push(*b),
        }
    }
    line
}

/// Writes `stdin` and `stdout` of crates/run_cluster_texts to a folder.
pub fn write_table(folder: &Path) -> std::io::Result<()> {
    let (mut asked, mut told) = (Vec::new(), Vec::new());
    for text in texts() {
        assert!(
            text.len() <= 4096,
            "the runner has no room for a text of {} bytes",
            text.len()
        );
        let line = encode(&text);
        let shown: Vec<u8> = respond(&text)
            .iter()
            .map(|b| if *b == b'\n' { b'/' } else { *b })
            .collect();
        asked.extend([&line[..], b"\n"].concat());
        told.extend([&line[..], b" > ", &shown, b"\n"].concat());
    }
    std::fs::write(folder.join("stdin"), asked)?;
    std::fs::write(folder.join("stdout"), told)
}

/// The texts, each once.
pub fn texts() -> Vec<Vec<u8>> {
    let mut all = [good(), refused(), counts(), parents_lists(), around()].concat();
    for at in 0..PLAIN.len() {
        all.extend(broken_line(at));
        all.extend(other_values(at));
    }
    let mut seen = HashSet::new();
    all.retain(|text| seen.insert(text.clone()));
    all
}

// A cluster's text, by each member's fee, size and parents.
fn cluster(members: &[(i64, u64, &str)]) -> Vec<u8> {
    let mut text = format!("n={}\n", members.len());
    for (fee, size, parents) in members {
        text += &format!("fee={}\nsize={}\nparents={}\n", fee, size, parents);
    }
    text.into_bytes()
}

fn good() -> Vec<Vec<u8>> {
    let big = u64::MAX;
    let mut all: Vec<Vec<u8>> = vec![
        cluster(&[(-50, 100, ""), (200, 100, "0"), (60, 100, "")]), // 01's example
        // the P cases of "Values to hold against"; the last three are its chunk lists
        cluster(&[]),
        cluster(&[(7, 100, "")]),
        cluster(&[(0, 100, ""), (300, 100, "0")]),
        cluster(&[(100, 100, ""), (100, 100, "0")]),
        cluster(&[(200, 200, ""), (100, 100, "")]),
        cluster(&[(10, 100, ""), (20, 100, ""), (30, 100, "")]),
        cluster(&[(0, 100, ""), (100, 100, "0"), (300, 100, "0")]),
        cluster(&[(7, 100, "0")]),
        cluster(&[(1, 1, ""), (0, 1, ""), (2, 1, "")]),
        cluster(&[(0, 0, ""), (0, 0, "")]),
        cluster(&[(1, 1, ""), (5, 0, "")]),
        // chunks of several members, below zero, of size 0, and with sizes whose sum is held
        cluster(&[(-300, 100, ""), (100, 100, "0"), (-100, 7, "1")]),
        cluster(&[(1, 0, ""), (-1, 0, ""), (3, 0, "1"), (0, 1, "")]),
        cluster(&[
            (0, big, ""),
            (HIGHEST, big, "0"),
            (HIGHEST, 0, "1"),
            (HIGHEST, big - 1, "2"),
        ]),
        cluster(&[
            (-HIGHEST, big, ""),
            (-HIGHEST, 0, "0"),
            (-HIGHEST, 0, "1"),
            (1, 1, "2"),
        ]),
        cluster(&[
            (HIGHEST, 0, "1"),
            (-1, big, ""),
            (HIGHEST, 1, "1,0"),
            (HIGHEST, big, "0"),
            (HIGHEST, 3, "2,3"),
        ]),
        cluster(&[
            (5, 10, "1,2"),
            (1, 10, "2"),
            (2, 20, ""),
            (9, 5, "0"),
            (4, 40, "3,1"),
            (0, 1, "4,4,4"),
        ]),
    ];
    // a member alone shows its own rate: both signs, cut towards zero, and held; over size 1 the fourth fee is not held, and the fifth is
    for size in [0, 1, 2, 3, 7, 4000, 4001, 1 << 63, big - 1, big] {
        for fee in [
            1,
            2,
            1000,
            2_305_843_009_213_693,
            2_305_843_009_213_694,
            HIGHEST,
        ] {
            all.push(cluster(&[(fee, size, "")]));
            all.push(cluster(&[(-fee, size, "")]));
        }
    }
    // 64 members: apart, in a chain, in one the other way, under one parent, and with up to three parents each
    let shapes: [fn(usize) -> Vec<usize>; 5] = [
        |_| vec![],
        |i| vec![i.max(1) - 1],
        |i| vec![i + 1],
        |_| vec![17],
        |i| (i / 2..i.min(i / 2 + 3)).collect(),
    ];
    for shape in shapes {
        let name = |i: usize| {
            shape(i)
                .iter()
                .map(|p| p.to_string())
                .collect::<Vec<_>>()
                .join(",")
        };
        let lists: Vec<String> = (0..64).map(name).collect();
        let member = |i: usize| {
            (
                (i as i64 * 37) % 64 - 20,
                100 + i as u64 % 5,
                lists[i].as_str(),
            )
        };
        all.push(cluster(&(0..64).map(member).collect::<Vec<_>>()));
    }
    all
}

// Refusals 3 and 4, alone, together and beside 13.
fn refused() -> Vec<Vec<u8>> {
    let above = HIGHEST + 1;
    let mut all = vec![
        cluster(&[(1, 1, "1"), (2, 2, "0")]),
        cluster(&[(1, 1, "0,1"), (2, 2, "0,1")]),
        cluster(&[(1, 1, "2"), (2, 2, "0"), (3, 3, "1")]),
        cluster(&[(1, 1, ""), (2, 2, "0,3"), (3, 3, "1"), (4, 4, "2")]),
        cluster(&[(above, 1, "1"), (2, 2, "0")]),
        cluster(&[(1, 1, "1"), (-above, 2, "0")]),
    ];
    for fee in [
        HIGHEST,
        above,
        -HIGHEST,
        -above,
        i64::MAX,
        i64::MIN,
        -i64::MAX,
    ] {
        all.push(cluster(&[(fee, 100, "")]));
        all.push(cluster(&[(1, 1, ""), (fee, 0, "")]));
    }
    // 13 behind what would be 3, 4 or both: a key, a number, a missing newline, and text behind
    for start in [
        "fee=4200000000000001\nsize=1\nparents=",
        "fee=1\nsize=1\nparents=1",
        "fee=-4200000000000001\nsize=1\nparents=1",
    ] {
        for end in [
            "fee=1\nsize=1\nparent=0\n",
            "fee=1\nsize=01\nparents=0\n",
            "fee=1\nsize=1\nparents=0",
            "fee=1\nsize=1\nparents=0\n\n",
            "",
        ] {
            all.push(format!("n=2\n{}\n{}", start, end).into_bytes());
        }
    }
    all
}

// The first line: how many members it gives, and what follows.
fn counts() -> Vec<Vec<u8>> {
    let member = "fee=1\nsize=1\nparents=\n";
    let mut all: Vec<Vec<u8>> = Vec::new();
    let most = [
        "18446744073709551615",
        "18446744073709551616",
        "99999999999999999999",
    ];
    for n in [
        "0", "1", "2", "63", "64", "65", "66", "100", "9999", "065", "-1", "-65",
    ]
    .iter()
    .chain(&most)
    {
        for behind in [
            "",
            "\n",
            "\nx",
            "\n\n",
            "\n\0",
            "\nfee=",
            "\nfee=1\nsize=1\nparents=\n",
        ] {
            all.push(format!("n={}{}", n, behind).into_bytes());
        }
    }
    for (n, members) in [
        (64, 63),
        (64, 64),
        (64, 65),
        (65, 64),
        (65, 65),
        (63, 64),
        (1, 2),
        (2, 1),
        (3, 0),
    ] {
        all.push(format!("n={}\n{}", n, member.repeat(members)).into_bytes());
    }
    all
}

// ---- every way to break a line

// Both members name the last one: a link, and a position that links nothing.
const PLAIN: [&str; 7] = [
    "n=2",
    "fee=10",
    "size=100",
    "parents=1",
    "fee=20",
    "size=100",
    "parents=1",
];

// The plain text, whose line at a place is another, its newline included.
fn with(at: usize, line: &str) -> Vec<u8> {
    let mut lines: Vec<String> = PLAIN.iter().map(|plain| format!("{}\n", plain)).collect();
    lines[at] = line.to_string();
    lines.concat().into_bytes()
}

fn broken_line(at: usize) -> Vec<Vec<u8>> {
    let line = PLAIN[at];
    let (key, value) = line.split_once('=').unwrap();
    let mut lines: Vec<String> = vec![
        // missing in whole or in part, twice, and with empty lines around
        "".into(),
        "\n".into(),
        format!("{}=\n", key),
        format!("{}\n", key),
        format!("={}\n", value),
        format!("{}\n", value),
        "=\n".into(),
        format!("{0}\n{0}\n", line),
        format!("\n{}\n", line),
        format!("{}\n\n", line),
        format!("{0}{0}\n", line),
        // another key
        format!("x={}\n", value),
        format!("{}\n", line.to_uppercase()),
        format!("{}s={}\n", key, value),
        format!("{}={}\n", &key[1..], value),
        format!("x{}\n", line),
        format!("{}:{}\n", key, value),
        format!("{}=={}\n", key, value),
        format!("{}%3d{}\n", key, value),
        // no newline, or another end
        line.into(),
        format!("{}\r", line),
        format!("{}\r\n", line),
        format!("{}/", line),
        format!("{}\0", line),
        format!("{}\\n", line),
    ];
    for space in [" ", "\t", "\0", "\u{a0}", "\r", "\u{feff}"] {
        lines.push(format!("{}{}\n", space, line));
        lines.push(format!("{}{}={}\n", key, space, value));
        lines.push(format!("{}={}{}\n", key, space, value));
        lines.push(format!("{}{}\n", line, space));
    }
    let mut all: Vec<Vec<u8>> = lines.iter().map(|l| with(at, l)).collect();
    // the text ends within this line, or before it
    let before = PLAIN[..at].iter().map(|l| l.len() + 1).sum::<usize>();
    let whole = with(at, &format!("{}\n", line));
    all.extend(
        [0, 1, key.len(), key.len() + 1, line.len()]
            .iter()
            .map(|cut| whole[..before + cut].to_vec()),
    );
    // two lines swapped
    let mut swapped = PLAIN;
    swapped.swap(at, (at + 1) % PLAIN.len());
    all.push(format!("{}\n", swapped.join("\n")).into_bytes());
    // lines of 1,024 bytes and of one more: digits that are too many for any number, and positions, where the first is of its form
    for long in [1024, 1025] {
        let room = long - key.len() - 1;
        let last = if room % 2 == 0 { "64" } else { "1" };
        all.push(with(at, &format!("{}={}\n", key, "1".repeat(room))));
        all.push(with(
            at,
            &format!("{}={}{}\n", key, "1,".repeat((room - 1) / 2), last),
        ));
    }
    all
}

fn other_values(at: usize) -> Vec<Vec<u8>> {
    let key = PLAIN[at].split_once('=').unwrap().0;
    let forty = "1234567890".repeat(4);
    let values = [
        "0",
        "1",
        "3",
        "9",
        "00",
        "01",
        "010",
        "-1",
        "-0",
        "-00",
        "-01",
        "+1",
        "+0",
        "+",
        "-",
        "--1",
        "-+1",
        "- 1",
        "1-",
        "1 ",
        " 1",
        "1 0",
        "a",
        "1a",
        "a1",
        "1.0",
        "1.",
        ".1",
        "0x10",
        "1e3",
        "1_000",
        "1,000",
        "'1'",
        ":",
        "/",
        "\u{661}",
        "\u{ff11}",
        "\u{2212}1",
        "4294967296",
        "9223372036854775807",
        "9223372036854775808",
        "-9223372036854775807",
        "-9223372036854775808",
        "-9223372036854775809",
        "18446744073709551615",
        "18446744073709551616",
        "18446744073709551617",
        "-18446744073709551615",
        "-18446744073709551616",
        "184467440737095516150",
        "36893488147419103232",
        "340282366920938463463374607431768211456",
        &forty,
    ];
    values
        .iter()
        .map(|v| with(at, &format!("{}={}\n", key, v)))
        .collect()
}

fn parents_lists() -> Vec<Vec<u8>> {
    let lists = [
        "",
        ",",
        ",,",
        "0,",
        ",0",
        "0,,1",
        "0 1",
        "0;1",
        "0, 1",
        "0 ,1",
        "0\t1",
        "0\n1",
        "0,0",
        "0,0,0",
        "1,1",
        "0,1",
        "1,0",
        "0,1,",
        "0.1",
        "[0]",
        "2",
        "62",
        "63",
        "64",
        "65",
        "0,64",
        "64,0",
        "63,64,65",
        "128",
        "4294967297",
        "18446744073709551615",
        "18446744073709551616",
        "0,18446744073709551615",
        "0,18446744073709551616",
        "18446744073709551616,0",
        "0,00",
        "0,01",
        "0,-1",
        "-0,1",
        "0,+1",
        "0,a",
        "1,2,3,4,5,6",
    ];
    let first = lists.iter().map(|l| cluster(&[(1, 100, l), (3, 200, "")]));
    let last = lists.iter().map(|l| cluster(&[(1, 100, ""), (3, 200, l)]));
    first.chain(last).collect()
}

// What stands before and behind a text as a whole.
fn around() -> Vec<Vec<u8>> {
    let plain = format!("{}\n", PLAIN.join("\n")).into_bytes();
    let mut all = vec![
        vec![],
        vec![b'\n'],
        vec![b'\n'; 7],
        vec![0],
        vec![255; 40],
        vec![b'n'; 1025],
        vec![b'n'; 4096],
        plain.repeat(2),
    ];
    for extra in [
        "\n", " ", "\0", "\r", "x", "fee=1\n", "n=2\n", "\u{feff}", "#\n",
    ] {
        all.push([extra.as_bytes(), &plain].concat());
        all.push([&plain, extra.as_bytes()].concat());
    }
    for end in ["\r\n", " ", "\n\n", "/"] {
        all.push(format!("{}{}", PLAIN.join(end), end).into_bytes());
    }
    all
}

#[cfg(test)]
mod tests {
    use super::*;

    #[test]
    fn stored_runs_of_the_program() {
        for name in ["cluster", "run_cluster_64"] {
            let folder = Path::new(env!("CARGO_MANIFEST_DIR"))
                .join("../crates")
                .join(name);
            let asked = std::fs::read(folder.join("stdin")).expect("a stored input");
            let told = std::fs::read(folder.join("stdout")).expect("a stored output");
            assert!(respond(&asked) == told, "{name}");
        }
    }
}
