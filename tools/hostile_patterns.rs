//! The peer of `Patterns` in plain Rust, by rows: it reads a path and patterns, each on a line of its own, and tells whether the path
//! passes, and how many nanoseconds of processor time that took, the mean of many times. Each pattern lies below `/` and has a slash, and
//! no `!`.
use std::hint::black_box;
use std::io::Read;

fn part_matches(part: &[u8], name: &[u8]) -> bool {
    let mut row = vec![false; name.len() + 1];
    row[0] = true;
    for &byte in part {
        if byte == b'*' {
            for i in 1..row.len() {
                row[i] |= row[i - 1];
            }
        } else {
            for i in (1..row.len()).rev() {
                row[i] = row[i - 1] && (byte == b'?' || byte == name[i - 1]);
            }
            row[0] = false;
        }
    }
    row[name.len()]
}

/// Of each front of the names, whether the parts match it.
fn fronts(parts: &[&[u8]], names: &[&[u8]]) -> Vec<bool> {
    let mut row = vec![false; names.len() + 1];
    row[0] = true;
    for (at, &part) in parts.iter().enumerate() {
        if part == b"**" {
            for i in 1..row.len() {
                row[i] |= row[i - 1];
            }
            if at + 1 == parts.len() {
                row.rotate_right(1);
                row[0] = false;
            }
        } else {
            for i in (1..row.len()).rev() {
                row[i] = row[i - 1] && part_matches(part, names[i - 1]);
            }
            row[0] = false;
        }
    }
    row
}

fn passes(patterns: &[Vec<&[u8]>], path: &[u8]) -> bool {
    let names: Vec<&[u8]> = path
        .split(|&byte| byte == b'/')
        .filter(|name| !name.is_empty() && *name != b".")
        .collect();
    let mut hidden = vec![false; names.len() + 1];
    for parts in patterns {
        for (hidden, is_matched) in hidden.iter_mut().zip(fronts(parts, &names)) {
            *hidden |= is_matched;
        }
    }
    !hidden[1..].contains(&true)
}

/// How many nanoseconds of processor time this program took.
fn spent() -> u64 {
    let told = std::fs::read_to_string("/proc/self/schedstat").unwrap();
    told.split(' ').next().unwrap().parse().unwrap()
}

fn main() {
    let mut text = Vec::new();
    std::io::stdin().read_to_end(&mut text).unwrap();
    let mut lines = text.split(|&byte| byte == b'\n').filter(|line| !line.is_empty());
    let path = lines.next().unwrap();
    let fixed = lines.map(|line| line.strip_prefix(b"/").unwrap_or(line));
    let patterns: Vec<Vec<&[u8]>> = fixed.map(|line| line.split(|&byte| byte == b'/').collect()).collect();
    let start = spent();
    for times in 1.. {
        let answer = passes(black_box(&patterns), black_box(path));
        let all = spent() - start;
        if all >= 200_000_000 || times == 1000 {
            return println!("{answer} {}", all / times);
        }
    }
}
