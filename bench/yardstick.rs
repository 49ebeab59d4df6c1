//! The yardstick of the bench: the whole job of `sheets share` in plain Rust, with nothing but Rust's own library. It reads
//! a sheet, makes its tree, searches the levels, gives the remainders, and prints the same octets. It proves nothing,
//! and tells no fault apart: where a line is not as it must be, it stops. A sheet that is made to collide under its hash
//! would take it quadratic time.

use std::io::Write as _;
use std::{env, fs, process};

const NO_LIMIT: u64 = u64::MAX;
const MAX_WANT: u64 = u32::MAX as u64;
const MAX_DEPTH: usize = 16;
const NOBODY: u32 = u32::MAX;

/// The octets of names, and `/`.
static KINDS: [u8; 256] = kinds();

const fn kinds() -> [u8; 256] {
    let mut kinds = [0; 256];
    let mut at = 0;
    while at < 256 {
        let octet = at as u8;
        if octet.is_ascii_alphanumeric() || matches!(octet, b'-' | b'_' | b'.') {
            kinds[at] = 1;
        }
        at += 1;
    }
    kinds[b'/' as usize] = 2;
    kinds
}

/// A quick hash of a name beneath a node, eight octets at a time.
fn hash(parent: u32, name: &[u8]) -> usize {
    let mut state = u64::from(parent).wrapping_mul(0x517c_c1b7_2722_0a95);
    for piece in name.chunks(8) {
        let mut word = 0;
        for octet in piece {
            word = word << 8 | u64::from(*octet);
        }
        state = (state.rotate_left(5) ^ word).wrapping_mul(0x517c_c1b7_2722_0a95);
    }
    state.rotate_left(26) as usize
}

#[derive(Clone, Copy, PartialEq)]
enum Kind {
    Branch { limit: u64 },
    Leaf { want: u64, floor: u64 },
}

/// A node of the sheet, in order of first mention; its kids hang on it as a list.
struct Node<'t> {
    path: &'t str,
    parent: u32,
    kind: Kind,
    stated: bool,
    first_kid: u32,
    last_kid: u32,
    next: u32,
}

/// The nodes, a table of them by parent and name without a gap in the run from a hash on, and the path of the last line
/// with the nodes along it and the octets before each of its slashes.
struct Sheet<'t> {
    nodes: Vec<Node<'t>>,
    table: Vec<u32>,
    wants: Vec<u32>,
    last: &'t str,
    way: [(u32, usize); MAX_DEPTH + 1],
    depth: usize,
}

fn stop(why: &str) -> ! {
    eprintln!("yardstick: {why}");
    process::exit(1)
}

impl<'t> Sheet<'t> {
    fn push(&mut self, path: &'t str, parent: u32) -> u32 {
        let number = self.nodes.len() as u32;
        let kind = Kind::Branch { limit: NO_LIMIT };
        self.nodes.push(Node { path, parent, kind, stated: false, first_kid: 0, last_kid: 0, next: 0 });
        if number > 0 {
            let above = &mut self.nodes[parent as usize];
            if matches!(above.kind, Kind::Leaf { .. }) {
                stop("a line stands beneath a want");
            }
            let last = std::mem::replace(&mut above.last_kid, number);
            if last == 0 {
                above.first_kid = number;
            } else {
                self.nodes[last as usize].next = number;
            }
        }
        number
    }

    /// The kid of a node with the name that a path has from `start` on, made if it is not there.
    fn kid(&mut self, parent: u32, path: &'t str, start: usize) -> u32 {
        let name = &path.as_bytes()[start..];
        let mask = self.table.len() - 1;
        let mut at = hash(parent, name) & mask;
        while self.table[at] != NOBODY {
            let node = &self.nodes[self.table[at] as usize];
            if node.parent == parent && node.path.len() == path.len() && &node.path.as_bytes()[start..] == name {
                return self.table[at];
            }
            at = (at + 1) & mask;
        }
        let number = self.push(path, parent);
        self.table[at] = number;
        number
    }

    /// The node at a path, made with those above it if it is not there. Only the names that the path of the line before
    /// has not are looked up.
    fn mention(&mut self, path: &'t str) -> u32 {
        let octets = path.as_bytes();
        let last = self.last.as_bytes();
        let mut depth = 0;
        while depth < self.depth {
            let (from, end) = (self.way[depth].1, self.way[depth + 1].1);
            let is_whole = octets.len() == end || (octets.len() > end && octets[end] == b'/');
            if !is_whole || octets[from..end] != last[from..end] {
                break;
            }
            depth += 1;
        }
        let (mut node, mut at) = self.way[depth];
        while at < octets.len() && octets.len() > 1 {
            let end = octets[at + 1..].iter().position(|it| *it == b'/').map_or(octets.len(), |it| at + 1 + it);
            if depth == MAX_DEPTH {
                stop("a path is too deep");
            }
            node = self.kid(node, &path[..end], at + 1);
            depth += 1;
            at = end;
            self.way[depth] = (node, at);
        }
        (self.last, self.depth) = (path, depth);
        node
    }

    fn take(&mut self, line: &'t str) {
        let (word, rest) = cut(line);
        let (path, rest) = cut(rest.unwrap_or_else(|| stop("a line is too short")));
        let (first, rest) = cut(rest.unwrap_or_else(|| stop("a line is too short")));
        let kind = match word {
            "limit" if first == "-" && rest.is_none() => Kind::Branch { limit: NO_LIMIT },
            "limit" if rest.is_none() => Kind::Branch { limit: number(first, 1 << 52) },
            "want" => Kind::Leaf { want: number(first, MAX_WANT), floor: rest.map_or(0, |it| number(it, MAX_WANT)) },
            _ => stop("a line begins with another word"),
        };
        if !is_path(path) {
            stop("a line is not as it must be");
        }
        let node = self.mention(path);
        let at = &mut self.nodes[node as usize];
        if at.stated || (word == "want" && (at.first_kid > 0 || node == 0)) {
            stop("a path is stated twice, or wants and has kids");
        }
        at.stated = true;
        at.kind = kind;
        if word == "want" {
            self.wants.push(node);
        }
    }
}

/// A text before its first blank, and behind it.
fn cut(text: &str) -> (&str, Option<&str>) {
    match text.bytes().position(|it| it == b' ') {
        Some(at) => (&text[..at], Some(&text[at + 1..])),
        None => (text, None),
    }
}

/// Whether each name of a path has 1 to 64 octets that names have.
fn is_path(path: &str) -> bool {
    let octets = path.as_bytes();
    let mut len = 64;
    for octet in octets {
        match KINDS[*octet as usize] {
            1 if len < 64 => len += 1,
            2 if len > 0 => len = 0,
            _ => return false,
        }
    }
    octets.len() == 1 || (octets.len() > 1 && len > 0)
}

fn number(text: &str, most: u64) -> u64 {
    let mut value = 0u64;
    for octet in text.bytes() {
        if !octet.is_ascii_digit() {
            stop("a number is not as it must be");
        }
        value = value.wrapping_mul(10).wrapping_add(u64::from(octet - b'0'));
    }
    if text.is_empty() || text.len() > 19 || (text.len() > 1 && text.starts_with('0')) || value > most {
        stop("a number is not as it must be");
    }
    value
}

fn read(text: &str) -> Sheet<'_> {
    let room = text.len() / 24 + 1;
    let table = vec![NOBODY; (text.len() / 8 + 1).next_power_of_two()];
    let mut sheet =
        Sheet { nodes: Vec::with_capacity(room), table, wants: Vec::new(), last: "", way: [(0, 0); MAX_DEPTH + 1], depth: 0 };
    sheet.push("/", 0);
    let mut rest = text;
    while !rest.is_empty() {
        let end = rest.bytes().position(|it| it == b'\n').unwrap_or(rest.len());
        let line = &rest[..end];
        rest = rest.get(end + 1..).unwrap_or("");
        let line = line.strip_suffix('\r').unwrap_or(line);
        if !line.is_empty() && !line.starts_with('#') {
            sheet.take(line);
        }
    }
    sheet
}

/// The nodes with leaves, in preorder.
struct Tree {
    /// of each: its number in the sheet, the one above it, and how many there are from it on beneath it, itself among them
    node: Vec<u32>,
    above: Vec<u32>,
    size: Vec<u32>,
    kind: Vec<Kind>,
    grant: Vec<u64>,
}

impl Tree {
    fn of(sheet: &Sheet) -> Tree {
        let mut has_leaves = vec![false; sheet.nodes.len()];
        for &want in &sheet.wants {
            let mut node = want as usize;
            while !has_leaves[node] {
                has_leaves[node] = true;
                node = sheet.nodes[node].parent as usize;
            }
        }
        has_leaves[0] = true;
        let mut tree = Tree { node: vec![], above: vec![], size: vec![], kind: vec![], grant: vec![] };
        tree.add(sheet, &has_leaves, 0, 0);
        tree.grant = vec![0; tree.node.len()];
        tree
    }

    fn add(&mut self, sheet: &Sheet, has_leaves: &[bool], node: usize, above: u32) {
        let at = self.node.len();
        self.node.push(node as u32);
        self.above.push(above);
        self.kind.push(sheet.nodes[node].kind);
        self.size.push(1);
        let mut kid = sheet.nodes[node].first_kid as usize;
        while kid != 0 {
            if has_leaves[kid] {
                self.add(sheet, has_leaves, kid, at as u32);
            }
            kid = sheet.nodes[kid].next as usize;
        }
        self.size[at] = (self.node.len() - at) as u32;
    }

    /// What the kids of a branch take in up to a level, or more than `most` as soon as they do.
    fn below(&self, branch: usize, level: u64, most: u64) -> u64 {
        let past = branch + self.size[branch] as usize;
        let (mut at, mut total) = (branch + 1, 0);
        while at < past && total <= most {
            total += match self.kind[at] {
                Kind::Leaf { want, floor } => level.max(floor).min(want),
                Kind::Branch { limit: NO_LIMIT } => {
                    at += 1;
                    continue;
                }
                Kind::Branch { limit } => self.below(at, level, limit).min(limit),
            };
            at += self.size[at] as usize;
        }
        total
    }

    /// The greatest level at which the kids of a branch keep its limit, below one at which they do not.
    fn level(&self, branch: usize, limit: u64, mut high: u64) -> (u64, u64) {
        let mut low = 0;
        while high - low > 1 {
            let middle = low + (high - low) / 2;
            if self.below(branch, middle, limit) <= limit {
                low = middle;
            } else {
                high = middle;
            }
        }
        let taken = self.below(branch, low, limit);
        if taken > limit {
            stop("floors exceed a limit");
        }
        (low, limit - taken)
    }

    /// Gives the leaves of a branch what they take in up to a level, and spare octets; returns what is still spare.
    fn fill(&mut self, branch: usize, level: u64, spare: u64) -> u64 {
        let Kind::Branch { limit } = self.kind[branch] else { return spare };
        let (mut level, mut left, mut kept) = (level, spare, 0);
        if limit != NO_LIMIT {
            let taken = self.below(branch, level, limit);
            if taken <= limit {
                left = spare.min(limit - taken);
                kept = spare - left;
            } else {
                (level, left) = self.level(branch, limit, level);
                kept = spare;
            }
        }
        let past = branch + self.size[branch] as usize;
        let mut at = branch + 1;
        while at < past {
            match self.kind[at] {
                Kind::Branch { .. } => left = self.fill(at, level, left),
                Kind::Leaf { want, floor } => {
                    let more = left > 0 && floor <= level && level < want;
                    self.grant[at] = if more { level + 1 } else { level.max(floor).min(want) };
                    left -= u64::from(more);
                }
            }
            at += self.size[at] as usize;
        }
        kept + left
    }

    /// The deepest full branch above each node, itself among them.
    fn full(&self) -> Vec<u32> {
        let mut sums = self.grant.clone();
        for at in (1..sums.len()).rev() {
            sums[self.above[at] as usize] += sums[at];
        }
        let mut full = vec![u32::MAX; sums.len()];
        for at in 0..sums.len() {
            let is_full = matches!(self.kind[at], Kind::Branch { limit } if limit == sums[at]);
            full[at] = if is_full { at as u32 } else if at > 0 { full[self.above[at] as usize] } else { u32::MAX };
        }
        full
    }
}

fn print(sheet: &Sheet, tree: &Tree) -> Vec<u8> {
    let full = tree.full();
    let mut place = vec![0u32; sheet.nodes.len()];
    for (at, &node) in tree.node.iter().enumerate() {
        place[node as usize] = at as u32;
    }
    let mut text = Vec::with_capacity(64 * sheet.wants.len() + 32);
    let mut total = 0;
    for &node in &sheet.wants {
        let at = place[node as usize] as usize;
        let Kind::Leaf { want, .. } = tree.kind[at] else { continue };
        let grant = tree.grant[at];
        total += grant;
        text.extend_from_slice(sheet.nodes[node as usize].path.as_bytes());
        text.push(b' ');
        decimal(&mut text, grant);
        text.extend_from_slice(b" of ");
        decimal(&mut text, want);
        if grant < want && full[at] != u32::MAX {
            text.extend_from_slice(b" full ");
            text.extend_from_slice(sheet.nodes[tree.node[full[at] as usize] as usize].path.as_bytes());
        }
        text.push(b'\n');
    }
    text.extend_from_slice(b"total ");
    decimal(&mut text, total);
    text.push(b'\n');
    text
}

fn decimal(text: &mut Vec<u8>, mut number: u64) {
    let mut digits = [0; 20];
    let mut at = 20;
    loop {
        at -= 1;
        digits[at] = b'0' + (number % 10) as u8;
        number /= 10;
        if number == 0 {
            break;
        }
    }
    text.extend_from_slice(&digits[at..]);
}

fn main() {
    let Some(file) = env::args().nth(1) else { stop("no file is named") };
    let Ok(text) = fs::read_to_string(&file) else { stop("the file cannot be read") };
    let sheet = read(&text);
    let mut tree = Tree::of(&sheet);
    tree.fill(0, MAX_WANT, 0);
    let text = print(&sheet, &tree);
    if std::io::stdout().write_all(&text).is_err() {
        stop("the output cannot be written");
    }
}
