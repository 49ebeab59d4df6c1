//! The rules of a round in plain Rust, which are proved nowhere: the tree of a tick from asks and rates, its shares by the search
//! for levels, the check of the grants with their certificate, and the seal. `rounds.rs` and `desk.rs` measure by them.

const MAX_WANT: u64 = 4_294_967_295;

#[derive(Clone, Copy, PartialEq)]
pub enum Way {
    Down,
    Up,
}

#[derive(Clone, Copy)]
pub struct Ask {
    pub user: u32,
    pub session: u32,
    pub way: Way,
    pub want: u64,
}

#[derive(Clone, Copy, PartialEq)]
enum Name {
    Direction(Way),
    Group(Way, u32),
    User(Way, u32),
    Session(Way, u32, u32),
}

#[derive(Clone, Copy)]
pub struct UserRate {
    user: u32,
    group: Option<u32>,
    down: u64,
    up: u64,
    session_down: u64,
    session_up: u64,
    session_down_floor: u64,
    session_up_floor: u64,
}

#[derive(Clone, Copy)]
pub struct GroupRate {
    group: u32,
    down: u64,
    up: u64,
}

pub struct Limits {
    server: u64,
    groups: Vec<GroupRate>,
    users: Vec<UserRate>,
}

impl Limits {
    fn user(&self, user: u32) -> Option<&UserRate> {
        let place = self.users.binary_search_by_key(&user, |row| row.user).ok()?;
        Some(&self.users[place])
    }

    fn group(&self, group: u32) -> Option<&GroupRate> {
        let place = self.groups.binary_search_by_key(&group, |row| row.group).ok()?;
        Some(&self.groups[place])
    }

    fn rate(&self, name: Name) -> u64 {
        let either = |way, down, up| if way == Way::Down { down } else { up };
        match name {
            Name::Direction(_) => 0,
            Name::Group(way, group) => self.group(group).map_or(0, |row| either(way, row.down, row.up)),
            Name::User(way, user) => self.user(user).map_or(0, |row| either(way, row.down, row.up)),
            Name::Session(way, user, _) => {
                self.user(user).map_or(0, |row| either(way, row.session_down, row.session_up))
            }
        }
    }

    fn floor(&self, ask: Ask) -> u64 {
        self.user(ask.user).map_or(0, |row| match ask.way {
            Way::Down => row.session_down_floor / 10,
            Way::Up => row.session_up_floor / 10,
        })
        .min(ask.want)
    }

    fn name(&self, ask: Ask, level: usize) -> Option<Name> {
        if level == 1 {
            return Some(Name::Direction(ask.way));
        }
        let group = self.user(ask.user).and_then(|row| row.group);
        match (level + group.is_none() as usize, group) {
            (2, Some(group)) => Some(Name::Group(ask.way, group)),
            (3, _) => Some(Name::User(ask.way, ask.user)),
            (4, _) => Some(Name::Session(ask.way, ask.user, ask.session)),
            _ => None,
        }
    }

    fn bears(&self, name: Name, ask: Ask) -> bool {
        match name {
            Name::Direction(way) => ask.way == way,
            Name::Group(way, group) => {
                ask.way == way && self.user(ask.user).is_some_and(|row| row.group == Some(group))
            }
            Name::User(way, user) => ask.way == way && ask.user == user,
            Name::Session(way, user, session) => ask.way == way && ask.user == user && ask.session == session,
        }
    }
}

fn rate_limit(rate: u64, tick: u64) -> Option<u64> {
    let tenth = tick % 10;
    (rate > 0).then(|| (tenth + 1) * rate / 10 - tenth * rate / 10)
}

pub enum Node {
    Branch { limit: Option<u64>, kids: Vec<Node> },
    Leaf { want: u64, floor: u64 },
}

fn grow(limits: &Limits, tick: u64, level: usize, rows: &mut [(u8, Ask)]) -> Vec<Node> {
    let mut kids = Vec::new();
    let mut start = 0;
    while start < rows.len() {
        let ask = rows[start].1;
        let Some(name) = limits.name(ask, level) else {
            kids.push(Node::Leaf { want: ask.want, floor: limits.floor(ask) });
            start += 1;
            continue;
        };
        let mut end = start;
        for place in start..rows.len() {
            if limits.bears(name, rows[place].1) {
                rows[end..=place].rotate_right(1);
                end += 1;
            }
        }
        let below = grow(limits, tick, level + 1, &mut rows[start..end]);
        kids.push(Node::Branch { limit: rate_limit(limits.rate(name), tick), kids: below });
        start = end;
    }
    kids
}

/// The sum of the floors, where each is within the limits above it and no number is out of range.
fn sound_floors(node: &Node, depth: usize) -> Option<u64> {
    match node {
        _ if depth > 16 => None,
        Node::Leaf { want, floor } => (want <= &MAX_WANT && floor <= want).then_some(*floor),
        Node::Branch { limit, kids } => {
            let mut sum = 0;
            for kid in kids {
                sum += sound_floors(kid, depth + 1)?;
            }
            limit.is_none_or(|most| sum <= most).then_some(sum)
        }
    }
}

/// The limit tree of a tick, and the lane of each leaf.
pub fn tree_of(limits: &Limits, tick: u64, asks: &[(u8, Ask)]) -> Option<(Node, Vec<u8>)> {
    let mut rows = asks.to_vec();
    let kids = grow(limits, tick, 1, &mut rows);
    let root = Node::Branch { limit: rate_limit(limits.server, tick), kids };
    sound_floors(&root, 0)?;
    Some((root, rows.iter().map(|row| row.0).collect()))
}

/// A node in preorder: where it ends, its leaves, how many kids it has, and its numbers.
#[derive(Clone, Copy)]
struct Place {
    nodes: usize,
    first: usize,
    leaves: usize,
    kids: usize,
    kind: Kind,
}

#[derive(Clone, Copy)]
enum Kind {
    Branch(Option<u64>),
    Leaf(u64, u64),
}

#[derive(Default)]
struct Flat {
    places: Vec<Place>,
    wants: Vec<u64>,
    floors: Vec<u64>,
}

impl Flat {
    fn add(&mut self, node: &Node) {
        let (at, first) = (self.places.len(), self.wants.len());
        let (kids, kind) = match node {
            Node::Leaf { want, floor } => {
                self.wants.push(*want);
                self.floors.push(*floor);
                (0, Kind::Leaf(*want, *floor))
            }
            Node::Branch { limit, kids } => (kids.len(), Kind::Branch(*limit)),
        };
        self.places.push(Place { nodes: 1, first, leaves: 1, kids, kind });
        if let Node::Branch { kids, .. } = node {
            for kid in kids {
                self.add(kid);
            }
        }
        self.places[at].nodes = self.places.len() - at;
        self.places[at].leaves = self.wants.len() - first;
    }

    fn absorb(&self, first: usize, trees: usize, level: u64) -> u64 {
        let (mut node, mut total) = (first, 0);
        for _ in 0..trees {
            let place = self.places[node];
            total += match place.kind {
                Kind::Leaf(want, floor) => level.max(floor).min(want),
                Kind::Branch(limit) => {
                    self.absorb(node + 1, place.kids, level).min(limit.unwrap_or(u64::MAX))
                }
            };
            node += place.nodes;
        }
        total
    }

    /// The greatest level below one that is too high, and what the limit leaves there.
    fn search(&self, node: usize, most: u64, level: u64) -> (u64, u64) {
        let kids = self.places[node].kids;
        let (mut low, mut high, mut taken) = (0, level, 0);
        while high - low > 1 {
            let middle = low + (high - low) / 2;
            let found = self.absorb(node + 1, kids, middle);
            if found <= most {
                (low, taken) = (middle, found);
            } else {
                high = middle;
            }
        }
        if low == 0 {
            taken = self.absorb(node + 1, kids, 0);
        }
        (low, most - taken)
    }

    fn fill(&self, first: usize, trees: usize, level: u64, spare: u64, grants: &mut [u64]) -> u64 {
        let (mut node, mut left) = (first, spare);
        for _ in 0..trees {
            let place = self.places[node];
            match place.kind {
                Kind::Leaf(want, floor) => {
                    let more = left > 0 && floor <= level && level < want;
                    grants[place.first] = if more { level + 1 } else { level.max(floor).min(want) };
                    left -= more as u64;
                }
                Kind::Branch(None) => left = self.fill(node + 1, place.kids, level, left, grants),
                Kind::Branch(Some(most)) => {
                    let taken = self.absorb(node + 1, place.kids, level);
                    let (below, passed, kept) = if taken <= most {
                        let passed = left.min(most - taken);
                        (level, passed, left - passed)
                    } else {
                        let (below, passed) = self.search(node, most, level);
                        (below, passed, left)
                    };
                    left = kept + self.fill(node + 1, place.kids, below, passed, grants);
                }
            }
            node += place.nodes;
        }
        left
    }
}

fn sum(place: Place, grants: &[u64]) -> u64 {
    grants[place.first..place.first + place.leaves].iter().sum()
}

fn is_full(place: Place, grants: &[u64]) -> bool {
    matches!(place.kind, Kind::Branch(Some(most)) if sum(place, grants) == most)
}

/// Best grants, and for each leaf that gets less than it wants the branch that holds it back.
pub fn allot(root: &Node) -> (Vec<u64>, Vec<Option<u32>>) {
    let mut flat = Flat::default();
    flat.add(root);
    let mut grants = vec![0; flat.wants.len()];
    flat.fill(0, 1, MAX_WANT, 0, &mut grants);
    let mut entries = vec![None; grants.len()];
    for (node, place) in flat.places.iter().enumerate() {
        if is_full(*place, &grants) {
            entries[place.first..place.first + place.leaves].fill(Some(node as u32));
        }
    }
    for (leaf, entry) in entries.iter_mut().enumerate() {
        if grants[leaf] >= flat.wants[leaf] {
            *entry = None;
        }
    }
    (grants, entries)
}

/// Whether the grants are within the limits, and each unmet leaf names a full branch above it in which nobody has two
/// octets more than it, or has them as a floor.
pub fn check(root: &Node, grants: &[u64], entries: &[Option<u32>]) -> bool {
    let mut flat = Flat::default();
    flat.add(root);
    let leaves = flat.wants.len();
    if grants.len() != leaves || entries.len() != leaves {
        return false;
    }
    if (0..leaves).any(|leaf| grants[leaf] > flat.wants[leaf] || grants[leaf] < flat.floors[leaf]) {
        return false;
    }
    let mut backed = vec![false; leaves];
    for (node, place) in flat.places.iter().enumerate() {
        if matches!(place.kind, Kind::Branch(Some(most)) if sum(*place, grants) > most) {
            return false;
        }
        if is_full(*place, grants) {
            let range = place.first..place.first + place.leaves;
            let most = range.clone().filter(|leaf| grants[*leaf] != flat.floors[*leaf]).map(|leaf| grants[leaf]).max();
            for leaf in range {
                backed[leaf] |= entries[leaf] == Some(node as u32) && most.unwrap_or(0) < grants[leaf] + 2;
            }
        }
    }
    (0..leaves).all(|leaf| grants[leaf] >= flat.wants[leaf] || backed[leaf])
}

pub struct Sealed {
    _tree: Node,
    pub grants: Vec<u64>,
    _entries: Vec<Option<u32>>,
}

/// The tree with its grants, where they are best.
pub fn seal(tree: Node, grants: Vec<u64>, entries: Vec<Option<u32>>) -> Option<Sealed> {
    check(&tree, &grants, &entries).then_some(Sealed { _tree: tree, grants, _entries: entries })
}

/// The rates of the line, of 8 groups and of 64 users.
pub fn limits() -> Limits {
    let groups = (0..8).map(|group| GroupRate { group, down: 1_500_000 + group as u64 * 250_000, up: 900_000 });
    let users = (0..64).map(|user| UserRate {
        user,
        group: Some(user % 8),
        down: 400_000,
        up: 300_000,
        session_down: 350_000,
        session_up: 0,
        session_down_floor: 50_000,
        session_up_floor: 0,
    });
    Limits { server: 10_000_000, groups: groups.collect(), users: users.collect() }
}

/// One ask of each user, with its lane.
pub fn asks() -> Vec<(u8, Ask)> {
    let ask = |user: u32| Ask {
        user,
        session: 1,
        way: if user % 4 == 3 { Way::Up } else { Way::Down },
        want: 65_536 - user as u64 * 1_000,
    };
    (0..64).map(|user| (user as u8, ask(user))).collect()
}
