//! The games of the benchmark, solved as one would without proofs: the same recursion over colours with lists of
//! predecessors, and two methods that the proved solver does not use: priority promotion, and a recursion that solves
//! one strongly connected part at a time. Prints, for each game, its positions and moves, what player 0 wins, the
//! calls, attractors and passes of the recursion with its time, and the attractors of the other two with theirs.
//! A pass is one turn of the loop that takes out the other player's gains.

use std::time::Instant;

struct Game {
    owner: Vec<u8>,
    colour: Vec<u8>,
    target: Vec<u32>,
    heads: Vec<u32>,
    sources: Vec<u32>,
}

const MOVES: usize = 4;
const COLOURS: u64 = 11;

#[derive(Clone, Copy, Debug, PartialEq)]
enum Family {
    Lanes,
    Chain,
    Ladder,
    Steps,
    Random,
    Way,
    Tolls,
    Nest,
    /// A nest in which each chain can go back to the one below, so that they lie on common loops.
    Tied,
}

fn mixed(seed: u64, first: u64, second: u64) -> u64 {
    let mut x = seed
        .wrapping_mul(0x9e37_79b9_7f4a_7c15)
        .wrapping_add(first.wrapping_mul(0xbf58_476d_1ce4_e5b9))
        .wrapping_add(second.wrapping_mul(0x94d0_49bb_1331_11eb));
    x ^= x >> 30;
    x = x.wrapping_mul(0xbf58_476d_1ce4_e5b9);
    x ^= x >> 27;
    x = x.wrapping_mul(0x94d0_49bb_1331_11eb);
    x ^ (x >> 31)
}

fn chain_colour(size: u64, position: u64) -> u64 {
    let double = 2 * (size / 20);
    if double == 0 {
        return 0;
    }
    let level = position / double;
    if level < 10 { level + 1 } else { 0 }
}

fn owner(family: Family, size: u64, seed: u64, p: u64) -> u8 {
    (match family {
        Family::Lanes | Family::Chain | Family::Random => mixed(seed, p, 101) % 2,
        Family::Ladder | Family::Way => p % 2,
        Family::Steps => p / 3 % 2,
        Family::Tolls => p / 2 % 2,
        Family::Nest | Family::Tied => {
            let player = chain_colour(size, p) % 2;
            if p % 2 == 0 { 1 - player } else { player }
        }
    }) as u8
}

fn colour(family: Family, size: u64, seed: u64, p: u64) -> u8 {
    (match family {
        Family::Lanes | Family::Chain | Family::Random => mixed(seed, p, 102) % COLOURS,
        Family::Ladder => p / 2 % COLOURS,
        Family::Steps => p * COLOURS / size % COLOURS,
        Family::Way => if p + 1 == size { 10 } else { p % 10 },
        Family::Tolls => if p % 2 == 1 { 9 } else { p / 2 % 9 },
        Family::Nest | Family::Tied => {
            let colour = chain_colour(size, p);
            if p % 2 == 0 || colour == 0 { colour } else { colour - 1 }
        }
    }) as u8
}

fn end(family: Family, size: u64, seed: u64, p: u64, number: u64) -> u64 {
    match family {
        Family::Lanes => {
            let (row, column) = (p / 16, p % 16);
            match number {
                0 => (row + 1) * 16 + column,
                1 => (row + 1) * 16 + (column + 1) % 16,
                2 => (row + 1) * 16 + (column + 15) % 16,
                _ => row * 16 + (column + 1) % 16,
            }
        }
        Family::Chain => match number {
            0 => p + 1,
            1 => p + size - 1,
            2 => p + 2,
            _ => mixed(seed, p, 103) % (p + 1),
        },
        Family::Ladder => match number {
            0 => p + 2,
            1 => (p + 2) ^ 1,
            2 => p + size - 2,
            _ => p ^ 1,
        },
        Family::Steps => match number {
            0 => p + 1,
            1 => p.saturating_sub(1),
            2 => p / 2,
            _ => p + 7,
        },
        Family::Random => mixed(seed, p, number + 200),
        Family::Way => p + 1,
        Family::Tolls => {
            if p % 2 == 1 {
                return p - 1;
            }
            let v = p / 2;
            (match number {
                0 => v + 1,
                1 => v + 3,
                _ => v * 7,
            }) * 2 + 1
        }
        Family::Nest | Family::Tied => {
            let double = 2 * (size / 20);
            let colour = chain_colour(size, p);
            if double == 0 || colour == 0 {
                return p;
            }
            if family == Family::Tied && colour > 1 && p % 2 == 0 && number == 3 {
                return (colour - 2) * double + double - 2;
            }
            if p % 2 == 1 && number > 1 && colour < 10 {
                return colour * double + double - 2;
            }
            if p % double < 2 || (p % 2 == 1 && number == 0) {
                return p;
            }
            p - 1
        }
    }
}

fn lay(family: Family, size: u64, seed: u64, shuffled: bool) -> Game {
    let n = size as usize;
    let label = |p: u64| {
        let number = if shuffled { p.wrapping_mul(0x9e37_79b1).wrapping_add(seed) } else { p };
        (number % size) as usize
    };
    let mut game = Game { owner: vec![0; n], colour: vec![0; n], target: vec![0; MOVES * n], heads: vec![], sources: vec![] };
    for p in 0..size {
        let at = label(p);
        game.owner[at] = owner(family, size, seed, p);
        game.colour[at] = colour(family, size, seed, p);
        for number in 0..4 {
            game.target[MOVES * at + number as usize] = label(end(family, size, seed, p, number) % size) as u32;
        }
    }
    game
}

struct Counts {
    calls: u64,
    attractors: u64,
    passes: u64,
}

/// What the search for strongly connected parts has met: when each position was met, the earliest that it leads back
/// to, and the positions whose part is not known yet.
struct Search {
    met: Vec<u32>,
    low: Vec<u32>,
    open: Vec<u32>,
    count: u32,
}

impl Game {
    fn size(&self) -> usize {
        self.owner.len()
    }

    fn ends(&self, p: usize) -> &[u32] {
        &self.target[MOVES * p..MOVES * p + MOVES]
    }

    fn note(&mut self) {
        let n = self.size();
        self.heads = vec![0; n + 1];
        self.sources = vec![0; self.target.len()];
        for &q in &self.target {
            self.heads[q as usize + 1] += 1;
        }
        for q in 0..n {
            self.heads[q + 1] += self.heads[q];
        }
        let mut at = self.heads.clone();
        for p in 0..n {
            for number in 0..MOVES {
                let q = self.target[MOVES * p + number] as usize;
                self.sources[at[q] as usize] = p as u32;
                at[q] += 1;
            }
        }
    }

    fn pull(&self, player: u8, mark: u32, tags: &[u32], p: usize) -> Option<u32> {
        if self.owner[p] == player {
            self.ends(p).iter().position(|&q| tags[q as usize] == mark).map(|k| k as u32)
        } else if self.ends(p).iter().any(|&q| tags[q as usize] < mark) {
            None
        } else {
            Some(0)
        }
    }

    fn attract(&self, player: u8, mark: u32, tags: &mut [u32], winners: &mut [u32], moves: &mut [u32], queue: &mut Vec<u32>) {
        queue.clear();
        queue.extend((0..self.size() as u32).filter(|&p| tags[p as usize] == mark));
        let mut next = 0;
        while next < queue.len() {
            let q = queue[next] as usize;
            next += 1;
            for place in self.heads[q]..self.heads[q + 1] {
                let p = self.sources[place as usize] as usize;
                if tags[p] < mark {
                    if let Some(number) = self.pull(player, mark, tags, p) {
                        tags[p] = mark;
                        winners[p] = player as u32;
                        moves[p] = number;
                        queue.push(p as u32);
                    }
                }
            }
        }
    }

    fn highest(&self, bound: u32, tags: &[u32]) -> u32 {
        (0..self.size()).filter(|&p| tags[p] < bound).map(|p| self.colour[p] as u32 + 1).max().unwrap_or(0)
    }

    #[allow(clippy::too_many_arguments)]
    fn recur(&self, colours: u32, bound: u32, tags: &mut [u32], winners: &mut [u32], moves: &mut [u32], queue: &mut Vec<u32>, counts: &mut Counts) {
        counts.calls += 1;
        if colours == 0 {
            return;
        }
        let top = colours - 1;
        let player = (top % 2) as u8;
        let mark = bound - 2;
        loop {
            let mut some = false;
            for p in 0..self.size() {
                if tags[p] <= mark {
                    if self.colour[p] as u32 == top {
                        moves[p] = self.ends(p).iter().position(|&q| tags[q as usize] <= mark).unwrap_or(0) as u32;
                        winners[p] = player as u32;
                        tags[p] = mark;
                        some = true;
                    } else {
                        tags[p] = 0;
                    }
                }
            }
            if !some {
                break;
            }
            counts.passes += 1;
            counts.attractors += 1;
            self.attract(player, mark, tags, winners, moves, queue);
            let below = self.highest(mark, tags);
            self.recur(below, mark, tags, winners, moves, queue, counts);
            let mut gave = false;
            for p in 0..self.size() {
                if tags[p] < mark && winners[p] == 1 - player as u32 {
                    tags[p] = mark + 1;
                    gave = true;
                }
            }
            if !gave {
                return;
            }
            counts.attractors += 1;
            self.attract(1 - player, mark + 1, tags, winners, moves, queue);
        }
        let below = self.highest(mark + 1, tags);
        self.recur(below, mark + 1, tags, winners, moves, queue, counts);
    }

    fn recursion(&mut self) -> (Vec<u32>, Counts) {
        self.note();
        let n = self.size();
        let (mut tags, mut winners, mut moves, mut queue) = (vec![0; n], vec![0; n], vec![0; n], Vec::with_capacity(n));
        let mut counts = Counts { calls: 0, attractors: 0, passes: 0 };
        let colours = self.highest(1, &tags);
        self.recur(colours, 2 * colours, &mut tags, &mut winners, &mut moves, &mut queue, &mut counts);
        (winners, counts)
    }

    /// Priority promotion: a region that its player keeps in what is left below joins the lowest region above that
    /// the other player can leave to, until one is kept in the whole.
    fn promotion(&mut self, limit: u64) -> (Vec<u32>, Counts) {
        self.note();
        let n = self.size();
        let mut winners = vec![2u32; n];
        let mut counts = Counts { calls: 0, attractors: 0, passes: 0 };
        // the region of a position: the colour under which it stands, and -1 once it is won
        let mut region: Vec<i32> = self.colour.iter().map(|&c| c as i32).collect();
        while region.iter().any(|&r| r >= 0) {
            let mut bound = *region.iter().max().unwrap();
            loop {
                if counts.attractors > limit {
                    return (winners, counts);
                }
                let player = (bound % 2) as u8;
                let below: Vec<bool> = region.iter().map(|&r| r >= 0 && r <= bound).collect();
                let seeds: Vec<u32> = (0..n as u32).filter(|&p| region[p as usize] == bound).collect();
                let mut set = vec![false; n];
                for p in self.attractor(player, &below, &seeds, &mut counts) {
                    set[p as usize] = true;
                    region[p as usize] = bound;
                }
                let open = (0..n).any(|p| set[p] && self.owner[p] == player && !self.ends(p).iter().any(|&q| set[q as usize]))
                    || (0..n).any(|p| set[p] && self.owner[p] != player && self.ends(p).iter().any(|&q| region[q as usize] >= 0 && region[q as usize] < bound));
                if open {
                    bound = (0..n).filter(|&p| region[p] >= 0 && region[p] < bound).map(|p| region[p]).max().unwrap();
                    continue;
                }
                let exit = (0..n)
                    .filter(|&p| set[p] && self.owner[p] != player)
                    .flat_map(|p| self.ends(p).iter().map(|&q| region[q as usize]))
                    .filter(|&r| r > bound)
                    .min();
                match exit {
                    Some(above) => {
                        for p in 0..n {
                            if set[p] {
                                region[p] = above;
                            } else if region[p] >= 0 && region[p] < above {
                                region[p] = self.colour[p] as i32;
                            }
                        }
                        bound = above;
                    }
                    None => {
                        let left: Vec<bool> = region.iter().map(|&r| r >= 0).collect();
                        let kept: Vec<u32> = (0..n as u32).filter(|&p| set[p as usize]).collect();
                        for p in self.attractor(player, &left, &kept, &mut counts) {
                            winners[p as usize] = player as u32;
                            region[p as usize] = -1;
                        }
                        for p in 0..n {
                            if region[p] >= 0 {
                                region[p] = self.colour[p] as i32;
                            }
                        }
                        break;
                    }
                }
            }
        }
        (winners, counts)
    }

    /// The positions from which the player reaches the set inside, the set included.
    fn attractor(&self, player: u8, inside: &[bool], set: &[u32], counts: &mut Counts) -> Vec<u32> {
        counts.attractors += 1;
        let mut taken = vec![false; self.size()];
        let mut queue = set.to_vec();
        for &p in set {
            taken[p as usize] = true;
        }
        let mut next = 0;
        while next < queue.len() {
            let q = queue[next] as usize;
            next += 1;
            for place in self.heads[q]..self.heads[q + 1] {
                let p = self.sources[place as usize] as usize;
                if inside[p] && !taken[p] && (self.owner[p] == player || self.ends(p).iter().all(|&q| !inside[q as usize] || taken[q as usize])) {
                    taken[p] = true;
                    queue.push(p as u32);
                }
            }
        }
        queue
    }

    /// The strongly connected part that p closes, if it closes one, joins the list after all parts that it leads to.
    fn close(&self, inside: &[bool], search: &mut Search, parts: &mut Vec<Vec<u32>>, p: usize) {
        search.count += 1;
        search.met[p] = search.count;
        search.low[p] = search.count;
        search.open.push(p as u32);
        for &q in self.ends(p) {
            let q = q as usize;
            if inside[q] {
                if search.met[q] == 0 {
                    self.close(inside, search, parts, q);
                }
                search.low[p] = search.low[p].min(search.low[q]);
            }
        }
        if search.low[p] == search.met[p] {
            let from = search.open.iter().rposition(|&q| q as usize == p).unwrap();
            let part = search.open.split_off(from);
            for &q in &part {
                search.low[q as usize] = u32::MAX;
            }
            parts.push(part);
        }
    }

    /// Solves the positions inside one strongly connected part at a time, those that lead nowhere else first.
    fn by_parts(&self, inside: &mut [bool], winners: &mut [u32], counts: &mut Counts) {
        let n = self.size();
        let mut search = Search { met: vec![0; n], low: vec![0; n], open: vec![], count: 0 };
        let mut parts = vec![];
        for p in 0..n {
            if inside[p] && search.met[p] == 0 {
                self.close(inside, &mut search, &mut parts, p);
            }
        }
        for part in parts {
            let left: Vec<u32> = part.into_iter().filter(|&p| inside[p as usize]).collect();
            if left.is_empty() {
                continue;
            }
            self.part(&left, winners, counts);
            for player in 0..2 {
                let won: Vec<u32> = left.iter().copied().filter(|&p| winners[p as usize] == player as u32).collect();
                if !won.is_empty() {
                    for p in self.attractor(player, inside, &won, counts) {
                        winners[p as usize] = player as u32;
                        inside[p as usize] = false;
                    }
                }
            }
        }
    }

    /// Solves one part, which its moves do not leave, by its highest colour.
    fn part(&self, part: &[u32], winners: &mut [u32], counts: &mut Counts) {
        counts.calls += 1;
        let top = part.iter().map(|&p| self.colour[p as usize]).max().unwrap();
        let player = top % 2;
        let mut inside = vec![false; self.size()];
        for &p in part {
            inside[p as usize] = true;
            winners[p as usize] = player as u32;
        }
        if part.len() == 1 {
            return;
        }
        let highest: Vec<u32> = part.iter().copied().filter(|&p| self.colour[p as usize] == top).collect();
        let mut below = inside.clone();
        for p in self.attractor(player, &inside, &highest, counts) {
            below[p as usize] = false;
        }
        self.by_parts(&mut below, winners, counts);
        let gains: Vec<u32> = part.iter().copied().filter(|&p| winners[p as usize] != player as u32).collect();
        if gains.is_empty() {
            return;
        }
        counts.passes += 1;
        for p in self.attractor(1 - player, &inside, &gains, counts) {
            winners[p as usize] = 1 - player as u32;
            inside[p as usize] = false;
        }
        self.by_parts(&mut inside, winners, counts);
    }

    fn connected(&mut self) -> (Vec<u32>, Counts) {
        self.note();
        let mut winners = vec![2u32; self.size()];
        let mut counts = Counts { calls: 0, attractors: 0, passes: 0 };
        let mut inside = vec![true; self.size()];
        self.by_parts(&mut inside, &mut winners, &mut counts);
        (winners, counts)
    }
}

fn run(family: Family, size: u64, shuffled: bool) {
    let mut game = lay(family, size, 1, shuffled);
    let start = Instant::now();
    let (winners, counts) = game.recursion();
    let first = start.elapsed().as_micros();
    let start = Instant::now();
    let (others, promotions) = game.promotion(2_000_000);
    let second = start.elapsed().as_micros();
    let start = Instant::now();
    let (thirds, parts) = game.connected();
    let third = start.elapsed().as_micros();
    let won = winners.iter().filter(|&&w| w == 0).count();
    let verdict = |other: &[u32]| if winners == other { "agree" } else if other.contains(&2) { "given up" } else { "DIFFER" };
    let order = if shuffled { "shuffled" } else { "in order" };
    println!(
        "{family:?}, {order}: {size} positions, {} moves, player 0 wins {won}, {} calls, {} attractors, {} passes, {first} microseconds; \
         promotion {} attractors, {second} microseconds, {}; parts {} attractors, {third} microseconds, {}",
        game.target.len(), counts.calls, counts.attractors, counts.passes, promotions.attractors, verdict(&others), parts.attractors, verdict(&thirds)
    );
}

/// Parts alone, on nests that are too long for the other two.
fn run_parts(family: Family, size: u64) {
    let mut game = lay(family, size, 1, false);
    let start = Instant::now();
    let (_, parts) = game.connected();
    println!("{family:?}, in order: {size} positions; parts {} attractors, {} microseconds", parts.attractors, start.elapsed().as_micros());
}

fn main() {
    for family in [Family::Lanes, Family::Chain, Family::Ladder, Family::Steps, Family::Random, Family::Way, Family::Tolls] {
        for size in [512, 1024, 2048, 4096] {
            for shuffled in [false, true] {
                run(family, size, shuffled);
            }
        }
    }
    for family in [Family::Nest, Family::Tied] {
        for size in [20, 40, 60, 80, 100] {
            run(family, size, false);
        }
        for size in [120, 140, 160, 180, 200] {
            run_parts(family, size);
        }
    }
}
