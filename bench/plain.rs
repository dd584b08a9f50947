//! The search of Luffaknife as a plain Rust program, with no proof and no crate: a yardstick for speed and memory.
//! `plain DEAL RULE BUDGET` searches a numbered deal of FreeCell with four cells. bench/README.md says what it prints.

use std::io::{self, Write};
use std::time::Instant;
use std::{env, fmt, fs, process};

/// A card is four times its rank less one, plus its suit: clubs 0, diamonds 1, hearts 2, spades 3.
type Card = u8;

/// What stands in an empty cell, here and in a key.
const EMPTY: u8 = 255;

/// Places are numbered: columns 0 to 7, cells 8 to 11, home 12.
const CELLS: usize = 8;
const HOME: usize = 12;

/// A dealt column has at most 7 cards, and at most 12 more can be built on its last.
const DEPTH: usize = 19;

/// At most 12 moves from each column and 9 from each cell.
const MOST_MOVES: usize = 132;

const MOST_BUDGET: usize = 4_000_000;

fn rank(card: Card) -> u8 {
    card / 4 + 1
}

fn suit(card: Card) -> usize {
    (card % 4) as usize
}

fn is_red(card: Card) -> bool {
    matches!(card % 4, 1 | 2)
}

/// Whether the upper card may stand on the lower one.
fn stands(upper: Card, lower: Card) -> bool {
    rank(upper) + 1 == rank(lower) && is_red(upper) != is_red(lower)
}

/// Whether the card is next and every card that may stand on it is home (rule 1), or home or free itself (rule 2).
fn goes_home(homes: &[u8; 4], card: Card, rule: u8) -> bool {
    if rule == 0 || homes[suit(card)] + 1 != rank(card) {
        return false;
    }
    let below = rank(card) - 1;
    let hosts = if is_red(card) { [0, 3] } else { [1, 2] };
    hosts.iter().all(|&host| {
        homes[host] >= below || rule == 2 && goes_home(homes, (below - 1) * 4 + host as u8, rule)
    })
}

/// The counts in the order of the suits; the cells, rising; the columns by rising deepest card, each after its length.
/// Empty cells and columns come last. Zeros fill it up: the lengths tell where it ends, so no two keys become equal.
type Key = [u8; 68];

#[derive(Clone, Copy)]
struct Position {
    columns: [[Card; DEPTH]; 8],
    lengths: [u8; 8],
    cells: [u8; 4],
    homes: [u8; 4],
}

/// Moves as pairs of places.
struct Moves {
    list: [(u8, u8); MOST_MOVES],
    length: usize,
}

impl Moves {
    fn push(&mut self, from: usize, to: usize) {
        self.list[self.length] = (from as u8, to as u8);
        self.length += 1;
    }
}

impl Position {
    const NO_CARDS: Position = Position {
        columns: [[0; DEPTH]; 8],
        lengths: [0; 8],
        cells: [EMPTY; 4],
        homes: [0; 4],
    };

    /// The numbered deal.
    fn deal(number: u32) -> Position {
        let mut position = Position::NO_CARDS;
        let mut deck: Vec<Card> = (0..52).collect();
        let mut state = u64::from(number);
        for i in 0..52 {
            state = (state * 214013 + 2531011) % (1 << 31);
            let picked = (state / 65536) as usize % deck.len();
            position.put(deck.swap_remove(picked), i % 8);
        }
        position
    }

    fn column(&self, i: usize) -> &[Card] {
        &self.columns[i][..self.lengths[i] as usize]
    }

    /// The card that may be taken from a column or a cell.
    fn playable(&self, place: usize) -> Option<Card> {
        if place < CELLS {
            self.column(place).last().copied()
        } else {
            Some(self.cells[place - CELLS]).filter(|&card| card != EMPTY)
        }
    }

    fn put(&mut self, card: Card, place: usize) {
        match place {
            0..CELLS => {
                self.columns[place][self.lengths[place] as usize] = card;
                self.lengths[place] += 1;
            }
            HOME => self.homes[suit(card)] = rank(card),
            _ => self.cells[place - CELLS] = card,
        }
    }

    /// Takes the playable card of a place to another.
    fn shift(&mut self, from: usize, to: usize) {
        let card = if from < CELLS {
            self.lengths[from] -= 1;
            self.columns[from][self.lengths[from] as usize]
        } else {
            std::mem::replace(&mut self.cells[from - CELLS], EMPTY)
        };
        self.put(card, to);
    }

    /// Sends cards home by the rule, always the least that goes, until none goes; how many went.
    fn settle(&mut self, rule: u8) -> u32 {
        let mut count = 0;
        loop {
            let playable = (0..HOME).filter_map(|from| Some((self.playable(from)?, from)));
            let goers = playable.filter(|goer| goes_home(&self.homes, goer.0, rule));
            let Some((_, from)) = goers.min() else {
                return count;
            };
            self.shift(from, HOME);
            count += 1;
        }
    }

    /// How many cards are not home, and how many stand above a lower card of their own suit.
    fn bound(&self) -> u32 {
        let home: u8 = self.homes.iter().sum();
        let mut bound = 52 - u32::from(home);
        for i in 0..8 {
            let mut least = [14; 4];
            for &card in self.column(i) {
                if least[suit(card)] < rank(card) {
                    bound += 1;
                } else {
                    least[suit(card)] = rank(card);
                }
            }
        }
        bound
    }

    /// The allowed moves, by source and then by destination, one where several lead to one class.
    fn moves(&self) -> Moves {
        let mut moves = Moves {
            list: [(0, 0); MOST_MOVES],
            length: 0,
        };
        for from in 0..HOME {
            if let Some(card) = self.playable(from) {
                self.push_moves(from, card, &mut moves);
            }
        }
        moves
    }

    fn push_moves(&self, from: usize, card: Card, moves: &mut Moves) {
        let is_column = from < CELLS;
        // Of several empty columns the first will do, and for a column's only card none: the class would be the same.
        let mut opens = !(is_column && self.lengths[from] == 1);
        for to in 0..CELLS {
            match self.column(to).last() {
                Some(&last) if stands(card, last) => moves.push(from, to),
                None if opens => {
                    opens = false;
                    moves.push(from, to);
                }
                _ => {}
            }
        }
        let empty_cell = self.cells.iter().position(|&cell| cell == EMPTY);
        if let Some(cell) = empty_cell.filter(|_| is_column) {
            moves.push(from, CELLS + cell);
        }
        if self.homes[suit(card)] + 1 == rank(card) {
            moves.push(from, HOME);
        }
    }

    fn key(&self) -> Key {
        let mut key = [0; 68];
        key[..4].copy_from_slice(&self.homes);
        let mut cells = self.cells;
        cells.sort_unstable();
        key[4..8].copy_from_slice(&cells);
        let mut order = [0, 1, 2, 3, 4, 5, 6, 7];
        order.sort_unstable_by_key(|&i| self.column(i).first().copied().unwrap_or(EMPTY));
        let mut at = 8;
        for i in order {
            let column = self.column(i);
            key[at] = column.len() as u8;
            key[at + 1..at + 1 + column.len()].copy_from_slice(column);
            at += 1 + column.len();
        }
        key
    }

    /// The canonical position that the key spells.
    fn spelled(key: &Key) -> Position {
        let mut position = Position::NO_CARDS;
        position.homes.copy_from_slice(&key[..4]);
        position.cells.copy_from_slice(&key[4..8]);
        let mut at = 8;
        for i in 0..8 {
            let length = key[at] as usize;
            position.lengths[i] = key[at];
            position.columns[i][..length].copy_from_slice(&key[at + 1..at + 1 + length]);
            at += 1 + length;
        }
        position
    }
}

/// A stored class: its key, the cost at which it was reached, and the number of the class that it came from.
struct Entry {
    key: Key,
    cost: u32,
    parent: u32,
}

/// The stored classes by number, and an open-addressed table that finds the number of a key.
struct Classes {
    entries: Vec<Entry>,
    /// 0 where nothing stands, else the upper half of the hash, and the number plus one. A power of two of them.
    slots: Vec<u64>,
}

/// Sixteen bytes at a time are folded into the hash by a wide multiplication.
fn hash(key: &Key) -> u64 {
    let word = |at: usize| u64::from_le_bytes(*key[at..].first_chunk().unwrap());
    [0, 16, 32, 48, 52]
        .iter()
        .fold(0x243f_6a88_85a3_08d3, |state, &at| {
            let one = word(at) ^ state;
            let other = word(at + 8) ^ 0x9e37_79b9_7f4a_7c15;
            let product = u128::from(one) * u128::from(other);
            product as u64 ^ (product >> 64) as u64
        })
}

impl Classes {
    fn new() -> Classes {
        Classes {
            entries: Vec::new(),
            slots: vec![0; 1024],
        }
    }

    /// The number of the key, or the slot where it would stand.
    fn find(&self, key: &Key, hash: u64) -> Result<usize, usize> {
        let mask = self.slots.len() - 1;
        let mut at = hash as usize & mask;
        loop {
            let slot = self.slots[at];
            if slot == 0 {
                return Err(at);
            }
            let number = (slot as u32 - 1) as usize;
            if slot >> 32 == hash >> 32 && self.entries[number].key == *key {
                return Ok(number);
            }
            at = (at + 1) & mask;
        }
    }

    /// Stores a new class in the slot that was found for it.
    fn insert(&mut self, slot: usize, hash: u64, entry: Entry) {
        self.entries.push(entry);
        self.slots[slot] = hash >> 32 << 32 | self.entries.len() as u64;
        if self.entries.len() > self.slots.len() / 4 * 3 {
            self.grow();
        }
    }

    fn grow(&mut self) {
        let mask = self.slots.len() * 2 - 1;
        self.slots = vec![0; mask + 1];
        for (number, entry) in self.entries.iter().enumerate() {
            let hash = hash(&entry.key);
            let mut at = hash as usize & mask;
            while self.slots[at] != 0 {
                at = (at + 1) & mask;
            }
            self.slots[at] = hash >> 32 << 32 | (number as u64 + 1);
        }
    }
}

/// The open classes by f: a stack for each f, of which the newest is taken first.
struct Frontier {
    stacks: Vec<Vec<u32>>,
    /// All stacks before this one are empty.
    first: usize,
}

impl Frontier {
    fn push(&mut self, f: u32, number: usize) {
        let f = f as usize;
        if f >= self.stacks.len() {
            self.stacks.resize_with(f + 1, Vec::new);
        }
        self.stacks[f].push(number as u32);
        self.first = self.first.min(f);
    }

    /// Takes out a class of least f, and that f.
    fn pop(&mut self) -> Option<(u32, usize)> {
        while self.first < self.stacks.len() {
            if let Some(number) = self.stacks[self.first].pop() {
                return Some((self.first as u32, number as usize));
            }
            self.first += 1;
        }
        None
    }
}

enum Answer {
    Shortest(u32),
    CannotWin,
    GaveUp(usize),
}

impl fmt::Display for Answer {
    fn fmt(&self, f: &mut fmt::Formatter) -> fmt::Result {
        match self {
            Answer::Shortest(moves) => write!(f, "shortest {moves}"),
            Answer::CannotWin => write!(f, "can't be won"),
            Answer::GaveUp(budget) => write!(f, "gave up {budget}"),
        }
    }
}

/// A search for a shortest solution over settled classes, best first.
struct Search {
    rule: u8,
    budget: usize,
    classes: Classes,
    frontier: Frontier,
}

impl Search {
    fn new(start: Position, rule: u8, budget: usize) -> Search {
        let mut search = Search {
            rule,
            budget,
            classes: Classes::new(),
            frontier: Frontier {
                stacks: Vec::new(),
                first: 0,
            },
        };
        search.reach(start, 0, 0);
        search
    }

    /// Settles a position that is reached from a stored class at this cost, and stores and opens its class unless it is
    /// stored at no more. False where it has no place.
    fn reach(&mut self, mut position: Position, cost: u32, parent: usize) -> bool {
        let cost = cost + position.settle(self.rule);
        let key = position.key();
        let hash = hash(&key);
        let parent = parent as u32;
        let number = match self.classes.find(&key, hash) {
            Ok(number) => {
                let entry = &mut self.classes.entries[number];
                if entry.cost <= cost {
                    return true;
                }
                entry.cost = cost;
                entry.parent = parent;
                number
            }
            Err(slot) => {
                let number = self.classes.entries.len();
                if number >= self.budget {
                    return false;
                }
                self.classes.insert(slot, hash, Entry { key, cost, parent });
                number
            }
        };
        self.frontier.push(cost + position.bound(), number);
        true
    }

    /// One turn: takes a class of least f and expands it. The answer, if that ends the search.
    fn turn(&mut self) -> Option<Answer> {
        let Some((f, number)) = self.frontier.pop() else {
            return Some(Answer::CannotWin);
        };
        let Entry { key, cost, .. } = self.classes.entries[number];
        if key[..4] == [13; 4] {
            return Some(Answer::Shortest(cost));
        }
        let position = Position::spelled(&key);
        if cost + position.bound() < f {
            return None;
        }
        let moves = position.moves();
        // The last move's class is met first, as in the proved program, so that both store the same classes.
        for &(from, to) in moves.list[..moves.length].iter().rev() {
            let mut child = position;
            child.shift(from as usize, to as usize);
            if !self.reach(child, cost + 1, number) {
                return Some(Answer::GaveUp(self.budget));
            }
        }
        None
    }

    /// Whether the costs rise from class to class on the way from the start to each stored class.
    fn is_sound(&self) -> bool {
        let entries = &self.classes.entries;
        let rises = |entry: &Entry| entries[entry.parent as usize].cost < entry.cost;
        entries.iter().skip(1).all(rises)
    }
}

/// The peak of resident memory so far in kilobytes, as Linux tells it; 0 where it doesn't.
fn peak_kilobytes() -> u64 {
    let status = fs::read_to_string("/proc/self/status").unwrap_or_default();
    let line = status.lines().find_map(|line| line.strip_prefix("VmHWM:"));
    line.and_then(|rest| rest.split_whitespace().next()?.parse().ok())
        .unwrap_or(0)
}

/// The deal, the home rule and the budget that the words say.
fn read_words(words: &[String]) -> Option<(u32, u8, usize)> {
    let [deal, rule, budget] = words else {
        return None;
    };
    let deal = deal
        .parse()
        .ok()
        .filter(|deal| (1..=1_000_000).contains(deal))?;
    let rule = rule.parse().ok().filter(|rule| *rule <= 2)?;
    let budget = budget
        .parse()
        .ok()
        .filter(|budget| (1..=MOST_BUDGET).contains(budget))?;
    Some((deal, rule, budget))
}

fn main() {
    let words: Vec<String> = env::args().skip(1).collect();
    let Some((deal, rule, budget)) = read_words(&words) else {
        eprintln!("usage: plain DEAL RULE BUDGET (1 to 1000000, 0 to 2, 1 to {MOST_BUDGET})");
        process::exit(3);
    };
    let began = Instant::now();
    let mut search = Search::new(Position::deal(deal), rule, budget);
    let mut turns = 1u64;
    let answer = loop {
        match search.turn() {
            Some(answer) => break answer,
            None => turns += 1,
        }
    };
    let seconds = began.elapsed().as_secs_f64();
    let stored = search.classes.entries.len();
    let kilobytes = peak_kilobytes();
    assert!(search.is_sound());
    let figures = format!("{turns} turns, {seconds:.3} seconds, {kilobytes} kilobytes");
    let report = format!("{answer}\n{stored} classes, {figures}\n");
    if io::stdout().write_all(report.as_bytes()).is_err() {
        process::exit(5);
    }
    process::exit(match answer {
        Answer::Shortest(_) => 0,
        Answer::CannotWin => 1,
        Answer::GaveUp(_) => 2,
    });
}
