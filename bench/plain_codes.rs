//! The search of plain.rs once more, as fast as a plain Rust program of one file got it: a class is kept in 24 bytes, of
//! which its code takes 20. `plain_codes DEAL RULE BUDGET` prints what `plain DEAL RULE BUDGET` does. bench/README.md says
//! what a code is.

use std::io::{self, Write};
use std::time::Instant;
use std::{env, fmt, fs, process};

/// A card is four times its rank less one, plus its suit: clubs 0, diamonds 1, hearts 2, spades 3.
type Card = u8;

/// What a card lies on that lies on no card.
const NO_CARD: Card = 52;

/// A set of cards, one bit a card.
type Cards = u64;

const ALL: Cards = (1 << 52) - 1;
const CLUBS: Cards = 0x1_1111_1111_1111;

/// A card's state: it lies where it lay at the start, on the same cards; it is home; it is in a cell; or it is deepest in a
/// column, where it wasn't. From 4 on it lies on the card one rank higher whose suit is the state less 4.
type State = u8;

const UNMOVED: State = 0;
const HOME: State = 1;
const IN_CELL: State = 2;
const DEEPEST: State = 3;
const ON_CARD: State = 4;

/// From each column a card goes home, to a cell, to an empty column and onto two others; from a cell to no cell.
const MOST_CHILDREN: usize = 8 * 5 + 4 * 4;

const MOST_BUDGET: usize = 4_000_000;

/// Numbers of classes, and those plus one, take so many bits of a word, and something else the others.
const NUMBER_BITS: u32 = 22;
const NUMBERS: u32 = (1 << NUMBER_BITS) - 1;

/// Costs are below it. No search of a deal comes near.
const COSTS: u32 = 1 << (32 - NUMBER_BITS);

fn bit(card: Card) -> Cards {
    1 << card
}

fn has(cards: Cards, card: Card) -> bool {
    cards >> card & 1 != 0
}

fn without(cards: Cards, card: Card) -> Cards {
    cards & !bit(card)
}

fn least(cards: Cards) -> Card {
    cards.trailing_zeros() as Card
}

/// The greatest card of a set that isn't empty.
fn greatest(cards: Cards) -> Card {
    cards.ilog2() as Card
}

/// A card's place in a list that is long enough for each: so no test is made whether it is.
fn at(card: Card) -> usize {
    (card & 63) as usize
}

/// For each card those that it may stand on.
static HOSTS: [Cards; 64] = {
    let mut hosts = [0; 64];
    let mut card = 0;
    while card < 48 {
        let suits = if matches!(card % 4, 1 | 2) {
            0b1001
        } else {
            0b0110
        };
        hosts[card] = suits << (card / 4 * 4 + 4);
        card += 1;
    }
    hosts
};

/// For each card the lower ones of its suit.
static LOWER: [Cards; 64] = {
    let mut lower = [0; 64];
    let mut card = 0;
    while card < 52 {
        lower[card] = CLUBS << (card % 4) & ((1 << card) - 1);
        card += 1;
    }
    lower
};

/// The cards that may stand on one of these.
fn guests(cards: Cards) -> Cards {
    let black = (cards | cards >> 3) & CLUBS;
    let red = (cards >> 1 | cards >> 2) & CLUBS;
    (black << 1 | black << 2 | red | red << 3) >> 4
}

/// The cards that are next, where these are home.
fn next(home: Cards) -> Cards {
    (home << 4 | 0b1111) & !home & ALL
}

/// Whether a card that is next goes home: every card that may stand on it is home (rule 1), or home or free itself (rule 2).
fn goes_home(home: Cards, card: Card, rule: u8) -> bool {
    let mut wanting = guests(bit(card)) & !home;
    if rule < 2 {
        return rule == 1 && wanting == 0;
    }
    while wanting != 0 {
        let guest = least(wanting);
        if !has(next(home), guest) || !goes_home(home, guest, rule) {
            return false;
        }
        wanting = without(wanting, guest);
    }
    true
}

/// The states of all cards: for each of a state's three bits the cards that have it.
#[derive(Clone, Copy)]
struct Code([Cards; 3]);

impl Code {
    const START: Code = Code([UNMOVED as Cards; 3]);

    fn state(&self, card: Card) -> State {
        let [ones, twos, fours] = self.0;
        (ones >> card & 1 | (twos >> card & 1) << 1 | (fours >> card & 1) << 2) as State
    }

    /// The code with the state 0 for a card.
    fn without(&self, card: Card) -> Code {
        Code(self.0.map(|cards| without(cards, card)))
    }

    /// The code with another state for a card, which has the state 0.
    fn with(&self, card: Card, state: State) -> Code {
        let [ones, twos, fours] = self.0;
        let state = u64::from(state);
        Code([
            ones | (state & 1) << card,
            twos | (state >> 1 & 1) << card,
            fours | (state >> 2) << card,
        ])
    }

    fn unmoved(&self) -> Cards {
        let [ones, twos, fours] = self.0;
        !(ones | twos | fours) & ALL
    }

    fn home(&self) -> Cards {
        let [ones, twos, fours] = self.0;
        ones & !twos & !fours
    }

    fn cells(&self) -> Cards {
        let [ones, twos, fours] = self.0;
        twos & !ones & !fours
    }

    fn packed(&self) -> Packed {
        let [ones, twos, fours] = self.0;
        let (one, other) = (ones | fours << 52, twos | fours >> 12 << 52);
        let halves = [one, one >> 32, other, other >> 32, fours >> 24];
        Packed(halves.map(|half| half as u32))
    }
}

/// A code in 20 bytes: 52 bits, and the other 52, each with 12 of the last ones, and 28 of these.
#[derive(Clone, Copy, PartialEq)]
struct Packed([u32; 5]);

impl Packed {
    fn words(&self) -> [u64; 3] {
        let [a, b, c, d, rest] = self.0.map(u64::from);
        [a | b << 32, c | d << 32, rest]
    }

    fn code(&self) -> Code {
        let [one, other, rest] = self.words();
        let fours = one >> 52 | other >> 52 << 12 | rest << 24;
        Code([one & ALL, other & ALL, fours])
    }

    fn hash(&self) -> u64 {
        let [one, other, rest] = self.words();
        let hash = folded(one ^ 0x243f_6a88_85a3_08d3, other ^ 0x1319_8a2e_0370_7344);
        folded(hash ^ rest, 0x9e37_79b9_7f4a_7c15)
    }
}

/// Both halves of a product in one.
fn folded(one: u64, other: u64) -> u64 {
    let product = u128::from(one) * u128::from(other);
    product as u64 ^ (product >> 64) as u64
}

/// How the cards lie at the start.
struct Layout {
    /// What a column ends with of which so many cards are left.
    ends: [[Card; 8]; 8],
    /// The cards of each column.
    columns: [Cards; 8],
    /// The deepest card of each column.
    deepest: Cards,
    /// The column that each card lies in.
    column_of: [u8; 64],
    /// The card that each card lies on.
    beneath: [Card; 64],
}

impl Layout {
    /// The numbered deal.
    fn deal(number: u32) -> Layout {
        let mut layout = Layout {
            ends: [[NO_CARD; 8]; 8],
            columns: [0; 8],
            deepest: 0,
            column_of: [0; 64],
            beneath: [NO_CARD; 64],
        };
        let mut deck: Vec<Card> = (0..52).collect();
        let mut state = u64::from(number);
        for i in 0..52 {
            state = (state * 214013 + 2531011) % (1 << 31);
            let picked = (state / 65536) as usize % deck.len();
            layout.put(deck.swap_remove(picked), i % 8, i / 8);
        }
        layout
    }

    /// Puts a card on so many others of a column.
    fn put(&mut self, card: Card, column: usize, depth: usize) {
        self.ends[column][depth + 1] = card;
        self.columns[column] |= bit(card);
        if depth == 0 {
            self.deepest |= bit(card);
        }
        self.column_of[at(card)] = column as u8;
        self.beneath[at(card)] = self.ends[column][depth];
    }

    /// The last card of each column.
    fn lasts(&self) -> Cards {
        let beneath = self.beneath[..52].iter();
        beneath.fold(ALL, |cards, &card| without(cards, card))
    }

    /// How many cards are not home, and how many lie above a lower card of their own suit.
    fn bound(&self) -> u32 {
        let is_held = |&card: &Card| {
            let mut under = self.beneath[at(card)];
            while under != NO_CARD && !has(LOWER[at(card)], under) {
                under = self.beneath[at(under)];
            }
            under != NO_CARD
        };
        52 + (0..52).filter(is_held).count() as u32
    }

    /// What a card in a column lies on by its state.
    fn host(&self, card: Card, state: State) -> Card {
        match state {
            UNMOVED => self.beneath[at(card)],
            DEEPEST => NO_CARD,
            _ => card / 4 * 4 + state,
        }
    }

    /// The state of a card that goes onto another, or onto none to an empty column.
    fn state_on(&self, host: Card, code: &Code, card: Card) -> State {
        let lay_there = self.beneath[at(card)] == host;
        if host == NO_CARD {
            return if lay_there { UNMOVED } else { DEEPEST };
        }
        if lay_there && code.state(host) == UNMOVED {
            UNMOVED
        } else {
            ON_CARD + host % 4
        }
    }
}

/// A column as far as a move can tell: its last card, what that lies on, and all its cards.
#[derive(Clone, Copy)]
struct Column {
    last: Card,
    under: Card,
    cards: Cards,
}

/// The position of a class, its columns in the order of their deepest cards.
struct Position {
    code: Code,
    columns: [Column; 8],
    count: usize,
    /// The last cards of columns, and the column of each. Of other cards nothing is told.
    lasts: Cards,
    column_of: [u8; 64],
    cells: Cards,
    has_empty_cell: bool,
    home: Cards,
    next: Cards,
}

impl Position {
    fn new() -> Position {
        let column = Column {
            last: NO_CARD,
            under: NO_CARD,
            cards: 0,
        };
        Position {
            code: Code::START,
            columns: [column; 8],
            count: 0,
            lasts: 0,
            column_of: [0; 64],
            cells: 0,
            has_empty_cell: false,
            home: 0,
            next: 0,
        }
    }

    /// Becomes the position that a code tells of.
    fn read(&mut self, layout: &Layout, code: Code) {
        self.code = code;
        self.cells = code.cells();
        self.has_empty_cell = self.cells.count_ones() < 4;
        self.home = code.home();
        self.next = next(self.home);
        self.begin_columns(layout);
        self.put_others();
        let columns = self.columns[..self.count].iter();
        self.lasts = columns.fold(0, |cards, column| cards | bit(column.last));
    }

    /// Begins each column with what lies where it lay at the start, or else with its deepest card.
    fn begin_columns(&mut self, layout: &Layout) {
        let [ones, twos, fours] = self.code.0;
        let unmoved = self.code.unmoved();
        let mut deepest = unmoved & layout.deepest | ones & twos & !fours;
        let mut count = 0;
        while deepest != 0 {
            let card = least(deepest);
            deepest = without(deepest, card);
            let column = layout.column_of[at(card)] as usize & 7;
            let cards = unmoved & layout.columns[column];
            let left = cards.count_ones() as usize;
            let last = layout.ends[column][left & 7];
            let under = layout.ends[column][left.wrapping_sub(1) & 7];
            // Chosen one by one, which takes no branch.
            let is_unmoved = has(unmoved, card);
            let column = Column {
                last: if is_unmoved { last } else { card },
                under: if is_unmoved { under } else { NO_CARD },
                cards: if is_unmoved { cards } else { bit(card) },
            };
            self.columns[count & 7] = column;
            self.column_of[at(column.last)] = count as u8;
            count += 1;
        }
        self.count = count;
    }

    /// Puts the cards that lie on a card where they didn't, the greatest first: what they lie on is a last card by then.
    fn put_others(&mut self) {
        let [ones, twos, mut others] = self.code.0;
        while others != 0 {
            let card = greatest(others);
            others = without(others, card);
            let suit = (ones >> card & 1 | (twos >> card & 1) << 1) as Card;
            let host = card / 4 * 4 + 4 + suit;
            let number = self.column_of[at(host)];
            self.column_of[at(card)] = number;
            let column = &mut self.columns[number as usize & 7];
            column.last = card;
            column.under = host;
            column.cards |= bit(card);
        }
    }

    /// The column that ends with a card.
    fn column(&self, last: Card) -> usize {
        self.column_of[at(last)] as usize & 7
    }

    /// The columns that end with one of these cards, each as the bit of its number.
    fn columns_of(&self, cards: Cards) -> u32 {
        let columns = self.columns[..self.count].iter().enumerate();
        columns.fold(0, |bits, (number, column)| {
            bits | u32::from(has(cards, column.last)) << number
        })
    }

    /// 1 where a card that is, or were, last in a column lies above a lower card of its suit, else 0.
    fn held(&self, column: usize, card: Card) -> u32 {
        u32::from(self.columns[column & 7].cards & LOWER[at(card)] != 0)
    }
}

/// Where a move leads, as far as cards can go home from there: what it costs, and its bound.
#[derive(Clone, Copy)]
struct Reached {
    code: Code,
    lasts: Cards,
    cost: u32,
    bound: u32,
}

impl Reached {
    /// Sends cards home by the rule until none goes.
    #[cold]
    fn settle(&mut self, layout: &Layout, rule: u8) {
        loop {
            let home = self.code.home();
            let mut goers = next(home) & (self.lasts | self.code.cells());
            while goers != 0 && !goes_home(home, least(goers), rule) {
                goers = without(goers, least(goers));
            }
            if goers == 0 {
                return;
            }
            self.send(layout, least(goers));
        }
    }

    fn send(&mut self, layout: &Layout, card: Card) {
        if has(self.lasts, card) {
            let under = layout.host(card, self.code.state(card));
            self.lasts = without(self.lasts, card) | bit(under) & ALL;
        }
        self.code = self.code.without(card).with(card, HOME);
        self.cost += 1;
        self.bound -= 1;
    }
}

/// A child: its code, how much more it costs than its parent, its bound, and where it is looked for.
#[derive(Clone, Copy)]
struct Child {
    code: Packed,
    cost: u8,
    bound: u8,
    place: Place,
}

/// A class that is expanded, and its children.
struct Family {
    layout: Layout,
    rule: u8,
    position: Position,
    bound: u32,
    children: [Child; MOST_CHILDREN],
    count: usize,
}

impl Family {
    /// The class at the start as an only child.
    fn new(layout: Layout, rule: u8) -> Family {
        let mut start = Reached {
            code: Code::START,
            lasts: layout.lasts(),
            cost: 0,
            bound: layout.bound(),
        };
        start.settle(&layout, rule);
        let child = Child {
            code: start.code.packed(),
            cost: start.cost as u8,
            bound: start.bound as u8,
            place: Place { slot: 0, tag: 0 },
        };
        Family {
            layout,
            rule,
            position: Position::new(),
            bound: 0,
            children: [child; MOST_CHILDREN],
            count: 1,
        }
    }

    /// Makes the children of a class, the last move's first, as the proved program does, so that both store the same classes.
    fn make(&mut self, code: Code, bound: u32) {
        self.position.read(&self.layout, code);
        self.bound = bound;
        self.count = 0;
        let has_empty_column = self.position.count < 8;
        let able = guests(self.position.lasts) | self.position.next;
        let mut cells = self.position.cells & if has_empty_column { ALL } else { able };
        while cells != 0 {
            let card = greatest(cells);
            cells = without(cells, card);
            self.move_from_cell(card);
        }
        let has_room = has_empty_column || self.position.has_empty_cell;
        let mut columns = self.position.columns_of(if has_room { ALL } else { able });
        while columns != 0 {
            let column = columns.ilog2();
            columns &= !(1 << column);
            self.move_from_column(column as usize);
        }
    }

    fn move_from_cell(&mut self, card: Card) {
        let lifted = Reached {
            code: self.position.code.without(card),
            lasts: self.position.lasts,
            cost: 1,
            bound: self.bound,
        };
        if has(self.position.next, card) {
            self.move_home(card, &lifted);
        }
        if self.position.count < 8 {
            let state = self.layout.state_on(NO_CARD, &lifted.code, card);
            self.reach(card, &lifted, state, false);
        }
        self.move_onto(card, &lifted, false);
    }

    fn move_from_column(&mut self, column: usize) {
        let position = &self.position;
        let Column {
            last: card, under, ..
        } = position.columns[column & 7];
        let frees = has(position.next, under) && goes_home(position.home, under, self.rule);
        let lifted = Reached {
            code: position.code.without(card),
            lasts: without(position.lasts, card) | bit(under) & ALL,
            cost: 1,
            bound: self.bound - position.held(column, card),
        };
        if has(position.next, card) {
            self.move_home(card, &lifted);
        }
        if self.position.has_empty_cell {
            self.reach(card, &lifted, IN_CELL, frees);
        }
        if self.position.count < 8 && under != NO_CARD {
            let state = self.layout.state_on(NO_CARD, &lifted.code, card);
            let lasts = lifted.lasts | bit(card);
            self.reach(card, &Reached { lasts, ..lifted }, state, frees);
        }
        self.move_onto(card, &lifted, frees);
    }

    /// Moves a lifted card onto the last cards of columns that take it, the last column first.
    fn move_onto(&mut self, card: Card, lifted: &Reached, frees: bool) {
        let mut hosts = HOSTS[at(card)] & self.position.lasts;
        let (one, other) = (least(hosts), greatest(hosts | 1));
        let mut host = if self.position.column(one) < self.position.column(other) {
            other
        } else {
            one
        };
        while hosts != 0 {
            let reached = Reached {
                lasts: without(lifted.lasts, host) | bit(card),
                bound: lifted.bound + self.position.held(self.position.column(host), card),
                ..*lifted
            };
            let state = self.layout.state_on(host, &lifted.code, card);
            self.reach(card, &reached, state, frees);
            hosts = without(hosts, host);
            host = least(hosts);
        }
    }

    /// Moves a lifted card home, which may free others.
    fn move_home(&mut self, card: Card, lifted: &Reached) {
        let bound = lifted.bound - 1;
        self.reach(card, &Reached { bound, ..*lifted }, HOME, true);
    }

    /// Adds what is reached where a lifted card gets this state, and whether that frees a card that goes home.
    fn reach(&mut self, card: Card, lifted: &Reached, state: State, frees: bool) {
        let mut reached = Reached {
            code: lifted.code.with(card, state),
            ..*lifted
        };
        if frees {
            reached.settle(&self.layout, self.rule);
        }
        self.add(&reached);
    }

    #[inline]
    fn add(&mut self, reached: &Reached) {
        let child = &mut self.children[self.count];
        child.code = reached.code.packed();
        child.cost = reached.cost as u8;
        child.bound = reached.bound as u8;
        self.count += 1;
    }
}

/// A stored class: its code, and as one word its cost and the number of the class that it came from.
#[derive(Clone, Copy)]
struct Entry {
    code: Packed,
    mark: u32,
}

impl Entry {
    fn cost(&self) -> u32 {
        self.mark >> NUMBER_BITS
    }

    fn parent(&self) -> u32 {
        self.mark & NUMBERS
    }
}

/// The slot where a code is looked for first, and bits of its hash that stand in its slot.
#[derive(Clone, Copy)]
struct Place {
    slot: u32,
    tag: u32,
}

/// The stored classes by number, and an open-addressed table that finds the number of a code.
struct Classes {
    entries: Vec<Entry>,
    /// 0 where nothing stands, else the tag, and the number plus one. They are doubled so often as is told, until there are
    /// enough for the budget.
    slots: Vec<u32>,
    most_slots: usize,
    doublings: u32,
}

impl Classes {
    /// Memory that isn't written to yet is reserved, and not taken.
    fn new(budget: usize) -> Classes {
        let most_slots = budget / 3 * 4 + 2048;
        let doublings = (most_slots / 2048).ilog2();
        Classes {
            entries: Vec::with_capacity(budget),
            slots: vec![0; most_slots >> doublings],
            most_slots,
            doublings,
        }
    }

    fn place(&self, code: &Packed) -> Place {
        let hash = code.hash();
        let slot = (hash >> 32) * self.slots.len() as u64 >> 32;
        Place {
            slot: slot as u32,
            tag: hash as u32 >> NUMBER_BITS,
        }
    }

    fn after(&self, slot: usize) -> usize {
        if slot + 1 == self.slots.len() {
            0
        } else {
            slot + 1
        }
    }

    /// The number of a child's class, or the slot where it would stand.
    fn find(&self, child: &Child) -> Result<u32, usize> {
        let mut slot = child.place.slot as usize;
        loop {
            let word = self.slots[slot];
            if word == 0 {
                return Err(slot);
            }
            if word >> NUMBER_BITS == child.place.tag {
                let number = (word & NUMBERS) - 1;
                if self.entries[number as usize].code == child.code {
                    return Ok(number);
                }
            }
            slot = self.after(slot);
        }
    }

    /// Stores a child's class in the slot that was found for it.
    fn insert(&mut self, slot: usize, child: &Child, mark: u32) -> u32 {
        let number = self.entries.len() as u32;
        let code = child.code;
        self.entries.push(Entry { code, mark });
        self.slots[slot] = child.place.tag << NUMBER_BITS | (number + 1);
        number
    }

    /// Makes room for a class's children.
    fn reserve(&mut self) {
        let is_full = self.entries.len() + MOST_CHILDREN > self.slots.len() / 4 * 3;
        if is_full && self.doublings > 0 {
            self.grow();
        }
    }

    #[cold]
    fn grow(&mut self) {
        self.doublings -= 1;
        self.slots = vec![0; self.most_slots >> self.doublings];
        for number in 0..self.entries.len() {
            let place = self.place(&self.entries[number].code);
            let mut slot = place.slot as usize;
            while self.slots[slot] != 0 {
                slot = self.after(slot);
            }
            self.slots[slot] = place.tag << NUMBER_BITS | (number as u32 + 1);
        }
    }

    /// Has the slots brought near where each of these children is looked for first.
    fn approach(&self, children: &mut [Child]) {
        for child in children {
            child.place = self.place(&child.code);
            prefetch(&self.slots, child.place.slot as usize);
        }
    }
}

/// Has an element of a list brought near before it is wanted, where the processor is known.
fn prefetch<T>(list: &[T], place: usize) {
    #[cfg(target_arch = "x86_64")]
    // Whatever lies at an address, and if nothing does, this reads nothing.
    unsafe {
        use std::arch::x86_64::{_mm_prefetch, _MM_HINT_T0};
        _mm_prefetch(list.as_ptr().wrapping_add(place).cast(), _MM_HINT_T0);
    }
    #[cfg(not(target_arch = "x86_64"))]
    let _ = (list, place);
}

/// The open classes by f: a stack for each f, of which the newest is taken first.
struct Frontier {
    stacks: Vec<Vec<u32>>,
    /// All stacks before this one are empty.
    first: usize,
}

impl Frontier {
    fn new() -> Frontier {
        Frontier {
            stacks: Vec::new(),
            first: 0,
        }
    }

    fn push(&mut self, f: u32, item: u32) {
        let f = f as usize;
        if f >= self.stacks.len() {
            self.stacks.resize_with(f + 1, Vec::new);
        }
        self.stacks[f].push(item);
        self.first = self.first.min(f);
    }

    /// Takes out an item of least f, and that f.
    fn pop(&mut self) -> Option<(u32, u32)> {
        while self.first < self.stacks.len() {
            if let Some(item) = self.stacks[self.first].pop() {
                return Some((self.first as u32, item));
            }
            self.first += 1;
        }
        None
    }
}

enum Answer {
    Shortest(u32),
    CannotWin,
    GaveUp(usize),
}

impl fmt::Display for Answer {
    fn fmt(&self, f: &mut fmt::Formatter) -> fmt::Result {
        match self {
            Answer::Shortest(moves) => write!(f, "shortest {moves}"),
            Answer::CannotWin => write!(f, "can't be won"),
            Answer::GaveUp(budget) => write!(f, "gave up {budget}"),
        }
    }
}

/// A search for a shortest solution over settled classes, best first.
struct Search {
    budget: usize,
    classes: Classes,
    /// Numbers of classes, with their bounds.
    frontier: Frontier,
    family: Family,
}

impl Search {
    fn new(layout: Layout, rule: u8, budget: usize) -> Search {
        let mut search = Search {
            budget,
            classes: Classes::new(budget),
            frontier: Frontier::new(),
            family: Family::new(layout, rule),
        };
        search.reach_children(0, 0);
        search
    }

    /// Stores and opens the classes of all children of a class, but for those that are stored at no more. False where one
    /// has no place.
    fn reach_children(&mut self, parent: u32, parent_cost: u32) -> bool {
        let children = &mut self.family.children[..self.family.count];
        self.classes.approach(children);
        for child in children {
            let cost = parent_cost + u32::from(child.cost);
            assert!(cost < COSTS, "a cost has no room in a mark");
            let mark = cost << NUMBER_BITS | parent;
            let number = match self.classes.find(child) {
                Ok(number) => {
                    let entry = &mut self.classes.entries[number as usize];
                    if entry.cost() <= cost {
                        continue;
                    }
                    entry.mark = mark;
                    number
                }
                Err(_) if self.classes.entries.len() == self.budget => return false,
                Err(slot) => self.classes.insert(slot, child, mark),
            };
            let bound = u32::from(child.bound);
            self.frontier
                .push(cost + bound, bound << NUMBER_BITS | number);
        }
        true
    }

    /// One turn: takes a class of least f and expands it. The answer, if that ends the search.
    fn turn(&mut self) -> Option<Answer> {
        let Some((f, item)) = self.frontier.pop() else {
            return Some(Answer::CannotWin);
        };
        let (number, bound) = (item & NUMBERS, item >> NUMBER_BITS);
        let entry = self.classes.entries[number as usize];
        let (code, cost) = (entry.code.code(), entry.cost());
        if code.home() == ALL {
            return Some(Answer::Shortest(cost));
        }
        if cost + bound < f {
            return None;
        }
        self.classes.reserve();
        self.family.make(code, bound);
        if self.reach_children(number, cost) {
            return None;
        }
        Some(Answer::GaveUp(self.budget))
    }

    /// Whether the costs rise from class to class on the way from the start to each stored class.
    fn is_sound(&self) -> bool {
        let entries = &self.classes.entries;
        let rises = |entry: &Entry| entries[entry.parent() as usize].cost() < entry.cost();
        entries.iter().skip(1).all(rises)
    }
}

/// The peak of resident memory so far in kilobytes, as Linux tells it; 0 where it doesn't.
fn peak_kilobytes() -> u64 {
    let status = fs::read_to_string("/proc/self/status").unwrap_or_default();
    let line = status.lines().find_map(|line| line.strip_prefix("VmHWM:"));
    line.and_then(|rest| rest.split_whitespace().next()?.parse().ok())
        .unwrap_or(0)
}

/// The deal, the home rule and the budget that the words say.
fn read_words(words: &[String]) -> Option<(u32, u8, usize)> {
    let [deal, rule, budget] = words else {
        return None;
    };
    let deal = deal
        .parse()
        .ok()
        .filter(|deal| (1..=1_000_000).contains(deal))?;
    let rule = rule.parse().ok().filter(|rule| *rule <= 2)?;
    let budget = budget
        .parse()
        .ok()
        .filter(|budget| (1..=MOST_BUDGET).contains(budget))?;
    Some((deal, rule, budget))
}

fn main() {
    let words: Vec<String> = env::args().skip(1).collect();
    let Some((deal, rule, budget)) = read_words(&words) else {
        eprintln!("usage: plain_codes DEAL RULE BUDGET (1 to 1000000, 0 to 2, 1 to {MOST_BUDGET})");
        process::exit(3);
    };
    let began = Instant::now();
    let mut search = Search::new(Layout::deal(deal), rule, budget);
    let mut turns = 1u64;
    let answer = loop {
        match search.turn() {
            Some(answer) => break answer,
            None => turns += 1,
        }
    };
    let seconds = began.elapsed().as_secs_f64();
    let stored = search.classes.entries.len();
    let kilobytes = peak_kilobytes();
    assert!(search.is_sound());
    let figures = format!("{turns} turns, {seconds:.3} seconds, {kilobytes} kilobytes");
    let report = format!("{answer}\n{stored} classes, {figures}\n");
    if io::stdout().write_all(report.as_bytes()).is_err() {
        process::exit(5);
    }
    process::exit(match answer {
        Answer::Shortest(_) => 0,
        Answer::CannotWin => 1,
        Answer::GaveUp(_) => 2,
    });
}
