//! The search by the clearing bound and partial expansion, as fast as a plain Rust program of one file got it. `plain_rings DEAL
//! RULE BUDGET` prints what `plain DEAL RULE BUDGET` does. bench/README.md says what a code and a ring are.

use std::io::{self, Write};
use std::time::Instant;
use std::{env, fs, mem, process};

/// A card is four times its rank less one, plus its suit: clubs 0, diamonds 1, hearts 2, spades 3.
type Card = u8;

/// What a card lies on that lies on no card.
const NO_CARD: Card = 52;

/// A set of cards, one bit a card.
type Cards = u64;

const ALL: Cards = (1 << CARD_BITS) - 1;
const CARD_BITS: u32 = 52;
const CLUBS: Cards = 0x1_1111_1111_1111;

/// A card's state: it lies where it lay at the start, on the same cards; it is home; it is in a cell; or it is deepest in a
/// column, where it wasn't. From 4 on it lies on the card one rank higher whose suit is the state less 4.
type State = u8;

const UNMOVED: State = 0;
const HOME: State = 1;
const IN_CELL: State = 2;
const DEEPEST: State = 3;
const ON_CARD: State = 4;

/// From each column a card goes home, to a cell, to an empty column and onto two others; from a cell to no cell.
const MOST_CHILDREN: usize = 8 * 5 + 4 * 4;

const MOST_BUDGET: usize = 4_000_000;

/// Numbers of classes, and those plus one, take so many bits of a slot, and a hash the others.
const NUMBER_BITS: u32 = 22;
const NUMBERS: u32 = (1 << NUMBER_BITS) - 1;

/// A bound takes so many bits of the twelve beside a set of cards, and a slack the others.
const BOUND_BITS: u32 = 7;
const BOUNDS: u64 = (1 << BOUND_BITS) - 1;

/// Longer rings, by more than one card, aren't looked for.
const LONGEST: usize = 12;

/// What is later than all else.
const NEVER: i32 = i32::MAX;

const fn bit(card: Card) -> Cards {
    1 << card
}

fn has(cards: Cards, card: Card) -> bool {
    cards >> card & 1 != 0
}

fn without(cards: Cards, card: Card) -> Cards {
    cards & !bit(card)
}

fn least(cards: Cards) -> Card {
    cards.trailing_zeros() as Card
}

/// The greatest card of a set that isn't empty.
fn greatest(cards: Cards) -> Card {
    cards.ilog2() as Card
}

/// The cards of a set, the least first.
fn each(mut cards: Cards) -> impl Iterator<Item = Card> {
    std::iter::from_fn(move || {
        if cards == 0 {
            return None;
        }
        let card = least(cards);
        cards &= cards - 1;
        Some(card)
    })
}

/// A card's place in a list that is long enough for each: so no test is made whether it is.
fn at(card: Card) -> usize {
    (card & 63) as usize
}

/// The cards of a card's suit.
const fn suit(card: Card) -> Cards {
    CLUBS << (card & 3)
}

/// The lower cards of a card's suit.
fn lower(card: Card) -> Cards {
    suit(card) & (bit(card) - 1)
}

/// For each card the higher ones of its suit.
static HIGHER: [Cards; 64] = {
    let mut higher = [0; 64];
    let mut card = 0;
    while card < 52 {
        higher[card as usize] = suit(card) & ALL << card << 1;
        card += 1;
    }
    higher
};

/// The cards that have a lower one of their suit among these, and perhaps others.
fn above(cards: Cards) -> Cards {
    let mut all = cards << 4;
    all |= all << 4;
    all |= all << 8;
    all |= all << 16;
    all | all << 32
}

/// The cards that a card may stand on, and none or such as there aren't for a king.
fn hosts(card: Card) -> Cards {
    let suits = if matches!(card & 3, 1 | 2) {
        0b1001
    } else {
        0b0110
    };
    suits << (card & !3) << 4
}

/// The cards that may stand on one of these.
fn guests(cards: Cards) -> Cards {
    let black = (cards | cards >> 3) & CLUBS;
    let red = (cards >> 1 | cards >> 2) & CLUBS;
    (black << 1 | black << 2 | red | red << 3) >> 4
}

/// The cards that are next, where these are home.
fn next(home: Cards) -> Cards {
    (home << 4 | 0b1111) & !home & ALL
}

/// Whether a card that is next goes home: every card that may stand on it is home (rule 1), or home or free itself (rule 2).
fn goes_home(home: Cards, card: Card, rule: u8) -> bool {
    let wanting = guests(bit(card)) & !home;
    match rule {
        0 => false,
        1 => wanting == 0,
        _ => each(wanting).all(|guest| has(next(home), guest) && goes_home(home, guest, rule)),
    }
}

/// The states of all cards: for each of a state's three bits the cards that have it.
#[derive(Clone, Copy)]
struct Code([Cards; 3]);

impl Code {
    const START: Code = Code([UNMOVED as Cards; 3]);

    fn state(&self, card: Card) -> State {
        let [ones, twos, fours] = self.0;
        (ones >> card & 1 | (twos >> card & 1) << 1 | (fours >> card & 1) << 2) as State
    }

    /// The code with the state 0 for a card.
    fn without(&self, card: Card) -> Code {
        Code(self.0.map(|cards| without(cards, card)))
    }

    /// The code with another state for a card, which has the state 0.
    fn with(&self, card: Card, state: State) -> Code {
        let [ones, twos, fours] = self.0;
        let state = u64::from(state);
        Code([
            ones | (state & 1) << card,
            twos | (state >> 1 & 1) << card,
            fours | (state >> 2) << card,
        ])
    }

    fn home(&self) -> Cards {
        let [ones, twos, fours] = self.0;
        ones & !twos & !fours
    }

    fn cells(&self) -> Cards {
        let [ones, twos, fours] = self.0;
        twos & !ones & !fours
    }

    fn hash(&self) -> u64 {
        let [ones, twos, fours] = self.0;
        let hash = folded(ones ^ 0x243f_6a88_85a3_08d3, twos ^ 0x1319_8a2e_0370_7344);
        folded(hash ^ fours, 0x9e37_79b9_7f4a_7c15)
    }
}

/// Both halves of a product in one.
fn folded(one: u64, other: u64) -> u64 {
    let product = u128::from(one) * u128::from(other);
    product as u64 ^ (product >> 64) as u64
}

/// What is looked up of the cards in columns: which cards wait beneath each, and which it lies on.
#[derive(Clone)]
struct Rows {
    waiting: [Cards; 64],
    beneath: [Cards; 64],
}

impl Rows {
    fn waiting(&self, card: Card) -> Cards {
        self.waiting[at(card)]
    }

    /// Writes the row of a card that lies on another, or on none.
    fn put(&mut self, card: Card, host: Card) {
        let is_on = host != NO_CARD;
        let waiting = if is_on { self.waiting(host) } else { 0 };
        self.waiting[at(card)] = waiting | HIGHER[at(card)];
        self.beneath[at(card)] = bit(host) & ALL;
    }
}

/// A column as it is at the start.
#[derive(Clone, Copy)]
struct Column {
    cards: Cards,
    factor: u64,
    /// The last one of the deepest cards that are left, by the highest bits of the product of their set and the factor.
    ends: [Card; 64],
}

impl Column {
    /// Tries factors until one tells all sets of deepest cards apart.
    fn new(column: &[Card]) -> Column {
        let mut new = Column {
            cards: 0,
            factor: 1,
            ends: [NO_CARD; 64],
        };
        while !column.iter().all(|&card| new.put(card)) {
            new = Column {
                cards: 0,
                factor: new.factor.wrapping_mul(0xd134_2543_de82_ef95),
                ends: [NO_CARD; 64],
            };
        }
        new
    }

    /// Puts a card on the others. Whether the factor tells their set apart from those before.
    fn put(&mut self, card: Card) -> bool {
        self.cards |= bit(card);
        let place = self.place(self.cards);
        mem::replace(&mut self.ends[place], card) == NO_CARD
    }

    fn place(&self, cards: Cards) -> usize {
        (self.factor.wrapping_mul(cards) >> 58) as usize
    }

    /// The last one of its cards that are unmoved.
    fn last(&self, unmoved: Cards) -> Card {
        self.ends[self.place(self.cards & unmoved)]
    }
}

/// How the cards lie at the start.
struct Layout {
    columns: [Column; 8],
    /// The deepest card of each column, and the last one.
    deepest: Cards,
    lasts: Cards,
    /// The cards above a lower one of their suit.
    held: Cards,
    /// The column that each card lies in.
    column_of: [u8; 64],
    /// The card that each card lies on.
    beneath: [Card; 64],
    rows: Rows,
}

impl Layout {
    /// The numbered deal.
    fn deal(number: u32) -> Layout {
        let mut columns: [Vec<Card>; 8] = Default::default();
        let mut deck: Vec<Card> = (0..52).collect();
        let mut state = u64::from(number);
        for i in 0..52 {
            state = (state * 214013 + 2531011) % (1 << 31);
            let picked = (state / 65536) as usize % deck.len();
            columns[i % 8].push(deck.swap_remove(picked));
        }
        // So they stand in the order of their deepest cards.
        columns.sort_by_key(|column| column[0]);
        let mut layout = Layout {
            columns: [0, 1, 2, 3, 4, 5, 6, 7].map(|number: usize| Column::new(&columns[number])),
            deepest: 0,
            lasts: 0,
            held: 0,
            column_of: [0; 64],
            beneath: [NO_CARD; 64],
            rows: Rows {
                waiting: [0; 64],
                beneath: [0; 64],
            },
        };
        for (number, column) in columns.iter().enumerate() {
            layout.put(number as u8, column);
        }
        layout
    }

    /// Puts its cards into a column.
    fn put(&mut self, number: u8, column: &[Card]) {
        let mut under = NO_CARD;
        for &card in column {
            self.column_of[at(card)] = number;
            self.beneath[at(card)] = under;
            self.rows.put(card, under);
            self.held |= self.rows.waiting(card) & bit(card);
            under = card;
        }
        self.deepest |= bit(column[0]);
        self.lasts |= bit(under);
    }

    /// What a card in a column lies on by its state.
    fn host(&self, card: Card, state: State) -> Card {
        match state {
            UNMOVED => self.beneath[at(card)],
            DEEPEST => NO_CARD,
            _ => card / 4 * 4 + state,
        }
    }

    /// The state of a card that goes onto another, or onto none to an empty column.
    fn state_on(&self, host: Card, code: &Code, card: Card) -> State {
        let lay_there = self.beneath[at(card)] == host;
        if host == NO_CARD {
            return if lay_there { UNMOVED } else { DEEPEST };
        }
        if lay_there && code.state(host) == UNMOVED {
            UNMOVED
        } else {
            ON_CARD + host % 4
        }
    }
}

/// Cards of columns: all of them, the last ones, and those that are held, above a lower one of their suit.
#[derive(Clone, Copy)]
struct Marks {
    all: Cards,
    lasts: Cards,
    held: Cards,
}

/// The position of a class, its columns in the order of their deepest cards.
struct Position {
    code: Code,
    rows: Rows,
    /// The cards whose rows aren't those of the start.
    written: Cards,
    marks: Marks,
    /// The last card of each column.
    ends: [Card; 8],
    count: usize,
    /// The column of each last card. Of other cards nothing is told.
    column_of: [u8; 64],
    cells: Cards,
    has_empty_cell: bool,
    home: Cards,
    next: Cards,
}

impl Position {
    fn new(layout: &Layout) -> Position {
        Position {
            code: Code::START,
            rows: layout.rows.clone(),
            written: 0,
            marks: Marks {
                all: 0,
                lasts: 0,
                held: 0,
            },
            ends: [NO_CARD; 8],
            count: 0,
            column_of: [0; 64],
            cells: 0,
            has_empty_cell: true,
            home: 0,
            next: 0,
        }
    }

    /// Becomes the position that a code tells of.
    fn read(&mut self, layout: &Layout, code: Code) {
        let [ones, twos, fours] = code.0;
        let unmoved = !(ones | twos | fours) & ALL;
        self.code = code;
        self.cells = code.cells();
        self.has_empty_cell = self.cells.count_ones() < 4;
        self.home = code.home();
        self.next = next(self.home);
        self.marks.all = ALL & !self.home & !self.cells;
        self.marks.held = layout.held & unmoved;
        // Unmoved cards have the rows again that they had at the start.
        for card in each(self.written & unmoved) {
            self.rows.waiting[at(card)] = layout.rows.waiting[at(card)];
            self.rows.beneath[at(card)] = layout.rows.beneath[at(card)];
        }
        self.begin_columns(layout, unmoved, ones & twos & !fours);
        self.put_others();
        self.written = self.written & !unmoved | ones & twos | fours;
    }

    /// Begins each column with what lies where it lay at the start, or else with its deepest card, one of these.
    fn begin_columns(&mut self, layout: &Layout, unmoved: Cards, moved: Cards) {
        (self.count, self.marks.lasts) = (0, 0);
        if layout.deepest & !unmoved | moved == 0 {
            // Most often all columns begin as they did.
            for column in &layout.columns {
                self.begin_column(column.last(unmoved));
            }
            return;
        }
        for card in each(unmoved & layout.deepest | moved) {
            let column = layout.column_of[at(card)] as usize & 7;
            let is_moved = has(moved, card);
            self.begin_column(if is_moved {
                card
            } else {
                layout.columns[column].last(unmoved)
            });
            if is_moved {
                self.rows.put(card, NO_CARD);
            }
        }
    }

    fn begin_column(&mut self, end: Card) {
        self.ends[self.count & 7] = end;
        self.column_of[at(end)] = self.count as u8;
        self.marks.lasts |= bit(end);
        self.count += 1;
    }

    /// Puts the cards that lie on a card where they didn't, the greatest first: what they lie on is a last card by then.
    fn put_others(&mut self) {
        let [ones, twos, mut others] = self.code.0;
        while others != 0 {
            let card = greatest(others);
            others = without(others, card);
            let suit = (ones >> card & 1 | (twos >> card & 1) << 1) as Card;
            let host = card / 4 * 4 + 4 + suit;
            let column = self.column_of[at(host)];
            self.column_of[at(card)] = column;
            self.ends[column as usize & 7] = card;
            self.marks.lasts = without(self.marks.lasts, host) | bit(card);
            self.rows.put(card, host);
            self.marks.held |= self.rows.waiting(card) & bit(card);
        }
    }

    /// The card that a card lies on, as a set.
    fn beneath(&self, card: Card) -> Cards {
        self.rows.beneath[at(card)]
    }

    fn has_empty_column(&self) -> bool {
        self.count < 8
    }

    /// The last cards that go to an empty column. Those that lie alone lead to the class itself by that, of which the first column's
    /// counts.
    fn openers(&self) -> Cards {
        if !self.has_empty_column() {
            return 0;
        }
        let ends = self.ends[..self.count].iter();
        let mut lone = ends.filter(|&&end| self.beneath(end) == 0);
        let first = lone.next().map_or(0, |&end| bit(end));
        let others = lone.fold(first, |cards, &end| cards | bit(end));
        self.marks.lasts & !others | first
    }

    /// Those of these cards in columns that lie on one that is next.
    fn covers(&self, cards: Cards) -> Cards {
        let covers = each(cards).filter(|&card| self.beneath(card) & self.next != 0);
        covers.fold(0, |cards, card| cards | bit(card))
    }

    /// The columns without a card, which is last in one, or in none.
    fn lifted(&self, card: Card) -> Marks {
        let Marks { all, lasts, held } = self.marks;
        let beneath = if has(all, card) {
            self.beneath(card)
        } else {
            0
        };
        Marks {
            all: without(all, card),
            lasts: without(lasts, card) | beneath,
            held: without(held, card),
        }
    }
}

/// The columns while their cards are taken out, each from its column's end.
struct Emptying<'a> {
    rows: &'a Rows,
    all: Cards,
    lasts: Cards,
    /// The cards that leave as soon as they are last: those that are held, and those that wait for none.
    free: Cards,
}

impl Emptying<'_> {
    /// Takes out a last card.
    fn take(&mut self, card: Card) {
        self.all = without(self.all, card);
        self.lasts = without(self.lasts, card) | self.rows.beneath[at(card)];
    }

    /// Takes out free cards until none is last. The lowest card of a suit that is left waits for none.
    fn loosen(&mut self) {
        while self.lasts & self.free != 0 {
            let card = least(self.lasts & self.free);
            self.take(card);
            let suit = self.all & suit(card);
            self.free |= suit & suit.wrapping_neg();
        }
    }

    /// Where no last card is free, a ring of last cards: two, if two are one, else a shortest through the least card on any.
    fn knot(&self) -> Cards {
        let mut rest = self.lasts;
        while rest != 0 {
            let card = least(rest);
            rest &= rest - 1;
            let pair = pair(self.rows, rest & self.rows.waiting(card), card);
            if pair != 0 {
                return pair;
            }
        }
        let mut rings = each(self.lasts)
            .map(|card| long_ring(self.rows, self.lasts, card, self.rows.waiting(card)));
        rings.find(|ring| *ring != 0).unwrap_or(0)
    }
}

/// How many rings are met while all cards are taken out, and their cards.
fn rings_met(rows: &Rows, marks: Marks) -> (i32, Cards) {
    let Marks { all, lasts, held } = marks;
    let free = held | !above(all);
    let mut emptying = Emptying {
        rows,
        all,
        lasts,
        free,
    };
    let (mut count, mut rings) = (0, 0);
    loop {
        emptying.loosen();
        if emptying.all == 0 {
            return (count, rings);
        }
        let knot = emptying.knot();
        each(knot).for_each(|card| emptying.take(card));
        rings |= knot;
        count += 1;
    }
}

/// Rings among these cards, taken one after the other: how many, and their cards.
fn rings_among(rows: &Rows, cards: Cards) -> (i32, Cards) {
    let (mut count, mut rings, mut left) = (0, 0, cards);
    while left != 0 {
        let card = least(left);
        let ring = ring_through(rows, left, card, rows.waiting(card));
        count += i32::from(ring != 0);
        rings |= ring;
        left = without(left, card) & !ring;
    }
    (count, rings)
}

/// A card and the least of these, which wait beneath it, that it waits beneath too; no cards where there is none.
fn pair(rows: &Rows, guests: Cards, card: Card) -> Cards {
    let mut rest = guests;
    while rest != 0 {
        let other = least(rest);
        if has(rows.waiting(other), card) {
            return bit(card) | bit(other);
        }
        rest &= rest - 1;
    }
    0
}

/// A shortest ring through a card, of cards that are able to be on it, by those that wait beneath it; no cards where none is
/// found.
fn ring_through(rows: &Rows, able: Cards, card: Card, waiting: Cards) -> Cards {
    let guests = able & waiting;
    let pair = pair(rows, guests, card);
    if pair != 0 || guests == 0 {
        return pair;
    }
    long_ring(rows, able, card, waiting)
}

/// The same where no ring of two is.
fn long_ring(rows: &Rows, able: Cards, card: Card, mut waiting: Cards) -> Cards {
    // The cards by the steps from that card to them: each waits beneath one that is a step less away.
    let mut layers = [0; LONGEST];
    let mut left = without(able, card);
    for steps in 0..LONGEST {
        let layer = waiting & left;
        if layer == 0 {
            return 0;
        }
        left ^= layer;
        layers[steps] = layer;
        waiting = 0;
        for last in each(layer) {
            waiting |= rows.waiting(last);
            if has(waiting, card) {
                return bit(card) | way(rows, &layers[..steps], last);
            }
        }
    }
    0
}

/// The cards of a way to this one through these layers.
fn way(rows: &Rows, layers: &[Cards], last: Card) -> Cards {
    let (mut way, mut to) = (bit(last), last);
    for layer in layers.iter().rev() {
        let host = each(*layer).find(|&host| has(rows.waiting(host), to));
        to = host.unwrap_or(to);
        way |= bit(to);
    }
    way
}

/// Of these cards those that wait beneath one of them and beneath which one of them waits, as long as others go.
fn pruned(rows: &Rows, cards: Cards) -> Cards {
    let mut left = cards;
    loop {
        let (mut hosts, mut waiting) = (0, 0);
        for card in each(left) {
            let guests = rows.waiting(card) & left;
            waiting |= guests;
            hosts |= if guests == 0 { 0 } else { bit(card) };
        }
        if hosts & waiting == left {
            return left;
        }
        left = hosts & waiting;
    }
}

/// What is shown of a position: a number that no list of moves that wins is shorter than, and the cards of the rings that show it.
#[derive(Clone, Copy)]
struct Shown {
    bound: i32,
    rings: Cards,
}

/// Where a card goes.
#[derive(Clone, Copy, PartialEq)]
enum Target {
    Home,
    Cell,
    EmptyColumn,
    Onto(Card),
}

/// A class without a card that is moved: its code, and the last cards.
struct Lifted {
    card: Card,
    code: Code,
    lasts: Cards,
    /// Whether the card was a ring by itself, and whether it was one of the cards of others.
    is_held: bool,
    is_noted: bool,
    /// Whether the card goes home that it lay on.
    frees: bool,
}

/// A child: its code, how much more it costs than its parent, the move that leads to it, and where it is looked for.
#[derive(Clone, Copy)]
struct Child {
    code: Code,
    cost: u8,
    card: Card,
    target: Target,
    /// By how much its cost plus bound is above its parent's at least, and whether it is just so much, by the same rings.
    excess: i8,
    is_exact: bool,
    place: Place,
}

/// A class that is visited, and its children.
struct Visit {
    layout: Layout,
    rule: u8,
    position: Position,
    shown: Shown,
    /// By how much what was taken is above the class's cost plus bound.
    slack: i32,
    /// The least excess of the children that were put off.
    later: i32,
    children: Vec<Child>,
    /// What is shown without a card of the rings, once that was asked.
    kept: Option<(Card, Shown)>,
}

impl Visit {
    fn new(layout: Layout, rule: u8) -> Visit {
        Visit {
            position: Position::new(&layout),
            layout,
            rule,
            shown: Shown { bound: 0, rings: 0 },
            slack: 0,
            later: NEVER,
            children: Vec::with_capacity(MOST_CHILDREN),
            kept: None,
        }
    }

    /// Makes the children of a class that are wanted, the last move's first, as the proved program does, so that both store the
    /// same classes.
    fn make(&mut self, code: Code, shown: Shown, slack: i32) {
        self.position.read(&self.layout, code);
        (self.shown, self.slack) = (shown, slack);
        (self.later, self.kept) = (NEVER, None);
        self.children.clear();
        let position = &self.position;
        let openers = position.openers();
        let (mut cells, mut lasts) = (position.cells, position.marks.lasts);
        let able = guests(lasts) | position.next;
        if !position.has_empty_column() {
            cells &= able;
        }
        let is_full = !position.has_empty_cell;
        if is_full {
            lasts &= able | openers;
        }
        if slack == 0 {
            // The other cards are on no ring, and none goes home, so that each of their moves is put off by one. Where they have to go
            // onto others, those that cover a next card are looked at too: it may be by two.
            let mut wanted = position.marks.held | shown.rings | position.next;
            if is_full && openers == 0 {
                wanted |= position.covers(lasts & !wanted);
            }
            if (cells | lasts) & !wanted != 0 {
                self.later = 1;
            }
            (cells, lasts) = (cells & wanted, lasts & wanted);
        }
        while cells != 0 {
            let card = greatest(cells);
            cells = without(cells, card);
            self.move_from_cell(card);
        }
        let mut column = self.position.count;
        while lasts != 0 {
            column -= 1;
            let card = self.position.ends[column & 7];
            if has(lasts, card) {
                lasts = without(lasts, card);
                self.move_from_column(card, has(openers, card));
            }
        }
    }

    fn move_from_cell(&mut self, card: Card) {
        let lifted = Lifted {
            card,
            code: self.position.code.without(card),
            lasts: self.position.marks.lasts,
            is_held: false,
            is_noted: false,
            frees: false,
        };
        self.move_to_all(&lifted, false, self.position.has_empty_column());
    }

    fn move_from_column(&mut self, card: Card, opens: bool) {
        let position = &self.position;
        let under = position.beneath(card);
        let lifted = Lifted {
            card,
            code: position.code.without(card),
            lasts: without(position.marks.lasts, card) | under,
            is_held: has(position.marks.held, card),
            is_noted: has(self.shown.rings, card),
            frees: under & position.next != 0 && goes_home(position.home, least(under), self.rule),
        };
        self.move_to_all(&lifted, position.has_empty_cell, opens);
    }

    /// Moves a lifted card home, to a cell, to an empty column, and onto the last cards that take it, the last column first.
    #[inline(always)]
    fn move_to_all(&mut self, lifted: &Lifted, has_cell: bool, opens: bool) {
        if has(self.position.next, lifted.card) {
            self.reach(lifted, Target::Home);
        }
        if has_cell {
            self.reach(lifted, Target::Cell);
        }
        if opens {
            self.reach(lifted, Target::EmptyColumn);
        }
        let hosts = hosts(lifted.card) & self.position.marks.lasts;
        if hosts == 0 {
            return;
        }
        let (one, other) = (least(hosts), greatest(hosts));
        let column = |host| self.position.column_of[at(host)];
        let (first, second) = if column(one) < column(other) {
            (other, one)
        } else {
            (one, other)
        };
        self.reach(lifted, Target::Onto(first));
        if first != second {
            self.reach(lifted, Target::Onto(second));
        }
    }

    /// Adds what is reached where a lifted card goes there, if it is wanted: not if it is put off, nor if an earlier visit stored it.
    #[inline(always)]
    fn reach(&mut self, lifted: &Lifted, target: Target) {
        let card = lifted.card;
        let is_held = match target {
            Target::Onto(host) => has(self.position.rows.waiting(host), card),
            _ => false,
        };
        let excess = i32::from(target != Target::Home) + i32::from(is_held)
            - i32::from(lifted.is_held || lifted.is_noted);
        if excess > self.slack {
            self.later = self.later.min(excess);
            return;
        }
        let is_onto = matches!(target, Target::Onto(_));
        let waits = is_onto && self.position.marks.all & lower(card) != 0;
        let is_exact = !lifted.is_noted && (is_held || !waits);
        if excess == self.slack || !is_exact {
            let (code, cost) = self.landed(lifted, target);
            self.children.push(Child {
                code,
                cost,
                card,
                target,
                excess: excess as i8,
                is_exact,
                place: Place { slot: 0, tag: 0 },
            });
        }
    }

    /// Where a lifted card goes there, once others went home, and what that costs.
    #[inline(always)]
    fn landed(&self, lifted: &Lifted, target: Target) -> (Code, u8) {
        let Lifted {
            card, code, lasts, ..
        } = lifted;
        let state_on = |host| self.layout.state_on(host, code, *card);
        let (state, lasts) = match target {
            Target::Home => (HOME, *lasts),
            Target::Cell => (IN_CELL, *lasts),
            Target::EmptyColumn => (state_on(NO_CARD), lasts | bit(*card)),
            Target::Onto(host) => (state_on(host), without(*lasts, host) | bit(*card)),
        };
        let code = code.with(*card, state);
        if lifted.frees || target == Target::Home {
            let (code, count) = settled(&self.layout, self.rule, code, lasts);
            return (code, 1 + count);
        }
        (code, 1)
    }

    /// What is shown of a child that isn't stored, before cards go home that its move frees: its excess, and the rings.
    fn shown_of(&mut self, child: &Child) -> (i32, Cards) {
        if child.is_exact {
            return (i32::from(child.excess), self.shown.rings);
        }
        let kept = self.kept(child.card);
        let shown = match child.target {
            Target::Home | Target::Cell => kept,
            Target::EmptyColumn => self.shown_on(child.card, NO_CARD, kept),
            Target::Onto(host) => self.shown_on(child.card, host, kept),
        };
        let shown = self.or_anew(child, kept, shown);
        let excess = shown.bound - self.shown.bound;
        (
            excess + i32::from(child.target != Target::Home),
            shown.rings,
        )
    }

    /// What is shown of a child, or what is counted anew, if that is more: it is looked for where a ring was lost with the card, and
    /// where the child isn't put off without.
    fn or_anew(&mut self, child: &Child, kept: Shown, shown: Shown) -> Shown {
        let has_lost_a_ring = kept.bound < self.shown.bound && kept.rings != self.shown.rings;
        if !has_lost_a_ring || shown.bound + 1 - self.shown.bound > self.slack {
            return shown;
        }
        let anew = match child.target {
            Target::Home => return shown,
            Target::Cell => self.counted(self.position.lifted(child.card)),
            Target::EmptyColumn => self.counted_on(child.card, NO_CARD),
            Target::Onto(host) => self.counted_on(child.card, host),
        };
        if anew.bound > shown.bound {
            anew
        } else {
            shown
        }
    }

    /// What is shown without a card.
    fn kept(&mut self, card: Card) -> Shown {
        let Marks { all, held, .. } = self.position.marks;
        if !has(self.shown.rings & all, card) {
            let bound = self.shown.bound - i32::from(has(held, card));
            return Shown {
                bound,
                ..self.shown
            };
        }
        match self.kept {
            Some((other, kept)) if other == card => kept,
            _ => {
                let kept = self.without_noted(card);
                self.kept = Some((card, kept));
                kept
            }
        }
    }

    /// What is shown without a card of the rings: its ring is left out, and one more looked for through the cards of it.
    fn without_noted(&self, card: Card) -> Shown {
        let Position { rows, marks, .. } = &self.position;
        let left = self.without_ring(card);
        let able = without(marks.all & !marks.held & !left.rings, card);
        let mut rings = each(self.shown.rings & able)
            .map(|card| ring_through(rows, able, card, rows.waiting(card)));
        match rings.find(|ring| *ring != 0) {
            Some(ring) => Shown {
                bound: left.bound + 1,
                rings: left.rings | ring,
            },
            None => left,
        }
    }

    /// What the rings show that are left without a card.
    fn without_ring(&self, card: Card) -> Shown {
        let Position { rows, marks, .. } = &self.position;
        let plain = self.plain(*marks);
        let others = without(self.shown.rings & marks.all, card);
        let left = Shown {
            bound: plain.max(self.shown.bound - 1),
            rings: pruned(rows, others),
        };
        if left.rings != others {
            return left;
        }
        // Cards of its ring still lie between others, so that the rings are told apart to free them. Fewer may be taken than there are.
        let (count, rings) = rings_among(rows, others);
        let bound = plain + count;
        if bound < left.bound {
            left
        } else {
            Shown { bound, rings }
        }
    }

    /// How many cards are not home, and how many are held.
    fn plain(&self, marks: Marks) -> i32 {
        let away = 52 - self.position.home.count_ones();
        (away + marks.held.count_ones()) as i32
    }

    /// What is shown of where a card goes onto another, or to an empty column, by what is shown without it: one ring more through the
    /// card, or, where there is none, what is counted anew, if that is more. It isn't looked for where the child is put off without.
    fn shown_on(&mut self, card: Card, host: Card, kept: Shown) -> Shown {
        let Position { rows, marks, .. } = &self.position;
        let waiting = if host == NO_CARD {
            0
        } else {
            rows.waiting(host)
        };
        let bound = kept.bound + 1;
        if has(waiting, card) {
            return Shown { bound, ..kept };
        }
        if bound - self.shown.bound > self.slack || marks.all & lower(card) == 0 {
            return kept;
        }
        let able = marks.all & !kept.rings & !without(marks.held, card);
        let ring = ring_through(rows, able, card, waiting | HIGHER[at(card)]);
        if ring != 0 {
            let rings = kept.rings | ring;
            return Shown { bound, rings };
        }
        let anew = self.counted_on(card, host);
        if anew.bound > kept.bound {
            anew
        } else {
            kept
        }
    }

    /// What is counted where a card goes onto another, or to an empty column.
    fn counted_on(&mut self, card: Card, host: Card) -> Shown {
        let mut marks = self.position.lifted(card);
        if host != NO_CARD && has(self.position.rows.waiting(host), card) {
            marks.held |= bit(card);
        }
        marks.all |= bit(card);
        marks.lasts = without(marks.lasts, host) & ALL | bit(card);
        let rows = &mut self.position.rows;
        let row = (rows.waiting[at(card)], rows.beneath[at(card)]);
        rows.put(card, host);
        let shown = self.counted(marks);
        let rows = &mut self.position.rows;
        (rows.waiting[at(card)], rows.beneath[at(card)]) = row;
        shown
    }

    /// What rings show that are met while all cards are taken out.
    fn counted(&self, marks: Marks) -> Shown {
        let (count, rings) = rings_met(&self.position.rows, marks);
        let bound = self.plain(marks) + count;
        Shown { bound, rings }
    }
}

/// The class with this code and these last cards once cards went home by the rule until none goes, and how many went.
#[cold]
fn settled(layout: &Layout, rule: u8, mut code: Code, mut lasts: Cards) -> (Code, u8) {
    let mut count = 0;
    loop {
        let home = code.home();
        let mut goers = each(next(home) & (lasts | code.cells()));
        let Some(card) = goers.find(|&card| goes_home(home, card, rule)) else {
            return (code, count);
        };
        if has(lasts, card) {
            let under = layout.host(card, code.state(card));
            lasts = (without(lasts, card) | bit(under)) & ALL;
        }
        code = code.without(card).with(card, HOME);
        count += 1;
    }
}

/// A stored class in four words, each of a set of cards and twelve bits: three are its code, with its cost and the number of the class
/// that it came from; and one the cards of its rings, with its bound, and the slack by which it is open above its cost plus bound.
#[derive(Clone, Copy)]
#[repr(align(32))]
struct Entry([u64; 4]);

impl Entry {
    fn new(code: Code, cost: u32, parent: u32, shown: Shown, slack: i32) -> Entry {
        assert!(cost < 1 << 12 && slack < 1 << 5, "want of room for them");
        let [ones, twos, fours] = code.0;
        let parent = u64::from(parent);
        let over = shown.bound as u64 | (slack as u64) << BOUND_BITS;
        Entry([
            ones | u64::from(cost) << CARD_BITS,
            twos | parent << CARD_BITS,
            fours | parent >> 12 << CARD_BITS,
            shown.rings | over << CARD_BITS,
        ])
    }

    fn code(&self) -> Code {
        let [ones, twos, fours, _] = self.0;
        Code([ones & ALL, twos & ALL, fours & ALL])
    }

    fn has_code(&self, code: &Code) -> bool {
        let [ones, twos, fours, _] = self.0;
        (ones ^ code.0[0] | twos ^ code.0[1] | fours ^ code.0[2]) & ALL == 0
    }

    fn cost(&self) -> u32 {
        (self.0[0] >> CARD_BITS) as u32
    }

    fn parent(&self) -> u32 {
        (self.0[1] >> CARD_BITS | self.0[2] >> CARD_BITS << 12) as u32
    }

    fn shown(&self) -> Shown {
        Shown {
            bound: (self.0[3] >> CARD_BITS & BOUNDS) as i32,
            rings: self.0[3] & ALL,
        }
    }

    fn slack(&self) -> i32 {
        (self.0[3] >> CARD_BITS >> BOUND_BITS) as i32
    }

    fn f(&self) -> usize {
        self.cost() as usize + (self.shown().bound + self.slack()) as usize
    }
}

/// The slot where a code is looked for first, and bits of its hash that stand in its slot.
#[derive(Clone, Copy)]
struct Place {
    slot: u32,
    tag: u32,
}

/// The stored classes by number, and an open-addressed table that finds the number of a code: 0 where nothing stands in a slot, else
/// bits of the hash, and the number plus one. Memory that isn't written to yet is reserved, and not taken.
struct Classes {
    entries: Vec<Entry>,
    slots: Vec<u32>,
}

impl Classes {
    fn place(&self, code: &Code) -> Place {
        let hash = code.hash();
        let slot = (hash >> 32) * self.slots.len() as u64 >> 32;
        Place {
            slot: slot as u32,
            tag: hash as u32 >> NUMBER_BITS,
        }
    }

    /// The number of a class, or the slot where it would stand.
    fn find(&self, code: &Code, place: Place) -> Result<u32, usize> {
        let mut slot = place.slot as usize;
        loop {
            let word = self.slots[slot];
            if word == 0 {
                return Err(slot);
            }
            if word >> NUMBER_BITS == place.tag {
                let number = (word & NUMBERS) - 1;
                if self.entries[number as usize].has_code(code) {
                    return Ok(number);
                }
            }
            slot = if slot + 1 == self.slots.len() {
                0
            } else {
                slot + 1
            };
        }
    }

    /// Has the slots brought near where each of these children is looked for first.
    fn approach(&self, children: &mut [Child]) {
        for child in children {
            child.place = self.place(&child.code);
            prefetch(&self.slots, child.place.slot as usize);
        }
    }
}

/// Has an element of a list brought near before it is wanted, where the processor is known.
fn prefetch<T>(list: &[T], place: usize) {
    #[cfg(target_arch = "x86_64")]
    // Whatever lies at an address, and if nothing does, this reads nothing.
    unsafe {
        use std::arch::x86_64::{_mm_prefetch, _MM_HINT_T0};
        _mm_prefetch(list.as_ptr().wrapping_add(place).cast(), _MM_HINT_T0);
    }
    #[cfg(not(target_arch = "x86_64"))]
    let _ = (list, place);
}

/// The open classes: a stack for each f and bound, of which the newest is taken first, of least f and then of least bound.
struct Frontier {
    stacks: Vec<Vec<u32>>,
    /// For each f the bounds whose stacks aren't empty.
    bounds: Vec<u128>,
    /// No f before this one has any.
    first: usize,
}

impl Frontier {
    fn push(&mut self, f: usize, bound: usize, number: u32) {
        if f >= self.bounds.len() {
            self.bounds.resize(f + 1, 0);
            self.stacks.resize_with((f + 1) << BOUND_BITS, Vec::new);
        }
        self.stacks[f << BOUND_BITS | bound].push(number);
        self.bounds[f] |= 1 << bound;
        self.first = self.first.min(f);
    }

    /// Takes out a class of least f, and that f.
    fn pop(&mut self) -> Option<(usize, u32)> {
        while *self.bounds.get(self.first)? == 0 {
            self.first += 1;
        }
        let bound = self.bounds[self.first].trailing_zeros();
        let stack = &mut self.stacks[self.first << BOUND_BITS | bound as usize];
        let number = stack.pop()?;
        if stack.is_empty() {
            self.bounds[self.first] &= !(1 << bound);
        }
        Some((self.first, number))
    }
}

/// A search for a shortest solution over settled classes, best first, by partial expansion.
struct Search {
    budget: usize,
    classes: Classes,
    frontier: Frontier,
    visit: Visit,
}

impl Search {
    /// Stores and opens the class at the start.
    fn new(layout: Layout, rule: u8, budget: usize) -> Search {
        let (start, cost) = settled(&layout, rule, Code::START, layout.lasts);
        let mut search = Search {
            budget,
            classes: Classes {
                entries: Vec::with_capacity(budget),
                slots: vec![0; budget / 3 * 4 + 64],
            },
            frontier: Frontier {
                stacks: Vec::new(),
                bounds: Vec::new(),
                first: 0,
            },
            visit: Visit::new(layout, rule),
        };
        let Visit {
            position, layout, ..
        } = &mut search.visit;
        position.read(layout, start);
        let shown = search.visit.counted(search.visit.position.marks);
        let place = search.classes.place(&start);
        let entry = Entry::new(start, cost.into(), 0, shown, 0);
        search.add(place.slot as usize, place.tag, entry);
        search
    }

    /// Stores a class in the slot that was found for it, and opens it.
    fn add(&mut self, slot: usize, tag: u32, entry: Entry) {
        let number = self.classes.entries.len() as u32;
        self.classes.entries.push(entry);
        self.classes.slots[slot] = tag << NUMBER_BITS | (number + 1);
        self.open(number, entry);
    }

    /// Puts an entry in the place of that with this number, and opens it.
    fn reopen(&mut self, number: u32, entry: Entry) {
        self.classes.entries[number as usize] = entry;
        self.open(number, entry);
    }

    fn open(&mut self, number: u32, entry: Entry) {
        let bound = entry.shown().bound as usize;
        self.frontier.push(entry.f(), bound, number);
    }

    /// Offers a class's children, of which those are put off that are open later than what was taken. False where one has no place.
    fn offer_children(&mut self, parent: u32, parent_cost: u32) -> bool {
        self.classes.approach(&mut self.visit.children);
        for i in 0..self.visit.children.len() {
            let child = self.visit.children[i];
            let cost = parent_cost + u32::from(child.cost);
            let slot = match self.classes.find(&child.code, child.place) {
                Ok(number) => {
                    let entry = &self.classes.entries[number as usize];
                    if cost < entry.cost() {
                        let entry = Entry::new(child.code, cost, parent, entry.shown(), 0);
                        self.reopen(number, entry);
                    }
                    continue;
                }
                Err(slot) => slot,
            };
            let (excess, rings) = self.visit.shown_of(&child);
            if excess > self.visit.slack {
                self.visit.later = self.visit.later.min(excess);
                continue;
            }
            if self.classes.entries.len() == self.budget {
                return false;
            }
            let bound = self.visit.shown.bound + excess - i32::from(child.cost);
            let entry = Entry::new(child.code, cost, parent, Shown { bound, rings }, 0);
            self.add(slot, child.place.tag, entry);
        }
        true
    }

    /// One turn: takes a class of least f and visits it. The answer and the status, if that ends the search.
    fn turn(&mut self) -> Option<(String, i32)> {
        let Some((f, number)) = self.frontier.pop() else {
            return Some(("can't be won".to_string(), 1));
        };
        let entry = self.classes.entries[number as usize];
        let (code, cost) = (entry.code(), entry.cost());
        if code.home() == ALL {
            return Some((format!("shortest {cost}"), 0));
        }
        if entry.f() != f {
            return None;
        }
        self.visit.make(code, entry.shown(), entry.slack());
        if !self.offer_children(number, cost) {
            return Some((format!("gave up {}", self.budget), 2));
        }
        let later = self.visit.later;
        if later != NEVER {
            let entry = Entry::new(code, cost, entry.parent(), entry.shown(), later);
            self.reopen(number, entry);
        }
        None
    }

    /// Whether the costs rise from class to class on the way from the start to each stored class.
    fn is_sound(&self) -> bool {
        let entries = &self.classes.entries;
        let rises = |entry: &Entry| entries[entry.parent() as usize].cost() < entry.cost();
        entries.iter().skip(1).all(rises)
    }
}

/// The peak of resident memory so far in kilobytes, as Linux tells it; 0 where it doesn't.
fn peak_kilobytes() -> u64 {
    let status = fs::read_to_string("/proc/self/status").unwrap_or_default();
    let line = status.lines().find_map(|line| line.strip_prefix("VmHWM:"));
    line.and_then(|rest| rest.split_whitespace().next()?.parse().ok())
        .unwrap_or(0)
}

/// The deal, the home rule and the budget that the words say.
fn read_words(words: &[String]) -> Option<(u32, u8, usize)> {
    let [deal, rule, budget] = words else {
        return None;
    };
    let (deal, rule, budget) = (deal.parse().ok()?, rule.parse().ok()?, budget.parse().ok()?);
    let are_known = (1..=1_000_000).contains(&deal) && (0..=2).contains(&rule);
    (are_known && (1..=MOST_BUDGET).contains(&budget)).then_some((deal, rule, budget))
}

fn main() {
    let words: Vec<String> = env::args().skip(1).collect();
    let Some((deal, rule, budget)) = read_words(&words) else {
        eprintln!("usage: plain_rings DEAL RULE BUDGET (1 to 1000000, 0 to 2, 1 to {MOST_BUDGET})");
        process::exit(3);
    };
    let began = Instant::now();
    let mut search = Search::new(Layout::deal(deal), rule, budget);
    let mut turns = 1u64;
    let (answer, status) = loop {
        match search.turn() {
            Some(ended) => break ended,
            None => turns += 1,
        }
    };
    let seconds = began.elapsed().as_secs_f64();
    let stored = search.classes.entries.len();
    let kilobytes = peak_kilobytes();
    assert!(search.is_sound());
    let figures = format!("{turns} turns, {seconds:.3} seconds, {kilobytes} kilobytes");
    if io::stdout()
        .write_all(format!("{answer}\n{stored} classes, {figures}\n").as_bytes())
        .is_err()
    {
        process::exit(5);
    }
    process::exit(status);
}
