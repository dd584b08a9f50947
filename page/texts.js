// @ts-check
"use strict";
/** All that the page says, in English. Another language is another file of these names; what refuses boards and lists
 * is as the program says it. */
const texts = (() => {
  const many = (/** @type {number} */ count, /** @type {string} */ word) =>
    `${count.toLocaleString("en")} ${word}${count === 1 ? "" : "s"}`;
  const number = (/** @type {number} */ it) => it.toLocaleString("en");
  const RANK_WORDS = ["ace", "two", "three", "four", "five", "six", "seven", "eight", "nine", "ten", "jack", "queen",
    "king"];
  const SUIT_WORDS = ["clubs", "diamonds", "hearts", "spades"];
  const why = {
    kings: "only kings may go to an empty column", misfit: (/** @type {string} */ under) =>
      `the card may not stand on the last card there, the ${under}`,
    none: "no card is there to be taken", own: "a card goes neither to its own column nor from cell to cell",
    notNext: "the card isn't the next one of its foundation", noCell: "the game has no such cell",
    held: "the cell holds a card",
    many: "so many cards can't be carried",
  };
  const ALONE = "keep the lines of one board alone";
  const board = {
    line: (/** @type {number} */ at, /** @type {string} */ says) => `line ${at}: ${says}`,
    place: (/** @type {number} */ line, /** @type {number} */ word) => `line ${line}, word ${word}`,
    word: (/** @type {number} */ line, /** @type {number} */ word, /** @type {string} */ text,
      /** @type {string} */ why) => `line ${line}, word ${word}: '${text}' ${why}`,
    notCard: "not a card", notHome: "not a foundation", manyCells: "too many cells", manyColumns: "too many columns",
    repeated: "repeated", tooLong: "too long",
    noCard: "is no card: a card is its rank, A 2 to 9 T J Q K, and its suit, C D H S",
    noHome: "is no foundation: each suit stands once, as in H-0 C-A D-7 S-T",
    solvers: `is a solver's: ${ALONE}, and cut the others`,
    order: "numbers a column out of order: they go 1: to 8:, or have no numbers",
    pastCells: "stands past the last cell of the game",
    pastColumns: "stands in a ninth column: a line is a column, an empty line an empty one",
    again: (/** @type {number} */ line) => `line ${line}: a line above tells it already: keep one board alone`,
    most: (/** @type {number} */ bytes) => `a board's text has at most ${bytes} bytes: ${ALONE}`,
    twice: (/** @type {string} */ name) => `card ${name} stands twice`, missing: (/** @type {string} */ name) =>
      `card ${name} is missing`,
    isHome: (/** @type {string} */ place, /** @type {string} */ name) =>
      `${place}: '${name}' is home already, by its foundation`,
    isOne: (/** @type {string} */ a, /** @type {string} */ b, /** @type {string} */ name) =>
      `${a}, and ${b}: '${name}' is one card`,
    empty: "the board is empty: its text has nothing but blanks", guessed: (/** @type {string} */ line) =>
      `with this line it is a board: ${line}`,
    lacked: (/** @type {string[]} */ names) => `missing are${names.map(it => ` ${it}`).join("")}\n`,
    whole: "a board has 52 cards: in its columns, in its cells, or home on its foundations",
    head: "each cell and each foundation has an entry: - stands for none",
    short: "a row has eight entries: -- stands for none",
    long: "a row has eight entries at most, one a column",
    open: (/** @type {number} */ entry) => `a gap stands before entry ${entry}: -- stands for none`,
  };
  const list = {
    noMove: " is no move: a move is two letters, from where to where: columns 1 to 8, cells a to d, home h",
    refused: (/** @type {string} */ why, /** @type {string | null} */ card) =>
      `${card === null ? "" : ` would move the ${card}`}: ${why}`,
    fault: (/** @type {number} */ at, /** @type {number} */ line, /** @type {string} */ entry,
      /** @type {boolean} */ isMove, /** @type {string} */ why) =>
      `step ${at}: ${isMove ? "not allowed" : "not a move"}\nentry ${at}, line ${line}: '${entry}'${why}`,
  };
  const place = {
    home: "home", column: (/** @type {string} */ at) => `column ${at}`, cell: (/** @type {string} */ at) =>
      `cell ${at}`, goesHome: "home",
    goes: (/** @type {string} */ to) => `to ${to}`, goesEmpty: (/** @type {string} */ to) => `to the empty ${to}`,
    goesOn: (/** @type {string} */ under, /** @type {string} */ to) => `to the ${under} on ${to}`,
    move: (/** @type {string} */ card, /** @type {string} */ from, /** @type {string} */ where) =>
      `${card} from ${from} ${where}`,
  };
  const engine = {
    unable: "This browser has no 64-bit memory for WebAssembly, so the solver can't run in it; rows, rules and "
      + "links are as ever.",
    failed: (/** @type {string} */ fault) => `The solver can't run here (${fault}); rows, rules and links are as ever.`,
    missing: "The solver's file, solver.js, isn't beside the page; rows, rules and links are as ever.",
  };
  const word = {
    shortest: (/** @type {number} */ moves) => `can be won in ${many(moves, "move")}, and in no fewer`,
    won: (/** @type {number} */ moves, /** @type {number} */ floor) =>
      `can be won in ${many(moves, "move")}; no list has fewer than ${floor}`,
    lost: "can't be won", open: (/** @type {string} */ budget) => `within ${budget} positions nothing is known`,
    is: "This game is won.",
    here: "From here: ", thinking: "thinking…", none: "the solver gave no answer", over: "won",
    since: (/** @type {number} */ at, /** @type {string} */ move) => `move ${at}, ${move}, lost it`,
    failed: "what lost it wasn't found", hint: (/** @type {string} */ move) => `hint: ${move}.`,
    noHint: "no list is known from here yet.",
  };
  const known = {
    board: "This board", deal: (/** @type {number} */ deal) => `Deal ${deal}`, bakers: " of Baker's Game",
    kings: ", kings alone on empty columns",
    cells: (/** @type {number} */ cells) => `, ${cells} cells`, within: (/** @type {string} */ budget) =>
      `: shown within ${budget} positions.`,
    says: ": so its answer says.", lost: (/** @type {string} */ name, /** @type {string} */ by) =>
      `${name} can't be won${by}`,
    gaveUp: (/** @type {string} */ name, /** @type {number | null} */ floor, /** @type {string} */ by) =>
      `${name}: no list was found${floor === null ? "" : `, and none that wins has fewer than ${floor} moves`}${by}`,
    looking: (/** @type {string} */ name) => `${name}: looking…`, isWon: (/** @type {string} */ name) =>
      `${name}: won already.`,
    none: (/** @type {string} */ name) => `${name}: no answer is kept here.`,
    list: (/** @type {string} */ name, /** @type {boolean} */ isWon, /** @type {number} */ moves) =>
      `${name} ${isWon ? "is won in" : "isn't won by this list of"} ${many(moves, "move")}`,
    floor: (/** @type {number} */ floor, /** @type {boolean} */ isSame, /** @type {string} */ by) =>
      `, and no list has fewer${isSame ? "" : ` than ${floor}`}${by}`,
    harder: (/** @type {number} */ share) =>
      `Its fewest moves are more than those of ${share} % of the deals that are shown.`,
    how: "how to check it yourself", command: "This command asks the program:",
    first: (/** @type {string} */ bytes) =>
      `The first command finds the answer again and writes its certificate${bytes && ` of ${bytes} bytes`}; the `
        + `second accepts it without searching.`,
    again: "The command finds the answer again.", digest: "SHA-256 of the certificate: ",
  };
  const hands = {
    taken: (/** @type {string} */ card, /** @type {number} */ more, /** @type {string} */ goals) =>
      `${card} taken${more > 0 ? ` with ${more} more` : ""}: ${goals ? `may go to ${goals}` : "may go nowhere"}.`,
    back: "put back.", begin: "at the beginning.", won: " Won.", several: (/** @type {number} */ count) =>
      `${count} cards, the last of them the `,
    wouldMove: (/** @type {string} */ move, /** @type {string} */ card) =>
      `${move}${card && ` would move the ${card}`}: `, stuck: "may go nowhere.",
    counts: (/** @type {boolean} */ isOwn, /** @type {number} */ moves, /** @type {number} */ byHand) =>
      `${isOwn ? "your game: " : ""}${many(moves, "move")}, ${byHand} by hand`,
    step: (/** @type {number} */ at, /** @type {number} */ count) => `${at} of ${count}`, play: "play", pause: "pause",
    went: "went home by itself",
    time: (/** @type {number} */ seconds) => `${Math.floor(seconds / 60)}:${String(seconds % 60).padStart(2, "0")}`,
    emptyColumn: (/** @type {string} */ at) => `column ${at}, empty`, emptyCell: (/** @type {string} */ at) =>
      `cell ${at}, empty`,
    emptyHome: (/** @type {string} */ suit) => `home of ${suit}, empty`,
  };
  const lines = {
    own: (/** @type {number} */ moves) => `my game${moves > 0 ? ` (${moves})` : ""}`, show: "show the solution",
    its: (/** @type {number} */ moves) => `the solution (${moves})`, earlier: (/** @type {number} */ moves) =>
      `the game before (${moves})`,
    more: (/** @type {number} */ from, /** @type {number} */ to) => `moves ${from} to ${to}`,
  };
  const win = {
    said: (/** @type {number} */ moves, /** @type {number} */ byHand) =>
      `Won in ${many(moves, "move")}, ${byHand} by hand.`,
    fewest: "No list has fewer.", above: (/** @type {number} */ more) => `The fewest are ${more} fewer.`,
    floor: (/** @type {number} */ floor) => `No list has fewer than ${floor}.`,
    best: (/** @type {number} */ moves) => `Your best of this deal: ${moves}.`,
    count: (/** @type {number} */ deals) => `You have won ${many(deals, "deal")}.`,
  };
  const link = {
    deal: (/** @type {string} */ told) => `deal number ${told} is outside 1 to 1000000`,
    noDeal: (/** @type {string} */ told) => `${told} is no deal's number`,
    noNumber: (/** @type {string} */ name, /** @type {string} */ told) => `the link's ${name}, ${told}, is no number`,
    none: (/** @type {string} */ told) => `the link's answer, ${told}, is none`,
    refuted: (/** @type {string} */ told) => `the link's answer, ${told}, is refuted by its list`,
    high: (/** @type {number} */ floor) => `the link's floor, ${floor}, is refuted by its list`,
    title: (/** @type {string} */ name) => `${name} · Luffaknife`,
  };
  const gallery = {
    found: (/** @type {number} */ some, /** @type {number} */ all) => `${number(some)} of ${number(all)} deals`,
    loading: "looking…",
    page: (/** @type {number} */ at, /** @type {number} */ of) => `page ${at} of ${of}`, deals: "deals",
    fewest: "fewest moves",
    gap: "moves of the list less the floor", bars: (/** @type {string} */ by) => `deals by ${by}; each bar is a filter`,
    bar: (/** @type {number} */ at, /** @type {number} */ count, /** @type {number | null} */ part) =>
      `${at}: ${many(count, "deal")}${part === null ? "" : `, ${part} of them chosen`}`,
  };
  const paste = {
    board: (/** @type {string} */ says) => `board: ${says}`,
    asRows: "These lines are a board in columns, and another one in rows across the table. Which is it?",
    isRows: "In columns these lines are no board, but in rows across the table they are one.",
  };
  /** What stands in the page itself, by its names there. */
  const page = /** @type {Record<string, string>} */ ({
    about: "FreeCell in the fewest one-card moves", choose: "choose a deal", deal: "deal", go: "go",
    before: "the deal before", after: "the next deal", random: "random", menu: "menu",
    table: "the table", moves: "the list of moves", first: "to the beginning", back: "a move back", step: "a move on",
    last: "to the end", slider: "the present move",
    undo: "undo", redo: "redo", hint: "hint", finish: "finish it", "all-home": "all home", speed: "speed",
    "speed-half": "½ a second", "speed-1": "1 a second", "speed-2": "2 a second",
    "speed-4": "4 a second", "speed-8": "8 a second", known: "what is known", "to-before": "back to before it",
    lines: "whose moves are at the table", list: "moves",
    "win-next": "next deal", "win-close": "look at it", gallery: "All deals that are answered",
    "plot-moves": "Fewest moves, of deals whose list is a shortest one; heights by the square root",
    "plot-gap": "Gap between a deal's list and its floor; heights by the square root",
    filters: "filter the deals", deals: "deals", "from-deals": "deals from", "to-deals": "deals to",
    "from-moves": "moves from", "to-moves": "moves to", "from-gaps": "gaps from", "to-gaps": "gaps to",
    gaps: "gaps", answer: "answer", any: "any", clear: "show all", floor: "floor", gap: "gap", within: "within",
    hardest: "hardest shown", easiest: "easiest", lost: "lost", open: "greatest gaps",
    save: "save as a table", fewer: "before", more: "next", "what-moves": "moves", "what-floor": "floor",
    "what-gap": "gap", "what-within": "within",
    "moves-is": "how many one-card moves the list of a row has", "floor-is": "no list that wins has fewer moves",
    "gap-is": "moves less floor: how much shorter a list may yet be; at 0 the list is shown to be a shortest one",
    "within-is": "how many positions the search might keep: the program finds the row again within it",
    "paste-name": "A board, and a list of moves",
    "paste-board": "The board: a line a column, deepest card first, or as fc_solve show draws it",
    "paste-list": "Moves, or an answer of the program (may stay empty)", show: "show", close: "close",
    "as-rows": "in rows", "as-columns": "in columns",
    "menu-name": "Menu", today: "today's deal", paste: "paste a board", help: "keys", game: "game",
    freecell: "FreeCell", bakers: "Baker's Game", cells: "cells",
    kings: "only kings may go to an empty column", "switch-home": "cards that nothing can want go home by themselves",
    "switch-tap": "one tap sends a card to its best place",
    "switch-keys": "keys of one letter", "switch-colours": "four colours", "switch-timer": "a timer",
    "help-name": "Keys",
    "key-moves": "two of them are a move, from where to where: columns, cells, home; several cards go at once "
      + "where they fit",
    "key-take": "go to a card and take it, go to a place and lay it there; twice on a card: home",
    "key-undo": "undo, redo", "key-hint": "a hint; again: plays it",
    "key-finish": "plays the best list that is known to its end",
    "key-steps": "a move back, a move on", "key-ends": "to the beginning, to the end", "key-play": "play and pause",
    "key-escape": "put back what was taken", "key-help": "these keys",
    "foot-moves": "A move takes one card, and a move home is one; a card that is home stays there. To check a "
      + "deal's row take its two commands: the first finds the answer and writes its certificate, the second "
      + "accepts or refuses that without searching.",
    "foot-proof": "The rows, and the solver's words, are those of a proved program and library. Its library runs "
      + "here through a compiler's target that no proof covers; the page's own rules are tested against it, and "
      + "replay each list that is shown.",
    "foot-more": "More:", "link-readme": "what this is", "link-proved": "what is proved",
    "link-release": "what a released file's word rests on",
    "link-form": "the form of certificates", "link-checker": "a second checker", "link-gallery": "the rows as files",
  });
  const card = (/** @type {string} */ rank, /** @type {string} */ suit) => `${rank} of ${suit}`;
  return { RANK_WORDS, SUIT_WORDS, card, why, board, list, place, engine, word, known, hands, lines, win, link, gallery,
    paste, page, number, many };
})();
