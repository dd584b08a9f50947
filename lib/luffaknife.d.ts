/** A board: its text, as docs/RULES.md has it, or the number of a deal, 1 to 1000000. */
export type Board = string | number;

/** Moves, two letters each: a list, or as text with blanks between. */
export type Moves = string | string[];

export interface Game {
  /** `freecell`, in turning colours, or `bakers`, in suit. */
  game?: "freecell" | "bakers";
  /** Only kings may go to an empty column. */
  kings?: boolean;
  /** How many cells there are, 0 to 4. */
  cells?: number;
}

export interface Budget extends Game {
  /** How many positions may be stored: 1 to 16000000, of `solve` 4000000. */
  budget?: number;
}

export interface Method extends Budget {
  /** By which rule cards are sent home at once: 0 to 2. */
  rule?: 0 | 1 | 2;
  bound?: "plain" | "clearing";
  /** At most so many times the fewest moves: 1 to 10, in tenths. */
  weight?: number;
  expansion?: "full" | "partial";
}

export interface Answer {
  kind: "shortest" | "won" | "can't be won" | "gave up";
  /** As the program prints it. */
  text: string;
  /** How many moves the list has, and the fewest that any list has that wins, as far as that is shown. */
  moves?: number;
  floor?: number;
  list?: string[];
  /** Of giving up: more positions than so many can be reached. */
  budget?: number;
  /** Where it is asked for, and the search didn't give up. */
  certificate?: Uint8Array;
}

export interface Claim {
  kind: "shortest" | "won" | "can't be won";
  moves: number;
  floor: number;
  text: string;
}

export interface Replay {
  isWon: boolean;
  /** The board after each move. */
  boards: string[];
}

export interface Review {
  /** The number of the move that loses, from 1. */
  losing?: number;
  kind: string;
  moves: number;
  floor: number;
  text: string;
}

/** A refused call: why, by the names of luffaknife.h and docs/CERTIFICATE-FORMAT.md, and a line, a step, a card, or 0. */
export class Refused extends Error {
  reason: string;
  place: number | string;
  status: number;
}

export class Luffaknife {
  /** How many bytes of memory the library has taken. */
  readonly size: number;
  version(): string;
  deal(number: number): string;
  best(board: Board, options?: Budget & { certificate?: boolean }): Answer;
  solve(board: Board, options?: Method & { certificate?: boolean }): Answer;
  check(board: Board, certificate: Uint8Array, game?: Game): Claim;
  replay(board: Board, list: Moves, options?: Game & { sequences?: boolean }): Replay;
  review(board: Board, list: Moves, options?: Budget): Review;
}

/** The library of these bytes, or of the file at a URL: by default of the released one, release/luffaknife.wasm. */
export function load(from?: BufferSource | URL | string): Promise<Luffaknife>;

/** The same calls in a worker, each a promise. */
export class Solver {
  /** Where the library lies, as for `load`; or what makes a worker that runs `serve`. */
  constructor(options?: { from?: URL | string; make?: () => Worker });
  version(): Promise<string>;
  deal(number: number): Promise<string>;
  best(board: Board, options?: Budget & { certificate?: boolean }): Promise<Answer>;
  solve(board: Board, options?: Method & { certificate?: boolean }): Promise<Answer>;
  check(board: Board, certificate: Uint8Array, game?: Game): Promise<Claim>;
  replay(board: Board, list: Moves, options?: Game & { sequences?: boolean }): Promise<Replay>;
  review(board: Board, list: Moves, options?: Budget): Promise<Review>;
  /** Ends the call that runs. */
  stop(): void;
}

/** Answers what a `Solver` asks, over this scope of a worker. */
export function serve(scope: unknown, from?: BufferSource | URL | string): Promise<void>;
