//! Calls luffaknife.h from Rust, and wraps two calls so that they can't be misused.
//! lib/make; rustc -O lib/example.rs -L lib/out -l static=luffaknife -o /tmp/example && /tmp/example 941

#[repr(C)]
#[derive(Clone, Copy)]
struct Game {
    code: u8,
    cells: u8,
}

#[repr(C)]
#[derive(Clone, Copy, Debug)]
struct Figures {
    kind: u32,
    moves: u32,
    floor: u32,
    budget: u32,
}

#[repr(C)]
struct Call {
    status: u32,
    place: u32,
    figures: Figures,
    text_len: usize,
    certificate_len: usize,
}

extern "C" {
    fn luffaknife_deal(number: u32, text: *mut u8, text_room: usize) -> Call;
    fn luffaknife_keep_best(game: Game, budget: u32, board: *const u8, board_len: usize, text: *mut Bytes) -> Call;
    fn free(block: *mut u8);
}

#[repr(C)]
struct Bytes {
    bytes: *const u8,
    len: usize,
}

/// What a call left behind, freed when it is dropped.
struct Kept(Bytes);

impl Kept {
    fn new() -> Kept {
        Kept(Bytes { bytes: b"".as_ptr(), len: 0 })
    }

    fn as_slice(&self) -> &[u8] {
        unsafe { std::slice::from_raw_parts(self.0.bytes, self.0.len) }
    }
}

impl Drop for Kept {
    fn drop(&mut self) {
        if self.0.len > 0 {
            unsafe { free(self.0.bytes.cast_mut()) }
        }
    }
}

const FREE_CELL: Game = Game { code: 0, cells: 4 };
const NO_ROOM: u32 = 20;

/// The text of a call that is handed a room, or its number and its place. A slice's pointer is never null, and a room of its own
/// overlaps nothing.
fn told(call: impl Fn(&mut [u8]) -> Call) -> Result<String, (u32, u32)> {
    let mut room = vec![0; 256];
    let mut ended = call(&mut room);
    if ended.status == NO_ROOM {
        room.resize(ended.text_len, 0);
        ended = call(&mut room);
    }
    if ended.status > 3 {
        return Err((ended.status, ended.place));
    }
    room.truncate(ended.text_len);
    Ok(String::from_utf8(room).unwrap_or_default())
}

fn deal(number: u32) -> Result<String, (u32, u32)> {
    told(|room| unsafe { luffaknife_deal(number, room.as_mut_ptr(), room.len()) })
}

/// The text of a best answer, and its figures: the answer is kept, so no room is too small for it.
fn best(game: Game, budget: u32, board: &str) -> Result<(String, Figures), (u32, u32)> {
    let mut kept = Kept::new();
    let ended = unsafe { luffaknife_keep_best(game, budget, board.as_ptr(), board.len(), &mut kept.0) };
    if ended.status > 3 {
        return Err((ended.status, ended.place));
    }
    Ok((String::from_utf8_lossy(kept.as_slice()).into_owned(), ended.figures))
}

fn main() {
    // (no deal has the number 0, nor has a word that is none)
    let number = std::env::args().nth(1).map_or(941, |word| word.parse().unwrap_or(0));
    let board = match deal(number) {
        Ok(board) => board,
        Err((status, _)) => {
            println!("no deal: {status}");
            std::process::exit(3);
        }
    };
    let (text, figures) = best(FREE_CELL, 500_000, &board).expect("an answer");
    print!("{board}{text}");
    println!("kind {}: {} moves, at least {}, {} positions", figures.kind, figures.moves, figures.floor, figures.budget);
    println!("{:?} {:?}", deal(0), best(FREE_CELL, 500_000, "AC AC").map(|(text, _)| text));
}
