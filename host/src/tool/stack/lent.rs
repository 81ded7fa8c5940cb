//! An argument with the memory that it lends. The memory is kept from call to call: to get it anew would take longer than most
//! calls do.

use joyce::Board;
use joyce_host::header::Type;

pub struct Argument {
    kind: Type,
    /// A number.
    pub word: u64,
    pub board: Board,
    pub bytes: Vec<u8>,
    /// Where in `bytes` what is lent begins.
    pub from: usize,
    /// What is lent where it may be written, so that the above stays for the next call.
    lent_board: Board,
    lent_bytes: Vec<u8>,
}

impl Argument {
    pub fn new(kind: Type) -> Argument {
        let (board, lent_board) = (Board::default(), Board::default());
        Argument { kind, word: 0, board, bytes: Vec::new(), from: 0, lent_board, lent_bytes: Vec::new() }
    }

    /// How many bytes are lent.
    pub fn length(&self) -> u64 {
        (self.bytes.len() - self.from) as u64
    }

    /// The word that is passed. What it is the address of is the same each time.
    pub fn lend(&mut self) -> u64 {
        match self.kind {
            Type::Board => {
                self.lent_board = self.board;
                &mut self.lent_board as *mut Board as u64
            }
            Type::ConstBoard => &self.board as *const Board as u64,
            Type::Bytes => {
                self.lent_bytes.clone_from(&self.bytes);
                self.lent_bytes[self.from..].as_mut_ptr() as u64
            }
            Type::ConstBytes => self.bytes[self.from..].as_ptr() as u64,
            Type::Void | Type::Unsigned(_) | Type::Signed(_) => self.word,
        }
    }
}
