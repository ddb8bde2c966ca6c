//! Random texts of every kind. Strict ones follow document 01's 'Strict forms'; loose ones take
//! the same way and slip now and then.

use crate::dice::Dice;
use crate::pieces::*;

pub struct Maker<'d> {
    pub dice: &'d mut Dice,
    loose: bool,
    out: Vec<u8>,
}

/// Bit width and whether `?` may stand: 64 bits take it, 32 don't.
#[derive(Clone, Copy, PartialEq)]
pub enum Width {
    Wide,
    Narrow,
}

use Width::*;

impl<'d> Maker<'d> {
    pub fn new(dice: &'d mut Dice, loose: bool) -> Maker<'d> {
        let out = Vec::new();
        Maker { dice, loose, out }
    }

    pub fn done(self) -> Vec<u8> {
        self.out
    }

    pub fn put(&mut self, piece: &str) {
        self.out.extend_from_slice(piece.as_bytes());
    }

    fn put_one(&mut self, pieces: &[&str]) {
        let piece = self.dice.pick(pieces);
        self.put(piece);
    }

    /// A slip, which a strict text never has.
    fn slip(&mut self, once_in: usize) -> bool {
        self.loose && self.dice.once_in(once_in)
    }

    fn space(&mut self, once_in: usize) {
        if self.slip(once_in) {
            let white = [self.dice.byte(WHITE)];
            self.out.extend_from_slice(&white);
        }
    }

    pub fn prefix(&mut self) {
        if self.dice.once_in(2) {
            self.put(PREFIX);
        }
        if self.slip(30) {
            self.put(PREFIX);
        }
    }

    pub fn comma(&mut self) {
        if self.slip(12) {
            return self.put_one(&[",  ", " ,", " , ", "", " ", ",,", ",\t"]);
        }
        self.put_one(&[",", ", "]);
    }

    pub fn numeral(&mut self, width: Width) {
        if self.slip(4) {
            return self.put_one(ODD_NUMERALS);
        }
        self.space(10);
        match self.dice.below(12) {
            0 => self.put_one(EDGES_32),
            1 if width == Wide => self.put_one(EDGES_64),
            2..=3 if width == Wide => self.put("?"),
            _ => self.put_one(SMALL),
        }
        self.space(10);
    }

    pub fn name(&mut self) {
        self.space(12);
        if self.slip(15) {
            self.put_one(WRONG_NAMES);
        } else {
            self.put_one(NAMES);
        }
        self.space(12);
    }

    /// Mostly short, now and then at a capacity's edge.
    fn length(&mut self, least: usize) -> usize {
        let most = [4, 4, 4, 4, 4, 4, 4, 8, 9, 12][self.dice.below(10)];
        self.dice.from(least, most)
    }

    /// Dimensions, each followed by `x`.
    pub fn dims(&mut self, count: usize) {
        for _ in 0..count {
            self.numeral(Wide);
            self.put("x");
        }
    }

    /// Entries parted by one separator throughout.
    pub fn entries(&mut self, count: usize, by_x: bool, width: Width) {
        for place in 0..count {
            if place > 0 && by_x {
                self.put("x");
            } else if place > 0 {
                self.comma();
            }
            self.numeral(width);
        }
    }

    fn some_entries(&mut self, by_x: bool, width: Width) {
        let least = if self.loose { 0 } else { 1 };
        let count = self.length(least);
        self.entries(count, by_x, width);
    }

    fn mark(&mut self, once_in: usize) {
        if self.dice.once_in(once_in) {
            self.put(MARK);
        }
        if self.slip(20) {
            self.put_one(CUT_MARKS);
        }
    }

    fn close(&mut self) {
        if !self.slip(25) {
            self.put(">");
        }
    }

    pub fn pointer(&mut self, once_in: usize) {
        self.prefix();
        self.put("ptr<");
        self.name();
        self.mark(once_in);
        self.close();
    }

    pub fn tile(&mut self) {
        self.prefix();
        self.put("tile<");
        let rank = self.length(0);
        self.dims(rank);
        if self.dice.once_in(2) {
            self.name();
        } else {
            self.space(8);
            self.pointer(4);
        }
        self.close();
    }

    /// What stands between a tensor view's brackets.
    pub fn tensor_inside(&mut self) {
        let rank = self.length(0);
        self.dims(rank);
        self.name();
        let absent = rank == 0 || self.slip(4);
        if !(absent && self.dice.once_in(2)) {
            self.comma();
            self.put("strides=[");
            self.some_entries(false, Wide);
            self.put("]");
        }
        self.mark(5);
    }

    fn tensor_view(&mut self) {
        self.prefix();
        self.put("tensor_view<");
        self.tensor_inside();
        self.close();
    }

    pub fn tile_clause(&mut self) {
        self.put("tile=(");
        let by_x = self.dice.once_in(2);
        self.some_entries(by_x, Narrow);
        if !self.slip(30) {
            self.put(")");
        }
    }

    pub fn padding(&mut self) {
        self.put("padding_value=");
        if self.slip(4) {
            self.put_one(ODD_PADDINGS);
        } else {
            self.put_one(PADDINGS);
        }
    }

    /// "The tensor view may also be introduced by `tensor_view=`, if `!cuda_tile.` follows."
    pub fn inner(&mut self) {
        if self.dice.once_in(3) {
            self.put("tensor_view=!cuda_tile.tensor_view<");
        } else {
            self.prefix();
            self.put("tensor_view<");
        }
        self.tensor_inside();
        self.close();
    }

    pub fn list(&mut self, opening: &str) {
        self.put(opening);
        self.some_entries(false, Narrow);
        if !self.slip(15) {
            self.put("]");
        }
    }

    pub fn sparse(&mut self) {
        self.put("sparse_dim=");
        self.numeral(Narrow);
    }

    /// Kind 0 is a partition view, 1 gather-scatter, 2 strided.
    pub fn view(&mut self, kind: usize) {
        self.prefix();
        self.put(["partition_view<", "gather_scatter_view<", "strided_view<"][kind]);
        self.tile_clause();
        if kind == 2 && !self.slip(4) {
            self.comma();
            self.list("traversal_strides=[");
        }
        if self.dice.once_in(3) {
            self.comma();
            self.padding();
        }
        self.comma();
        self.inner();
        if !self.slip(4) {
            self.comma();
            match kind {
                1 => self.sparse(),
                _ => self.list("dim_map=["),
            }
        }
        self.close();
    }

    /// Any kind; the rich ones more often.
    pub fn any(&mut self) {
        self.space(10);
        match self.dice.below(12) {
            0 => self.name(),
            1 => {
                self.prefix();
                self.put("token");
            }
            2 => self.pointer(3),
            3 | 4 => self.tile(),
            5 | 6 => self.tensor_view(),
            7 => self.view(1),
            8 | 9 => self.view(0),
            _ => self.view(2),
        }
        if self.slip(10) {
            self.put_one(&["junk", ">", " ", "\n", "<", ", dim_map=[1]", MARK, "\x0b"]);
        }
    }
}

pub fn strict(dice: &mut Dice) -> Vec<u8> {
    let mut maker = Maker::new(dice, false);
    maker.any();
    maker.done()
}

pub fn loose(dice: &mut Dice) -> Vec<u8> {
    let mut maker = Maker::new(dice, true);
    maker.any();
    maker.done()
}
