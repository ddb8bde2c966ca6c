//! A plain recogniser of strict forms, of any rank. Written from document 01's 'Strict forms'
//! alone; where a comment quotes, it quotes those lines.

use crate::answer::{Answer, Counts, Kind, Record, LONGEST_TEXT};
use crate::pieces::{MARK, PREFIX};

#[cfg(test)]
mod form_tests;
mod rest;
#[cfg(test)]
mod tests;

use rest::Rest;

/// Order of refusals: 1, 2, 5, 4.
pub fn read(text: &[u8]) -> Answer {
    if text.len() > LONGEST_TEXT {
        return Answer::refused(1);
    }
    if let Some(place) = text.iter().position(|byte| *byte >= 128) {
        return Answer::Refused { number: 2, place };
    }
    match whole(text) {
        None => Answer::refused(5),
        Some(record) if record.too_many() => Answer::refused(4),
        Some(record) => Answer::Accepted(record, Some(Counts::default())),
    }
}

/// "No byte may stand that isn't named here."
pub fn whole(text: &[u8]) -> Option<Record> {
    let mut rest = Rest(text);
    let record = rest.any()?;
    rest.0.is_empty().then_some(record)
}

// Forms.

impl Rest<'_> {
    fn any(&mut self) -> Option<Record> {
        let front = self.0;
        if let Some(element) = self.scalar() {
            return Some(Record {
                element,
                ..Record::blank(Kind::Scalar)
            });
        }
        self.0 = front;
        // What "may carry `!cuda_tile.` in front" follows; "scalar and padding names may not".
        self.may(PREFIX);
        if self.may("token") {
            return Some(Record::blank(Kind::Token));
        }
        if self.may("ptr<") {
            return self.after_ptr(Kind::Pointer);
        }
        if self.may("tile<") {
            return self.after_tile();
        }
        if self.may("tensor_view<") {
            return self.after_tensor_view(Kind::TensorView);
        }
        self.view()
    }

    /// "`ptr<scalar>`"; "The mark may stand once, before the `>` that closes a pointer".
    fn after_ptr(&mut self, kind: Kind) -> Option<Record> {
        let element = self.scalar()?;
        let attribute = self.may(MARK);
        self.must(">")?;
        Some(Record {
            element,
            attribute,
            ..Record::blank(kind)
        })
    }

    /// "dimensions each followed by `x`, then a scalar or pointer `>`"
    fn after_tile(&mut self) -> Option<Record> {
        let shape = self.dims()?;
        let record = self.tile_element()?;
        self.must(">")?;
        Some(Record { shape, ..record })
    }

    fn tile_element(&mut self) -> Option<Record> {
        let prefixed = self.may(PREFIX);
        if self.may("ptr<") {
            let record = self.after_ptr(Kind::Tile)?;
            return Some(Record {
                pointer: true,
                ..record
            });
        }
        if prefixed {
            return None;
        }
        let element = self.scalar()?;
        Some(Record {
            element,
            ..Record::blank(Kind::Tile)
        })
    }

    /// "dimensions each followed by `x`, scalar, then `,strides=[..]` of one entry or more, `>`"
    fn after_tensor_view(&mut self, kind: Kind) -> Option<Record> {
        let shape = self.dims()?;
        let element = self.scalar()?;
        let mut attribute = self.may(MARK);
        let mut strides = Vec::new();
        if attribute || self.0.first() == Some(&b'>') {
            // "The strides may be absent at rank 0 only, meaning none."
            shape.is_empty().then_some(())?;
        } else {
            self.comma()?;
            self.must("strides=[")?;
            strides = self.list(Self::wide)?;
            attribute = self.may(MARK);
        }
        self.must(">")?;
        Some(Record {
            element,
            attribute,
            shape,
            strides,
            ..Record::blank(kind)
        })
    }

    /// "introduced by `tensor_view=`, if `!cuda_tile.` follows", or else bare or with a prefix
    fn inner(&mut self, kind: Kind) -> Option<Record> {
        if self.may("tensor_view=") {
            self.must(PREFIX)?;
        } else {
            self.may(PREFIX);
        }
        self.must("tensor_view<")?;
        self.after_tensor_view(kind)
    }

    fn view_kind(&mut self) -> Option<Kind> {
        for (name, kind) in [
            ("partition_view<", Kind::Partition),
            ("gather_scatter_view<", Kind::GatherScatter),
            ("strided_view<", Kind::Strided),
        ] {
            if self.may(name) {
                return Some(kind);
            }
        }
        None
    }

    /// Tile, traversal strides in a strided view, padding or none, tensor view, then the map,
    /// or the sparse dimension in a gather-scatter view; "commas between".
    fn view(&mut self) -> Option<Record> {
        let kind = self.view_kind()?;
        let tile = self.tile_shape()?;
        self.comma()?;
        let mut traversal = Vec::new();
        if kind == Kind::Strided {
            self.must("traversal_strides=[")?;
            traversal = self.list(Self::narrow)?;
            self.comma()?;
        }
        let mut padding = None;
        if self.may("padding_value=") {
            padding = Some(self.padding()?);
            self.comma()?;
        }
        let tensor = self.inner(kind)?;
        self.comma()?;
        let (mut map, mut sparse) = (Vec::new(), 0);
        if kind == Kind::GatherScatter {
            self.must("sparse_dim=")?;
            sparse = self.narrow()?;
        } else {
            self.must("dim_map=[")?;
            map = self.list(Self::narrow)?;
        }
        self.must(">")?;
        Some(Record {
            tile,
            traversal,
            padding,
            map,
            sparse,
            ..tensor
        })
    }
}
