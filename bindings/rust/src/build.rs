//! Types built from their parts. Each has a text: the writer is asked before a type is handed out.

use crate::raw::{self, Record, CAPACITY};
use crate::{Error, Kind, Padding, Scalar, Type};

impl Type {
    /// A scalar.
    pub fn scalar(element: Scalar) -> Type {
        Type(plain(Kind::Scalar, element))
    }

    /// A pointer to a scalar.
    pub fn pointer(element: Scalar) -> Type {
        Type(plain(Kind::Pointer, element))
    }

    /// The token.
    pub fn token() -> Type {
        Type(plain(Kind::Token, Scalar::I1))
    }

    /// A tile of scalars. Refusal 6: over 8 dimensions; so below, for every list.
    ///
    /// ```
    /// use typetext::{Scalar, Type};
    ///
    /// assert_eq!(Type::tile(&[2, 3], Scalar::I8)?.to_string(), "!cuda_tile.tile<2x3xi8>");
    /// assert_eq!(Type::tile(&[1; 9], Scalar::I8).unwrap_err().number(), 6);
    /// # Ok::<(), typetext::Error>(())
    /// ```
    pub fn tile(shape: &[i64], element: Scalar) -> Result<Type, Error> {
        let mut record = plain(Kind::Tile, element);
        (record.shape_len, record.shape) = filled(shape)?;
        checked(record)
    }

    /// A tile of pointers to scalars.
    pub fn pointer_tile(shape: &[i64], pointee: Scalar) -> Result<Type, Error> {
        let mut record = Type::tile(shape, pointee)?.0;
        record.pointer = 1;
        checked(record)
    }

    /// A tensor view. The strides need not be as many as the dimensions, but refusal 7: no strides for a shape.
    pub fn tensor_view(shape: &[i64], strides: &[i64], element: Scalar) -> Result<Type, Error> {
        let mut record = plain(Kind::TensorView, element);
        (record.shape_len, record.shape) = filled(shape)?;
        (record.strides_len, record.strides) = filled(strides)?;
        checked(record)
    }

    /// A partition view of a tensor view. Refusal 6: `tensor` is another kind; 7: a list is empty; so for all views.
    pub fn partition_view(tile: &[i32], tensor: &Type, dim_map: &[i32]) -> Result<Type, Error> {
        let mut record = view(Kind::Partition, tile, tensor)?;
        (record.map_len, record.map) = filled(dim_map)?;
        checked(record)
    }

    /// A gather-scatter view of a tensor view.
    pub fn gather_scatter_view(
        tile: &[i32],
        tensor: &Type,
        sparse_dim: i32,
    ) -> Result<Type, Error> {
        let mut record = view(Kind::GatherScatter, tile, tensor)?;
        record.sparse = sparse_dim;
        checked(record)
    }

    /// A strided view of a tensor view.
    pub fn strided_view(
        tile: &[i32],
        traversal_strides: &[i32],
        tensor: &Type,
        dim_map: &[i32],
    ) -> Result<Type, Error> {
        let mut record = view(Kind::Strided, tile, tensor)?;
        (record.traversal_len, record.traversal) = filled(traversal_strides)?;
        (record.map_len, record.map) = filled(dim_map)?;
        checked(record)
    }

    /// The same with a padding. Refusal 6: this isn't a partition, gather-scatter or strided view.
    pub fn with_padding(self, padding: Padding) -> Result<Type, Error> {
        let mut record = self.0;
        record.padding = padding as u8 + 1;
        checked(record)
    }

    /// The same with the pointer attribute. Refusal 7: scalars, tiles of scalars and tokens have no text with it.
    pub fn with_attribute(self) -> Result<Type, Error> {
        let mut record = self.0;
        record.attribute = 1;
        checked(record)
    }
}

fn plain(kind: Kind, element: Scalar) -> Record {
    Record {
        kind: kind as u8,
        element: element as u8,
        ..Record::default()
    }
}

/// A view takes over its tensor view's shape, strides, element and attribute.
fn view(kind: Kind, tile: &[i32], tensor: &Type) -> Result<Record, Error> {
    if tensor.kind() != Kind::TensorView {
        return Err(Error::NOT_NORMAL);
    }
    let mut record = tensor.0;
    record.kind = kind as u8;
    (record.tile_len, record.tile) = filled(tile)?;
    Ok(record)
}

/// Zero past the list's length.
fn filled<T: Copy + Default>(list: &[T]) -> Result<(usize, [T; CAPACITY]), Error> {
    let mut all = [T::default(); CAPACITY];
    let used = all.get_mut(..list.len()).ok_or(Error::NOT_NORMAL)?;
    used.copy_from_slice(list);
    Ok((list.len(), all))
}

/// Without room the writer's answer is 8 where the record is normal and has a text, as no text is empty.
fn checked(record: Record) -> Result<Type, Error> {
    match raw::write(&record, &mut []).refusal {
        8 => Ok(Type(record)),
        number => Err(Error::of(number)),
    }
}
