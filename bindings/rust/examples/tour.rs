use typetext::{Scalar, Type, DYNAMIC};

fn main() -> Result<(), typetext::Error> {
    // Strictly: every byte has its meaning, or it is refused.
    let tile: Type = "tile<4x?xf32>".parse()?;
    assert_eq!(tile.shape(), [4, DYNAMIC]);
    println!("{tile}"); // !cuda_tile.tile<4x?xf32>

    // As cutile-ir reads, with the entries and clauses that were made up.
    let loose = "gather_scatter_view<tile=(4), tensor_view<f32>, sparse_dim=one>";
    let (view, defaults) = Type::parse_ordinary(loose)?;
    let sparse = view.sparse_dim(); // Some(0), which isn't in the text
    println!("sparse dimension {sparse:?}, made up: {defaults:?}");

    // Built; it is refused if it has no text.
    let tracks = Type::tensor_view(&[DYNAMIC, 16], &[16, 1], Scalar::F32)?;
    println!("{}", Type::gather_scatter_view(&[4], &tracks, 0)?);
    Ok(())
}
