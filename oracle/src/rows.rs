//! The rows of document 01's 'Rows to hold', with what it says of each.

pub const ROWS: [(&str, &str); 17] = [
    ("tile<f32>junk", "0 tile f32 pointer=0 attribute=0 shape=[] strides=[] tile=[] map=[] traversal=[] sparse=0 padding=none counts=0,0,0,0"),
    ("tile<f<xf32>", "0 tile f32 pointer=0 attribute=0 shape=[?] strides=[] tile=[] map=[] traversal=[] sparse=0 padding=none counts=1,0,0,0"),
    ("tile<xxf32>", "0 tile f32 pointer=0 attribute=0 shape=[?,?] strides=[] tile=[] map=[] traversal=[] sparse=0 padding=none counts=2,0,0,0"),
    ("tile<xxptr<f32>>", "0 tile f32 pointer=1 attribute=0 shape=[?] strides=[] tile=[] map=[] traversal=[] sparse=0 padding=none counts=1,0,0,0"),
    ("tile<4x !cuda_tile.ptr<f32>>", "0 tile f32 pointer=1 attribute=0 shape=[4,?] strides=[] tile=[] map=[] traversal=[] sparse=0 padding=none counts=1,0,0,0"),
    ("tensor_view<f32, strides=[]>", "0 tensor_view f32 pointer=0 attribute=0 shape=[] strides=[?] tile=[] map=[] traversal=[] sparse=0 padding=none counts=1,0,0,0"),
    ("tensor_view<4xf32>", "0 tensor_view f32 pointer=0 attribute=0 shape=[4] strides=[?] tile=[] map=[] traversal=[] sparse=0 padding=none counts=0,0,0,1"),
    ("partition_view<tile=(), tensor_view<f32>>", "0 partition_view f32 pointer=0 attribute=0 shape=[] strides=[] tile=[1] map=[0] traversal=[] sparse=0 padding=none counts=0,1,0,1"),
    ("gather_scatter_view<tile=(2), tensor_view<4xf32, strides=[1]>, sparse_dim=one>", "0 gather_scatter_view f32 pointer=0 attribute=0 shape=[4] strides=[1] tile=[2] map=[] traversal=[] sparse=0 padding=none counts=0,0,1,0"),
    ("token, #cuda_tile.ptr_a, #cuda_tile.ptr_attr<none>ttr<none>", "0 token i1 pointer=0 attribute=1 shape=[] strides=[] tile=[] map=[] traversal=[] sparse=0 padding=none counts=0,0,0,0"),
    (", #cuda_tile.ptr_attr<none>", "3"),
    ("tile<-9223372036854775808xf32>", "0 tile f32 pointer=0 attribute=0 shape=[?] strides=[] tile=[] map=[] traversal=[] sparse=0 padding=none counts=0,0,0,0"),
    ("tile<1x1x1x1x1x1x1x1xf32>", "0 tile f32 pointer=0 attribute=0 shape=[1,1,1,1,1,1,1,1] strides=[] tile=[] map=[] traversal=[] sparse=0 padding=none counts=0,0,0,0"),
    ("tile<1x1x1x1x1x1x1x1x1xf32>", "4"),
    ("", "3"),
    ("partition_view<tile=(4x8), tensor_view<?x16xf32, strides=[16, 1]>, dim_map=[1,0]>", "0 partition_view f32 pointer=0 attribute=0 shape=[?,16] strides=[16,1] tile=[4,8] map=[1,0] traversal=[] sparse=0 padding=none counts=0,0,0,0"),
    ("!cuda_tile.partition_view<tile=(4x8), tensor_view<?x16xf32, strides=[16,1]>, dim_map=[1,0]>", "0 partition_view f32 pointer=0 attribute=0 shape=[?,16] strides=[16,1] tile=[4,8] map=[1,0] traversal=[] sparse=0 padding=none counts=0,0,0,0"),
];

#[cfg(test)]
mod tests {
    use super::ROWS;
    use crate::{original, plain};

    #[test]
    fn the_plain_reading_holds_the_rows() {
        for (text, answer) in ROWS {
            assert_eq!(plain::read(text.as_bytes()).to_string(), answer, "{text}");
        }
    }

    #[test]
    fn the_original_holds_the_rows() {
        for (text, _) in ROWS {
            let plain = plain::read(text.as_bytes());
            let original = original::read(text.as_bytes());
            assert!(original.is_none_or(|answer| answer.agrees(&plain)), "{text}");
        }
    }
}
