//! Stub: what the original `types.rs` names of its `bytecode` module. No answer depends on it.

#[derive(Debug, Clone, Copy)]
pub struct BytecodeVersion;

#[derive(Debug, Clone, Copy)]
pub enum TypeTag {
    I1,
    I4,
    I8,
    I16,
    I32,
    I64,
    F16,
    BF16,
    F32,
    TF32,
    F64,
    F8E4M3FN,
    F8E5M2,
    F8E8M0FNU,
    F4E2M1FN,
    F8E5M3FNU,
}
