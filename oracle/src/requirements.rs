//! Stub: what the original `types.rs` names of its `requirements` module. No answer depends on it.

use crate::bytecode::BytecodeVersion;
use crate::ir::types::ScalarType;

pub struct Requirement {
    pub since: BytecodeVersion,
}

pub const fn scalar_requirement(_: ScalarType) -> Requirement {
    Requirement {
        since: BytecodeVersion,
    }
}
