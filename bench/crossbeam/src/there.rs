//! The programs over crossbeam-epoch itself.

use ::there as epoch;

#[path = "../../../bindings/crossbeam-epoch/tests/common/nodes.rs"]
mod nodes;

include!("programs.rs");
