//! The programs over the drop-in of this repository.

use ::here as epoch;

#[path = "../../../bindings/crossbeam-epoch/tests/common/nodes.rs"]
mod nodes;

include!("programs.rs");
