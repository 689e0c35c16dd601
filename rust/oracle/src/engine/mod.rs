//! The modules of wasmi at the places where state.rs looks for them.

pub use crate::stand_ins::errors::{ResumableHostTrapError, ResumableOutOfFuelError};
pub use crate::stand_ins::limits::StackConfig;

/// wasmi's own, unchanged.
pub mod utils {
    include!(concat!(env!("OUT_DIR"), "/utils.rs"));
}

pub mod executor {
    pub use crate::stand_ins::cells::{Cell, CellError, CellsReader, CellsWriter, InOutParams, LoadFromCellsByValue, StoreToCells};

    pub mod handler {
        pub mod state;

        pub mod dispatch {
            pub use crate::stand_ins::errors::{Control, ExecutionOutcome};
        }

        pub mod utils {
            pub use crate::stand_ins::instance::extract_mem0;
        }
    }
}
