pub use serde::*;
