//! How large a text and its program may be: as `tacflow` takes them, or with the feature `large` as `tacview --limits large` does.

const IS_LARGE: bool = cfg!(feature = "large");

pub const TEXT_LIMIT: usize = if IS_LARGE { 1 << 29 } else { 1 << 20 };
pub const PROCEDURE_LIMIT: usize = if IS_LARGE { 1 << 18 } else { 1 << 8 };
pub const POINT_LIMIT: usize = if IS_LARGE { 1 << 24 } else { 1 << 14 };
/// Of variables and of expressions.
pub const BIT_LIMIT: usize = if IS_LARGE { 1 << 22 } else { 1 << 12 };
/// The large limits have none of their own for definitions.
pub const DEFINITION_LIMIT: usize = if IS_LARGE { usize::MAX } else { BIT_LIMIT };

/// The number of a variable, a definition or an expression.
#[cfg(not(feature = "large"))]
pub type Bit = u16;
#[cfg(feature = "large")]
pub type Bit = u32;

/// A variable, definition or expression that there is not.
pub const NO_BIT: Bit = Bit::MAX;
