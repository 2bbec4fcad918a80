//! The method of RFC 5389.
use crate::{sys, Method};

/// Binding method.
pub const BINDING: Method = Method(sys::BINDING);
