//! The pair of document 01's plan, whose table is built at once.

pub const PLAN_MX: &str = "100000110000001000000100000010000001";
/// The identity matrix.
pub const PLAN_MY: &str = "100000010000001000000100000010000001";
