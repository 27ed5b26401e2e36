//! All tests of the comparison: that it is right, and that it can fail.

mod cases;
mod marked_cases;
mod wrapper;
mod wrong;
