//! What a driver asks of `wuzhikar-hid`: what fields mean, the values of reports, and reports from values.

mod large;
mod limits;
mod physical;
