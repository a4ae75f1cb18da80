//! What `wuzhikar` does: endpoint 0, the keys, and commands that outlive faults and cuts.

mod board;
mod commands;
mod layouts;
mod wavering;
