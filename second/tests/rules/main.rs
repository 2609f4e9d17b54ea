//! The rules of the paper, one file a subject. Expected values are worked out
//! by hand from the paper's sentences.

mod archive;
mod channel_kinds;
mod channels;
mod commands;
mod depths;
mod form_kinds;
mod generated;
mod instructions;
mod kinds;
mod line_kinds;
mod lines;
mod marked;
mod module_kinds;
mod modules;
mod oracle;
mod pairs;
mod procedures;
mod refusals;
mod results;
mod rig;
mod saved;
mod table;
mod transfer;
mod trap_kinds;
mod traps;
mod whole;
