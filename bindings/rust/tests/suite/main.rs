//! What the types and the calls return: by rows, and compared with `std::path` or with a model.
mod archive;
mod edits;
mod families;
mod keys;
mod owners;
mod pairs;
mod requests;
mod rows;
mod singles;
mod strings;
mod texts;
