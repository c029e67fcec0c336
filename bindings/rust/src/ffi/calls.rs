// tools/calls made this file from the exports of crates/unix_path_c/src: the calls by shape.
//
// Each macro passes the names of the calls of its shape to another macro. A call that answers a
// question is passed with the type of its answer.
#[allow(unused_macros)]
macro_rules! ask_nothing {
    ($each:ident) => {
        $each! {
            version -> u32;
        }
    };
}

#[allow(unused_macros)]
macro_rules! begin {
    ($each:ident) => {
        $each! {
            components;
        }
    };
}

#[allow(unused_macros)]
macro_rules! step {
    ($each:ident) => {
        $each! {
            next;
            next_back;
        }
    };
}

#[allow(unused_macros)]
macro_rules! left {
    ($each:ident) => {
        $each! {
            as_path;
        }
    };
}

#[allow(unused_macros)]
macro_rules! next_span {
    ($each:ident) => {
        $each! {
            next_ancestor;
        }
    };
}

#[allow(unused_macros)]
macro_rules! next_chunk {
    ($each:ident) => {
        $each! {
            next_chunk;
        }
    };
}

#[allow(unused_macros)]
macro_rules! find {
    ($each:ident) => {
        $each! {
            parent;
            file_name;
            file_stem;
            extension;
            file_prefix;
        }
    };
}

#[allow(unused_macros)]
macro_rules! find_of_two {
    ($each:ident) => {
        $each! {
            strip_prefix;
        }
    };
}

#[allow(unused_macros)]
macro_rules! ask_two {
    ($each:ident) => {
        $each! {
            starts_with -> bool;
            ends_with -> bool;
            equal -> bool;
            compare -> i32;
            common_dir -> usize;
        }
    };
}

#[allow(unused_macros)]
macro_rules! ask {
    ($each:ident) => {
        $each! {
            hash -> u64;
            is_utf8 -> bool;
            is_canonical -> bool;
            is_absolute -> bool;
            escapes -> bool;
            check_request -> i32;
            request_is_root -> bool;
            ends_in_slash -> bool;
        }
    };
}

#[allow(unused_macros)]
macro_rules! make_of_two {
    ($each:ident) => {
        $each! {
            join;
            with_file_name;
            with_extension;
            with_added_extension;
            join_beneath;
            join_in_root;
            join_verbatim;
            relative_path;
        }
    };
}

#[allow(unused_macros)]
macro_rules! make {
    ($each:ident) => {
        $each! {
            canonical;
            to_string_lossy;
            resolved;
            key;
            from_key;
            key_range_end;
        }
    };
}

#[allow(unused_macros)]
macro_rules! count_slots {
    ($each:ident) => {
        $each! {
            entries_scratch;
        }
    };
}

#[allow(unused_macros)]
macro_rules! check_entries {
    ($each:ident) => {
        $each! {
            check_entries;
        }
    };
}
