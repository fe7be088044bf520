//! The calls as they cross: slices in, one number out. Everything that is not Rust stands in this file.
//!
//! No call has a condition that Rust's types do not already keep: a slice has the length that is passed with it, what is
//! lent for writing overlaps nothing else since it is `&mut`, and nothing is kept after the call. Any lengths and any
//! bytes may be passed: what does not fit is refused, and then every slice holds what it held.

/// The six slices of a survey: n groups, m first ends, second ends and prices, and the pairs.
#[derive(Clone, Copy, Debug)]
pub struct Slices<'a> {
    pub groups: &'a [u8],
    pub firsts: &'a [u32],
    pub seconds: &'a [u32],
    pub weights: &'a [u32],
    pub owners: &'a [u32],
    pub others: &'a [u8],
}

/// The six slices that reading fills.
#[derive(Debug)]
pub struct Buffers<'a> {
    pub groups: &'a mut [u8],
    pub firsts: &'a mut [u32],
    pub seconds: &'a mut [u32],
    pub weights: &'a mut [u32],
    pub owners: &'a mut [u32],
    pub others: &'a mut [u8],
}

/// The same in bytes alone: four for each end, price and owner, lowest first.
#[derive(Clone, Copy, Debug)]
pub struct Bytes<'a> {
    pub groups: &'a [u8],
    pub firsts: &'a [u8],
    pub seconds: &'a [u8],
    pub weights: &'a [u8],
    pub owners: &'a [u8],
    pub others: &'a [u8],
}

/// Declares a C function and a safe one of the same parameters; `in` is a slice to read, `out` one to write, `by` a number.
macro_rules! calls {
    ($($(#[$about:meta])* $safe:ident = $name:ident($($param:ident: $way:tt $kind:ty),* $(,)?);)*) => {
        calls!(@declare $($name($($param: $way $kind),*);)*);
        $(calls!(@define $(#[$about])* $safe $name [] [] $($param: $way $kind,)*);)*
    };
    (@declare $($name:ident($($param:ident: $way:tt $kind:ty),*);)*) => {
        mod c {
            $(calls!(@one $name [] $($param: $way $kind,)*);)*
        }
    };
    (@one $name:ident [$($p:tt)*]) => { extern "C" { pub fn $name($($p)*) -> u64; } };
    (@one $name:ident [$($p:tt)*] $x:ident: in $t:ty, $($rest:tt)*) => { calls!(@one $name [$($p)* _: *const $t, _: usize,] $($rest)*); };
    (@one $name:ident [$($p:tt)*] $x:ident: out $t:ty, $($rest:tt)*) => { calls!(@one $name [$($p)* _: *mut $t, _: usize,] $($rest)*); };
    (@one $name:ident [$($p:tt)*] $x:ident: by $t:ty, $($rest:tt)*) => { calls!(@one $name [$($p)* _: $t,] $($rest)*); };
    (@define $(#[$about:meta])* $safe:ident $name:ident [$($p:tt)*] [$($a:tt)*]) => {
        $(#[$about])*
        #[allow(clippy::too_many_arguments)]
        pub fn $safe($($p)*) -> u64 {
            // Each pointer comes with the length of the slice that it is taken from, and the slices outlive the call.
            unsafe { c::$name($($a)*) }
        }
    };
    (@define $(#[$about:meta])* $safe:ident $name:ident [$($p:tt)*] [$($a:tt)*] $x:ident: in $t:ty, $($rest:tt)*) => {
        calls!(@define $(#[$about])* $safe $name [$($p)* $x: &[$t],] [$($a)* $x.as_ptr(), $x.len(),] $($rest)*);
    };
    (@define $(#[$about:meta])* $safe:ident $name:ident [$($p:tt)*] [$($a:tt)*] $x:ident: out $t:ty, $($rest:tt)*) => {
        calls!(@define $(#[$about])* $safe $name [$($p)* $x: &mut [$t],] [$($a)* $x.as_mut_ptr(), $x.len(),] $($rest)*);
    };
    (@define $(#[$about:meta])* $safe:ident $name:ident [$($p:tt)*] [$($a:tt)*] $x:ident: by $t:ty, $($rest:tt)*) => {
        calls!(@define $(#[$about])* $safe $name [$($p)* $x: $t,] [$($a)* $x,] $($rest)*);
    };
}

/// The functions of libfoamsickle.a, one parameter for each of its slices; include/foamsickle.h says what each does.
mod flat {
    calls! {
        version = foamsickle_version();
        read = foamsickle_read(
            text: in u8, groups: out u8, firsts: out u32, seconds: out u32, weights: out u32, owners: out u32,
            others: out u8, counts: out u64,
        );
        read_stp = foamsickle_read_stp(
            text: in u8, groups: out u8, firsts: out u32, seconds: out u32, weights: out u32, counts: out u64,
        );
        plan = foamsickle_plan(
            groups: in u8, firsts: in u32, seconds: in u32, weights: in u32, owners: in u32, others: in u8,
            marks: out u8, records: out u8, counts: out u64,
        );
        grow = foamsickle_grow(
            groups: in u8, firsts: in u32, seconds: in u32, weights: in u32, owners: in u32, others: in u8,
            marks: out u8, records: out u8, counts: out u64,
        );
        drop = foamsickle_drop(
            groups: in u8, firsts: in u32, seconds: in u32, weights: in u32, owners: in u32, others: in u8,
            marks: out u8, counts: out u64,
        );
        why = foamsickle_why(
            groups: in u8, firsts: in u32, seconds: in u32, weights: in u32, owners: in u32, others: in u8,
            track: by u32, route: out u32, counts: out u64,
        );
        closed = foamsickle_closed(
            groups: in u8, firsts: in u32, seconds: in u32, weights: in u32, owners: in u32, others: in u8,
            tracks: in u32, result: out u64,
        );
        winter = foamsickle_winter(
            groups: in u8, firsts: in u32, seconds: in u32, weights: in u32, owners: in u32, others: in u8,
            strengths: in u8, copies: out u8, counts: out u64,
        );
        merge = foamsickle_merge(
            groups: in u8, firsts: in u32, seconds: in u32, weights: in u32, owners: in u32, others: in u8,
            second_groups: in u8, second_firsts: in u32, second_seconds: in u32, second_weights: in u32,
            second_owners: in u32, second_others: in u8, tie_firsts: in u32, tie_seconds: in u32,
            out_groups: out u8, out_firsts: out u32, out_seconds: out u32, out_weights: out u32, out_owners: out u32,
            out_others: out u8, counts: out u64,
        );
        floor = foamsickle_floor(
            groups: in u8, firsts: in u32, seconds: in u32, weights: in u32, owners: in u32, others: in u8,
            counts: out u64,
        );
        check = foamsickle_check(
            groups: in u8, firsts: in u32, seconds: in u32, weights: in u32, owners: in u32, others: in u8,
            marks: in u8, records: in u8, counts: out u64,
        );
        print_dual = foamsickle_print_dual(part: in u8, out: out u8, counts: out u64);
        print_plan = foamsickle_print_plan(
            terminals: by u64, cost: by u64, bound: by u64, rounds: by u64, marks: in u8, records: in u8, out: out u8,
            counts: out u64,
        );
        print_survey = foamsickle_print_survey(
            groups: in u8, firsts: in u32, seconds: in u32, weights: in u32, owners: in u32, others: in u8, out: out u8,
            counts: out u64,
        );
        pack_table = foamsickle_pack_table(table: in u8, out: out u8);
        unpack_table = foamsickle_unpack_table(table: in u8, out: out u8);
        verify = foamsickle_verify(text: in u8, counts: out u64);
        season_add = foamsickle_season_add(
            report: out u8, groups: in u8, firsts: in u32, seconds: in u32, weights: in u32, owners: in u32,
            others: in u8,
        );
        season_print = foamsickle_season_print(report: in u8, out: out u8, counts: out u64);
        handset_plan = foamsickle_handset_plan(
            groups: in u8, firsts: in u8, seconds: in u8, weights: in u8, owners: in u8, others: in u8, marks: out u8,
            records: out u8, result: out u8,
        );
        handset_check = foamsickle_handset_check(
            groups: in u8, firsts: in u8, seconds: in u8, weights: in u8, owners: in u8, others: in u8, marks: in u8,
            records: in u8, result: out u8,
        );
    }
}

/// `counts` of `read_stp` takes n and m; what the others do include/foamsickle.h says.
pub use flat::{pack_table, print_dual, print_plan, read_stp, season_print, unpack_table, verify, version};

/// `counts` takes n, m and the number of pairs.
pub fn read(text: &[u8], b: Buffers, counts: &mut [u64]) -> u64 {
    flat::read(text, b.groups, b.firsts, b.seconds, b.weights, b.owners, b.others, counts)
}

/// `counts` takes sites, cost, bound, rounds and moats.
pub fn plan(s: Slices, marks: &mut [u8], records: &mut [u8], counts: &mut [u64]) -> u64 {
    flat::plan(s.groups, s.firsts, s.seconds, s.weights, s.owners, s.others, marks, records, counts)
}

/// `counts` takes planning's figures with cost 0.
pub fn grow(s: Slices, marks: &mut [u8], records: &mut [u8], counts: &mut [u64]) -> u64 {
    flat::grow(s.groups, s.firsts, s.seconds, s.weights, s.owners, s.others, marks, records, counts)
}

/// `counts` takes sites and cost.
pub fn drop(s: Slices, marks: &mut [u8], counts: &mut [u64]) -> u64 {
    flat::drop(s.groups, s.firsts, s.seconds, s.weights, s.owners, s.others, marks, counts)
}

/// `counts` takes the mark, the group, its two members, the number of tracks between them and the round.
pub fn why(s: Slices, track: u32, route: &mut [u32], counts: &mut [u64]) -> u64 {
    flat::why(s.groups, s.firsts, s.seconds, s.weights, s.owners, s.others, track, route, counts)
}

/// `result` takes for each track the refusal or 0, its place, the cost and the bound.
pub fn closed(s: Slices, tracks: &[u32], result: &mut [u64]) -> u64 {
    flat::closed(s.groups, s.firsts, s.seconds, s.weights, s.owners, s.others, tracks, result)
}

/// `copies` takes a byte for each track, `counts` the total price.
pub fn winter(s: Slices, strengths: &[u8], copies: &mut [u8], counts: &mut [u64]) -> u64 {
    flat::winter(s.groups, s.firsts, s.seconds, s.weights, s.owners, s.others, strengths, copies, counts)
}

/// `counts` takes n, m and the number of pairs of the result.
pub fn merge(
    first: Slices,
    second: Slices,
    tie_firsts: &[u32],
    tie_seconds: &[u32],
    out: Buffers,
    counts: &mut [u64],
) -> u64 {
    flat::merge(
        first.groups,
        first.firsts,
        first.seconds,
        first.weights,
        first.owners,
        first.others,
        second.groups,
        second.firsts,
        second.seconds,
        second.weights,
        second.owners,
        second.others,
        tie_firsts,
        tie_seconds,
        out.groups,
        out.firsts,
        out.seconds,
        out.weights,
        out.owners,
        out.others,
        counts,
    )
}

/// `counts` takes the floor, sites, cost and bound.
pub fn floor(s: Slices, counts: &mut [u64]) -> u64 {
    flat::floor(s.groups, s.firsts, s.seconds, s.weights, s.owners, s.others, counts)
}

/// `counts` takes sites, cost and bound.
pub fn check(s: Slices, marks: &[u8], records: &[u8], counts: &mut [u64]) -> u64 {
    flat::check(s.groups, s.firsts, s.seconds, s.weights, s.owners, s.others, marks, records, counts)
}

/// `counts` takes the text's length.
pub fn print_survey(s: Slices, out: &mut [u8], counts: &mut [u64]) -> u64 {
    flat::print_survey(s.groups, s.firsts, s.seconds, s.weights, s.owners, s.others, out, counts)
}

/// `report` is read and written.
pub fn season_add(report: &mut [u8], s: Slices) -> u64 {
    flat::season_add(report, s.groups, s.firsts, s.seconds, s.weights, s.owners, s.others)
}

/// `result` takes sites, cost, bound, rounds and moats, eight bytes each.
pub fn handset_plan(b: Bytes, marks: &mut [u8], records: &mut [u8], result: &mut [u8]) -> u64 {
    flat::handset_plan(b.groups, b.firsts, b.seconds, b.weights, b.owners, b.others, marks, records, result)
}

/// `result` takes sites, cost and bound, eight bytes each.
pub fn handset_check(b: Bytes, marks: &[u8], records: &[u8], result: &mut [u8]) -> u64 {
    flat::handset_check(b.groups, b.firsts, b.seconds, b.weights, b.owners, b.others, marks, records, result)
}
