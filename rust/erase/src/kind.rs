//! The written list of what is erased and rewritten. What no row says is a fault.

/// A kind, and with which tokens the text of one may begin. Where nothing is taken out, it is none.
pub const KINDS: &[(&str, &[&str])] = &[
    // what is taken out
    ("ensures", &["ensures"]),
    ("requires", &["requires"]),
    ("ghost member", &["ghost"]),
    ("ghost use", &["ghost"]),
    ("impl Model", &["impl"]),
    ("use Model", &["use"]),
    ("mod laws", &["pub"]),
    ("tactic", &["#"]),
    ("cycle", &["#"]),
    ("final", &["final"]),
    ("derived Drop", &["Drop", ",", "#"]),
    ("derived Debug of a set", &["Debug"]),
    ("macro_export", &["#"]),
    ("writer parameter", &["<", "W"]),
    // what stands in its place
    ("derived Drop -> Clone", &["Drop"]),
    ("derived Drop -> Clone, Default", &["Drop"]),
    ("call of a set", &["bits", "contains", "from_bits_retain"]),
    ("bound Drop -> Sized", &["Drop"]),
    ("Formatter<W> -> Formatter<'_>", &["W"]),
    ("fn flags -> const FLAGS", &["fn", "{", "}"]),
    ("Flag { .. } -> Flag::new(..)", &["Flag", "value", "}"]),
    (
        "call that takes memory",
        &["push", "reserve", "reserve_exact", "new", "vec"],
    ),
    ("path of its own crate", &["crate"]),
    ("path of a library", &crate::LIBRARIES),
    ("path of tests", &crate::TESTS),
    ("path of std::alloc", &["std"]),
    // what is put in
    ("use of a macro", &[""]),
    ("use of a macro in lib", &[""]),
    ("use of memory", &[""]),
    ("derived Debug in tests", &[""]),
    ("derived Serialize", &[""]),
    ("field of a set", &[""]),
    ("non_exhaustive", &[""]),
    ("inline", &[""]),
    // in the library for C
    ("no_mangle", &["#"]),
    ("extern C", &["extern"]),
    ("pub(crate) of a module", &[""]),
    // in the crates of tests
    ("runtime of a test", &["rt"]),
    ("let of the runtime", &[""]),
    ("mod of a program's tests", &["#"]),
    (
        "call in a test that takes memory",
        &[
            "extend_from_slice",
            "format",
            "new",
            "push_str",
            "to_vec",
            "vec",
        ],
    ),
    ("path of std::test", &["std"]),
    ("path of hex", &["hex"]),
    ("use of testing", &[""]),
];
