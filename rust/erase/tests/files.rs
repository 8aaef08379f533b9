//! What is left of small files, and what is refused.

use erase::audit::audit_text;
use erase::erase;

/// The erased text, which the audit accepts.
fn erased(text: &str) -> String {
    let erased = erase("file.rt", "npr_base", text).expect("a file that is known");
    let audited = audit_text("file.rt", "npr_base", text, &erased.text);
    assert_eq!(audited, Ok(erased.tally));
    erased.text
}

fn refusal(text: &str) -> String {
    erase("file.rt", "npr_base", text).map_or_else(|fault| fault.to_string(), |e| e.text)
}

fn audited(was: &str, is: &str) -> String {
    audit_text("file.rt", "npr_base", was, is)
        .map_or_else(|fault| fault.to_string(), |tally| format!("{tally:?}"))
}

#[test]
fn clauses_become_comments() {
    let was = "fn f(x: u8) -> u8\n    // why\n    requires small { x < 9 }\n    ensures { result ≡ x }\n{\n    x\n}\n";
    let is = "#[inline] fn f(x: u8) -> u8\n    // why\n    // requires small { x < 9 }\n    // ensures { result ≡ x }\n{\n    x\n}\n";
    assert_eq!(erased(was), is);
}

#[test]
fn a_semicolon_stays_on_its_line() {
    assert_eq!(
        erased("fn f()\n    ensures { ⊤ };\n"),
        "fn f()\n    ; // ensures { ⊤ };\n"
    );
}

#[test]
fn ghost_members_take_their_words_along() {
    let was =
        "trait T {\n    /// It.\n    ghost it: { Self → ℕ };\n\n    /// F.\n    final fn f();\n}\n";
    let is =
        "trait T {\n    // /// It.\n    // ghost it: { Self → ℕ };\n\n    /// F.\n    fn f();\n}\n";
    assert_eq!(erased(was), is);
}

#[test]
fn what_is_dropped_is_cloned() {
    assert_eq!(
        erased("#[derive(Debug, Drop, Eq)]\nstruct S;\n"),
        "#[derive(Debug, Clone, Eq)]\nstruct S;\n"
    );
    assert_eq!(
        erased("#[derive(Drop)]\nstruct S;\n"),
        "#[derive(Clone)]\nstruct S;\n"
    );
    assert_eq!(
        erased("#[derive(Clone, Drop)]\nstruct S;\n"),
        "#[derive(Clone)]\nstruct S;\n"
    );
}

const SERIALIZE: &str = "#[cfg_attr(feature = \"serde\", derive(serde::Serialize))]";

/// What is public and held by messages: no set, nothing that borrows, no layout and no refusal.
#[test]
fn what_messages_hold_is_serialized() {
    let growing = "#[cfg_attr(not(upstream), non_exhaustive)]";
    assert_eq!(
        erased("#[derive(Drop, Eq)]\npub enum NetlinkPayload<I> {}\n"),
        format!("#[derive(Clone, Eq)] {SERIALIZE}\n{growing} pub enum NetlinkPayload<I> {{}}\n")
    );
    assert_eq!(
        erased("#[derive(Clone)]\npub struct TcHandle {}\n"),
        format!("#[derive(Clone)] {SERIALIZE}\npub struct TcHandle {{}}\n")
    );
    for held_by_none in [
        "struct Stop {}",
        "pub struct Values<'a, A> {}",
        "pub enum Answer<'a> {}",
        "pub struct RuleMessageBuffer {}",
        "pub struct Looks {}",
        "pub struct S(pub(crate) u8);",
    ] {
        let text = format!("#[derive(Clone)]\n{held_by_none}\n");
        assert_eq!(erased(&text), text);
    }
}

#[test]
fn the_audit_sees_what_is_serialized() {
    let told = |was| {
        let put = "# [ cfg_attr ( feature =";
        format!("file.rt:1: no written form says that `{was}` becomes `{put}`")
    };
    let with = |was| audited(was, &format!("{SERIALIZE} {was}"));
    assert_eq!(with("pub struct S {}"), r#"{"derived Serialize": 1}"#);
    assert_eq!(with("pub enum E<I> {}"), r#"{"derived Serialize": 1}"#);
    assert_eq!(with("pub struct S(u8);"), told("pub struct S ( u8 )"));
    assert_eq!(with("pub enum E<'a> {}"), told("pub enum E < 'a >"));
}

#[test]
fn sets_have_calls_of_their_own() {
    assert_eq!(
        erased("#[derive(Clone, Copy, Debug, Eq)]\npub struct S(u8);\n"),
        "#[derive(Clone, Copy, Eq)] #[cfg_attr(test, derive(Debug))]\npub struct S(pub(crate) u8);\n"
    );
    assert_eq!(
        erased("fn f() { S::from_bits_retain(s.bits()).contains(s) }"),
        "#[inline] fn f() { S::from_bits_retain_in(s.bits_in()).contains_in(s) }\n"
    );
    assert_eq!(
        refusal("#[derive(Clone, Debug)]\npub struct S(u8);\n"),
        "file.rt:1: `Debug,` was expected"
    );
}

#[test]
fn what_may_grow_is_told() {
    let was = "pub enum RouteType {}\npub enum Action {}\npub struct Message<A> {}\npub struct RouteHeader {}\n";
    let is = "#[cfg_attr(not(upstream), non_exhaustive)] pub enum RouteType {}\npub enum Action {}\n#[cfg_attr(not(upstream), non_exhaustive)] pub struct Message<A> {}\npub struct RouteHeader {}\n";
    assert_eq!(erased(was), is);
}

#[test]
fn addresses_are_those_of_the_standard_library() {
    let erased_as = |path, text| {
        let erased = erase(path, "npr_base", text)?;
        let audited = audit_text(path, "npr_base", text, &erased.text)?;
        assert_eq!(audited, erased.tally);
        Ok::<_, erase::Fault>(erased.text)
    };
    let was = "//! It.\n\npub struct Ipv4Addr {}\npub struct Ipv6Addr {}\npub enum IpAddr {}\n";
    let is = "//! It.\npub use std::net::{IpAddr, Ipv4Addr, Ipv6Addr};\n// pub struct Ipv4Addr {}\n// pub struct Ipv6Addr {}\n// pub enum IpAddr {}\n";
    assert_eq!(erased_as("src/ip.rt", was).as_deref(), Ok(is));
    let more = erased_as("src/ip.rt", "\npub struct MacAddr {}\n");
    let told = more.map_err(|fault| fault.to_string());
    assert_eq!(
        told.expect_err("another type"),
        "src/ip.rt:2: three types of addresses were expected"
    );
}

#[test]
fn crates_are_modules() {
    let was = "use npr_route_values::A;\nuse std::alloc::Global;\nuse crate::b::{self, C};\n";
    let is = "use crate::npr_route_values::A; use crate::memory::{SetIn as _, StringIn as _, VecIn as _};\nuse crate::memory::Global;\nuse crate::npr_base::b::{self, C};\n";
    assert_eq!(erased(was), is);
}

#[test]
fn functions_with_bodies_are_hinted() {
    let was = "pub final fn f(x: fn(u8)) -> u8 requires r { x } { x }\nfn g();\n#[inline(never)]\n#[cycle(c)]\nfn h() {}\n";
    let is = "#[inline] pub fn f(x: fn(u8)) -> u8 { x }\nfn g();\n#[inline(never)]\n// #[cycle(c)]\nfn h() {}\n";
    assert_eq!(erased(was), is);
    let is = "#[inline] pub(crate) const fn f() {}\n";
    assert_eq!(erased("pub(crate) const fn f() {}"), is);
}

#[test]
fn what_is_not_known_is_refused() {
    assert_eq!(
        refusal("\n#[inlined]\nfn f() {}\n"),
        "file.rt:2: the attribute `inlined` is not known"
    );
    assert_eq!(
        refusal("fn f()\n    requires x\n{}\n"),
        "file.rt:2: a body or a clause was expected behind this one"
    );
    assert_eq!(
        refusal("fn f() { prove!(1); }"),
        "file.rt:1: `prove` is not known here"
    );
    assert_eq!(refusal("fn f() { λ }"), "file.rt:1: `λ` is not known here");
    assert_eq!(
        refusal("fn f() { 1 ≤ 2 }"),
        "file.rt:1: `≤` is not known here"
    );
    assert_eq!(
        refusal("/* */"),
        "file.rt:1: no token is known that begins so"
    );
    assert_eq!(
        refusal("fn f() -> Drop {}"),
        "file.rt:1: `Drop` is known as a bound, a variant and in `derive` alone"
    );
    assert_eq!(
        refusal("impl Drop for S {}"),
        "file.rt:1: `impl Drop` is not known"
    );
    assert_eq!(refusal("fn f(\n{ )"), "file.rt:2: brackets don't match");
    assert_eq!(
        refusal("ghost x"),
        "file.rt:1: what is ghost here has no end"
    );
}

#[test]
fn the_audit_sees_what_is_cut_put_in_and_moved() {
    let told = |was, is| format!("file.rt:1: no written form says that `{was}` becomes `{is}`");
    assert_eq!(audited("f()?;", "f();"), told("? ;", ";"));
    assert_eq!(audited("f();", "f(x);"), told(") ;", "x ) ;"));
    assert_eq!(
        audited("be16(x)", "le16(x)"),
        told("be16 ( x )", "le16 ( x )")
    );
    assert_eq!(audited("a => b, c => d,", "a => b,"), told("c = > d ,", ""));
    assert_eq!(audited("a b", "a\nb"), told("b", "b"));
    assert_eq!(
        audited(
            "f(pub struct S)",
            "f(#[cfg_attr(not(upstream), non_exhaustive)] pub struct S)"
        ),
        r#"{"non_exhaustive": 1}"#
    );
    assert_eq!(
        audited(
            "f(struct S)",
            "f(#[cfg_attr(not(upstream), non_exhaustive)] struct S)"
        ),
        told("struct S )", "# [ cfg_attr ( not (")
    );
    assert_eq!(
        audited("ensures { a }", "ensures { a }"),
        told("", "ensures { a }")
    );
}

#[test]
fn calls_of_c_are_calls_of_rust() {
    let was = "mod steps;\n#[unsafe(no_mangle)]\npub extern \"C\" fn npr_f(bytes: &[u8]) -> u32 {\n    0\n}\n";
    let is = "pub(crate) mod steps;\n// #[unsafe(no_mangle)]\n#[inline] pub fn npr_f(bytes: &[u8]) -> u32 {\n    0\n}\n";
    let erased = erase("file.rt", "npr_c", was).expect("a file that is known");
    let audited = audit_text("file.rt", "npr_c", was, &erased.text);
    assert_eq!(audited, Ok(erased.tally));
    assert_eq!(erased.text, is);
    assert_eq!(
        refusal("#[unsafe(no_mangle)]\nfn f() {}\n"),
        "file.rt:1: the attribute `unsafe` is not known"
    );
}
