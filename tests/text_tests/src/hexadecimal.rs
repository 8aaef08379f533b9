//! Hexadecimal text: what stands for bytes, and where anything else is wrong.

use hex_text::{Place, bytes_of};
use npr_testing::{same, shows};
use std::test::Fail;

/// The texts, between bars, are printed so as bytes.
fn are_bytes(rt: &impl AllocGlobal, texts: &str, wanted: &str) -> Result<(), Fail> {
    for text in texts.split('|') {
        shows(rt, bytes_of(rt.alloc(), text.as_bytes()), wanted)?;
    }
    Ok(())
}

#[test]
fn hexadecimal_text(rt: HostRuntime) -> Result<(), Fail> {
    let texts = "0aFf10| 0A\tfF\r\n10\n|0aff 10   ";
    are_bytes(&rt, texts, "Ok([10, 255, 16])")?;
    let texts = "0x0aff10|0x0a 0Xff:10|0a:FF:10 # a # b|#\n0a\n# 0b\nff10#";
    are_bytes(&rt, texts, "Ok([10, 255, 16])")?;
    are_bytes(&rt, "| \n|#|0x|0x0X|: # 0", "Ok([])")?;
    are_bytes(&rt, "0 2|0|0g|0#|0:0|0\n0", "Err(Bad(1))")?;
    are_bytes(&rt, "0a,10|0a\x0b10|00x|0ax10|#\nx", "Err(Bad(2))")?;
    are_bytes(&rt, "0aF|0x0|0a g|0x \x0b", "Err(Bad(3))")
}

/// Behind this text stand this line and column.
fn is_place(rt: &impl AllocGlobal, text: &str, wanted: &str) -> Result<(), Fail> {
    let place = format!(in rt.alloc(); "{}", Place::behind(text.as_bytes()))?;
    same(place.as_str(), wanted)
}

#[test]
fn places_in_a_text(rt: HostRuntime) -> Result<(), Fail> {
    is_place(&rt, "", "line 1, column 1")?;
    is_place(&rt, "0a 0", "line 1, column 5")?;
    is_place(&rt, "0a\n", "line 2, column 1")?;
    is_place(&rt, "\n\n\t0a", "line 3, column 4")
}
