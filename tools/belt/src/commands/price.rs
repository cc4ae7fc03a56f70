//! belt price: how many bits a header takes, without writing it.

use super::flag_and_prior;
use crate::cli::{Header, Type};
use crate::failure::Failure;
use crate::lists;
use crate::output::{print, shown};
use crate::report::json;
use crate::report::words::count;
use belt::{Kind, PriceList};
use serde::Serialize;
use std::fmt::Write;
use std::path::Path;

/// The bits of a frame's header.
pub fn frame(place: &Path, header: &Header, kind: Kind, json: bool) -> Result<(), Failure> {
    #[derive(Serialize)]
    struct Price {
        bits: usize,
    }
    let list = lists::models(place)?;
    let untyped = || Failure::bad(shown(place), "it names no types; begin each model with its own");
    let types = list.types.ok_or_else(untyped)?;
    let (flag, prior) = flag_and_prior(header)?;
    let price = belt::frame_price(kind, &types, &list.models, flag, &prior);
    let bits = price.map_err(|refusal| Failure::refused(shown(place), refusal))?;
    print(&match json {
        true => json::line(&Price { bits }),
        false => format!("{}: {} bits, {} bytes from bit 0 on\n", shown(place), count(bits), count(bits.div_ceil(8))),
    })
}

/// What the numbers of a slot cost.
pub fn slot(gm_type: Option<Type>, slot: u8, header: &Header, json: bool) -> Result<(), Failure> {
    let gm_type = gm_type.ok_or_else(|| Failure::bad("price", "it takes a file of models, or --type and --slot"))?;
    // about whatever prior, the counts are the same; this one lies in the range of every slot
    let prior = if slot == 2 || slot == 5 { 65536 } else { 0 };
    let prices = belt::coefficient_prices(gm_type as u8, header.precision as u8, slot, prior);
    let prices = prices.map_err(|refusal| Failure::refused(format!("slot {slot}"), refusal))?;
    print(&if json { for_programs(&prices) } else { in_words(&prices) })
}

/// A length that codes have, and how many have it.
#[derive(Serialize)]
struct Length {
    bits: usize,
    numbers: usize,
}

fn lengths(prices: &PriceList) -> Vec<Length> {
    let own = (PriceList::SHORTEST..).zip(prices.ordinals()).filter(|(_, ordinals)| **ordinals > 0);
    own.map(|(bits, &ordinals)| Length { bits, numbers: ordinals as usize }).collect()
}

fn in_words(prices: &PriceList) -> String {
    let mut out = "bits  numbers\n".to_string();
    for Length { bits, numbers } in lengths(prices) {
        let _ = writeln!(out, "{bits:>4}  {:>7}", count(numbers));
    }
    let all = lengths(prices).iter().map(|length| length.numbers).sum();
    let _ = writeln!(out, " all  {:>7}", count(all));
    out
}

fn for_programs(prices: &PriceList) -> String {
    #[derive(Serialize)]
    struct Prices {
        prices: Vec<Length>,
    }
    json::line(&Prices { prices: lengths(prices) })
}
