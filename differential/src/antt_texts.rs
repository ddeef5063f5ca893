//! Texts and numbers with their coercions, as theorems.
use crate::antt::list;
use crate::gen::text;
use crate::model::coerce::Fit;
use crate::model::number::{f32_of_i64, i64_of_f32};
use crate::model::sheet::{Row, Sheet, STR};
use crate::model::text::{hash_text, parses_float, parts, trim};
use crate::rng::Rng;

const HEAD: &str = "-- Texts and numbers with their coercions.
use Rattle.std.specs.Prelude.{ℕ, ◌≡◌, refl, cond, List, [], ◌∷◌, map, length, Ok, Err}
use Rattle.numbers.specs.Words.{Bytes}
use Rattle.conversions.specs.Signed.{signed_of, word_of}
use Rattle.conversions.specs.Round.{f32_of}
use Rattle.conversions.specs.Trunc.{i64_of}
use Rattle.texts.specs.Text.{trimmed, parts}
use Rattle.texts.specs.Float.{parses_float}
use Rattle.coerce.specs.Numbers.{Fit, int_text, float_text, vec_text}
use Rattle.coerce.specs.declared.misfit.Misfit.TheVariants.{Unfit, FloatText}
use Rattle.names.specs.Names.{hash_text}
use Rattle.layout.specs.Eval

-- whether it is a float, the whole number, the f32, the four of a vector of two, the hash, the number of parts
data Reading : Type 0 where
  reading : ℕ → Fit ℕ → Fit ℕ → Fit (List ℕ) → ℕ → ℕ → Reading

read : Bytes → Reading
read t =
    reading (cond (parses_float (trimmed t)) 1 0) (int_text (trimmed t)) (float_text (trimmed t)) (vec_text 2 (parts t)) (hash_text t)
    (length (parts t))
";

fn fit<T>(x: Fit<T>, show: impl Fn(T) -> String) -> String {
    match x {
        Fit::Fits(x) => format!("(Ok {})", show(x)),
        Fit::Unfit => "(Err Unfit)".to_string(),
        Fit::FloatText => "(Err FloatText)".to_string(),
    }
}

fn reading(t: &[u8]) -> String {
    let row = Row { kind: STR, name: 0, a: 0, b: t.len() as u32, c: 0, d: 0 };
    let sheet = Sheet::of_text(t);
    let is_float = parses_float(trim(t)) as u32;
    let whole = fit(sheet.int_of(&row), |x| x.to_string());
    let single = fit(sheet.float_of(&row), |x| format!("0x{x:X}"));
    let pair = fit(sheet.vec_of(&row, 2), |v| format!("({})", list(v.iter().map(|x| format!("0x{x:X}")))));
    format!("reading {is_float} {whole} {single} {pair} 0x{:X} {}", hash_text(t), parts(t).count())
}

fn number(rng: &mut Rng) -> u64 {
    let x = match rng.below(4) {
        0 => (1u64 << rng.below(64)).wrapping_add(rng.below(3) as u64).wrapping_sub(1),
        1 => {
            // Ties and their neighbours.
            let e = rng.range(24, 63);
            (1u64 << e) + (1u64 << (e - 24)) * rng.below(4) as u64 + rng.below(3) as u64
        }
        _ => rng.next() >> rng.below(64),
    };
    if rng.chance(1, 3) { x.wrapping_neg() } else { x }
}

fn pattern(rng: &mut Rng) -> u32 {
    const EDGES: [u32; 14] = [
        0, 0x8000_0000, 0x3F80_0000, 0x3F7F_FFFF, 0xBFC0_0000, 0x7F80_0000, 0xFF80_0000, 0x7FC0_0000, 0x7F80_0001, 0x5F00_0000,
        0x5EFF_FFFF, 0xDF00_0000, 0xDF00_0001, 1,
    ];
    match rng.below(3) {
        0 => *rng.pick(&EDGES),
        1 => (rng.range(126, 191) as u32) << 23 | rng.u32() & 0x807F_FFFF,
        _ => rng.u32(),
    }
}

pub fn texts(seed: u64) -> String {
    let mut rng = Rng::of(seed, 0);
    let mut all: Vec<Vec<u8>> = text::known();
    while all.len() < 320 {
        let t = text::pieces(&mut rng);
        if !all.contains(&t) {
            all.push(t);
        }
    }
    let as_bytes = |t: &Vec<u8>| format!("({})", list(t.iter().map(|b| b.to_string())));
    let wholes: Vec<u64> = (0..260).map(|_| number(&mut rng)).collect();
    let patterns: Vec<u32> = (0..260).map(|_| pattern(&mut rng)).collect();
    format!(
        "{HEAD}\ntexts : List Bytes\ntexts = {}\n\nreadings : map read texts ≡ {}\nunfolding Eval.evaluated texts read\nreadings = refl\n\n\
         wholes : List ℕ\nwholes = {}\n\nsingles : map (λ x. f32_of (signed_of 64 x)) wholes ≡ {}\nunfolding Eval.evaluated wholes\nsingles = refl\n\n\
         patterns : List ℕ\npatterns = {}\n\ntruncated : map (λ b. word_of 64 (i64_of b)) patterns ≡ {}\nunfolding Eval.evaluated patterns\ntruncated = refl\n",
        list(all.iter().map(as_bytes)),
        list(all.iter().map(|t| reading(t))),
        list(wholes.iter().map(|x| format!("0x{x:X}"))),
        list(wholes.iter().map(|x| format!("0x{:X}", f32_of_i64(*x as i64)))),
        list(patterns.iter().map(|x| format!("0x{x:X}"))),
        list(patterns.iter().map(|x| format!("0x{:X}", i64_of_f32(*x) as u64))),
    )
}
