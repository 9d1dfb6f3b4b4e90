//! Prints what crates/edges is to print, computed with Rust's own i128.
//! Build: rustc --edition 2021 -O -o target/edges_rust tools/edges/main.rs; run: target/edges_rust > crates/edges/stdout

fn line(label: &str, answer: Option<i128>) {
    match answer {
        Some(v) => println!("{label} = {v}"),
        None => println!("{label} = none"),
    }
}

// As eval_const_int of sema.rs: the exponent is a u32 or there is no value.
fn pow(base: i128, exponent: i128) -> Option<i128> {
    base.checked_pow(u32::try_from(exponent).ok()?)
}

fn main() {
    let (max, min) = (i128::MAX, i128::MIN);
    let e32 = (1i128 << 32) - 1;
    line("(-2)**127", pow(-2, 127));
    line("2**127", pow(2, 127));
    line("(-1)**(2^32 - 1)", pow(-1, e32));
    line("1**(2^32 - 1)", pow(1, e32));
    line("2**(2^32 - 1)", pow(2, e32));
    line("1**(2^32)", pow(1, e32 + 1));
    line("1**(-1)", pow(1, -1));
    line("0**0", pow(0, 0));
    line("-7/2", (-7i128).checked_div(2));
    line("7/-2", 7i128.checked_div(-2));
    line("7/0", 7i128.checked_div(0));
    line("-2^127 / -1", min.checked_div(-1));
    line("(2^127 - 1) / (2^64 + 1)", max.checked_div((1 << 64) + 1));
    line("2^63 * 2^64", (1i128 << 63).checked_mul(1 << 64));
    line("-2^63 * 2^64", (-(1i128 << 63)).checked_mul(1 << 64));
    let word = u64::MAX as i128;
    line("(2^64 - 1) * (2^63 - 1)", word.checked_mul((1 << 63) - 1));
    line("(2^64 - 1) * (2^64 - 1)", word.checked_mul(word));
    line("max + 0", max.checked_add(0));
    line("max + 1", max.checked_add(1));
    line("max - 1", max.checked_sub(1));
    line("max - -1", max.checked_sub(-1));
    line("max * 1", max.checked_mul(1));
    line("max * -1", max.checked_mul(-1));
    line("max / -1", max.checked_div(-1));
    line("max ** 1", pow(max, 1));
    line("-max", max.checked_neg());
    line("min + 0", min.checked_add(0));
    line("min + -1", min.checked_add(-1));
    line("min - 1", min.checked_sub(1));
    line("min + max", min.checked_add(max));
    line("min * 1", min.checked_mul(1));
    line("min * -1", min.checked_mul(-1));
    line("min / 1", min.checked_div(1));
    line("min ** 1", pow(min, 1));
    line("min ** 2", pow(min, 2));
    line("-min", min.checked_neg());
}
