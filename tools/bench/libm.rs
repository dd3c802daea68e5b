//! Stands in for the crate `libm`: the C library's functions, called straight.
macro_rules! from_c { ($($name:ident($($x:ident),*));* $(;)?) => {
    mod c {
        #[link(name = "m")]
        extern "C" { $(pub fn $name($($x: f64),*) -> f64;)* }
    }
    // SAFETY: these C functions take and give doubles and touch no memory of ours.
    $(pub fn $name($($x: f64),*) -> f64 { unsafe { c::$name($($x),*) } })*
}; }
from_c! { exp(x); log(x); log10(x); sin(x); cos(x); tan(x); tanh(x); pow(x, y) }

pub fn sqrt(x: f64) -> f64 {
    x.sqrt()
}
pub fn floor(x: f64) -> f64 {
    x.floor()
}
pub fn ceil(x: f64) -> f64 {
    x.ceil()
}
