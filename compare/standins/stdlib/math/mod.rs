//! Stand-in: the math functions of the left-out instructions. Of the given files below, only
//! `mod_runtime` and `mod_const` are compared.

use crate::numeric::{Platform, PostOp};

mod arithmetic;
mod random;

pub use arithmetic::{abs, copy_sign, exp, ln, max, min, mod_const, mod_runtime, pow, sign, sqrt};
pub use random::{DieRoll, random, random_folded, random_integer, random_integer_const_bounds};

/// Functions that no compared instruction calls.
macro_rules! not_compared {
    ($arguments:tt $($name:ident)*) => {
        $(not_compared!(@one $name $arguments);)*
    };
    (@one $name:ident ($($argument:ident)*)) => {
        pub fn $name(_platform: Platform, $($argument: f32,)* _post: PostOp) -> f32 {
            unreachable!("not compared")
        }
    };
}

not_compared! { (_x) acos asin atan ceil cos floor hermite_blend min_angle round sin trunc }
not_compared! { (_x) offset_first }
not_compared! { (_a _b) atan2 }
not_compared! { (_a _b _c)
    clamp lerp lerprotate inverse_lerp
    ease_in_quad ease_out_quad ease_in_out_quad ease_in_cubic ease_out_cubic ease_in_out_cubic
    ease_in_quart ease_out_quart ease_in_out_quart ease_in_quint ease_out_quint ease_in_out_quint
    ease_in_sine ease_out_sine ease_in_out_sine ease_in_expo ease_out_expo ease_in_out_expo
    ease_in_circ ease_out_circ ease_in_out_circ ease_in_bounce ease_out_bounce ease_in_out_bounce
    ease_in_back ease_out_back ease_in_out_back
    ease_in_elastic ease_out_elastic ease_in_out_elastic
}

mod transcendental {
    use crate::numeric::Platform;

    pub fn exp(_platform: Platform, _x: f32) -> f32 {
        unreachable!("not compared")
    }

    pub fn ln(_platform: Platform, _x: f32) -> f32 {
        unreachable!("not compared")
    }

    pub fn pow(_platform: Platform, _a: f32, _b: f32) -> f32 {
        unreachable!("not compared")
    }
}

mod formula {
    use crate::numeric::Platform;

    pub enum Sort {
        RunTime,
        Literal,
    }

    pub fn sorted_bounds(_sort: Sort, _a: f32, _b: f32) -> (f32, f32) {
        unreachable!("not compared")
    }

    pub fn integer_reach(_platform: Platform, _hi: f32) -> f32 {
        unreachable!("not compared")
    }

    pub fn interpolate(_platform: Platform, _lo: f32, _hi: f32, _r: f32) -> f32 {
        unreachable!("not compared")
    }

    pub fn integer_draw(_platform: Platform, _lo: f32, _hi: f32, _reach: f32, _r: f32) -> f32 {
        unreachable!("not compared")
    }

    pub fn roll(_platform: Platform, _sum: f32, _lo: f32, _hi: f32, _r: f32) -> f32 {
        unreachable!("not compared")
    }

    pub fn integer_roll(
        _platform: Platform,
        _sum: f32,
        _lo: f32,
        _hi: f32,
        _reach: f32,
        _r: f32,
    ) -> f32 {
        unreachable!("not compared")
    }
}
