//! Stand-in: the operators that the given files name. Only the compiler, which is not given,
//! turns them into instructions.

macro_rules! operators {
    ($($name:ident)*) => {
        #[derive(Copy, Clone, Debug, PartialEq, Eq)]
        pub enum ExpressionOp {
            $($name,)*
        }
    };
}

operators! {
    Abs Acos Asin Atan Ceil Cos Exp Floor HermiteBlend Ln MinAngle Round Sin Sign Sqrt Trunc
    Atan2 CopySign Max Min Pow
    Clamp Lerp LerpRotate InverseLerp
    EaseInQuad EaseOutQuad EaseInOutQuad EaseInCubic EaseOutCubic EaseInOutCubic
    EaseInQuart EaseOutQuart EaseInOutQuart EaseInQuint EaseOutQuint EaseInOutQuint
    EaseInSine EaseOutSine EaseInOutSine EaseInExpo EaseOutExpo EaseInOutExpo
    EaseInCirc EaseOutCirc EaseInOutCirc EaseInBounce EaseOutBounce EaseInOutBounce
    EaseInBack EaseOutBack EaseInOutBack EaseInElastic EaseOutElastic EaseInOutElastic
    LessThan LessEqual GreaterEqual GreaterThan LogicalEqual LogicalNotEqual
    Pi
}

impl ExpressionOp {
    /// The operator's spelling, where the given files ask for it.
    pub const fn token(self) -> Option<&'static str> {
        match self {
            Self::Pi => Some("math.pi"),
            _ => None,
        }
    }
}
