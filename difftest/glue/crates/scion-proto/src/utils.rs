//! Glue, on the byte path: the macro that makes an enum of a byte's known values and one case for the others.

/// An enum over a number type: each known number a case, any other number in the last case.
macro_rules! encoded_type {
    (
        $(#[$enum_attr:meta])*
        $vis:vis enum $name:ident($number:ty) {
            $($(#[$known_attr:meta])* $known:ident = $value:literal),+;
            $(#[$other_attr:meta])* $other:ident = _ $(,)?
        }
    ) => {
        $(#[$enum_attr])*
        #[derive(Debug, Clone, Copy, PartialEq, Eq, PartialOrd, Ord, Hash)]
        $vis enum $name {
            $($(#[$known_attr])* $known,)+
            $(#[$other_attr])* $other($number),
        }

        impl From<$number> for $name {
            fn from(number: $number) -> Self {
                match number {
                    $($value => Self::$known,)+
                    _ => Self::$other(number),
                }
            }
        }

        impl From<$name> for $number {
            fn from(case: $name) -> Self {
                match case {
                    $($name::$known => $value,)+
                    $name::$other(number) => number,
                }
            }
        }
    };
}

pub(crate) use encoded_type;
