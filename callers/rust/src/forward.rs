//! Traits whose call is another call of the type, structs of the library, and types whose values have numbers.

macro_rules! forward {
    (PartialOrd for $($type:ty),*) => {
        $(impl PartialOrd for $type {
            fn partial_cmp(&self, other: &Self) -> Option<core::cmp::Ordering> {
                Some(self.cmp(other))
            }
        })*
    };
    ($(#[$doc:meta])* IntoIterator by $call:ident for [$($lifetime:lifetime),*] $type:ty as $iter:ty) => {
        $(#[$doc])*
        impl<$($lifetime),*> IntoIterator for $type {
            type Item = <$iter as Iterator>::Item;
            type IntoIter = $iter;

            fn into_iter(self) -> $iter {
                self.$call()
            }
        }
    };
    (AsRef by $call:ident for $type:ty) => {
        #[doc = concat!("As `", stringify!($call), "`.")]
        impl AsRef<[u8]> for $type {
            fn as_ref(&self) -> &[u8] {
                self.$call()
            }
        }
    };
    (TryFrom by $call:ident for $type:ident, $error:ty) => {
        #[doc = concat!("As [`", stringify!($call), "`](", stringify!($type), "::", stringify!($call), ").")]
        impl<'a> TryFrom<&'a [u8]> for $type<'a> {
            type Error = $error;

            fn try_from(octets: &'a [u8]) -> core::result::Result<$type<'a>, $error> {
                $type::$call(octets)
            }
        }
    };
}

/// An enum of numbers, and which of them has a number, or else this one.
macro_rules! numbered {
    ($(#[$meta:meta])* $visible:vis enum $name:ident or $other:ident {
        $($(#[$doc:meta])* $item:ident = $number:literal,)*
    }) => {
        $(#[$meta])*
        $visible enum $name {
            $($(#[$doc])* $item = $number,)*
        }

        impl $name {
            pub(crate) fn from_number(number: u32) -> $name {
                match number {
                    $($number => $name::$item,)*
                    _ => $name::$other,
                }
            }
        }
    };
}

/// The constants of identifiers.
macro_rules! identifiers {
    ($($name:ident = $($arc:literal),+ => $text:literal;)*) => {
        /// Some identifiers.
        impl ObjectIdentifier<'static> {
            $(#[doc = concat!("`", $text, "`")]
            pub const $name: ObjectIdentifier<'static> = crate::oid!($($arc),+);)*
        }
    };
}

/// The constants of errors, and their texts.
macro_rules! reasons {
    ($($name:ident = $number:literal, $text:literal;)*) => {
        /// Each reason, as `enum dm_error` names it.
        impl Reason {
            $(#[doc = concat!("\"", $text, "\", number ", $number, ".")]
            pub const $name: Reason = Reason($number);)*

            pub(crate) fn name(self) -> Option<&'static str> {
                match self {
                    $(Reason::$name => Some(stringify!($name)),)*
                    _ => None,
                }
            }

            #[cfg(test)]
            pub(crate) const TEXTS: &'static [(Reason, &'static str)] = &[$((Reason::$name, $text)),*];
        }
    };
}

/// The constants of tags.
macro_rules! universal {
    ($($constant:ident = $number:literal;)*) => {
        /// The tags of universal types (X.680 8.6, table 1).
        impl Tag {
            $(#[doc = concat!("Universal ", $number, ".")]
            pub const $constant: Tag = Tag::universal($number);)*
        }
    };
}

/// A call for each bit of a KeyUsage.
macro_rules! usages {
    ($($call:ident = $bit:literal, $name:literal;)*) => {
        impl KeyUsage {
            $(#[doc = concat!("Whether it has ", $name, ".")]
            pub fn $call(self) -> bool {
                self.bits() & $bit != 0
            })*

            /// The names of its bits, as in RFC 5280.
            pub fn names(self) -> impl Iterator<Item = &'static str> {
                let names = [$(($bit, $name)),*];
                names.into_iter().filter(move |(bit, _)| self.bits() & bit != 0).map(|(_, name)| name)
            }
        }
    };
}
