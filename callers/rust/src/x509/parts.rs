//! What types of certificates have in common: they are structs of the library, or lists of its items.

/// A type over a struct of the library, and a call for each part. A part that may be absent has the name of the field
/// `where` that is said. A number that is 0 or 1 has the name of its call behind `=>`. A struct that is read `by` a call
/// has all octets of the input too. What is secret isn't shown: then one part is.
macro_rules! parts {
    (
        $(#[$meta:meta])* $name:ident: $fields:ident $(by $kept:ident)? $(from $read:ident)? $(showing $shown:ident)?;
        $($(#[$doc:meta])* $part:ident $(as $type:ty $(where $has:ident)?)? $(=> $flag:ident)?,)*
    ) => {
        parts! { @type [$(#[$meta])*] $name $fields $($kept)? }
        $(parts! { @from $name $read })?
        parts! { @calls $name {} $([[$(#[$doc])*] $part $($type $(where $has)?)? $(=> $flag)?])* }

        impl core::fmt::Debug for $name<'_> {
            fn fmt(&self, f: &mut core::fmt::Formatter<'_>) -> core::fmt::Result {
                let mut shown = f.debug_struct(stringify!($name));
                $(return shown.field(stringify!($shown), &self.$shown()).finish_non_exhaustive();)?
                #[allow(unreachable_code)]
                {
                    $($(parts! { @show shown, self, $part $type })? $(parts! { @show shown, self, $flag u32 })?)*
                    shown.finish()
                }
            }
        }
    };
    (@calls $name:ident {$($calls:tt)*}) => {
        impl<'a> $name<'a> {
            $($calls)*
        }
    };
    (@calls $name:ident {$($calls:tt)*} [[$($doc:tt)*] $part:ident => $flag:ident] $($rest:tt)*) => {
        parts! { @calls $name {
            $($calls)*

            $($doc)*
            pub fn $flag(&self) -> bool {
                self.0.$part != 0
            }
        } $($rest)* }
    };
    (@calls $name:ident {$($calls:tt)*} [[$($doc:tt)*] $part:ident $type:ty where $has:ident] $($rest:tt)*) => {
        parts! { @calls $name {
            $($calls)*

            $($doc)*
            pub fn $part(&self) -> Option<$type> {
                (self.0.$has != 0).then(|| self.0.$part.into())
            }
        } $($rest)* }
    };
    (@calls $name:ident {$($calls:tt)*} [[$($doc:tt)*] $part:ident $type:ty] $($rest:tt)*) => {
        parts! { @calls $name {
            $($calls)*

            $($doc)*
            pub fn $part(&self) -> $type {
                self.0.$part.into()
            }
        } $($rest)* }
    };
    (@show $shown:ident, $self:ident, $part:ident $type:ty) => {
        $shown.field(stringify!($part), &$self.$part());
    };
    (@type [$($meta:tt)*] $name:ident $fields:ident) => {
        $($meta)*
        #[derive(Clone, Copy, PartialEq, Eq, Hash)]
        pub struct $name<'a>(crate::ffi::$fields<'a>);

        impl<'a> From<crate::ffi::$fields<'a>> for $name<'a> {
            fn from(fields: crate::ffi::$fields<'a>) -> $name<'a> {
                $name(fields)
            }
        }
    };
    (@from $name:ident $read:ident) => {
        impl<'a> $name<'a> {
            /// Reads it in DER, by its ASN.1, without trailing data.
            pub fn from_der(octets: &'a [u8]) -> crate::Result<$name<'a>> {
                crate::ffi::$read(octets).map($name)
            }
        }

        forward!(TryFrom by from_der for $name, crate::Error);
    };
    (@type [$($meta:tt)*] $name:ident $fields:ident $read:ident) => {
        $($meta)*
        #[derive(Clone, Copy, PartialEq, Eq, Hash)]
        pub struct $name<'a>(crate::ffi::$fields<'a>, &'a [u8]);

        impl<'a> $name<'a> {
            /// Reads it in DER, by its ASN.1, without trailing data.
            pub fn from_der(input: &'a [u8]) -> crate::Result<$name<'a>> {
                Ok($name(crate::ffi::$read(input)?, input))
            }

            /// All octets.
            pub fn as_bytes(&self) -> &'a [u8] {
                self.1
            }
        }

        forward!(TryFrom by from_der for $name, crate::Error);
        forward!(AsRef by as_bytes for $name<'_>);
    };
}

/// What a key is: its type, its curve and its size.
macro_rules! key_kind {
    ($name:ident) => {
        impl $name<'_> {
            /// The type of the key.
            pub fn key_type(&self) -> crate::x509::KeyType {
                crate::x509::KeyType::from_number(self.kind().key_type)
            }

            /// The curve of a key of an elliptic curve, if it is a known one.
            pub fn curve(&self) -> Option<crate::x509::Curve> {
                let curve = self.kind().curve;
                (curve != 0).then(|| crate::x509::Curve::from_number(curve))
            }

            /// The size in bits, if it is known: of the modulus of RSA, of the prime of DSA and DH, or of the curve's
            /// field.
            pub fn key_size(&self) -> Option<u32> {
                Some(self.kind().bits).filter(|bits| *bits != 0)
            }
        }
    };
}

/// A list that is kept as the encodings of its items, and its iterator. One that is the value of an extension is read.
macro_rules! list {
    ($(#[$meta:meta])* $name:ident, $iter:ident of $item:ty => $next:ident $(, $read:ident)?) => {
        $(#[$meta])*
        #[derive(Clone, Copy, PartialEq, Eq, Hash)]
        pub struct $name<'a>(crate::ffi::Octets<'a>);

        impl<'a> $name<'a> {
            $(/// Reads the value of an extension.
            pub fn from_der(octets: &'a [u8]) -> crate::Result<$name<'a>> {
                crate::ffi::$read(octets).map($name)
            })?

            /// The encodings of the items.
            pub fn as_bytes(self) -> &'a [u8] {
                self.0.get()
            }

            /// Whether it is empty.
            pub fn is_empty(self) -> bool {
                self.as_bytes().is_empty()
            }

            /// The items, in order.
            pub fn iter(self) -> $iter<'a> {
                $iter(self.0)
            }
        }

        forward!(AsRef by as_bytes for $name<'_>);

        impl<'a> From<crate::ffi::Octets<'a>> for $name<'a> {
            fn from(octets: crate::ffi::Octets<'a>) -> $name<'a> {
                $name(octets)
            }
        }

        impl core::fmt::Debug for $name<'_> {
            fn fmt(&self, f: &mut core::fmt::Formatter<'_>) -> core::fmt::Result {
                f.debug_list().entries(self.iter()).finish()
            }
        }

        forward!(IntoIterator by iter for ['a] $name<'a> as $iter<'a>);

        #[doc = concat!("The items of [`", stringify!($name), "`].")]
        #[derive(Clone, Debug)]
        pub struct $iter<'a>(crate::ffi::Octets<'a>);

        impl<'a> Iterator for $iter<'a> {
            type Item = $item;

            fn next(&mut self) -> Option<$item> {
                crate::ffi::$next(&mut self.0).map(<$item>::from)
            }
        }

        impl core::iter::FusedIterator for $iter<'_> {}
    };
}
