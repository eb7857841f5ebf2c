//! The few names of serde that expr.rs mentions. Nothing is ever read with them.

pub mod de {
    use std::fmt::Display;

    pub trait Error: Sized {
        fn custom<T: Display>(message: T) -> Self;
    }

    pub trait Deserializer<'de>: Sized {
        type Error: Error;
    }
}

pub trait Deserialize<'de>: Sized {
    fn deserialize<D: de::Deserializer<'de>>(source: D) -> Result<Self, D::Error>;
}

impl<'de, T> Deserialize<'de> for T {
    fn deserialize<D: de::Deserializer<'de>>(_source: D) -> Result<Self, D::Error> {
        Err(de::Error::custom("this stand-in reads nothing"))
    }
}
