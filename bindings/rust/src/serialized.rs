//! `Serialize` of serde, for what the calls give. Names are as for the members and methods, and a rule, a profile or
//! a kind is its own name.

use serde::ser::{Serialize, SerializeStruct, Serializer};

use crate::{HostKind, MendKind, Mended, Profile, Refusal, Rule, Url, Valid, Violation};

/// Serializes a struct of these fields, each with the value of an expression.
macro_rules! fields {
    ($out:ident, $name:literal, $($field:literal: $value:expr),+) => {{
        let mut fields = $out.serialize_struct($name, [$($field),+].len())?;
        $(fields.serialize_field($field, &$value)?;)+
        fields.end()
    }};
}

/// Serializes a value as its name.
macro_rules! by_name {
    ($($type:ty),+) => {$(
        impl Serialize for $type {
            fn serialize<S: Serializer>(&self, out: S) -> Result<S::Ok, S::Error> {
                out.serialize_str(self.name())
            }
        }
    )+};
}

by_name!(Rule, Profile, MendKind, HostKind);

impl Serialize for Violation {
    fn serialize<S: Serializer>(&self, out: S) -> Result<S::Ok, S::Error> {
        fields!(out, "Violation", "rule": self.rule, "place": self.place, "byte_place": self.byte_place)
    }
}

impl Serialize for Refusal {
    fn serialize<S: Serializer>(&self, out: S) -> Result<S::Ok, S::Error> {
        fields!(out, "Refusal", "rule": self.rule(), "place": self.place(), "byte_place": self.byte_place(),
            "profile": self.profile())
    }
}

impl Serialize for Valid<'_> {
    fn serialize<S: Serializer>(&self, out: S) -> Result<S::Ok, S::Error> {
        fields!(out, "Valid", "text": self.as_str(), "scheme": self.scheme(), "host": self.host(), "port": self.port(),
            "path": self.path(), "query": self.query(), "fragment": self.fragment())
    }
}

impl Serialize for Url {
    fn serialize<S: Serializer>(&self, out: S) -> Result<S::Ok, S::Error> {
        fields!(out, "Url", "text": self.as_str(), "scheme": self.scheme(), "host": self.host(),
            "host_kind": self.host_kind(), "port": self.port(), "path": self.path(),
            "has_opaque_path": self.has_opaque_path(), "query": self.query(), "fragment": self.fragment())
    }
}

impl Serialize for Mended {
    fn serialize<S: Serializer>(&self, out: S) -> Result<S::Ok, S::Error> {
        fields!(out, "Mended", "text": self.text, "kind": self.kind, "is_offered": self.is_offered)
    }
}
