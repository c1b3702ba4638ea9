// The types of fields that dynamo_derive describes beside those that are drawn.

#[derive(PartialEq)]
pub struct Point { one: u8, two: Option<String> }

#[derive(PartialEq)]
pub struct Pair(u8, String);

#[derive(PartialEq)]
pub struct Mark;

#[derive(PartialEq, Eq, PartialOrd, Ord, Hash)]
pub enum Side { Left, Right }

#[derive(PartialEq)]
pub enum Step { Neither, Single(u8), Both(u8, String), Fields { first: u8 } }

#[derive(PartialEq)]
#[serde(tag = "kind")]
pub enum Tagged { Absent, Held(Point), Open { second: u8 } }

#[derive(PartialEq, Eq, PartialOrd, Ord, Hash)]
pub struct Plain(String);

#[derive(PartialEq, Eq, PartialOrd, Ord, Hash)]
#[serde(transparent)]
pub struct Sku(String);

#[derive(PartialEq, Eq, PartialOrd, Ord, Hash)]
#[serde(transparent)]
pub struct Bay(u32);

#[derive(PartialEq, Eq, PartialOrd, Ord, Hash)]
#[serde(transparent)]
pub struct Seal(ByteBuf);

#[derive(PartialEq, Eq, PartialOrd, Ord, Hash)]
#[serde(transparent)]
pub struct Edge(Side);

#[derive(PartialEq, Eq, PartialOrd, Ord, Hash)]
#[serde(transparent)]
pub struct Any<T>(T);

#[derive(PartialEq)]
#[serde(transparent)]
pub struct Remark(Option<String>);
