// Random values of the types in own.rs, and the default of one of them. It stands below what dynamo_derive prints, with its imports.
ghost use Rattle.dynamo_ser.specs.Datum as datum;

use crate::draw::{Draw, Random};
use dynamo_record::DefaultValue;

impl DefaultValue for Sku {
    type Value = Sku;

    ghost told = { datum.string [] };

    fn value<E: Error>(alloc: Global) -> Result<Sku, E> {
        Ok(Sku(String::new(alloc)))
    }
}

impl Draw for Point {
    fn draw(alloc: Global, random: &mut Random) -> dynamo_value::Result<Point> {
        Ok(Point {
            one: Draw::draw(alloc, random)?,
            two: Draw::draw(alloc, random)?,
        })
    }
}

impl Draw for Pair {
    fn draw(alloc: Global, random: &mut Random) -> dynamo_value::Result<Pair> {
        Ok(Pair(Draw::draw(alloc, random)?, Draw::draw(alloc, random)?))
    }
}

impl Draw for Mark {
    fn draw(_alloc: Global, _random: &mut Random) -> dynamo_value::Result<Mark> {
        Ok(Mark)
    }
}

impl Draw for Side {
    fn draw(_alloc: Global, random: &mut Random) -> dynamo_value::Result<Side> {
        Ok(match random.below(2) {
            0 => Side::Left,
            _ => Side::Right,
        })
    }
}

impl Draw for Step {
    fn draw(alloc: Global, random: &mut Random) -> dynamo_value::Result<Step> {
        Ok(match random.below(4) {
            0 => Step::Neither,
            1 => Step::Single(Draw::draw(alloc, random)?),
            2 => Step::Both(Draw::draw(alloc, random)?, Draw::draw(alloc, random)?),
            _ => Step::Fields { first: Draw::draw(alloc, random)? },
        })
    }
}

impl Draw for Tagged {
    fn draw(alloc: Global, random: &mut Random) -> dynamo_value::Result<Tagged> {
        Ok(match random.below(3) {
            0 => Tagged::Absent,
            1 => Tagged::Held(Draw::draw(alloc, random)?),
            _ => Tagged::Open { second: Draw::draw(alloc, random)? },
        })
    }
}

impl Draw for Plain {
    fn draw(alloc: Global, random: &mut Random) -> dynamo_value::Result<Plain> {
        Ok(Plain(Draw::draw(alloc, random)?))
    }
}

impl Draw for Sku {
    fn draw(alloc: Global, random: &mut Random) -> dynamo_value::Result<Sku> {
        Ok(Sku(Draw::draw(alloc, random)?))
    }
}

impl Draw for Bay {
    fn draw(alloc: Global, random: &mut Random) -> dynamo_value::Result<Bay> {
        Ok(Bay(Draw::draw(alloc, random)?))
    }
}

impl Draw for Seal {
    fn draw(alloc: Global, random: &mut Random) -> dynamo_value::Result<Seal> {
        Ok(Seal(Draw::draw(alloc, random)?))
    }
}

impl Draw for Edge {
    fn draw(alloc: Global, random: &mut Random) -> dynamo_value::Result<Edge> {
        Ok(Edge(Draw::draw(alloc, random)?))
    }
}

impl Draw for Remark {
    fn draw(alloc: Global, random: &mut Random) -> dynamo_value::Result<Remark> {
        Ok(Remark(Draw::draw(alloc, random)?))
    }
}

impl<T: Draw> Draw for Any<T> {
    fn draw(alloc: Global, random: &mut Random) -> dynamo_value::Result<Any<T>> {
        Ok(Any(Draw::draw(alloc, random)?))
    }
}
